//! A run: words of soft values decoded side by side in lanes, each finished word's BCH part corrected, with a round
//! limit, a record of every word and a tally. What a finished word gets does not depend on the other words, on the lanes or
//! on the round limit; a held word has the bits and the count of changed bits that it has alone after its iterations.
//!
//! A finished word is just one of kept, doubtful and lost. BCH can't correct a lost one, which goes out as LDPC left it. It
//! accepts the others: a kept one met every check before, a doubtful one did not. The [`Tally`] counts each sort, and a
//! word's own follows from its [`Record`]. A [`Window`] looks at the last finished words of many runs.
//!
//! ```
//! use raxdov::ldpc::Code;
//! use raxdov::run::{Ending, Runner, Settings, State};
//!
//! let code = Code::new(748, &[&[0]]);
//! let settings = Settings { first: 0, length: 374, ..Settings::new(1, 0) };
//!
//! // two words: one of zeros, and one with its first bit wrong
//! let mut soft = vec![1; 2 * 748];
//! soft[748] = -1;
//! let mut bits = vec![0; 2 * 748];
//! let ran = Runner::new().run(&code, &soft, &settings, &mut bits).unwrap();
//!
//! assert_eq!((ran.ending, ran.tally.rounds), (Ending::Finished, 0));
//! assert_eq!(ran.records[0].state, State::Met);
//! assert_eq!(ran.records[1].state, State::Unmet);
//! assert_eq!((ran.records[1].unsatisfied, ran.records[1].bch), (1, Ok(1)));
//! assert_eq!((ran.tally.kept, ran.tally.doubtful, ran.tally.lost), (1, 1, 0));
//! assert_eq!(bits, vec![0; 2 * 748]);
//! ```

use crate::archive::{self, Asked, RECORD, Room};
use crate::bch::Uncorrectable;
use crate::ldpc::Code;
use crate::ldpc::fixed::Schedule;
use crate::refusal::Refusal;

mod window;

pub use window::Window;

/// The settings of a run.
///
/// ```
/// use raxdov::ldpc::fixed::Schedule;
/// use raxdov::run::Settings;
///
/// // 8 lanes, at most 50 iterations, at most 100 rounds, the layered schedule
/// let settings = Settings {
///     rounds: 100,
///     schedule: Schedule::Layered { step: 187 },
///     offset: 1,
///     first: 0,
///     length: 374,
///     ..Settings::new(8, 50)
/// };
/// assert_eq!(settings.limit, 50);
/// ```
#[derive(Debug, Clone, Copy, PartialEq, Eq)]
pub struct Settings {
    /// Lanes, 1 to 64.
    pub lanes: u32,
    /// Iterations that a word may get, at most 65,535.
    pub limit: u32,
    /// The schedule of an iteration.
    pub schedule: Schedule,
    /// Subtracted from the magnitude of every message.
    pub offset: i8,
    /// Round limit: a run makes no more rounds than this, 0 too. `u32::MAX` never stops a run.
    pub rounds: u32,
    /// The first bit of every word's BCH part.
    pub first: u32,
    /// How many bits the BCH part has, 193 or more.
    pub length: u32,
}

impl Settings {
    /// Lanes and iteration limit, the sequential schedule, offset 0, no round limit, and the first 193 bits as BCH part.
    ///
    /// ```
    /// use raxdov::run::Settings;
    ///
    /// let settings = Settings::new(16, 50);
    /// assert_eq!((settings.rounds, settings.first, settings.length), (u32::MAX, 0, 193));
    /// ```
    pub const fn new(lanes: u32, limit: u32) -> Self {
        Self {
            lanes,
            limit,
            schedule: Schedule::Sequential,
            offset: 0,
            rounds: u32::MAX,
            first: 0,
            length: 193,
        }
    }
}

/// Where a word is at the end of a run.
///
/// ```
/// use raxdov::ldpc::Code;
/// use raxdov::run::{Runner, Settings, State};
///
/// // one lane and no round: the second word waits behind the first, which is no codeword
/// let code = Code::new(748, &[&[0]]);
/// let mut soft = vec![1; 2 * 748];
/// soft[0] = -1;
/// let settings = Settings { rounds: 0, ..Settings::new(1, 50) };
/// let ran = Runner::new().run(&code, &soft, &settings, &mut vec![0; 2 * 748]).unwrap();
/// assert_eq!(ran.records[0].state, State::Held);
/// assert_eq!(ran.records[1].state, State::Waiting);
/// ```
#[derive(Debug, Clone, Copy, PartialEq, Eq, Hash)]
pub enum State {
    /// No lane took it: its output bits are as they were.
    Waiting,
    /// A lane holds it: its output bits are its hard decisions, without BCH.
    Held,
    /// Finished with every check met: kept if BCH accepts it, else lost.
    Met,
    /// Finished at the iteration limit with checks unmet: doubtful if BCH accepts it, else lost.
    Unmet,
}

/// The record of a word. A waiting word's is zeros.
///
/// ```
/// use raxdov::ldpc::Code;
/// use raxdov::run::{Runner, Settings};
///
/// let code = Code::new(748, &[&[0]]);
/// let mut soft = vec![1; 748];
/// soft[9] = -1;
/// let ran = Runner::new().run(&code, &soft, &Settings::new(1, 0), &mut vec![0; 748]).unwrap();
/// let record = &ran.records[0];
/// // bit 9 meets check 9 alone
/// assert_eq!((record.iterations, record.unsatisfied, record.check), (0, 1, 9));
/// // BCH corrects it, LDPC had no iteration
/// assert_eq!((record.bch, record.changed), (Ok(1), 0));
/// ```
#[derive(Debug, Clone, Copy, PartialEq, Eq)]
pub struct Record {
    /// Where the word is.
    pub state: State,
    /// The rounds in which a lane held it.
    pub iterations: u32,
    /// Unsatisfied checks: of a held word's bits, of a finished word's bits before BCH.
    pub unsatisfied: u32,
    /// One of those checks, whichever; 0 if there is none.
    pub check: u32,
    /// Bits that BCH corrected, or that the word is lost: then its output bits are its hard decisions at its end, all n.
    /// 0 before it is finished.
    pub bch: Result<u32, Uncorrectable>,
    /// Bits changed by LDPC: the positions, of all n, where the word's hard decisions before BCH differ from those of its
    /// soft values. A held word's so far.
    pub changed: u32,
}

/// What a run did in all. Every finished word is just one of kept, doubtful and lost, and no other word is any of them: the
/// three add up to the finished words. Which one a word is follows from its [`Record`]: lost if `bch` is an error; else
/// kept if its state is [`State::Met`], and doubtful if it is [`State::Unmet`].
///
/// ```
/// use raxdov::ldpc::Code;
/// use raxdov::run::{Runner, Settings, Tally};
///
/// // of the first word no bit is wrong, of the others 1 and 13, and LDPC has no iteration
/// let code = Code::new(748, &[&[0]]);
/// let mut soft = vec![1; 3 * 748];
/// soft[748] = -1;
/// soft[2 * 748..][..13].fill(-1);
/// let ran = Runner::new().run(&code, &soft, &Settings::new(1, 0), &mut vec![0; 3 * 748]).unwrap();
/// assert_eq!(ran.tally, Tally { rounds: 0, loaded: 3, iterations: 0, kept: 1, lost: 1, doubtful: 1 });
/// ```
#[derive(Debug, Clone, Copy, PartialEq, Eq)]
pub struct Tally {
    /// Rounds made.
    pub rounds: u32,
    /// Words that a lane took.
    pub loaded: u32,
    /// Iterations given: the sum of the records'.
    pub iterations: u32,
    /// Finished words that are met and that BCH accepts.
    pub kept: u32,
    /// Finished words that BCH calls uncorrectable, met or unmet.
    pub lost: u32,
    /// Finished words that are unmet and that BCH accepts: their BCH part is a codeword, as a kept word's is; their other bits
    /// are as LDPC left them, and some may be wrong.
    pub doubtful: u32,
}

/// How a run ended.
///
/// ```
/// use raxdov::ldpc::Code;
/// use raxdov::run::{Ending, Runner, Settings};
///
/// let code = Code::new(748, &[&[0]]);
/// let mut soft = vec![1; 748];
/// soft[0] = -1;
/// let mut bits = vec![0; 748];
/// let mut ending = |rounds| {
///     let settings = Settings { rounds, ..Settings::new(1, 50) };
///     Runner::new().run(&code, &soft, &settings, &mut bits).unwrap().ending
/// };
/// assert_eq!(ending(0), Ending::Stopped);
/// assert_eq!(ending(u32::MAX), Ending::Finished);
/// ```
#[derive(Debug, Clone, Copy, PartialEq, Eq, Hash)]
pub enum Ending {
    /// Every word is finished.
    Finished,
    /// The round limit was used up with words held.
    Stopped,
}

/// The answer of a run; its bits are in the output that it was lent.
///
/// ```
/// use raxdov::ldpc::Code;
/// use raxdov::run::{Ending, Runner, Settings};
///
/// // no words are accepted too
/// let ran = Runner::new().run(&Code::new(748, &[]), &[], &Settings::new(1, 50), &mut []).unwrap();
/// assert_eq!((ran.ending, ran.tally.rounds, ran.records.len()), (Ending::Finished, 0, 0));
/// ```
#[derive(Debug, Clone, PartialEq, Eq)]
pub struct Ran {
    /// How it ended.
    pub ending: Ending,
    /// What it did in all.
    pub tally: Tally,
    /// A record for each word, in input order.
    pub records: Vec<Record>,
}

/// Work memory of runs, reused from one run to the next: it grows to the most that a run needed.
///
/// ```
/// use raxdov::ldpc::Code;
/// use raxdov::run::{Runner, Settings};
///
/// let code = Code::new(748, &[&[0]]);
/// let mut runner = Runner::new();
/// let mut bits = vec![0; 748];
/// for _ in 0..3 {
///     runner.run(&code, &[1; 748], &Settings::new(8, 50), &mut bits).unwrap();
/// }
/// ```
#[derive(Debug, Clone, Default)]
pub struct Runner {
    work: Vec<i8>,
    lists: Vec<u32>,
    records: Vec<u32>,
}

impl Runner {
    /// No memory yet.
    ///
    /// ```
    /// let runner = raxdov::run::Runner::new();
    /// # let _ = runner;
    /// ```
    pub fn new() -> Self {
        Self::default()
    }

    /// Runs the words of `soft` (n values a word, one word after the other; a negative value speaks for a 1). `out` gets
    /// n bits of each word that a lane took: its hard decisions, corrected by BCH if it is finished and not lost. What is
    /// longer is left as it was. A run needs about 140 KB of stack.
    ///
    /// A word may be a combined one ([`combine`](crate::combine())): then all that the run promises and records is of the
    /// combined word and not of the words that it was made of.
    ///
    /// ```
    /// use raxdov::Refusal;
    /// use raxdov::ldpc::Code;
    /// use raxdov::run::{Runner, Settings};
    ///
    /// let code = Code::new(748, &[&[0]]);
    /// let mut runner = Runner::new();
    /// let mut bits = vec![0; 748];
    /// let mut run = |soft: &[i8], settings| runner.run(&code, soft, &settings, &mut bits).map(|ran| ran.tally.kept);
    /// assert_eq!(run(&[1; 748], Settings::new(1, 50)), Ok(1));
    /// assert_eq!(run(&[1; 747], Settings::new(1, 50)), Err(Refusal::Words));
    /// assert_eq!(run(&[1; 748], Settings::new(65, 50)), Err(Refusal::Lanes));
    /// assert_eq!(run(&[1; 1496], Settings::new(1, 50)), Err(Refusal::TooShort));
    /// ```
    ///
    /// # Errors
    ///
    /// 7 to 11 and 13, by [`Refusal`]: then `out` is unchanged. 13 is for an `out` that is too short.
    pub fn run(
        &mut self,
        code: &Code,
        soft: &[i8],
        settings: &Settings,
        out: &mut [u8],
    ) -> Result<Ran, Refusal> {
        let lent = code.lent();
        let [work, lists] = archive::run_sizes(lent, settings.lanes)?;
        // over 4,096 words are refused before the records are looked at
        let words = (soft.len() / code.n()).min(4096);
        grow(&mut self.work, work);
        grow(&mut self.lists, lists);
        grow(&mut self.records, RECORD * words);
        let room = Room {
            records: &mut self.records[..RECORD * words],
            work: &mut self.work[..work],
            lists: &mut self.lists[..lists],
        };
        let (tally, ending) = archive::run(lent, soft, asked(settings), out, room)?;
        let [rounds, loaded, iterations, kept, lost, doubtful] = tally;
        Ok(Ran {
            ending: match ending {
                0 => Ending::Finished,
                1 => Ending::Stopped,
                _ => panic!("libraxdov.a wrote the ending {ending}"),
            },
            tally: Tally {
                rounds,
                loaded,
                iterations,
                kept,
                lost,
                doubtful,
            },
            records: self.records[..RECORD * words]
                .chunks_exact(RECORD)
                .map(record)
                .collect(),
        })
    }
}

fn grow<T: Copy + Default>(memory: &mut Vec<T>, need: usize) {
    if memory.len() < need {
        memory.resize(need, T::default());
    }
}

fn asked(settings: &Settings) -> Asked {
    let (layered, step) = match settings.schedule {
        Schedule::Sequential => (0, 0),
        // 374 or more is a whole layer
        Schedule::Layered { step } => (1, u32::try_from(step).unwrap_or(u32::MAX)),
    };
    Asked {
        lanes: settings.lanes,
        limit: settings.limit,
        layered,
        step,
        offset: settings.offset,
        rounds: settings.rounds,
        first: settings.first,
        length: settings.length,
    }
}

fn record(numbers: &[u32]) -> Record {
    Record {
        state: match numbers[0] {
            0 => State::Waiting,
            1 => State::Held,
            2 => State::Met,
            3 => State::Unmet,
            other => panic!("libraxdov.a wrote the state {other}"),
        },
        iterations: numbers[1],
        unsatisfied: numbers[2],
        check: numbers[3],
        bch: archive::corrected(numbers[4]).ok_or(Uncorrectable),
        changed: numbers[5],
    }
}

/// A record's numbers as a run writes them.
fn numbers(record: &Record) -> [u32; RECORD] {
    [
        record.state as u32,
        record.iterations,
        record.unsatisfied,
        record.check,
        record.bch.unwrap_or(u32::MAX),
        record.changed,
    ]
}
