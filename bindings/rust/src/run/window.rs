//! Figures over the last so-many finished words.

use super::{Record, numbers};
use crate::archive::{self, WINDOW};
use crate::refusal::Refusal;
use std::fmt;

/// Numbers that the ring has for each record: state, iterations, BCH result.
const RING: usize = 3;
/// A window over a long series of records, of many runs: how many of the last finished words are lost and how many
/// doubtful, and how many iterations and corrected bits they had. It covers as many words as its width, or all if there are
/// fewer. It owns the memory for its records, which is made once; the time of a push does not depend on the width.
///
/// A word that is neither lost nor doubtful is kept (see [`Tally`](super::Tally)).
///
/// A window cannot be stored: to go on after a restart, or with another archive, store the last `width` finished records
/// and push them into a new window, which is then equal to the one that was.
///
/// Two windows are equal if they have the same width and cover the same words in the same order, by state, iterations
/// and BCH result, whatever was pushed before: they then show the same figures, and go on to do so.
///
/// ```
/// use raxdov::ldpc::Code;
/// use raxdov::run::{Runner, Settings, Window};
///
/// // the last three words, over two runs of two words each
/// let code = Code::new(748, &[&[0]]);
/// let mut runner = Runner::new();
/// let mut window = Window::new(3).unwrap();
/// for wrong in [9, 13] {
///     // of the first word so many bits are wrong, of the second one bit; LDPC has no iteration
///     let mut soft = vec![1; 2 * 748];
///     soft[..wrong].fill(-1);
///     soft[748] = -1;
///     let ran = runner.run(&code, &soft, &Settings::new(2, 0), &mut vec![0; 2 * 748]).unwrap();
///     window.extend(&ran.records);
/// }
/// // 9 bits corrected have left; there remain 1, lost, 1. No word met its checks, so what BCH corrected is doubtful
/// assert_eq!((window.words(), window.lost(), window.doubtful(), window.corrected()), (3, 1, 2, 2));
/// ```
#[derive(Clone)]
pub struct Window {
    width: u32,
    numbers: [u64; WINDOW],
    ring: Box<[u32]>,
}

impl Window {
    /// The greatest width.
    ///
    /// ```
    /// assert_eq!(raxdov::run::Window::WIDEST, 4096);
    /// ```
    pub const WIDEST: u32 = 4096;

    /// An empty window over the last `width` finished words, 1 to 4,096.
    ///
    /// ```
    /// use raxdov::{Refusal, run::Window};
    ///
    /// let window = Window::new(4096).unwrap();
    /// assert_eq!((window.width(), window.words()), (4096, 0));
    /// assert_eq!(Window::new(0), Err(Refusal::Width));
    /// assert_eq!(Window::new(4097), Err(Refusal::Width));
    /// ```
    ///
    /// # Errors
    ///
    /// 14 ([`Refusal::Width`]), if the width is 0 or above 4,096.
    ///
    /// # Panics
    ///
    /// If the archive that is linked has windows or records of other sizes than this crate; here and in every push.
    pub fn new(width: u32) -> Result<Self, Refusal> {
        let mut window = Self {
            width,
            numbers: [0; WINDOW],
            ring: vec![0; RING * width.min(Self::WIDEST) as usize].into_boxed_slice(),
        };
        // a waiting word's record changes nothing, and the archive says what it thinks of the width
        window.take(&[0; archive::RECORD])?;
        Ok(window)
    }

    /// One record more. That of a word which is not finished, waiting or held, is passed over: it changes nothing.
    ///
    /// A lost word adds its iterations, and no corrected bits; a doubtful one adds both. (In a record made by hand, a BCH
    /// result of 4,294,967,295 corrected bits is that of a lost word.)
    ///
    /// ```
    /// use raxdov::bch::Uncorrectable;
    /// use raxdov::run::{Record, State, Window};
    ///
    /// let record = |state, iterations, bch| Record { state, iterations, unsatisfied: 0, check: 0, bch, changed: 0 };
    /// let mut window = Window::new(2).unwrap();
    /// window.push(&record(State::Met, 7, Ok(3)));
    /// window.push(&record(State::Held, 2, Ok(0)));
    /// window.push(&record(State::Unmet, 50, Err(Uncorrectable)));
    /// assert_eq!((window.words(), window.lost(), window.doubtful()), (2, 1, 0));
    /// assert_eq!((window.iterations(), window.corrected()), (57, 3));
    /// window.push(&record(State::Unmet, 50, Ok(1)));
    /// assert_eq!((window.words(), window.lost(), window.doubtful()), (2, 1, 1));
    /// assert_eq!((window.iterations(), window.corrected()), (100, 1));
    /// ```
    pub fn push(&mut self, record: &Record) {
        self.take(&numbers(record))
            .expect("libraxdov.a took the width before");
    }

    /// The window is empty again, with the same width.
    ///
    /// ```
    /// use raxdov::run::{Record, State, Window};
    ///
    /// let mut window = Window::new(2).unwrap();
    /// window.push(&Record { state: State::Met, iterations: 7, unsatisfied: 0, check: 0, bch: Ok(3), changed: 0 });
    /// window.clear();
    /// assert_eq!(window, Window::new(2).unwrap());
    /// ```
    pub fn clear(&mut self) {
        // whatever the ring of an empty window holds plays no part
        self.numbers = [0; WINDOW];
    }

    fn take(&mut self, record: &[u32; archive::RECORD]) -> Result<(), Refusal> {
        archive::window_push(self.width, &mut self.numbers, record, &mut self.ring)
    }

    /// How many words it covers at most.
    ///
    /// ```
    /// assert_eq!(raxdov::run::Window::new(64).unwrap().width(), 64);
    /// ```
    pub fn width(&self) -> u32 {
        self.width
    }

    /// How many words it covers: the width, or all finished words that were pushed if there are fewer.
    ///
    /// ```
    /// assert_eq!(raxdov::run::Window::new(64).unwrap().words(), 0);
    /// ```
    pub fn words(&self) -> u64 {
        self.numbers[1]
    }

    /// How many of them are lost: BCH called them uncorrectable.
    ///
    /// ```
    /// assert_eq!(raxdov::run::Window::new(64).unwrap().lost(), 0);
    /// ```
    pub fn lost(&self) -> u64 {
        self.numbers[2]
    }

    /// How many of them are doubtful: BCH accepted them, and checks were unmet. The others are kept: `words() - lost() -
    /// doubtful()`.
    ///
    /// ```
    /// use raxdov::run::{Record, State, Window};
    ///
    /// let record = |state| Record { state, iterations: 50, unsatisfied: 0, check: 0, bch: Ok(2), changed: 0 };
    /// let mut window = Window::new(2).unwrap();
    /// window.extend([State::Unmet, State::Met].map(record));
    /// assert_eq!((window.doubtful(), window.words() - window.lost() - window.doubtful()), (1, 1));
    /// // it leaves the window
    /// window.push(&record(State::Met));
    /// assert_eq!(window.doubtful(), 0);
    /// ```
    pub fn doubtful(&self) -> u64 {
        self.numbers[5]
    }

    /// The sum of their iterations, lost words' too.
    ///
    /// ```
    /// assert_eq!(raxdov::run::Window::new(64).unwrap().iterations(), 0);
    /// ```
    pub fn iterations(&self) -> u64 {
        self.numbers[3]
    }

    /// The sum of the bits that BCH corrected in them, doubtful words' too; a lost word adds 0.
    ///
    /// ```
    /// assert_eq!(raxdov::run::Window::new(64).unwrap().corrected(), 0);
    /// ```
    pub fn corrected(&self) -> u64 {
        self.numbers[4]
    }

    /// The ring's numbers of the words that it covers, the earliest first.
    fn covered(&self) -> impl Iterator<Item = &[u32]> {
        let [at, words, ..] = self.numbers.map(|x| x as usize);
        // one that is not full begins at the ring's start
        let first = if words < self.width as usize { 0 } else { at };
        let (late, early) = self.ring.split_at(RING * first);
        let all = early.chunks_exact(RING).chain(late.chunks_exact(RING));
        all.take(words)
    }
}

impl<'a> Extend<&'a Record> for Window {
    /// Pushes the records in their order: `window.extend(&ran.records)`.
    fn extend<I: IntoIterator<Item = &'a Record>>(&mut self, records: I) {
        records.into_iter().for_each(|record| self.push(record));
    }
}

impl Extend<Record> for Window {
    /// Pushes the records in their order.
    fn extend<I: IntoIterator<Item = Record>>(&mut self, records: I) {
        records.into_iter().for_each(|record| self.push(&record));
    }
}

impl PartialEq for Window {
    fn eq(&self, other: &Self) -> bool {
        self.width == other.width
            && self.words() == other.words()
            && self.covered().eq(other.covered())
    }
}

impl Eq for Window {}

impl fmt::Debug for Window {
    /// Width and figures, without the records.
    fn fmt(&self, f: &mut fmt::Formatter<'_>) -> fmt::Result {
        f.debug_struct("Window")
            .field("width", &self.width)
            .field("words", &self.words())
            .field("lost", &self.lost())
            .field("iterations", &self.iterations())
            .field("corrected", &self.corrected())
            .field("doubtful", &self.doubtful())
            .finish_non_exhaustive()
    }
}
