//! The fixed-point min-sum decoder, without BCH: the names and results of isdb-rs. The work is done by runs of the
//! archive ([`crate::run`]), whose BCH correction is kept out of the bits given here.
//!
//! ```
//! use raxdov::ldpc::fixed::{Decoder, Params, quantise};
//! use raxdov::ldpc::Code;
//!
//! let code = Code::new(748, &[&[0, 40, 121]]);
//! let mut llr = vec![2.5f32; 748];
//! llr[17] = -0.5;
//! let mut soft = Vec::new();
//! quantise(&llr, 8.0, &mut soft);
//!
//! let results = Decoder::<8>::default().decode_all(&code, &[&soft], Params::new(50, 1));
//! let (result, bits) = &results[0];
//! assert!(result.is_ok());
//! assert_eq!(bits, &vec![0; 748]);
//! ```

use super::Code;
use crate::archive;
use crate::run::{Ran, Record, Runner, Settings, State};

pub use super::{Decoded, GROUP, NotConverged};

/// The order in which one iteration visits the checks, and which values each reads.
///
/// ```
/// use raxdov::ldpc::fixed::Schedule;
///
/// assert_eq!(Schedule::default(), Schedule::Sequential);
/// ```
#[derive(Debug, Clone, Copy, PartialEq, Eq, Default)]
pub enum Schedule {
    /// Checks 0 to P − 1 one at a time, each after the previous one's writes.
    #[default]
    Sequential,
    /// Layer by layer (layer l: the checks equal to l modulo q), each layer in runs of `step` checks that all read the
    /// values of the run's start.
    Layered {
        /// Checks in a run, at least 1; 374 or more: a whole layer.
        step: usize,
    },
}

/// The decoder's settings.
///
/// ```
/// use raxdov::ldpc::fixed::{Params, Schedule};
///
/// let p = Params { schedule: Schedule::Layered { step: 187 }, ..Params::new(50, 1) };
/// assert_eq!((p.max_iter, p.offset), (50, 1));
/// ```
#[derive(Debug, Clone, Copy, PartialEq, Eq)]
pub struct Params {
    /// Iteration limit, at most 65,534 here (any number in the original).
    pub max_iter: usize,
    /// Subtracted from the magnitude of every message.
    pub offset: i8,
    /// The schedule.
    pub schedule: Schedule,
}

impl Params {
    /// `max_iter` and `offset` with the sequential schedule.
    ///
    /// ```
    /// use raxdov::ldpc::fixed::{Params, Schedule};
    ///
    /// const P: Params = Params::new(50, 1);
    /// assert_eq!(P.schedule, Schedule::Sequential);
    /// ```
    pub const fn new(max_iter: usize, offset: i8) -> Self {
        Self {
            max_iter,
            offset,
            schedule: Schedule::Sequential,
        }
    }
}

/// Soft values: each `llr · scale`, rounded to the nearest whole number with halves away from zero, clamped to ±127. A
/// NaN gives 0.
///
/// ```
/// let mut out = Vec::new();
/// raxdov::quantise(&[0.5, -2.5, 200.0, f32::NAN], 1.0, &mut out);
/// assert_eq!(out, [1, -3, 127, 0]);
/// ```
pub fn quantise(llr: &[f32], scale: f32, out: &mut Vec<i8>) {
    out.clear();
    out.resize(llr.len(), 0);
    archive::quantise(llr, scale, out).unwrap_or_else(|refused| panic!("{refused}"));
}

/// The result of one word.
///
/// ```
/// use raxdov::ldpc::{Decoded, fixed::LaneResult};
///
/// let result: LaneResult = Ok(Decoded { iterations: 4 });
/// assert!(result.is_ok());
/// ```
pub type LaneResult = Result<Decoded, NotConverged>;

/// A word's result and its hard decisions.
type Word = (LaneResult, Vec<u8>);

/// The most lanes of a run, and the most soft values that are put together for one.
const LANES: usize = 64;
const TOGETHER: usize = 1 << 26;

/// The BCH part of the runs: the last bits of a word, all of them parity bits, as P is 374 or more.
const PART: usize = 193;

/// Work memory, reused across calls. `W` is the number of words side by side; above 64, 64 are.
///
/// ```
/// use raxdov::ldpc::{Code, fixed::{Decoder, Params}};
///
/// let code = Code::new(748, &[&[0]]);
/// let mut decoder = Decoder::<4>::default();
/// let words: [&[i8]; 6] = [&[1; 748]; 6];
/// for _ in 0..2 {
///     assert_eq!(decoder.decode_all(&code, &words, Params::new(10, 0)).len(), 6);
/// }
/// ```
#[derive(Debug, Clone, Default)]
pub struct Decoder<const W: usize> {
    runner: Runner,
    /// The words of a run one after the other, and their bits.
    soft: Vec<i8>,
    bits: Vec<u8>,
}

impl<const W: usize> Decoder<W> {
    /// Decodes every word of `words` (quantised, n values each): each word's result and hard decisions, in input order,
    /// the same as decoding it alone.
    ///
    /// ```
    /// use raxdov::ldpc::{Code, NotConverged, fixed::{Decoder, Params}};
    ///
    /// let code = Code::new(748, &[&[0]]);
    /// let mut wrong = [5; 748];
    /// wrong[0] = -5;
    /// let results = Decoder::<8>::default().decode_all(&code, &[&[5; 748], &wrong], Params::new(0, 0));
    /// assert!(results[0].0.is_ok());
    /// assert_eq!(results[1].0, Err(NotConverged { iterations: 0, unsatisfied: 1 }));
    /// assert_eq!(results[1].1[..3], [1, 0, 0]);
    /// ```
    ///
    /// # Panics
    ///
    /// If a word's length is not the code's n, the schedule is [`Schedule::Layered`] with `step` 0, or `W` is 0 with
    /// words to decode; and, other than the original, if `max_iter` is above 65,534.
    pub fn decode_all(
        &mut self,
        code: &Code,
        words: &[&[i8]],
        p: Params,
    ) -> Vec<(LaneResult, Vec<u8>)> {
        for w in words {
            assert_eq!(w.len(), code.n(), "codeword length");
        }
        if let Schedule::Layered { step } = p.schedule {
            assert!(step >= 1, "layered schedule with step 0");
        }
        assert!(
            p.max_iter <= 65_534,
            "iteration limit {} above 65,534",
            p.max_iter
        );
        assert!(W > 0 || words.is_empty(), "words for no lane");
        words
            .chunks((TOGETHER / code.n()).min(4096))
            .flat_map(|some| self.decode_some(code, some, p))
            .collect()
    }

    /// [`Decoder::decode_all`], calling `trace(w, bits)` after every iteration of word `w` (index into `words`) with its
    /// hard decisions then. Calls come in the original's order: round by round, in each round by lane.
    ///
    /// The archive keeps nothing between calls, so a word is decoded again for each iteration: the time grows with the
    /// square of the iterations.
    ///
    /// ```
    /// use raxdov::ldpc::{Code, fixed::{Decoder, Params}};
    ///
    /// let code = Code::new(748, &[&[0, 40, 121]]);
    /// let mut word = [9; 748];
    /// word[..6].fill(-9);
    /// let mut calls = 0;
    /// let results = Decoder::<8>::default().decode_all_traced(&code, &[&word], Params::new(50, 0), |w, bits| {
    ///     assert_eq!((w, bits.len()), (0, 748));
    ///     calls += 1;
    /// });
    /// assert_eq!(results[0].0.unwrap().iterations, calls);
    /// ```
    ///
    /// # Panics
    ///
    /// As [`Decoder::decode_all`].
    pub fn decode_all_traced(
        &mut self,
        code: &Code,
        words: &[&[i8]],
        p: Params,
        mut trace: impl FnMut(usize, &[u8]),
    ) -> Vec<(LaneResult, Vec<u8>)> {
        let results = self.decode_all(code, words, p);
        let iterations: Vec<usize> = results.iter().map(|(result, _)| given(result)).collect();
        // the bits of words in lanes, after each iteration but the last
        let mut held: Vec<Vec<Vec<u8>>> = vec![Vec::new(); words.len()];
        let mut done = 0;
        for (w, i) in calls(W, &iterations) {
            while done <= w {
                let some = done..words.len().min(done + W.min(LANES));
                done = some.end;
                let (words, iterations) = (&words[some.clone()], &iterations[some.clone()]);
                self.hold(code, words, iterations, p, &mut held[some]);
            }
            if i == iterations[w] {
                trace(w, &results[w].1);
                held[w] = Vec::new();
            } else {
                trace(w, &held[w][i - 1]);
            }
        }
        results
    }

    /// Decodes up to `W` words: `bits[i]` receives the hard decisions of `llrs[i]`. The same results as
    /// [`Decoder::decode_all`].
    ///
    /// ```
    /// use raxdov::ldpc::{Code, fixed::{Decoder, Params}};
    ///
    /// let code = Code::new(748, &[&[0]]);
    /// let mut bits = [vec![], vec![]];
    /// let results = Decoder::<2>::default().decode(&code, &[&[1; 748], &[2; 748]], &mut bits, Params::new(50, 0));
    /// assert!(results.iter().all(Result::is_ok));
    /// assert_eq!(bits[1], [0; 748]);
    /// ```
    ///
    /// # Panics
    ///
    /// If `llrs` holds no word or more than `W`, or `bits` not one vector for each, and as [`Decoder::decode_all`].
    pub fn decode(
        &mut self,
        code: &Code,
        llrs: &[&[i8]],
        bits: &mut [Vec<u8>],
        p: Params,
    ) -> Vec<LaneResult> {
        assert!(
            (1..=W).contains(&llrs.len()),
            "{} codewords for {W} lanes",
            llrs.len()
        );
        assert_eq!(bits.len(), llrs.len());
        self.decode_all(code, llrs, p)
            .into_iter()
            .zip(bits.iter_mut())
            .map(|((result, word), out)| {
                *out = word;
                result
            })
            .collect()
    }

    /// The words of one run. Lanes that are done take further words, and the words whose bits before BCH can't be told
    /// are decoded again.
    fn decode_some(&mut self, code: &Code, words: &[&[i8]], p: Params) -> Vec<Word> {
        let lanes = W.min(LANES);
        if words.len() <= lanes {
            return self.decode_held(code, words, p);
        }
        let ran = self.run(code, words, p, p.max_iter, lanes, u32::MAX);
        let mut results: Vec<Option<Word>> = ran
            .records
            .iter()
            .zip(self.bits.chunks_exact_mut(code.n()))
            .map(|(record, bits)| before_bch(code, record, bits))
            .collect();
        let again: Vec<usize> = (0..words.len()).filter(|&w| results[w].is_none()).collect();
        for batch in again.chunks(lanes) {
            let some: Vec<&[i8]> = batch.iter().map(|&w| words[w]).collect();
            for (&w, word) in batch.iter().zip(self.decode_held(code, &some, p)) {
                results[w] = Some(word);
            }
        }
        results.into_iter().map(|r| r.expect("decoded")).collect()
    }

    /// Up to as many words as lanes, with a limit one higher and stopped a round before it: a word with checks unmet is
    /// still held then, and BCH has not touched it.
    fn decode_held(&mut self, code: &Code, words: &[&[i8]], p: Params) -> Vec<Word> {
        if words.is_empty() {
            return Vec::new();
        }
        let rounds = p.max_iter as u32;
        let ran = self.run(code, words, p, p.max_iter + 1, words.len(), rounds);
        ran.records
            .iter()
            .zip(self.bits.chunks_exact_mut(code.n()))
            .map(|(record, bits)| before_bch(code, record, bits).expect("met or held"))
            .collect()
    }

    /// The bits of up to as many words as lanes after each iteration but a word's last.
    fn hold(
        &mut self,
        code: &Code,
        words: &[&[i8]],
        iterations: &[usize],
        p: Params,
        held: &mut [Vec<Vec<u8>>],
    ) {
        for rounds in 1.. {
            let going: Vec<usize> = (0..words.len())
                .filter(|&w| iterations[w] > rounds)
                .collect();
            if going.is_empty() {
                return;
            }
            let some: Vec<&[i8]> = going.iter().map(|&w| words[w]).collect();
            let ran = self.run(code, &some, p, p.max_iter, some.len(), rounds as u32);
            let bits = self.bits.chunks_exact(code.n());
            for ((&w, record), bits) in going.iter().zip(&ran.records).zip(bits) {
                assert_eq!(
                    (record.state, record.iterations as usize),
                    (State::Held, rounds)
                );
                held[w].push(bits.to_vec());
            }
        }
    }

    /// A run of the words, with their bits in `self.bits`.
    fn run(
        &mut self,
        code: &Code,
        words: &[&[i8]],
        p: Params,
        limit: usize,
        lanes: usize,
        rounds: u32,
    ) -> Ran {
        self.soft.clear();
        for word in words {
            self.soft.extend_from_slice(word);
        }
        self.bits.clear();
        self.bits.resize(self.soft.len(), 0);
        let settings = Settings {
            lanes: lanes as u32,
            limit: limit as u32,
            schedule: p.schedule,
            offset: p.offset,
            rounds,
            first: (code.n() - PART) as u32,
            length: PART as u32,
        };
        self.runner
            .run(code, &self.soft, &settings, &mut self.bits)
            .unwrap_or_else(|refused| panic!("{refused}"))
    }
}

fn given(result: &LaneResult) -> usize {
    match result {
        Ok(decoded) => decoded.iterations,
        Err(not) => not.iterations,
    }
}

/// The word and the iteration of every call of a trace, in order: what the original's lanes hold, round by round, when
/// word w takes `iterations[w]`.
fn calls(lanes: usize, iterations: &[usize]) -> Vec<(usize, usize)> {
    let mut held: Vec<Option<(usize, usize)>> = vec![None; lanes];
    let mut next = 0;
    let mut out = Vec::new();
    loop {
        // empty lanes take words; those that need no iteration leave, and their lanes take words again
        loop {
            let before = next;
            for lane in held.iter_mut().filter(|lane| lane.is_none()) {
                if next < iterations.len() {
                    *lane = Some((next, 0));
                    next += 1;
                }
            }
            if next == before {
                break;
            }
            for lane in &mut held {
                lane.take_if(|(w, i)| iterations[*w] == *i);
            }
        }
        if held.iter().all(Option::is_none) {
            return out;
        }
        for lane in &mut held {
            if let Some((w, i)) = lane {
                *i += 1;
                out.push((*w, *i));
            }
            lane.take_if(|(w, i)| iterations[*w] == *i);
        }
    }
}

/// A word's result and its bits before BCH, from its record and its bits after; none of a word with checks unmet that
/// BCH corrected: its bits before can't be told. BCH leaves lost words and held ones as they are.
fn before_bch(code: &Code, record: &Record, bits: &mut [u8]) -> Option<Word> {
    let (iterations, unsatisfied) = (record.iterations as usize, record.unsatisfied as usize);
    let corrected = matches!(record.bch, Ok(1..));
    let result = match record.state {
        State::Waiting => panic!("a word was not taken"),
        State::Unmet if corrected => return None,
        State::Unmet | State::Held => Err(NotConverged {
            iterations,
            unsatisfied,
        }),
        State::Met => {
            if corrected {
                meet_last_checks(code, bits);
            }
            Ok(Decoded { iterations })
        }
    };
    Some((result, bits.to_vec()))
}

/// The BCH part of a word that met every check: each of its bits is the last of one check, and the others tell it.
fn meet_last_checks(code: &Code, bits: &mut [u8]) {
    for c in code.checks() - PART..code.checks() {
        if let Some((&last, others)) = code.check(c).split_last() {
            bits[last as usize] = others.iter().fold(0, |a, &v| a ^ bits[v as usize]);
        }
    }
}

#[cfg(test)]
mod tests {
    use super::*;

    #[test]
    fn calls_by_round_and_lane() {
        // two lanes: word 0 leaves at once, word 2 takes its lane, word 3 follows word 1
        let order = calls(2, &[0, 1, 2, 1, 0]);
        assert_eq!(order, [(2, 1), (1, 1), (2, 2), (3, 1)]);
        assert_eq!(calls(3, &[]), []);
    }
}
