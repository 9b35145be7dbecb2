//! One program text, compiled once over the original and once over the crate: only the imports differ. What both answer
//! is compared.

use against::{Draw, given_up, or_panics, rows, words};

/// A word's result as numbers: whether it is a codeword, iterations, unsatisfied checks; and its bits.
type Word = (bool, usize, usize, Vec<u8>);
/// The calls of a trace.
type Calls = Vec<(usize, Vec<u8>)>;

/// How a decoder is asked.
#[derive(Debug, Clone, Copy)]
struct Asked {
    limit: usize,
    offset: i8,
    /// 0 for the sequential schedule.
    step: usize,
}

macro_rules! program {
    ($name:ident, $library:ident) => {
        mod $name {
            use super::{Asked, Calls, Word};
            use $library::bch;
            use $library::ldpc::fixed::{Decoder, LaneResult, Params, Schedule, quantise};
            use $library::ldpc::{Code, Decoded, GROUP, NotConverged};

            pub fn constants() -> (usize, usize, usize, usize, Vec<Vec<u32>>) {
                let table = bch::TABLE_3_4_1.iter().map(|g| g.to_vec()).collect();
                (GROUP, bch::T, bch::PARITY, bch::N_MAX, table)
            }

            pub fn soft(llr: &[f32], scale: f32) -> Vec<i8> {
                let mut out = vec![1, 2, 3];
                quantise(llr, scale, &mut out);
                out
            }

            pub fn bch_words(message: &[u8]) -> (Vec<u8>, Vec<u8>) {
                (bch::parity(message), bch::encode(message))
            }

            pub fn bch_decode(word: &[u8]) -> (Option<usize>, Vec<u8>) {
                let mut word = word.to_vec();
                let result: Result<usize, bch::Uncorrectable> = bch::decode(&mut word);
                (result.ok(), word)
            }

            pub fn code(n: usize, table: &[&[u16]]) -> Code {
                Code::new(n, table)
            }

            pub fn numbers(code: &Code) -> [usize; 4] {
                let code = code.clone();
                [code.n(), code.k(), code.checks(), code.q()]
            }

            pub fn check(code: &Code, c: usize) -> Vec<u32> {
                let bits: &[u32] = code.check(c);
                bits.to_vec()
            }

            pub fn encode(code: &Code, info: &[u8]) -> (Vec<u8>, Vec<u8>) {
                (code.parity(info), code.encode(info))
            }

            pub fn weight(code: &Code, bits: &[u8]) -> usize {
                code.syndrome_weight(bits)
            }

            fn params(asked: Asked) -> Params {
                let p = Params::new(asked.limit, asked.offset);
                match asked.step {
                    0 => p,
                    step => Params {
                        schedule: Schedule::Layered { step },
                        ..p
                    },
                }
            }

            fn word(result: &LaneResult, bits: &[u8]) -> Word {
                match *result {
                    Ok(Decoded { iterations }) => (true, iterations, 0, bits.to_vec()),
                    Err(NotConverged {
                        iterations,
                        unsatisfied,
                    }) => (false, iterations, unsatisfied, bits.to_vec()),
                }
            }

            /// Twice by one decoder, so that its memory is used again.
            pub fn decode_all<const W: usize>(
                code: &Code,
                words: &[&[i8]],
                asked: Asked,
            ) -> Vec<Word> {
                let mut decoder = Decoder::<W>::default();
                let first = decoder.decode_all(code, words, params(asked));
                assert_eq!(
                    first,
                    decoder.clone().decode_all(code, words, params(asked))
                );
                first
                    .iter()
                    .map(|(result, bits)| word(result, bits))
                    .collect()
            }

            pub fn traced<const W: usize>(
                code: &Code,
                words: &[&[i8]],
                asked: Asked,
            ) -> (Vec<Word>, Calls) {
                let mut calls = Vec::new();
                let results = Decoder::<W>::default().decode_all_traced(
                    code,
                    words,
                    params(asked),
                    |w, bits: &[u8]| calls.push((w, bits.to_vec())),
                );
                (
                    results
                        .iter()
                        .map(|(result, bits)| word(result, bits))
                        .collect(),
                    calls,
                )
            }

            pub fn decode<const W: usize>(
                code: &Code,
                words: &[&[i8]],
                room: usize,
                asked: Asked,
            ) -> Vec<Word> {
                let mut bits = vec![vec![7]; room];
                let results: Vec<LaneResult> =
                    Decoder::<W>::default().decode(code, words, &mut bits, params(asked));
                results
                    .iter()
                    .zip(&bits)
                    .map(|(result, bits)| word(result, bits))
                    .collect()
            }

            pub fn step_0(code: &Code) -> usize {
                let p = Params {
                    schedule: Schedule::Layered { step: 0 },
                    ..Params::new(1, 0)
                };
                Decoder::<1>::default().decode_all(code, &[], p).len()
            }
        }
    };
}

program!(original, oracle);
program!(ours, raxdov);

/// Both answers, which are to be equal.
macro_rules! same {
    ($($call:tt)*) => {{
        let theirs = original::$($call)*;
        assert_eq!(ours::$($call)*, theirs);
        theirs
    }};
}

/// A code of each.
struct Both {
    theirs: <Self as Codes>::Theirs,
    ours: <Self as Codes>::Ours,
}

trait Codes {
    type Theirs;
    type Ours;
}

impl Codes for Both {
    type Theirs = oracle::ldpc::Code;
    type Ours = raxdov::ldpc::Code;
}

impl Both {
    fn new(groups: usize, table: &[Vec<u16>]) -> Self {
        let n = 374 * groups;
        Self {
            theirs: original::code(n, &rows(table)),
            ours: ours::code(n, &rows(table)),
        }
    }
}

#[test]
fn constants() {
    same!(constants());
}

/// Codes and decoders go from thread to thread, as the original's do.
#[test]
fn threads() {
    fn goes<T: Send + Sync + Clone + std::fmt::Debug + 'static>() {}
    goes::<oracle::ldpc::Code>();
    goes::<raxdov::ldpc::Code>();
    goes::<oracle::ldpc::fixed::Decoder<8>>();
    goes::<raxdov::ldpc::fixed::Decoder<8>>();
}

#[test]
fn soft_values() {
    let mut d = Draw::new(1);
    let mut llr: Vec<f32> = (-600..600).map(|i| i as f32 / 4.0).collect();
    llr.extend([
        f32::NAN,
        f32::INFINITY,
        f32::NEG_INFINITY,
        -0.0,
        f32::MIN_POSITIVE,
        f32::MAX,
    ]);
    llr.extend((0..4000).map(|_| f32::from_bits(d.below(1 << 32) as u32)));
    for scale in [
        0.0,
        1.0,
        -1.0,
        0.5,
        8.0,
        0.3,
        1e-30,
        f32::INFINITY,
        f32::NAN,
    ] {
        same!(soft(&llr, scale));
    }
    assert!(same!(soft(&[], 1.0)).is_empty());
}

#[test]
fn bch_words() {
    let mut d = Draw::new(2);
    for len in [0, 1, 2, 7, 8, 9, 63, 64, 1000, 31_776, 65_343] {
        let message = d.bytes(len, len % 2 == 0);
        let (parity, _) = same!(bch_words(&message));
        assert_eq!(parity.len(), 192);
    }
}

#[test]
fn bch_corrections() {
    let mut d = Draw::new(3);
    let (mut corrected, mut lost, mut flipped) = (0, 0, 0);
    for turn in 0..400 {
        let size = [1, 2, 8, 100, 1000][turn % 5] + d.below(9);
        let message = d.bytes(size, turn % 2 == 0);
        let mut word = oracle::bch::encode(&message);
        for _ in 0..d.below(16) {
            let at = d.below(word.len());
            word[at] ^= 1;
        }
        let mut theirs = word.clone();
        let result = oracle::decode_or_leave(&mut theirs).ok();
        assert_eq!(ours::bch_decode(&word), (result, theirs));
        match result {
            Some(_) => corrected += 1,
            None => lost += 1,
        }
    }
    for turn in 0..100 {
        let mut word = d.bytes(193, true);
        let given_up = given_up(&mut d, 1 + turn % 8, 1 + turn % 4);
        for (byte, bit) in word.iter_mut().zip(given_up) {
            *byte = *byte & !1 | bit;
        }
        let (result, after) = original::bch_decode(&word);
        flipped += usize::from(result.is_none() && after != word);
        assert_eq!(ours::bch_decode(&word), (None, word));
    }
    assert!(
        corrected > 200 && lost > 50 && flipped == 100,
        "{corrected} {lost} {flipped}"
    );
}

/// docs/DIFFERENCES.md: the word of x^193 mod g with its last bit turned. The register has length 2 and roots at the
/// powers 193 and 0, of which 0 is in the word. The original turns that bit and gives up.
#[test]
fn lost_word_untouched() {
    let mut word = vec![0];
    word.extend(oracle::bch::parity(&[1, 0]));
    let flipped = word.clone();
    word[192] ^= 1;
    assert_eq!(original::bch_decode(&word), (None, flipped));
    assert_eq!(ours::bch_decode(&word), (None, word));
}

#[test]
fn bch_panics() {
    for len in [0, 192, 193, 65_535, 65_536] {
        let word = vec![0; len];
        let theirs = or_panics(|| original::bch_decode(&word));
        assert_eq!(or_panics(|| ours::bch_decode(&word)), theirs, "{len}");
        assert_eq!(theirs.is_some(), len == 193 || len == 65_535);
    }
    // docs/DIFFERENCES.md: a message whose codeword would be longer than the code
    assert!(or_panics(|| original::bch_words(&vec![0; 65_344])).is_some());
    assert!(or_panics(|| ours::bch_words(&vec![0; 65_344])).is_none());
}

#[test]
fn codes() {
    let mut d = Draw::new(4);
    for turn in 0..60 {
        let groups = 1 + d.below(9);
        let count = d.below(groups);
        let table = d.table(groups, count, 9);
        let both = Both::new(groups, &table);
        assert_eq!(ours::numbers(&both.ours), original::numbers(&both.theirs));
        let [n, k, p, _] = original::numbers(&both.theirs);
        for c in 0..p {
            assert_eq!(ours::check(&both.ours, c), original::check(&both.theirs, c));
        }
        let info = d.bytes(k, turn % 2 == 0);
        let made = original::encode(&both.theirs, &info);
        assert_eq!(ours::encode(&both.ours, &info), made);
        // a word that is longer than n is accepted, as by the original
        for word in [made.1, d.bytes(n, true), d.bytes(n + 5, false)] {
            let weight = original::weight(&both.theirs, &word);
            assert_eq!(ours::weight(&both.ours, &word), weight);
        }
    }
}

#[test]
fn code_panics() {
    let one: &[&[u16]] = &[&[0]];
    for (n, table) in [
        (0, &[][..]),
        (373, &[]),
        (375, &[]),
        (374, one),
        (0, one),
        (374, &[]),
        (748, one),
    ] {
        let theirs = or_panics(|| original::numbers(&original::code(n, table)));
        assert_eq!(
            or_panics(|| ours::numbers(&ours::code(n, table))),
            theirs,
            "{n}"
        );
    }
    let (theirs, ours) = (original::code(748, one), ours::code(748, one));
    for c in [373, 374, usize::MAX - 1] {
        let bits = or_panics(|| original::check(&theirs, c));
        assert_eq!(or_panics(|| ours::check(&ours, c)), bits);
        assert_eq!(bits.is_some(), c == 373);
    }
    for len in [373, 374, 375] {
        let info = vec![1; len];
        let made = or_panics(|| original::encode(&theirs, &info));
        assert_eq!(or_panics(|| ours::encode(&ours, &info)), made);
        assert_eq!(made.is_some(), len == 374);
    }
    for len in [0, 747, 748, 749] {
        let weight = or_panics(|| original::weight(&theirs, &vec![1; len]));
        assert_eq!(or_panics(|| ours::weight(&ours, &vec![1; len])), weight);
        assert_eq!(weight.is_some(), len >= 748);
    }
    // docs/DIFFERENCES.md
    let long: &[&[u16]] = &[&[0; 129]];
    let equal: &[&[u16]] = &[&[0; 127]];
    for (n, table) in [(45_254, &[][..]), (748, long), (748, equal)] {
        assert!(or_panics(|| original::code(n, table)).is_some());
        assert!(or_panics(|| ours::code(n, table)).is_none());
    }
}

/// How many words of a comparison were codewords and how many were not.
#[derive(Debug, Default)]
struct Seen {
    met: usize,
    unmet: usize,
    iterations: usize,
}

impl Seen {
    fn count(&mut self, results: &[Word]) {
        for (met, iterations, _, _) in results {
            self.met += usize::from(*met);
            self.unmet += usize::from(!met);
            self.iterations += iterations;
        }
    }
}

/// Random words of a code: clean, noisy, and without any rule.
fn random_words(d: &mut Draw, code: &oracle::ldpc::Code, count: usize) -> Vec<Vec<i8>> {
    (0..count)
        .map(|_| {
            let info = d.bytes(code.k(), false);
            let sent = code.encode(&info);
            let noise = [0, 4, 8, 12, 16, 60][d.below(6)];
            d.soft(&sent, 20, noise)
        })
        .collect()
}

const STEPS: [usize; 10] = [0, 0, 0, 1, 2, 100, 187, 374, 1000, usize::MAX];

fn asked(d: &mut Draw) -> Asked {
    Asked {
        limit: [0, 1, 2, 5, 20][d.below(5)],
        offset: [0, 1, 1, 1, 5, -3, 127, -128][d.below(8)],
        step: STEPS[d.below(STEPS.len())],
    }
}

fn compare<const W: usize>(seed: u64, turns: usize, most: usize) -> Seen {
    let mut d = Draw::new(seed);
    let mut seen = Seen::default();
    for _ in 0..turns {
        let groups = 1 + d.below(8);
        let count = d.below(groups);
        let table = d.table(groups, count, 5);
        let both = Both::new(groups, &table);
        let count = d.below(most + 1);
        let soft = random_words(&mut d, &both.theirs, count);
        let words = words(&soft);
        let asked = asked(&mut d);
        let theirs = original::decode_all::<W>(&both.theirs, &words, asked);
        let ours = ours::decode_all::<W>(&both.ours, &words, asked);
        assert_eq!(ours, theirs, "{W} lanes, {asked:?}, {groups} {table:?}");
        seen.count(&theirs);
        if (1..=W).contains(&words.len()) {
            assert_eq!(
                ours::decode::<W>(&both.ours, &words, words.len(), asked),
                theirs
            );
        }
    }
    seen
}

#[test]
fn decode_all() {
    let seen = [
        compare::<1>(10, 60, 6),
        compare::<2>(11, 60, 9),
        compare::<3>(12, 60, 9),
        compare::<8>(13, 60, 30),
        compare::<16>(14, 60, 60),
        compare::<64>(15, 20, 150),
        compare::<70>(16, 20, 150),
    ];
    for seen in seen {
        assert!(
            seen.met > 20 && seen.unmet > 20 && seen.iterations > 200,
            "{seen:?}"
        );
    }
}

#[test]
fn traces() {
    fn compare<const W: usize>(d: &mut Draw) -> usize {
        let groups = 1 + d.below(6);
        let count = d.below(groups);
        let table = d.table(groups, count, 5);
        let both = Both::new(groups, &table);
        let count = d.below(4 * W);
        let soft = random_words(d, &both.theirs, count);
        let asked = asked(d);
        let theirs = original::traced::<W>(&both.theirs, &words(&soft), asked);
        assert_eq!(
            ours::traced::<W>(&both.ours, &words(&soft), asked),
            theirs,
            "{asked:?}"
        );
        theirs.1.len()
    }
    let mut d = Draw::new(20);
    let mut calls = 0;
    for _ in 0..40 {
        calls += compare::<1>(&mut d)
            + compare::<3>(&mut d)
            + compare::<8>(&mut d)
            + compare::<65>(&mut d);
    }
    assert!(calls > 5000, "{calls}");
}

/// Words at limit 0, so that their bits are the signs of what goes in. BCH corrects their last 193 bits, or the original
/// leaves these changed.
#[test]
fn bits_before_bch() {
    let mut d = Draw::new(30);
    let groups = 2;
    let both = Both::new(groups, &[vec![0, 17, 200]]);
    let mut soft = Vec::new();
    let (mut corrected, mut flipped) = (0, 0);
    for turn in 0..300 {
        let tail = match turn % 3 {
            // corrected: a codeword with up to 12 errors
            0 => {
                let mut tail = oracle::bch::encode(&[(turn % 2) as u8]);
                for _ in 0..1 + turn % 12 {
                    let at = d.below(193);
                    tail[at] ^= 1;
                }
                tail
            }
            // given up
            1 => given_up(&mut d, 1 + turn % 7, 1 + turn % 5),
            // whatever it may be
            _ => d.bytes(193, false),
        };
        match original::bch_decode(&tail) {
            (Some(count), _) => corrected += usize::from(count > 0),
            (None, after) => flipped += usize::from(after != tail),
        }
        let mut word = d.bytes(374 * groups - 193, false);
        word.extend(tail);
        soft.push(d.soft(&word, 1, 0));
    }
    assert!(corrected > 90 && flipped >= 100, "{corrected} {flipped}");
    let zero = Asked {
        limit: 0,
        offset: 0,
        step: 0,
    };
    let theirs = original::decode_all::<4>(&both.theirs, &words(&soft), zero);
    assert!(theirs.iter().filter(|(met, ..)| !met).count() >= 299);
    assert_eq!(
        ours::decode_all::<4>(&both.ours, &words(&soft), zero),
        theirs
    );
    assert_eq!(
        ours::decode_all::<64>(&both.ours, &words(&soft), zero),
        theirs
    );
}

/// Codewords whose last 193 bits have a few ones, which BCH takes for errors.
#[test]
fn codewords_that_bch_corrects() {
    let mut d = Draw::new(31);
    let both = Both::new(2, &[vec![0]]);
    let mut soft = Vec::new();
    for _ in 0..100 {
        // two neighbours set in the information make one parity bit
        let mut info = vec![0; 374];
        for _ in 0..1 + d.below(12) {
            let at = 181 + d.below(192);
            info[at] ^= 1;
            info[at + 1] ^= 1;
        }
        let word = both.theirs.encode(&info);
        soft.push(d.soft(&word, 20, 0));
    }
    let corrected = soft.iter().filter(|word| {
        let tail: Vec<u8> = word[748 - 193..].iter().map(|&x| u8::from(x < 0)).collect();
        original::bch_decode(&tail).0 > Some(0)
    });
    assert!(corrected.count() > 80);
    let asked = Asked {
        limit: 5,
        offset: 1,
        step: 0,
    };
    for (ours, theirs) in [
        (
            ours::decode_all::<8>(&both.ours, &words(&soft), asked),
            original::decode_all::<8>(&both.theirs, &words(&soft), asked),
        ),
        (
            ours::decode_all::<70>(&both.ours, &words(&soft), asked),
            original::decode_all::<70>(&both.theirs, &words(&soft), asked),
        ),
    ] {
        assert_eq!(ours, theirs);
        assert!(
            theirs
                .iter()
                .all(|(met, iterations, ..)| *met && *iterations == 0)
        );
    }
}

#[test]
fn decoder_panics() {
    let both = Both::new(2, &[vec![0]]);
    let (short, word, long) = (vec![1i8; 747], vec![1i8; 748], vec![1i8; 749]);
    let asked = Asked {
        limit: 1,
        offset: 0,
        step: 0,
    };
    for list in [vec![&short[..]], vec![&word, &long], vec![&word], vec![]] {
        let theirs = or_panics(|| original::decode_all::<2>(&both.theirs, &list, asked));
        assert_eq!(
            or_panics(|| ours::decode_all::<2>(&both.ours, &list, asked)),
            theirs
        );
        let theirs = or_panics(|| original::traced::<2>(&both.theirs, &list, asked));
        assert_eq!(
            or_panics(|| ours::traced::<2>(&both.ours, &list, asked)),
            theirs
        );
        let theirs = or_panics(|| original::decode_all::<0>(&both.theirs, &list, asked));
        assert_eq!(
            or_panics(|| ours::decode_all::<0>(&both.ours, &list, asked)),
            theirs
        );
    }
    for (count, room) in [(0, 0), (1, 1), (2, 2), (2, 1), (1, 2), (3, 3)] {
        let list = vec![&word[..]; count];
        let theirs = or_panics(|| original::decode::<2>(&both.theirs, &list, room, asked));
        assert_eq!(
            or_panics(|| ours::decode::<2>(&both.ours, &list, room, asked)),
            theirs
        );
        assert_eq!(theirs.is_some(), count == room && (1..=2).contains(&count));
    }
    assert!(or_panics(|| original::step_0(&both.theirs)).is_none());
    assert!(or_panics(|| ours::step_0(&both.ours)).is_none());
    // docs/DIFFERENCES.md: the iteration limit
    let limit = |limit| Asked { limit, ..asked };
    assert!(
        or_panics(|| original::decode_all::<2>(&both.theirs, &[&word], limit(65_535))).is_some()
    );
    assert!(or_panics(|| ours::decode_all::<2>(&both.ours, &[&word], limit(65_535))).is_none());
    let most = original::decode_all::<2>(&both.theirs, &[&word], limit(65_534));
    assert_eq!(
        ours::decode_all::<2>(&both.ours, &[&word], limit(65_534)),
        most
    );
}

/// More words than one run takes.
#[test]
fn many_words() {
    let mut d = Draw::new(40);
    let both = Both::new(2, &[vec![0, 40, 121]]);
    let soft: Vec<Vec<i8>> = (0..4100).map(|_| d.soft(&[0; 748], 20, 10)).collect();
    let asked = Asked {
        limit: 2,
        offset: 0,
        step: 0,
    };
    let theirs = original::decode_all::<16>(&both.theirs, &words(&soft), asked);
    assert_eq!(
        ours::decode_all::<16>(&both.ours, &words(&soft), asked),
        theirs
    );
    let mut seen = Seen::default();
    seen.count(&theirs);
    assert!(seen.met > 100 && seen.unmet > 100, "{seen:?}");
}

/// The length of the standard's codes.
#[test]
fn long_words() {
    let mut d = Draw::new(41);
    let table: Vec<Vec<u16>> = (0..60)
        .map(|g| {
            (0..if g < 10 { 12 } else { 3 })
                .map(|_| d.below(22_440) as u16)
                .collect()
        })
        .collect();
    let both = Both::new(120, &table);
    let soft: Vec<Vec<i8>> = (0..12)
        .map(|w| {
            let sent = both.theirs.encode(&d.bytes(22_440, false));
            d.soft(&sent, 20, [6, 9, 11, 14][w % 4])
        })
        .collect();
    for step in [0, 187] {
        let asked = Asked {
            limit: 12,
            offset: 1,
            step,
        };
        let theirs = original::decode_all::<8>(&both.theirs, &words(&soft), asked);
        assert_eq!(
            ours::decode_all::<8>(&both.ours, &words(&soft), asked),
            theirs
        );
        let mut seen = Seen::default();
        seen.count(&theirs);
        assert!(
            seen.met > 0 && seen.unmet > 0 && seen.iterations > 30,
            "{seen:?}"
        );
    }
}
