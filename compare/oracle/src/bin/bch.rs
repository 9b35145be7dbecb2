//! Writes the records that `crates/vectors_bch` replays: how to make a word, and what the original's
//! `encode` and `decode` make of it. A word that `decode` calls uncorrectable is kept as it came.
//!
//! A record has 148 bytes, its numbers lowest byte first:
//!
//! | from | bytes | |
//! |---|---|---|
//! | 0 | 4 | length n of the word |
//! | 4 | 4 | seed of the message |
//! | 8 | 1 | 1: the bytes have high bits |
//! | 9 | 1 | how many errors are listed |
//! | 10 | 1 | bits corrected, or 255 for uncorrectable |
//! | 11 | 1 | 0 |
//! | 12 | 8 | sum of the codeword |
//! | 20 | 8 | sum of the word after decoding |
//! | 28 | 4 | shift of the pattern |
//! | 32 | 60 | 30 errors, two bytes each: places from the front |
//! | 92 | 24 | pattern: bit i of it is the coefficient of x^i |
//! | 116 | 32 | the low bits of the first 256 bytes after decoding |
//!
//! The word: n - 192 message bytes from the seed, each the top byte of the next state, whole or its
//! low bit alone; their codeword; the errors flipped; the pattern times x^shift added; and, where bytes
//! have high bits, twice (place mod 128) added to the parity bytes.

use oracle::bch::{PARITY, encode};
use oracle::poly::{Poly, add, power, product, times};
use oracle::{Lost, decode_or_leave};
use std::io::Write;

const N_MAX: u32 = 65_535;

/// The next state of the message's bytes and of the choices here.
fn next(state: u64) -> u64 {
    (state * 1_664_525 + 1_013_904_223) % 4_294_967_296
}

/// A sum over every byte and its place, below 2^48.
fn sum(bytes: &[u8]) -> u64 {
    bytes.iter().fold(0, |h, &b| {
        (h * 16_411 + u64::from(b) + 1) % 281_474_976_710_597
    })
}

struct Case {
    n: u32,
    seed: u32,
    high: bool,
    errors: Vec<u16>,
    shift: u32,
    pattern: Poly,
}

impl Case {
    fn codeword(&self) -> Vec<u8> {
        let mut state = u64::from(self.seed);
        let message: Vec<u8> = (0..self.n as usize - PARITY)
            .map(|_| {
                state = next(state);
                let byte = (state >> 24) as u8;
                if self.high { byte } else { byte & 1 }
            })
            .collect();
        encode(&message)
    }

    fn word(&self) -> Vec<u8> {
        let mut word = self.codeword();
        let n = word.len();
        for &at in &self.errors {
            word[usize::from(at)] ^= 1;
        }
        for (i, &c) in self.pattern.iter().enumerate() {
            if c == 1 {
                word[n - 1 - i - self.shift as usize] ^= 1;
            }
        }
        if self.high {
            for (at, byte) in word.iter_mut().enumerate().skip(n - PARITY) {
                *byte += (at % 128 * 2) as u8;
            }
        }
        word
    }
}

#[derive(Default)]
struct Counts {
    clean: u32,
    corrected: u32,
    no_flips: u32,
    taken_back: u32,
}

fn record(case: &Case, counts: &mut Counts) -> Vec<u8> {
    let mut word = case.word();
    let result = decode_or_leave(&mut word);
    *match result {
        Ok(0) => &mut counts.clean,
        Ok(_) => &mut counts.corrected,
        Err(Lost { flips: 0 }) => &mut counts.no_flips,
        Err(_) => &mut counts.taken_back,
    } += 1;
    let mut r = Vec::new();
    r.extend(case.n.to_le_bytes());
    r.extend(case.seed.to_le_bytes());
    r.push(case.high.into());
    r.push(case.errors.len() as u8);
    r.push(result.map_or(255, |fixed| fixed as u8));
    r.push(0);
    r.extend(sum(&case.codeword()).to_le_bytes());
    r.extend(sum(&word).to_le_bytes());
    r.extend(case.shift.to_le_bytes());
    for at in 0..30 {
        r.extend(case.errors.get(at).copied().unwrap_or(0).to_le_bytes());
    }
    let mut pattern = [0u8; 24];
    for (i, &c) in case.pattern.iter().enumerate() {
        pattern[i / 8] |= c << (i % 8);
    }
    r.extend(pattern);
    let mut front = [0u8; 32];
    for (i, &b) in word.iter().take(256).enumerate() {
        front[i / 8] |= (b & 1) << (i % 8);
    }
    r.extend(front);
    assert_eq!(r.len(), 148);
    r
}

/// Choices by `next`, from one seed.
struct Choice(u64);

impl Choice {
    fn below(&mut self, n: u32) -> u32 {
        self.0 = next(self.0);
        ((self.0 >> 8) % u64::from(n)) as u32
    }

    fn seed(&mut self) -> u32 {
        self.0 = next(self.0);
        self.0 as u32
    }

    /// As many different places below n.
    fn places(&mut self, n: u32, count: usize) -> Vec<u16> {
        let mut places = Vec::new();
        while places.len() < count {
            let at = self.below(n) as u16;
            if !places.contains(&at) {
                places.push(at);
            }
        }
        places
    }

    fn case(&mut self, n: u32, high: bool, errors: usize) -> Case {
        Case {
            n,
            seed: self.seed(),
            high,
            errors: self.places(n, errors),
            shift: 0,
            pattern: Vec::new(),
        }
    }

    /// Errors inside, and outside: x^p mod g with p at or past the length.
    fn roots_outside(&mut self, n: u32, high: bool) -> Vec<Case> {
        let kinds = [
            (0, vec![n]),
            (1, vec![N_MAX - 1]),
            (5, vec![n, n + 1]),
            (11, vec![n + 7]),
            (3, Vec::new()),
        ];
        let kinds = kinds.into_iter().map(|(inside, outside)| {
            let mut case = self.case(n, high, inside);
            case.pattern = vec![0; PARITY];
            let outside = if outside.is_empty() {
                (0..9).map(|_| n + self.below(N_MAX - n)).collect()
            } else {
                outside
            };
            for p in outside {
                add(&mut case.pattern, &power(p));
            }
            case
        });
        kinds.collect()
    }
}

/// A shortest word that the original leaves changed: x^193 mod g with its last bit turned. The message of seed 0 is the bit 0, so
/// the codeword is 0.
fn shortest(high: bool) -> Case {
    Case {
        n: 193,
        seed: 0,
        high,
        errors: vec![192],
        shift: 0,
        pattern: power(193),
    }
}

fn main() {
    let mut choice = Choice(2026);
    let mut cases = Vec::new();
    // words with errors
    let short = [193, 194, 195, 196, 197, 198, 199, 200, 255, 256, 1000];
    for n in short {
        for errors in (0..=14).chain([16, 20, 24, 30]) {
            cases.push(choice.case(n, false, errors));
        }
    }
    for n in [31_968, 44_879, 44_880, 65_534, N_MAX] {
        for errors in [0, 1, 2, 5, 11, 12, 13, 20, 30] {
            cases.push(choice.case(n, false, errors));
        }
    }
    for n in [193, 200, 256, 1000, 44_880] {
        for errors in [0, 1, 12, 13] {
            cases.push(choice.case(n, true, errors));
        }
    }
    for n in [193, 196, 200, 255, 256, 1000, 31_968, 44_880] {
        cases.extend(choice.roots_outside(n, false));
    }
    // multiples of the first six entries: the first twelve syndromes vanish, so the register is longer than 12
    let six = product(6);
    for n in [193, 194, 200, 255, 256, 1000, 44_880, N_MAX] {
        for (top, moved) in [(1, false), (1, true), (95, false)] {
            let mut case = choice.case(n, false, 0);
            let mut factor: Poly = (0..top).map(|_| choice.below(2) as u8).collect();
            factor[top - 1] = 1;
            case.pattern = times(&six, &factor);
            if moved {
                case.shift = choice.below(n - case.pattern.len() as u32 + 1);
            }
            cases.push(case);
        }
    }
    // a shortest lost word in which the original leaves a flip, without high bits and with; then roots outside again, with high bits
    cases.extend([false, true].map(shortest));
    for n in [193, 200, 256, 1000, 44_880] {
        cases.extend(choice.roots_outside(n, true));
    }
    let mut counts = Counts::default();
    let mut out = Vec::new();
    for case in &cases {
        out.extend(record(case, &mut counts));
    }
    eprintln!(
        "{} words: {} codewords, {} corrected, {} uncorrectable without flips of the original, {} uncorrectable with flips of the original taken back",
        cases.len(),
        counts.clean,
        counts.corrected,
        counts.no_flips,
        counts.taken_back
    );
    std::io::stdout().write_all(&out).unwrap();
}
