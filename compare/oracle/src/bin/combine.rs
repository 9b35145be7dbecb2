//! Writes what `crates/vectors_combine` must get from the soft words that it combines: for each call a byte for the refusal, 0 for none,
//! and a byte for each value that the output has afterwards, 128 more. The rules by which words and calls are made are the same there and
//! here. The original combines no words: this is a second model, written from the request's sentences, which asks the original nothing.

use std::collections::BTreeMap;
use std::io::Write;

const LENGTHS: [usize; 10] = [0, 1, 15, 16, 17, 31, 33, 64, 100, 748];

const EXTREME: [i8; 6] = [-128, 127, -127, 0, 126, -1];

/// Sums on either side of where the clamp begins.
const NEAR: [i16; 12] = [
    -130, -129, -128, -127, -126, -125, 125, 126, 127, 128, 129, 130,
];

/// Lengths, how many soft values there are and how long the output is.
const ODD: [(&[u32], usize, usize); 40] = [
    (&[], 0, 0),
    (&[], 0, 5),
    (&[], 7, 5),
    (&[0], 0, 0),
    (&[0], 0, 5),
    (&[0], 1, 5),
    (&[1], 0, 5),
    (&[0; 8], 0, 0),
    (&[0; 8], 0, 5),
    (&[0; 9], 0, 5),
    (&[0, 1], 1, 5),
    (&[1, 0], 1, 5),
    (&[1, 0], 2, 5),
    (&[3, 4], 7, 5),
    (&[4, 3], 7, 5),
    (&[4, 3], 8, 5),
    (&[4, 3], 7, 0),
    (&[3, 4, 2], 9, 5),
    (&[4, 3, 4, 5], 16, 5),
    (&[5, 5, 5, 5, 5, 5, 5, 6], 41, 9),
    (&[5, 5, 5, 5, 5, 5, 5, 6], 40, 9),
    (&[5; 8], 40, 9),
    (&[5; 8], 40, 5),
    (&[5; 8], 40, 4),
    (&[5; 8], 40, 0),
    (&[5; 8], 39, 0),
    (&[5; 8], 41, 0),
    (&[5; 9], 45, 9),
    (&[5; 9], 40, 0),
    (&[64; 2], 128, 63),
    (&[64; 2], 128, 64),
    (&[64; 2], 128, 65),
    (&[1 << 29; 8], 0, 9),
    (&[(1 << 29) + 1; 8], 8, 9),
    (&[(1 << 30) + 2; 4], 8, 9),
    (&[1 << 31; 2], 0, 0),
    (&[(1 << 31) + 4; 2], 8, 9),
    (&[u32::MAX], 0, 9),
    (&[u32::MAX; 2], 0, 0),
    (&[u32::MAX, 1], 0, 9),
];

#[derive(Clone, Copy, Debug)]
enum Kind {
    /// All 256 values.
    Any,
    /// Extreme values.
    Extreme,
    /// Extreme values, at a place the same in every word.
    Same,
    /// The words' sum is one of `NEAR`.
    Near,
    /// All 256 values in one word, zeros in the others.
    One,
}

const KINDS: [Kind; 5] = [Kind::Any, Kind::Extreme, Kind::Same, Kind::Near, Kind::One];

// What both sides make.

fn next(x: u64) -> u64 {
    (x % (1 << 31) * 1_103_515_245 + 12345) % (1 << 31)
}

fn draw(x: u64, m: u64) -> u64 {
    x / 65536 % m
}

fn mixed(i: u32) -> u64 {
    (u64::from(i) * 2_654_435_761 + 1_013_904_223) % (1 << 32)
}

fn any_value(x: u64) -> i8 {
    (draw(x, 256) as i16 - 128) as i8
}

/// The first two words share a sum, and the other words of each pair have as much above zero as below.
fn near(count: usize, number: u32, k: usize, i: usize) -> i8 {
    let x = next(mixed(number * 1024 + i as u32));
    let sum = NEAR[draw(x, 12) as usize];
    let more = draw(next(x), 60) as i16;
    let v = match k {
        0 if count == 1 => sum,
        0 => sum / 2 + more,
        1 => sum - sum / 2 - more,
        _ if k % 2 == 1 => -more,
        _ if k + 1 < count => more,
        _ => 0,
    };
    v.clamp(-128, 127) as i8
}

fn word(kind: Kind, count: usize, n: usize, number: u32, k: usize) -> Vec<i8> {
    let mut x = mixed(number * 8 + k as u32);
    let mut value = |i: usize| {
        x = next(x);
        match kind {
            Kind::Any => any_value(x),
            Kind::Extreme => EXTREME[draw(x, 6) as usize],
            Kind::Same => EXTREME[i % 6],
            Kind::Near => near(count, number, k, i),
            Kind::One if k == number as usize % count => any_value(x),
            Kind::One => 0,
        }
    };
    (0..n).map(&mut value).collect()
}

/// What the output holds before a call.
fn filled(room: usize) -> Vec<i8> {
    (0..room).map(|i| ((i % 256) as i16 - 128) as i8).collect()
}

// The model.

fn refusal(lengths: &[u32], size: usize, room: usize) -> u8 {
    let sum: u128 = lengths.iter().map(|&l| u128::from(l)).sum();
    let equal = lengths.iter().all(|l| lengths.iter().all(|m| l == m));
    if !(1..=8).contains(&lengths.len()) || !equal || sum != size as u128 {
        15
    } else if room < lengths[0] as usize {
        13
    } else {
        0
    }
}

/// The exact sum at each place, not clamped.
fn sums(count: usize, soft: &[i8]) -> Vec<i32> {
    let n = soft.len() / count;
    (0..n)
        .map(|i| (0..count).map(|k| i32::from(soft[k * n + i])).sum())
        .collect()
}

#[derive(Default)]
struct Written {
    answers: Vec<u8>,
    calls: u32,
    reached: BTreeMap<String, u64>,
}

impl Written {
    fn reach(&mut self, what: String) {
        *self.reached.entry(what).or_default() += 1;
    }

    fn call(&mut self, lengths: &[u32], soft: &[i8], room: usize) {
        let mut out = filled(room);
        let refused = refusal(lengths, soft.len(), room);
        if refused == 0 {
            for (to, sum) in out.iter_mut().zip(sums(lengths.len(), soft)) {
                *to = if sum > 127 {
                    127
                } else if sum < -127 {
                    -127
                } else {
                    sum as i8
                };
                self.reach(match sum {
                    -1024 | -128..=-126 | 126..=128 | 1016 => format!("sums of {sum}"),
                    129.. => "other sums above 127".into(),
                    ..-128 => "other sums below -127".into(),
                    _ => "other sums".into(),
                });
            }
        }
        self.reach(match refused {
            0 => format!("calls of {} words", lengths.len()),
            _ => format!("calls refused by {refused}"),
        });
        self.answers.push(refused);
        self.answers
            .extend(out.iter().map(|&v| (i16::from(v) + 128) as u8));
        self.calls += 1;
    }

    fn odd(&mut self, lengths: &[u32], size: usize, room: usize) {
        let soft = word(Kind::Any, 1, size, self.calls, 0);
        self.call(lengths, &soft, room);
    }
}

fn main() {
    let mut to = Written::default();
    for kind in KINDS {
        for count in 1..=8 {
            for n in LENGTHS {
                let number = to.calls;
                let soft: Vec<i8> = (0..count)
                    .flat_map(|k| word(kind, count, n, number, k))
                    .collect();
                to.call(&vec![n as u32; count], &soft, n + number as usize % 7);
            }
        }
    }
    for count in 0..=10 {
        for n in 0..4 {
            for more in 0usize..3 {
                for room in 0..3 {
                    let size = (count * n + more).saturating_sub(1);
                    to.odd(&vec![n as u32; count], size, (n + room).saturating_sub(1));
                }
            }
        }
    }
    for (lengths, size, room) in ODD {
        to.odd(lengths, size, room);
    }
    for (what, n) in &to.reached {
        eprintln!("{n} {what}");
    }
    eprintln!("{} calls, {} bytes", to.calls, to.answers.len());
    std::io::stdout().write_all(&to.answers).unwrap();
}
