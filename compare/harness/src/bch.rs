//! The `raxdov_bch_*` functions against the original's.

use crate::archive::{self, LOST};
use crate::lent::{Lent, same};
use crate::random::Random;
use oracle::bch::{TABLE_3_4_1, encode, parity};
use oracle::{Lost, decode_or_leave};
use std::sync::OnceLock;

#[derive(Default)]
pub struct Counts {
    pub parity: u64,
    pub encode: u64,
    pub decode: u64,
    pub clean: u64,
    pub corrected: [u64; 13],
    /// Uncorrectable: without flips of the original, and with flips that were taken back.
    pub no_flips: u64,
    pub taken_back: u64,
    pub refused: u64,
}

/// x^p mod g for p below 65,535, in three u64s each, lowest first.
fn powers() -> &'static [[u64; 3]] {
    static TABLE: OnceLock<Vec<[u64; 3]>> = OnceLock::new();
    TABLE.get_or_init(|| {
        let g = product(12);
        let mut low = [0u64; 3];
        for (i, &c) in g[..192].iter().enumerate() {
            low[i / 64] |= u64::from(c) << (i % 64);
        }
        let mut r = [1u64, 0, 0];
        let mut all = Vec::with_capacity(65_535);
        for _ in 0..65_535 {
            all.push(r);
            let top = r[2] >> 63;
            r = [r[0] << 1, r[1] << 1 | r[0] >> 63, r[2] << 1 | r[1] >> 63];
            if top == 1 {
                for (x, y) in r.iter_mut().zip(&low) {
                    *x ^= y;
                }
            }
        }
        all
    })
}

/// The product of the table's first entries, the lowest coefficient first.
fn product(entries: usize) -> Vec<u8> {
    TABLE_3_4_1[..entries].iter().fold(vec![1], |g, exponents| {
        let mut out = vec![0; g.len() + 16];
        for (i, &a) in g.iter().enumerate() {
            for &e in *exponents {
                out[i + e as usize] ^= a;
            }
        }
        out
    })
}

/// An error outside a shortened word, at power p: its remainder is added to the parity.
pub fn outside(word: &mut [u8], p: usize) {
    let x = powers()[p];
    for (i, byte) in word.iter_mut().rev().take(192).enumerate() {
        *byte ^= (x[i / 64] >> (i % 64) & 1) as u8;
    }
}

fn length(r: &mut Random) -> usize {
    match r.below(160) {
        0 | 1 => r.within(193, 65_535),
        2 => r.pick(&[65_535, 65_534, 44_880, 31_968, 65_528]),
        3..20 => r.within(193, 4000),
        20..50 => r.pick(&[193, 194, 195, 199, 200, 201, 255, 256, 374, 748]),
        _ => r.within(193, 700),
    }
}

/// A word and what it was made to be.
pub fn word(r: &mut Random) -> Vec<u8> {
    let n = length(r);
    if r.one_in(30) {
        return r.bytes(n);
    }
    let message = if r.one_in(4) {
        r.bytes(n - 192)
    } else {
        r.bits(n - 192)
    };
    let mut word = encode(&message);
    let inside = match r.below(8) {
        0 => 0,
        1 => r.within(13, 40),
        2 => 12,
        3 => r.within(11, 14),
        _ => r.below(13),
    };
    for _ in 0..inside {
        word[r.below(n)] ^= 1;
    }
    match r.below(6) {
        // errors outside the shortened word
        0 | 1 if n < 65_535 => {
            for _ in 0..r.pick(&[1, 1, 2, 3, 5, 9, 12]) {
                let p = if r.one_in(3) {
                    n + r.below((65_535 - n).min(8))
                } else {
                    r.within(n, 65_534)
                };
                outside(&mut word, p);
            }
        }
        // a multiple of the first six entries, whose first twelve syndromes vanish: the register is longer than 12
        2 if inside == 0 => {
            static SIX: OnceLock<Vec<u8>> = OnceLock::new();
            let six = SIX.get_or_init(|| product(6));
            let shifts = n - six.len() + 1;
            for _ in 0..r.within(1, 6) {
                let s = r.below(shifts);
                for (i, &c) in six.iter().enumerate() {
                    word[n - 1 - s - i] ^= c;
                }
            }
        }
        _ => {}
    }
    if r.one_in(8) {
        for b in &mut word {
            *b ^= (r.next() as u8) & 0xfe;
        }
    }
    word
}

fn hex(bytes: &[u8]) -> String {
    bytes.iter().map(|b| format!("{b:02x}")).collect()
}

/// A word through `decode`; with the original's flips left in it if `spoilt`, to see that the comparison finds them.
fn decoded(r: &mut Random, bytes: &[u8], counts: &mut Counts, spoilt: bool) -> Result<(), String> {
    let mut word = Lent::of(bytes, r);
    let mut result = Lent::filled(1, r);
    let number = archive::bch_decode(&mut word, &mut result);
    if spoilt {
        let mut flipped = bytes.to_vec();
        let _ = oracle::bch::decode(&mut flipped);
        word.copy_from(&flipped);
    }
    counts.decode += 1;
    if bytes.len() < 193 || bytes.len() > 65_535 {
        counts.refused += 1;
        same("answer", number, 11)?;
        word.unchanged("word")?;
        return result.unchanged("result");
    }
    let mut right = bytes.to_vec();
    let answer = decode_or_leave(&mut right);
    match answer {
        Ok(0) => counts.clean += 1,
        Ok(m) => counts.corrected[m] += 1,
        Err(Lost { flips: 0 }) => counts.no_flips += 1,
        Err(_) => counts.taken_back += 1,
    }
    same("answer", number, 0)?;
    result.holds("result", &[answer.map_or(LOST, |m| m as u32)], 1)?;
    word.holds("word", &right, right.len())
}

/// One word through every function.
pub fn compare(r: &mut Random, counts: &mut Counts) -> Result<(), String> {
    let bytes = if r.one_in(200) {
        r.pick(&[0usize, 1, 192, 65_536, 70_000])
    } else {
        usize::MAX
    };
    let bytes = if bytes == usize::MAX {
        word(r)
    } else {
        r.bits(bytes)
    };
    decoded(r, &bytes, counts, false).map_err(|e| {
        format!(
            "bch decode: {e}; word of {} bytes {}",
            bytes.len(),
            hex(&bytes)
        )
    })?;
    if r.one_in(8) {
        written(r, counts).map_err(|e| format!("bch {e}"))?;
    }
    Ok(())
}

/// The original's flips left in a lost word are found: so many such words.
pub fn selftest(r: &mut Random, words: usize) -> Result<(), String> {
    let mut done = 0;
    while done < words {
        let bytes = word(r);
        let mut counts = Counts::default();
        decoded(r, &bytes, &mut counts, false)?;
        if counts.taken_back == 1 {
            if decoded(r, &bytes, &mut counts, true).is_ok() {
                return Err(format!(
                    "selftest: flips left in a lost word were not found: {}",
                    hex(&bytes)
                ));
            }
            done += 1;
        }
    }
    Ok(())
}

/// Parity and codeword of a message of some length.
pub fn written(r: &mut Random, counts: &mut Counts) -> Result<(), String> {
    let k = match r.below(40) {
        0 => r.pick(&[65_343, 65_344, 65_345, 70_000]),
        1 => r.below(65_344),
        2 => 0,
        _ => r.below(800),
    };
    message(r, k, true, counts)
}

/// Parity and codeword of a message of k bits, into an output that is now and then too short if `short`.
pub fn message(r: &mut Random, k: usize, short: bool, counts: &mut Counts) -> Result<(), String> {
    let bytes = if r.one_in(2) { r.bytes(k) } else { r.bits(k) };
    let message = Lent::of(&bytes, r);
    for whole in [false, true] {
        let need = if whole { k + 192 } else { 192 };
        let size = if short && r.one_in(6) {
            r.below(need)
        } else {
            need + r.below(30)
        };
        let mut out = Lent::filled(size, r);
        let got = if whole {
            archive::bch_encode(&message, &mut out)
        } else {
            archive::bch_parity(&message, &mut out)
        };
        let wanted = if k > 65_343 {
            11
        } else if size < need {
            13
        } else {
            0
        };
        let what = if whole { "encode" } else { "parity" };
        let tell = |e: String| format!("{what}: {e}; output of {size}, message {}", hex(&bytes));
        same("answer", got, wanted).map_err(tell)?;
        if wanted == 0 {
            let right = if whole {
                encode(&bytes)
            } else {
                parity(&bytes)
            };
            out.holds("out", &right, need).map_err(tell)?;
        } else {
            counts.refused += 1;
            out.unchanged("out").map_err(tell)?;
        }
        *(if whole {
            &mut counts.encode
        } else {
            &mut counts.parity
        }) += 1;
    }
    message.unchanged("message")
}
