//! Codes and soft words made from random numbers.

use crate::archive::Table;
use crate::bch;
use crate::lent::Lent;
use crate::random::Random;
use crate::scope;
use oracle::ldpc::Code;

/// A code: n, the rows' lengths, their addresses.
#[derive(Clone, Debug)]
pub struct Plan {
    pub n: u32,
    pub lens: Vec<u32>,
    pub addrs: Vec<u16>,
}

impl Plan {
    /// The original's code of an accepted plan.
    pub fn code(&self) -> Code {
        let mut rest = &self.addrs[..];
        let mut rows = Vec::new();
        for &l in &self.lens {
            let (row, after) = rest.split_at(l as usize);
            rows.push(row);
            rest = after;
        }
        Code::new(self.n as usize, &rows)
    }

    pub fn lent(&self, r: &mut Random) -> Table {
        Table {
            n: self.n,
            lens: Lent::of(&self.lens, r),
            addrs: Lent::of(&self.addrs, r),
        }
    }

    pub fn refusal(&self) -> u32 {
        scope::code_refusal(self.n, &self.lens, &self.addrs)
    }

    pub fn shape(&self) -> (usize, usize, usize, usize) {
        scope::shape(self.n, &self.lens, &self.addrs)
    }

    /// An accepted code of n = 374 units: empty rows, long rows, repeated addresses, addresses equal modulo P or q.
    pub fn random(r: &mut Random, units: usize) -> Self {
        loop {
            let rows = match r.below(8) {
                0 => 0,
                1 => units - 1,
                2 | 3 => r.below(units),
                _ => units / 2,
            };
            let p = 374 * (units - rows);
            let q = p / 374;
            let most = r.pick(&[1, 3, 3, 4, 4, 6, 12, 30, 128]);
            let plain = r.below(3) > 0;
            let lens: Vec<u32> = (0..rows).map(|_| if plain { 3.min(most) } else { r.within(0, most) } as u32).collect();
            let mut before = 0usize;
            let addrs = (0..lens.iter().sum::<u32>())
                .map(|_| {
                    before = match if plain { 9 } else { r.below(10) } {
                        0 => before,
                        1 => (before + p) % 65_536,
                        2 => (before + q) % 65_536,
                        3 => r.below(65_536),
                        _ => r.below(p.min(65_536)),
                    };
                    before as u16
                })
                .collect();
            let plan = Self {
                n: 374 * units as u32,
                lens,
                addrs,
            };
            if plan.refusal() == 0 {
                return plan;
            }
        }
    }

    /// A code of n 44,880 with so many rows, most of 3 addresses and some of 12, as B44's tables are.
    pub fn long(r: &mut Random, rows: usize) -> Self {
        let p = 44_880 - 374 * rows;
        let lens: Vec<u32> = (0..rows)
            .map(|g| if g * 10 < rows * 3 { 12 } else { 3 })
            .collect();
        let addrs = (0..lens.iter().sum::<u32>())
            .map(|_| r.below(p) as u16)
            .collect();
        let plan = Self {
            n: 44_880,
            lens,
            addrs,
        };
        assert_eq!(plan.refusal(), 0);
        plan
    }

    /// The accepted code with the most edges: E 2,872,319.
    pub fn largest() -> Self {
        let mut lens = vec![128; 59];
        lens.push(8);
        let addrs = (0..7560u32)
            .map(|i| (i % 60 + 60 * (i * 7 % 374)) as u16)
            .collect();
        let plan = Self {
            n: 44_880,
            lens,
            addrs,
        };
        assert_eq!((plan.refusal(), plan.shape().3), (0, 2_872_319));
        plan
    }
}

/// Which soft words: a codeword with noise, or values with no codeword behind them.
#[derive(Clone, Copy, Debug)]
pub enum Kind {
    Noise(f64),
    Random,
    Small,
    Constant,
}

/// Soft words of a code. Where the BCH part lies in the information bits, it is a BCH word, damaged now and then by up to 16 bits, and
/// one in four of these by an error outside it too.
pub fn soft(
    r: &mut Random,
    code: &Code,
    words: usize,
    kind: Kind,
    first: usize,
    length: usize,
) -> Vec<i8> {
    let n = code.n();
    let mut soft = Vec::with_capacity(words * n);
    for _ in 0..words {
        match kind {
            Kind::Noise(deviation) => {
                let mut info = r.bits(code.k());
                if length >= 193 && first + length <= info.len() {
                    let word = oracle::bch::encode(&r.bits(length - 192));
                    info[first..first + length].copy_from_slice(&word);
                    let errors = match r.below(4) {
                        0 => r.within(1, 12),
                        1 => r.within(1, 16),
                        _ => 0,
                    };
                    for _ in 0..errors {
                        info[first + r.below(length)] ^= 1;
                    }
                    if errors > 0 && r.one_in(4) {
                        let p = r.within(length, 65_534);
                        bch::outside(&mut info[first..first + length], p);
                    }
                }
                let deviation = if r.one_in(10) { 0.0 } else { deviation };
                soft.extend(code.encode(&info).iter().map(|&b| {
                    let sign = if b == 1 { -1.0 } else { 1.0 };
                    (12.0 * (sign + deviation * r.normal()))
                        .round()
                        .clamp(-128.0, 127.0) as i8
                }));
            }
            Kind::Random => soft.extend(r.bytes(n).iter().map(|&b| b as i8)),
            Kind::Small => soft.extend((0..n).map(|_| r.below(5) as i8 - 2)),
            Kind::Constant => {
                let v = r.pick(&[-128, -127, -1, 0, 1, 127]);
                soft.extend(std::iter::repeat_n(v, n));
                let end = soft.len();
                for _ in 0..r.below(4) {
                    soft[end - 1 - r.below(n)] = r.next() as i8;
                }
            }
        }
    }
    soft
}
