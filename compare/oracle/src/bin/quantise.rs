//! Writes the original's soft values of the inputs that `crates/vectors_quantise` makes, a byte each:
//! the size, and 128 more where the soft value is negative. The rule of the inputs is the same there and here.

use oracle::ldpc::fixed::quantise;
use std::io::Write;

/// The scales, as bits: 1, -1, 0.5, 6, 0.1, a third, 12.75, the smallest and the largest normal
/// number, the smallest subnormal one, 0, infinity and a NaN.
const SCALES: [u32; 13] = [
    0x3f800000, 0xbf800000, 0x3f000000, 0x40c00000, 0x3dcccccd, 0x3eaaaaab, 0x414c0000, 0x00800000,
    0x7f7fffff, 0x00000001, 0x00000000, 0x7f800000, 0x7fc00000,
];

/// Zeros, subnormal and extreme numbers, infinities, what lies at 0.5, 127, 127.5 and 128, a NaN.
const EDGES: [u32; 20] = [
    0x00000000, 0x80000000, 0x00000001, 0x80000001, 0x007fffff, 0x00800000, 0x80800000, 0x7f7fffff,
    0xff7fffff, 0x7f800000, 0xff800000, 0x3effffff, 0x3f000000, 0xbf000000, 0x42fe0000, 0x42feffff,
    0x42ff0000, 0xc2ff0000, 0x43000000, 0x7fc00000,
];

/// Two floats on either side of every half from 0.5 to 130.5, with both signs.
const HALVES: u32 = 131 * 10;
const RANDOM: u32 = 200;
const CASES: u32 = HALVES + RANDOM + 20;

/// A float near (h + 1/2) / scale, `d` places from two below it.
fn near(scale: f32, h: u16, d: u32, negative: bool) -> f32 {
    let x = f32::from(2 * h + 1) * 0.5 / scale;
    if x.is_nan() {
        return x;
    }
    let size = (x.to_bits() % 0x8000_0000 + d).max(2) - 2;
    float(size + if negative { 0x8000_0000 } else { 0 })
}

fn float(bits: u32) -> f32 {
    if bits % 0x8000_0000 <= 0x7f80_0000 {
        f32::from_bits(bits)
    } else {
        f32::NAN
    }
}

/// A number in 0 .. 2^32 that `i` makes.
fn mixed(i: u32) -> u32 {
    ((u64::from(i) * 2_654_435_761 + 1_013_904_223) % 4_294_967_296) as u32
}

fn input(scale: f32, case: u32) -> f32 {
    if case < HALVES {
        near(scale, (case / 10) as u16, case % 5, case / 5 % 2 == 1)
    } else if case < HALVES + RANDOM / 2 {
        float(mixed(case))
    } else if case < HALVES + RANDOM {
        // from 1/8 to 2^8
        float(0x3e00_0000 + mixed(case) % 0x0580_0000)
    } else {
        float(EDGES[(case - HALVES - RANDOM) as usize])
    }
}

fn main() {
    let mut answers = Vec::new();
    let mut out = Vec::new();
    for bits in SCALES {
        let scale = float(bits);
        let inputs: Vec<f32> = (0..CASES).map(|case| input(scale, case)).collect();
        quantise(&inputs, scale, &mut out);
        answers.extend(
            out.iter()
                .map(|&v| v.unsigned_abs() + if v < 0 { 128 } else { 0 }),
        );
    }
    eprintln!("{} answers", answers.len());
    std::io::stdout().write_all(&answers).unwrap();
}
