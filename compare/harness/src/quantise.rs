//! `raxdov_quantise` against the original's.

use crate::archive;
use crate::lent::{Lent, same};
use crate::random::Random;
use oracle::ldpc::fixed::quantise;

/// A float of each kind: any bits, a half and its neighbours divided by the scale, small ones, zeros, extremes.
fn float(r: &mut Random, scale: f32) -> f32 {
    match r.below(6) {
        0 => f32::from_bits(r.next() as u32),
        1 | 2 => {
            let half = (r.below(262) as f32 - 131.0) + 0.5;
            let x = half / scale;
            f32::from_bits(x.to_bits().wrapping_add(r.below(5) as u32).wrapping_sub(2))
        }
        3 => {
            (r.unit() as f32 - 0.5) * 300.0
                / if scale == 0.0 || !scale.is_finite() {
                    1.0
                } else {
                    scale
                }
        }
        4 => r.pick(&[
            0.0,
            -0.0,
            f32::MIN_POSITIVE,
            1e-45,
            f32::MAX,
            f32::MIN,
            f32::INFINITY,
            f32::NEG_INFINITY,
            f32::NAN,
        ]),
        _ => r.normal() as f32 * 4.0,
    }
}

/// One call; how many values it had, and whether it was refused.
pub fn compare(r: &mut Random) -> Result<(usize, bool), String> {
    let scale = match r.below(8) {
        0 => f32::from_bits(r.next() as u32),
        1 => r.pick(&[
            0.0,
            -0.0,
            f32::INFINITY,
            f32::NAN,
            1e-45,
            f32::MAX,
            f32::MIN_POSITIVE,
        ]),
        2 => -1.0,
        _ => r.pick(&[1.0, 0.5, 6.0, 0.1, 1.0 / 3.0, 12.75, 8.0, 2.5]),
    };
    let n = if r.one_in(20) {
        r.below(50_000)
    } else {
        r.below(300)
    };
    let values: Vec<f32> = (0..n).map(|_| float(r, scale)).collect();
    let llr = Lent::of(&values, r);
    let size = if r.one_in(8) {
        r.below(n + 1)
    } else {
        n + r.below(40)
    };
    let mut out = Lent::filled(size, r);
    let got = archive::quantise(&llr, scale, &mut out);
    let tell = |e: String| {
        format!(
            "quantise: {e}; scale bits {:08x}, {n} floats, output of {size}: {values:?}",
            scale.to_bits()
        )
    };
    let refused = size < n;
    same("answer", got, if refused { 13 } else { 0 }).map_err(tell)?;
    if refused {
        out.unchanged("out").map_err(tell)?;
    } else {
        let mut wanted = Vec::new();
        quantise(&values, scale, &mut wanted);
        out.holds("out", &wanted, n).map_err(tell)?;
    }
    if !llr.guarded()
        || llr
            .now()
            .iter()
            .zip(llr.was())
            .any(|(a, b)| a.to_bits() != b.to_bits())
    {
        return Err(tell("llr: written".into()));
    }
    Ok((n, refused))
}
