//! Polynomials over two elements, a byte for each coefficient: x^0 first.

use crate::bch::{PARITY, TABLE_3_4_1};

pub type Poly = Vec<u8>;

pub fn times(a: &[u8], b: &[u8]) -> Poly {
    let mut out = vec![0; a.len() + b.len() - 1];
    for (i, &x) in a.iter().enumerate() {
        for (j, &y) in b.iter().enumerate() {
            out[i + j] ^= x & y;
        }
    }
    out
}

/// The product of the first entries of the table.
pub fn product(entries: usize) -> Poly {
    TABLE_3_4_1[..entries].iter().fold(vec![1], |g, exponents| {
        let mut f = vec![0; 17];
        for &e in *exponents {
            f[e as usize] = 1;
        }
        times(&g, &f)
    })
}

/// x^p mod g.
pub fn power(p: u32) -> Poly {
    let g = product(12);
    let mut r = vec![0; PARITY];
    r[0] = 1;
    for _ in 0..p {
        let top = r[PARITY - 1];
        r.rotate_right(1);
        r[0] = 0;
        for (x, &c) in r.iter_mut().zip(&g) {
            *x ^= top & c;
        }
    }
    r
}

pub fn add(a: &mut [u8], b: &[u8]) {
    for (x, y) in a.iter_mut().zip(b) {
        *x ^= y;
    }
}
