//! Writes what the original's `Code` answers for the codes that `crates/vectors_ldpc` makes from seeds. The rule of the
//! codes, the words and the checksums is the same there and here.

use oracle::ldpc::Code;

fn next(x: u64) -> u64 {
    ((x % 2147483648) * 1103515245 + 12345) % 2147483648
}

fn draw(x: u64, m: u64) -> u64 {
    if m == 0 { 0 } else { x / 65536 % m }
}

fn mix(h: u64, v: u32) -> u64 {
    ((h % 4294967296) * 31 + u64::from(v) + 1) % 4294967291
}

fn mix_words(h: u64, s: &[u32]) -> u64 {
    s.iter().fold(h, |h, &v| mix(h, v))
}

fn mix_bytes(h: u64, s: &[u8]) -> u64 {
    s.iter().fold(h, |h, &v| mix(h, u32::from(v)))
}

/// One address in four repeats the one before, one is P further and one is q further.
fn address(x: u64, before: u32, p: u32, q: u32) -> u32 {
    match draw(x, 4) {
        1 => before,
        2 => (before + p) % 65536,
        3 => (before + q) % 65536,
        _ => (draw(next(next(x)), 256) * 256 + draw(next(x), 256)) as u32,
    }
}

fn bytes(len: usize, seed: u64) -> (Vec<u8>, u64) {
    let mut x = seed;
    let mut s = Vec::new();
    for _ in 0..len {
        x = next(x);
        s.push(draw(x, 256) as u8);
    }
    (s, x)
}

fn flip(s: &mut [u8], x: u64) {
    let at = draw(x, s.len() as u64) as usize;
    s[at] ^= 1;
}

fn replay(seed: u64, units: usize, rows: usize, most: u64) {
    let n = 374 * units;
    let mut x = seed;
    let lens: Vec<usize> = (0..rows)
        .map(|_| {
            x = next(x);
            draw(x, most) as usize
        })
        .collect();
    let p = (n - 374 * rows) as u32;
    let mut a = 0;
    let addrs: Vec<u16> = (0..lens.iter().sum::<usize>())
        .map(|_| {
            x = next(next(next(x)));
            a = address(x, a, p, p / 374);
            a as u16
        })
        .collect();
    let mut rest = &addrs[..];
    let mut table: Vec<&[u16]> = Vec::new();
    for &l in &lens {
        let (row, after) = rest.split_at(l);
        table.push(row);
        rest = after;
    }
    let code = Code::new(n, &table);
    let mut row_start = vec![0u32];
    let mut lists: Vec<u32> = Vec::new();
    let mut checks = 0;
    for c in 0..code.checks() {
        let list = code.check(c);
        lists.extend_from_slice(list);
        row_start.push(lists.len() as u32);
        checks = mix_words(mix(checks, list.len() as u32), list);
    }
    let built = mix_words(mix_words(0, &row_start), &lists);
    let (info, y) = bytes(code.k(), x);
    let parity = code.parity(&info);
    let mut word = code.encode(&info);
    let (q, e) = (code.q(), lists.len());
    print!("{seed} {n} {rows} {} {} {p} {q} {e} {built} {checks} ", addrs.len(), code.k());
    print!("{} {} {} ", mix_bytes(0, &parity), mix_bytes(0, &word), code.syndrome_weight(&word));
    flip(&mut word, y);
    flip(&mut word, next(y));
    flip(&mut word, next(next(y)));
    println!("{} {} ", code.syndrome_weight(&word), code.syndrome_weight(&bytes(n, y).0));
}

fn main() {
    for t in 0..70u64 {
        let x = next(next(t * 7919 + 1));
        let y = next(x);
        if t < 6 {
            replay(t, t as usize + 1, 0, t);
        } else if t < 68 {
            let units = 2 + draw(x, 5);
            replay(t, units as usize, 1 + draw(y, units - 1) as usize, 2 + draw(next(y), 12));
        } else {
            replay(t, 120, (41 + (t - 68) * 48) as usize, 12);
        }
    }
    eprintln!("70 codes");
}
