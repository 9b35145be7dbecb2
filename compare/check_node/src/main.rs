//! Milliseconds of a round of all lanes: the original's and the proved one's, on the same words.
//! Verdicts are compared after every round, values and messages after every repetition.

include!(concat!(env!("OUT_DIR"), "/original.rs"));

use ldpc::Code;
use ldpc::fixed::inside::{Lanes, row_start, rows};
use std::time::Instant;

const N: usize = 44_880;
const ROWS: usize = 100;
const OFFSET: i8 = 1;
/// How long the table of the rows' edges is, `fixed_conflicts::SPANS`.
const SPANS: usize = 14_520;

unsafe extern "C" {
    fn bench_check_node(
        rows: *const u32,
        rows_len: usize,
        s: usize,
        d: usize,
        a: *mut i8,
        a_len: usize,
        t: *mut i8,
        t_len: usize,
        u: *mut i8,
        u_len: usize,
        n: usize,
        lanes: usize,
        offset: i8,
    );
    fn bench_sequential(
        lists: *const u32,
        lists_len: usize,
        work: *mut i8,
        work_len: usize,
        n: usize,
        p: usize,
        lanes: usize,
        offset: i8,
    );
    fn bench_spans(
        n: u32,
        lens: *const u32,
        lens_len: usize,
        addrs: *const u16,
        addrs_len: usize,
        spans: *mut u8,
        spans_len: usize,
    );
    fn bench_layered(
        n: u32,
        lens: *const u32,
        lens_len: usize,
        addrs: *const u16,
        addrs_len: usize,
        spans: *const u8,
        spans_len: usize,
        lists: *const u32,
        lists_len: usize,
        work: *mut i8,
        work_len: usize,
        sums: *mut i32,
        sums_len: usize,
        lanes: usize,
        offset: i8,
        step: usize,
    );
    fn bench_met(
        lists: *const u32,
        lists_len: usize,
        work: *const i8,
        work_len: usize,
        n: usize,
        p: usize,
        lanes: usize,
        held: *const bool,
        out: *mut bool,
    );
}

struct Random(u64);

impl Random {
    fn next(&mut self) -> u64 {
        self.0 ^= self.0 << 13;
        self.0 ^= self.0 >> 7;
        self.0 ^= self.0 << 17;
        self.0 >> 24
    }
}

/// How a table's addresses are chosen: in `pairs` rows the last address equals the first modulo q, and
/// else the addresses of a row differ modulo q, so that no variable has two edges in a layer; or all at
/// random.
#[derive(Clone, Copy)]
enum Kind {
    Pairs(usize),
    Random,
}

/// 60 rows of 6 addresses and 40 of 5.
struct Table {
    lens: Vec<u32>,
    addrs: Vec<u16>,
    code: Code,
    lists: Vec<u32>,
    spans: Vec<u8>,
}

impl Table {
    fn new(kind: Kind) -> Self {
        let p = N - 374 * ROWS;
        let q = p / 374;
        let mut random = Random(0x9E37_79B9_7F4A_7C15);
        let mut table: Vec<Vec<u16>> = Vec::new();
        for g in 0..ROWS {
            let mut row: Vec<u16> = Vec::new();
            let len = if g < 60 { 6 } else { 5 };
            while row.len() < len {
                let a = (random.next() as usize % p) as u16;
                let same = |b: &u16| usize::from(a) % q == usize::from(*b) % q;
                let fits = match kind {
                    Kind::Pairs(pairs) if g < pairs && row.len() + 1 == len => same(&row[0]),
                    Kind::Pairs(_) => !row.iter().any(same),
                    Kind::Random => true,
                };
                if fits {
                    row.push(a);
                }
            }
            table.push(row);
        }
        let lent: Vec<&[u16]> = table.iter().map(|row| row.as_slice()).collect();
        let code = Code::new(N, &lent);
        let mut lists = row_start(&code).to_vec();
        lists.extend_from_slice(rows(&code));
        let lens: Vec<u32> = table.iter().map(|row| row.len() as u32).collect();
        let addrs: Vec<u16> = table.concat();
        let mut spans = vec![0; SPANS];
        unsafe {
            bench_spans(
                N as u32,
                lens.as_ptr(),
                lens.len(),
                addrs.as_ptr(),
                addrs.len(),
                spans.as_mut_ptr(),
                spans.len(),
            );
        }
        Self {
            lens,
            addrs,
            code,
            lists,
            spans,
        }
    }

    fn p(&self) -> usize {
        self.code.checks()
    }

    fn edges(&self) -> usize {
        rows(&self.code).len()
    }
}

fn least(best: &mut f64, since: Instant) {
    *best = best.min(since.elapsed().as_secs_f64() * 1e3);
}

struct Ours<'a> {
    table: &'a Table,
    lanes: usize,
    work: Vec<i8>,
    sums: Vec<i32>,
}

impl<'a> Ours<'a> {
    fn new(table: &'a Table, lanes: usize) -> Self {
        Self {
            table,
            lanes,
            work: vec![0; (N + 3 * table.edges()) * lanes],
            sums: vec![0; 374 * lanes],
        }
    }

    fn iterate(&mut self, step: Option<usize>) {
        let (i, w, t) = (&self.table.lists, &mut self.work, self.table);
        unsafe {
            match step {
                None => bench_sequential(
                    i.as_ptr(),
                    i.len(),
                    w.as_mut_ptr(),
                    w.len(),
                    N,
                    t.p(),
                    self.lanes,
                    OFFSET,
                ),
                Some(step) => bench_layered(
                    N as u32,
                    t.lens.as_ptr(),
                    t.lens.len(),
                    t.addrs.as_ptr(),
                    t.addrs.len(),
                    t.spans.as_ptr(),
                    t.spans.len(),
                    i.as_ptr(),
                    i.len(),
                    w.as_mut_ptr(),
                    w.len(),
                    self.sums.as_mut_ptr(),
                    self.sums.len(),
                    self.lanes,
                    OFFSET,
                    step,
                ),
            }
        }
    }

    fn met(&self) -> [bool; 64] {
        let held: [bool; 64] = std::array::from_fn(|i| i < self.lanes);
        let mut out = [false; 64];
        let (i, w) = (&self.table.lists, &self.work);
        unsafe {
            bench_met(
                i.as_ptr(),
                i.len(),
                w.as_ptr(),
                w.len(),
                N,
                self.table.p(),
                self.lanes,
                held.as_ptr(),
                out.as_mut_ptr(),
            );
        }
        out
    }

    fn checks(&mut self, t: &mut [i8], u: &mut [i8]) {
        let (r, w) = (rows(&self.table.code), &mut self.work);
        for c in row_start(&self.table.code).windows(2) {
            let (s, e) = (c[0] as usize, c[1] as usize);
            unsafe {
                bench_check_node(
                    r.as_ptr(),
                    r.len(),
                    s,
                    e - s,
                    w.as_mut_ptr(),
                    w.len(),
                    t.as_mut_ptr(),
                    t.len(),
                    u.as_mut_ptr(),
                    u.len(),
                    N,
                    self.lanes,
                    OFFSET,
                );
            }
        }
    }
}

/// Soft values near the word of zeros, which is a codeword; with noise, or without.
fn start<const W: usize>(theirs: &mut Lanes<W>, ours: &mut Ours, noise: bool, seed: u64) {
    let mut random = Random(seed);
    ours.work.fill(0);
    for v in 0..N {
        for i in 0..W {
            let x = if noise {
                (random.next() % 41) as i8 - 12
            } else {
                9
            };
            theirs.l[v].0[i] = x;
            ours.work[v * W + i] = x;
        }
    }
    for r in &mut theirs.r {
        r.0 = [0; W];
    }
}

fn same<const W: usize>(theirs: &Lanes<W>, ours: &Ours) {
    for (v, l) in theirs.l.iter().enumerate() {
        assert_eq!(l.0, ours.work[v * W..(v + 1) * W], "value {v}");
    }
    for (e, r) in theirs.r.iter().enumerate() {
        assert_eq!(r.0, ours.work[(N + e) * W..(N + e + 1) * W], "message {e}");
    }
}

/// One line: the original's round, ours, our iteration alone, our verdict while no word is met, our
/// verdict on words that are all met.
fn rounds<const W: usize>(table: &Table, step: Option<usize>, reps: u64, its: usize) {
    let mut theirs = Lanes::<W>::new(&table.code);
    theirs.prepare(&table.code, step);
    let mut ours = Ours::new(table, W);
    let [mut rust, mut round, mut iteration, mut unmet, mut met] = [f64::MAX; 5];
    for rep in 0..reps {
        start(&mut theirs, &mut ours, true, 0x0123_4567_89AB_CDEF + rep);
        let mut sats = Vec::new();
        for _ in 0..its {
            let t = Instant::now();
            let (sat, _) = theirs.round(&table.code, OFFSET, step);
            least(&mut rust, t);
            sats.push(sat);
        }
        for sat in sats {
            let t = Instant::now();
            ours.iterate(step);
            least(&mut iteration, t);
            let u = Instant::now();
            let verdict = ours.met();
            least(&mut unmet, u);
            least(&mut round, t);
            assert_eq!(verdict[..W], sat);
            assert!(verdict[W..].iter().all(|m| !m));
        }
        same(&theirs, &ours);
        start(&mut theirs, &mut ours, false, 1);
        let t = Instant::now();
        let verdict = ours.met();
        least(&mut met, t);
        assert!(verdict[..W].iter().all(|m| *m));
    }
    let name = step.map_or("sequential".to_string(), |s| format!("layered {s}"));
    println!(
        "| {name} | {W} | {rust:.3} | {round:.3} | {:.2} | {iteration:.3} | {unmet:.4} | {met:.3} | {:.2} | {:.0} | {:.0} |",
        rust / round,
        rust / (iteration + met),
        W as f64 / rust * 1e3,
        W as f64 / round * 1e3,
    );
}

fn check_nodes<const W: usize>(table: &Table, reps: u64, its: usize) {
    let mut theirs = Lanes::<W>::new(&table.code);
    let mut ours = Ours::new(table, W);
    let (mut t16, mut u16) = (vec![0i8; 2048], vec![0i8; 2048]);
    let [mut rust, mut node] = [f64::MAX; 2];
    for rep in 0..reps {
        start(&mut theirs, &mut ours, true, 0x0FED_CBA9_8765_4321 + rep);
        for _ in 0..its {
            let t = Instant::now();
            theirs.checks(&table.code, OFFSET);
            least(&mut rust, t);
        }
        for _ in 0..its {
            let t = Instant::now();
            ours.checks(&mut t16, &mut u16);
            least(&mut node, t);
        }
        same(&theirs, &ours);
    }
    println!("| {W} | {rust:.3} | {node:.3} | {:.2} |", rust / node);
}

fn all<const W: usize>(table: &Table, steps: &[Option<usize>], reps: u64, lanes: usize) {
    if lanes == 0 || lanes == W {
        for step in steps {
            rounds::<W>(table, *step, reps, 4);
        }
    }
}

fn main() {
    let reps: u64 = std::env::args().nth(1).map_or(5, |s| s.parse().unwrap());
    let only = std::env::args().nth(2).unwrap_or_default();
    let lanes: usize = std::env::args().nth(3).map_or(0, |s| s.parse().unwrap());
    let tables = [
        ("spread", Table::new(Kind::Pairs(0))),
        ("four_pairs", Table::new(Kind::Pairs(4))),
        ("random", Table::new(Kind::Random)),
    ];
    let spread = &tables[0].1;
    println!(
        "n {N}, P {}, q {}, E {}",
        spread.p(),
        spread.code.q(),
        spread.edges()
    );
    if only.is_empty() || only == "nodes" {
        println!("| lanes | the original's check_node | ours | times as fast |\n|---|---|---|---|");
        check_nodes::<1>(spread, reps, 4);
        check_nodes::<8>(spread, reps, 4);
        check_nodes::<16>(spread, reps, 4);
        check_nodes::<32>(spread, reps, 4);
        check_nodes::<64>(spread, reps, 4);
    }
    for (name, table) in &tables {
        if !only.is_empty() && only != *name {
            continue;
        }
        println!(
            "\n{name}\n| schedule | lanes | the original's round | ours | times as fast | iteration | verdict, none met | verdict, all met | times as fast, all met | the original's word-iterations/s | ours |\n|---|---|---|---|---|---|---|---|---|---|---|"
        );
        let steps = [None, Some(34), Some(374)];
        let steps = if *name == "spread" {
            &steps[..]
        } else {
            &steps[1..]
        };
        all::<1>(table, steps, reps, lanes);
        all::<8>(table, steps, reps, lanes);
        all::<16>(table, steps, reps, lanes);
        all::<32>(table, steps, reps, lanes);
        all::<64>(table, steps, reps, lanes);
    }
}
