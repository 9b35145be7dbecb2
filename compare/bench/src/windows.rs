//! A record more in a window, at several widths: the archive alone.

use crate::time::in_turn;
use harness::archive::{LOST, window_push_all};
use harness::random::Random;
use harness::scope::WINDOW;

const RECORDS: usize = 20_000;
const TURNS: usize = 20;
const WIDTHS: [u32; 5] = [1, 8, 64, 512, 4096];

/// Records as runs write them, a tenth of them lost, so many in 100 unfinished.
fn records(r: &mut Random, unfinished: usize) -> Vec<[u32; 6]> {
    let one = |_| {
        let state = match r.below(100) < unfinished {
            true => r.below(2),
            false => 2 + r.below(2),
        };
        let bch = if r.one_in(10) {
            LOST
        } else {
            r.below(13) as u32
        };
        [state as u32, r.below(51) as u32, 0, 0, bch, 0]
    };
    (0..RECORDS).map(one).collect()
}

/// Least and median of the nanoseconds a record, for each width; each window is full before the first sample.
fn times(records: &[[u32; 6]]) -> Vec<(f64, f64)> {
    let mut sides: Vec<_> = WIDTHS
        .iter()
        .map(|&width| {
            let (mut window, mut ring) = ([0; WINDOW], vec![0; 3 * width as usize]);
            move || {
                for _ in 0..TURNS {
                    assert!(window_push_all(width, &mut window, records, &mut ring));
                }
            }
        })
        .collect();
    let each = 1e9 / (TURNS * RECORDS) as f64;
    in_turn(101, &mut sides)
        .iter()
        .map(|t| (t.least * each, t.median * each))
        .collect()
}

pub fn bench() {
    let mut r = Random(13);
    let kinds = [0, 10, 100].map(|unfinished| times(&records(&mut r, unfinished)));
    println!(
        "| width | all finished: least, ns a record | median | a tenth unfinished: least | median | none finished: least | median |"
    );
    println!("|---|---|---|---|---|---|---|");
    for (i, width) in WIDTHS.iter().enumerate() {
        let cells = kinds
            .iter()
            .map(|of| format!("{:.2} | {:.2}", of[i].0, of[i].1));
        println!("| {width} | {} |", cells.collect::<Vec<_>>().join(" | "));
    }
}
