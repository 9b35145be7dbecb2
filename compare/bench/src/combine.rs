//! Soft words combined into one, beside a copy of as many bytes: the archive alone.

use crate::time::pair;
use harness::archive::combine;
use harness::lent::Lent;
use harness::random::Random;
use std::hint::black_box;

const N: usize = 44_880;

/// Words, and how many times a copy's time they may take, where a goal was set.
const GOALS: [(usize, Option<f64>); 4] = [(1, None), (2, None), (4, None), (8, Some(3.0))];

pub fn bench() {
    let mut r = Random(17);
    println!(
        "| words | bytes | combined: least, us | median | copied: least, us | median | times a copy's time | quartiles of pairs | at most | |"
    );
    println!("|---|---|---|---|---|---|---|---|---|---|");
    for (count, goal) in GOALS {
        let lengths = Lent::of(&vec![N as u32; count], &mut r);
        let soft = Lent::<i8>::filled(count * N, &mut r);
        let mut out = Lent::filled(N, &mut r);
        let mut copy = vec![0; count * N];
        // the ratio is the second side's time over the first's
        let p = pair(
            401,
            10,
            || black_box(&mut copy).copy_from_slice(black_box(soft.now())),
            || assert_eq!(combine(&lengths, &soft, &mut out), 0),
        );
        let goal = match goal {
            None => "- |".into(),
            Some(most) if p.ratio <= most => format!("{most:.1} | met"),
            Some(most) => format!("{most:.1} | missed"),
        };
        println!(
            "| {count} | {} | {:.2} | {:.2} | {:.2} | {:.2} | {:.2} | {:.2} to {:.2} | {goal} |",
            count * N,
            p.theirs.least * 1e6,
            p.theirs.median * 1e6,
            p.ours.least * 1e6,
            p.ours.median * 1e6,
            p.ratio,
            p.low,
            p.high,
        );
    }
}
