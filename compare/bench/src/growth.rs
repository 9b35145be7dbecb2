//! How a run's time grows with words, edges and iterations: the archive alone, each over a factor of 16.

use crate::runs::space;
use crate::time::alone;
use harness::archive::{self, Settings};
use harness::input::{self, Kind, Plan};
use harness::lent::Lent;
use harness::random::Random;

/// n 44,880 with 60 rows of so many addresses, no two of a row equal modulo q, which is 60.
fn plan(r: &mut Random, each: usize) -> Plan {
    let mut addrs = Vec::new();
    for _ in 0..60 {
        let mut layers = Vec::new();
        while layers.len() < each {
            let layer = r.below(60);
            if !layers.contains(&layer) {
                layers.push(layer);
                addrs.push((layer + 60 * r.below(374)) as u16);
            }
        }
    }
    let plan = Plan {
        n: 44_880,
        lens: vec![each as u32; 60],
        addrs,
    };
    assert_eq!(plan.refusal(), 0);
    plan
}

/// Milliseconds of a run in 16 lanes of words that don't converge.
fn run(r: &mut Random, plan: &Plan, words: usize, limit: u32, step: u32) -> f64 {
    let table = plan.lent(r);
    let soft = input::soft(r, &plan.code(), words, Kind::Random, 0, 193);
    let set = Settings {
        lanes: 16,
        limit,
        layered: u32::from(step > 0),
        step,
        offset: 1,
        rounds: u32::MAX,
        first: 0,
        length: 193,
    };
    let mut to = space(r, &table, words, 16);
    let lent = Lent::of(&soft, r);
    alone(5, || {
        assert_eq!(archive::run(&table, &lent, set, &mut to), 0)
    })
    .least
        * 1e3
}

fn line(what: &str, of: usize, count: usize, a: f64, b: f64) {
    let (x, y) = (a * 1e3 / count as f64, b * 1e3 / count as f64);
    println!("| {what} | {of} | {a:.1} | {x:.3} | {b:.1} | {y:.3} |");
}

pub fn bench() {
    let mut r = Random(11);
    println!("| | | sequential, ms | us for one | layered 374, ms | us for one |");
    println!("|---|---|---|---|---|---|");
    let usual = plan(&mut r, 8);
    for words in [16, 32, 64, 128, 256] {
        let a = run(&mut r, &usual, words, 4, 0);
        let b = run(&mut r, &usual, words, 4, 374);
        line("words", words, words, a, b);
    }
    for each in [1, 3, 10, 22, 46] {
        let code = plan(&mut r, each);
        let edges = code.shape().3;
        let a = run(&mut r, &code, 16, 8, 0);
        let b = run(&mut r, &code, 16, 8, 374);
        line("edges", edges, edges, a, b);
    }
    for limit in [4, 8, 16, 32, 64] {
        let a = run(&mut r, &usual, 16, limit, 0);
        let b = run(&mut r, &usual, 16, limit, 374);
        line("iterations", limit as usize, limit as usize, a, b);
    }
}
