//! quantise, the LDPC code and BCH.

use crate::time::{Pair, pair};
use harness::archive;
use harness::input::Plan;
use harness::lent::Lent;
use harness::random::Random;
use oracle::ldpc::fixed::quantise;
use std::hint::black_box;

/// n 44,880 with 60 rows and E 224,399. Unless `pairs`, no two addresses of a row are equal modulo q.
pub fn plan(r: &mut Random, pairs: bool) -> Plan {
    let lens: Vec<u32> = (0..60).map(|g| if g < 30 { 13 } else { 3 }).collect();
    let mut addrs = Vec::new();
    for &l in &lens {
        let mut layers = Vec::new();
        while layers.len() < l as usize {
            let layer = r.below(60);
            if pairs || !layers.contains(&layer) {
                layers.push(layer);
                addrs.push((layer + 60 * r.below(374)) as u16);
            }
        }
    }
    let plan = Plan {
        n: 44_880,
        lens,
        addrs,
    };
    assert_eq!((plan.refusal(), plan.shape().3), (0, 224_399));
    plan
}

fn line(name: &str, p: &Pair, goal: f64) {
    println!(
        "| {name} | {:.1} | {:.1} | {:.1} | {:.1} | {:.2} | {:.2} to {:.2} | {goal:.1} | {} |",
        p.ours.least * 1e6,
        p.ours.median * 1e6,
        p.theirs.least * 1e6,
        p.theirs.median * 1e6,
        p.ratio,
        p.low,
        p.high,
        if p.ratio >= goal { "met" } else { "missed" }
    );
}

pub fn bench() {
    let mut r = Random(7);
    println!(
        "| call | ours least, us | median | original least, us | median | ratio | quartiles of pairs | goal | |"
    );
    println!("|---|---|---|---|---|---|---|---|---|");

    let floats: Vec<f32> = (0..44_880).map(|_| r.normal() as f32 * 4.0).collect();
    let llr = Lent::of(&floats, &mut r);
    let mut out = Lent::filled(44_880, &mut r);
    let mut vec = Vec::new();
    let p = pair(
        200,
        4,
        || {
            black_box(archive::quantise(&llr, black_box(8.0), &mut out));
        },
        || quantise(&floats, black_box(8.0), black_box(&mut vec)),
    );
    line("quantise, 44,880 values", &p, 1.0);

    let plan = plan(&mut r, false);
    let table = plan.lent(&mut r);
    let code = plan.code();
    let info = r.bits(code.k());
    let lent = Lent::of(&info, &mut r);
    let mut word = Lent::filled(44_880, &mut r);
    let p = pair(
        200,
        4,
        || {
            black_box(archive::ldpc_encode(&table, &lent, &mut word));
        },
        || {
            black_box(code.encode(&info));
        },
    );
    line("ldpc encode, n 44,880, E 224,399", &p, 1.0);

    let mut lists = Lent::filled(plan.shape().1 + 1 + plan.shape().3, &mut r);
    let mut four = Lent::filled(4, &mut r);
    let p = pair(
        100,
        1,
        || {
            black_box(archive::ldpc_new(&table, &mut lists, &mut four));
        },
        || {
            black_box(plan.code());
        },
    );
    line("ldpc new, the same code", &p, 1.0);

    let bits = code.encode(&info);
    let lent = Lent::of(&bits, &mut r);
    let mut count = Lent::filled(1, &mut r);
    let p = pair(
        100,
        2,
        || {
            black_box(archive::ldpc_syndrome_weight(&table, &lent, &mut count));
        },
        || {
            black_box(code.syndrome_weight(&bits));
        },
    );
    line("ldpc syndrome_weight, the same code", &p, 1.0);

    // a word is decoded where it lies, so each call takes a fresh copy on both sides
    let message = r.bits(31_968 - 192);
    let right = oracle::bch::encode(&message);
    for (name, errors, turns, goal) in [
        ("bch decode, 31,968 bits, clean", 0, 20, 1.0),
        ("bch decode, one error", 1, 1, 5.0),
        ("bch decode, twelve errors", 12, 1, 5.0),
        ("bch decode, uncorrectable (14 errors)", 14, 1, 4.0),
    ] {
        let mut bytes = right.clone();
        for i in 0..errors {
            bytes[i * 2011 + 77] ^= 1;
        }
        let mut result = Lent::filled(1, &mut r);
        let mut ours = Lent::of(&bytes, &mut r);
        let mut theirs = bytes.clone();
        let p = pair(
            100,
            turns,
            || {
                ours.copy_from(&bytes);
                black_box(archive::bch_decode(&mut ours, &mut result));
            },
            || {
                theirs.copy_from_slice(&bytes);
                black_box(oracle::bch::decode(&mut theirs).is_ok());
            },
        );
        line(name, &p, goal);
    }
    let lent = Lent::of(&message, &mut r);
    let mut out = Lent::filled(192, &mut r);
    let p = pair(
        60,
        1,
        || {
            black_box(archive::bch_parity(&lent, &mut out));
        },
        || {
            black_box(oracle::bch::parity(&message));
        },
    );
    line("bch parity, 31,776 bits", &p, 20.0);
}
