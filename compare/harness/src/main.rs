//! Holds the archive to the original for a time, and says how much was seen. See docs/EVIDENCE.md.

use harness::input::Plan;
use harness::lent::EXACT;
use harness::random::Random;
use harness::{archive, bch, combine, ldpc, quantise, run, scope, window};
use std::process::exit;
use std::rc::Rc;
use std::sync::atomic::Ordering;
use std::time::{Duration, Instant};

const USAGE: &str = "harness [--seed N] [--seconds N] [--only quantise|ldpc|bch|run|window|combine] [--exact] [--selftest] [--largest] [--lengths]
  --exact     each lent slice is an allocation of its own, for a memory checker
  --selftest  spoil each result of the archive in turn, and see that it is found
  --largest   only the accepted code with the most edges, every function and four runs
  --lengths   only BCH parity and encode: messages of every length from 0 to 600, ten of each, of 500 random lengths and of 65,343;
              and combine: 1 to 8 words of every length from 0 to 600, and 8 of 44,880";

struct Seen {
    quantise: (u64, u64, u64),
    ldpc: ldpc::Counts,
    bch: bch::Counts,
    run: run::Counts,
    window: window::Counts,
    combine: combine::Counts,
}

fn fail(what: &str) -> ! {
    println!("DISAGREEMENT {what}");
    exit(1)
}

/// Calls that combine words, and runs of combined words, whose records are answered.
fn combined(r: &mut Random, counts: &mut combine::Counts) -> Vec<[u32; scope::RECORD]> {
    for _ in 0..200 {
        combine::compare(r, counts).unwrap_or_else(|e| fail(&e));
    }
    let plan = match r.below(100) {
        0 => Plan::long(r, 60),
        1..11 => Plan::random(r, 1),
        _ => {
            let units = r.within(2, 4);
            Plan::random(r, units)
        }
    };
    let (plan, code) = (Rc::new(plan.clone()), Rc::new(plan.code()));
    for _ in 0..4 {
        let case = combine::run(r, &plan, &code, counts).unwrap_or_else(|e| fail(&e));
        disagree(&case, &mut counts.runs);
    }
    std::mem::take(&mut counts.runs.records)
}

/// Some runs of one code.
fn runs(r: &mut Random, counts: &mut run::Counts) {
    let units = match r.below(800) {
        0 => 120,
        1..4 => r.within(10, 119),
        4..60 => 1,
        60..160 => r.within(5, 9),
        _ => r.within(2, 4),
    };
    let plan = if units == 120 && r.one_in(2) {
        let rows = r.within(10, 110);
        Plan::long(r, rows)
    } else {
        Plan::random(r, units)
    };
    let (plan, code) = (Rc::new(plan.clone()), Rc::new(plan.code()));
    for _ in 0..if units < 10 { 16 } else { 2 } {
        let case = if r.one_in(6) {
            run::faulty(r, &plan, &code)
        } else {
            run::case(r, &plan, &code)
        };
        disagree(&case, counts);
    }
}

fn disagree(case: &run::Case, counts: &mut run::Counts) {
    if let Err(e) = run::compare(case, counts, None) {
        let small = run::shrink(case);
        let told = run::compare(&small, &mut run::Counts::default(), None)
            .err()
            .unwrap_or_default();
        fail(&format!("run: {e}\nshrunk: {told}\n{}", run::text(&small)));
    }
}

fn tell(seen: &Seen, seed: u64, time: Duration) {
    let (q, l, b, u) = (&seen.quantise, &seen.ldpc, &seen.bch, &seen.run);
    println!("seed {seed}, {} s, no disagreement\n", time.as_secs());
    println!("| function | calls compared | of them refused | |\n|---|---|---|---|");
    println!("| `raxdov_quantise` | {} | {} | {} values |", q.0, q.2, q.1);
    println!(
        "| codes refused by 2 to 6 | {} | all | every `raxdov_ldpc_*` on each |",
        l.refused
    );
    println!(
        "| `raxdov_ldpc_sizes`, `new` | {}, {} | | |",
        l.sizes, l.new
    );
    println!("| `raxdov_ldpc_check` | {} | | |", l.check);
    println!(
        "| `raxdov_ldpc_parity`, `encode` | {}, {} | | |",
        l.parity, l.encode
    );
    println!("| `raxdov_ldpc_syndrome_weight` | {} | | |", l.weight);
    println!(
        "| `raxdov_bch_parity`, `encode` | {}, {} | | |",
        b.parity, b.encode
    );
    println!(
        "| `raxdov_bch_decode` | {} | {} (with parity and encode) | {} codewords; corrected by 1 to 12 bits: {:?}; uncorrectable: {} without flips of the original, {} with flips of the original taken back |",
        b.decode,
        b.refused,
        b.clean,
        &b.corrected[1..],
        b.no_flips,
        b.taken_back
    );
    let refused: u64 = u.refused[1..].iter().sum();
    println!(
        "| `raxdov_run` | {} | {refused} (by 2 to 13: {:?}) | {} words: {} met, {} unmet, {} held, {} waiting; {} kept, {} doubtful, {} lost, {} of them with flips of the original taken back, {} corrected by BCH; LDPC changed bits in {} finished and {} held words, and in {} BCH would alter that count; {} iterations, at most {} of a word; {} runs stopped by the round limit, {} layered |",
        u.runs,
        &u.refused[2..],
        u.words,
        u.met,
        u.unmet,
        u.held,
        u.waiting,
        u.kept,
        u.doubtful,
        u.lost,
        u.taken_back,
        u.bch_corrected,
        u.changed,
        u.changed_held,
        u.other_behind_bch,
        u.iterations,
        u.longest,
        u.stopped,
        u.layered
    );
    let w = &seen.window;
    println!(
        "| `raxdov_window_push` | {} | {} by 13, {} by 14 ({} of them with a ring that is too short as well) | {} series and {} altered windows; {} records passed over; {} records of doubtful words taken; {} after which the oldest left, in {} of them a doubtful word's; figures worked out afresh {} times; {} pushes of records of runs |",
        w.pushes,
        w.refused[0],
        w.refused[1],
        w.both,
        w.series,
        w.altered,
        w.passed,
        w.doubtful,
        w.full,
        w.doubtful_left,
        w.afresh,
        w.of_runs
    );
    let c = &seen.combine;
    println!(
        "| `raxdov_combine` | {} | {} by 13, {} by 15 ({} of them with an output that is too short as well, {} of lengths that add up, {} of lengths that do so modulo 2^32 only) | accepted with 1 to 8 words: {:?}; {} values, {} of them clamped, {} other ones if each word were; the words in another order {} times, a word of zeros more {} times; {} runs of {} combined words: {} met, {} unmet, {} held, {} waiting; {} kept, {} doubtful, {} lost; in {} the bits changed by LDPC would be another number against the first soft word |",
        c.calls,
        c.refused[0],
        c.refused[1],
        c.both,
        c.adding_up,
        c.wrapping,
        &c.words[1..],
        c.values,
        c.clamped,
        c.other_by_steps,
        c.orders,
        c.zeros,
        c.runs.runs,
        c.runs.words,
        c.runs.met,
        c.runs.unmet,
        c.runs.held,
        c.runs.waiting,
        c.runs.kept,
        c.runs.doubtful,
        c.runs.lost,
        c.runs.other_by_first
    );
    let at = |w: &u32| u.lanes.get(w).copied().unwrap_or(0);
    let lanes: Vec<String> = run::LANES[..8]
        .iter()
        .map(|w| format!("{w}: {}", at(w)))
        .collect();
    let other: u64 = u.lanes.values().sum::<u64>() - run::LANES[..8].iter().map(at).sum::<u64>();
    println!(
        "\naccepted runs by lanes: {}; others: {other}",
        lanes.join(", ")
    );
}

/// Parity and encode of messages of every length from 0 to 600, of random lengths, and of the longest; combined words of every length
/// from 0 to 600. None is refused.
fn lengths(r: &mut Random) {
    let mut counts = bch::Counts::default();
    let short = (0..=600).flat_map(|k| [k; 10]);
    let long: Vec<usize> = (0..500).map(|_| r.below(65_344)).collect();
    for k in short.chain(long).chain([65_343]) {
        bch::message(r, k, false, &mut counts).unwrap_or_else(|e| fail(&e));
    }
    println!(
        "messages of 0 to 600 bits, and up to 65,343: {} parities and {} codewords agree",
        counts.parity, counts.encode
    );
    let counts = combine::lengths(r).unwrap_or_else(|e| fail(&e));
    println!(
        "1 to 8 words of 0 to 600 values, and 8 of 44,880: {} combined words of {} values agree",
        counts.calls, counts.values
    );
}

/// Every function on the accepted code with the most edges, and runs of it.
fn largest(r: &mut Random) {
    let plan = Rc::new(Plan::largest());
    let code = Rc::new(plan.code());
    ldpc::functions(r, &plan, &mut ldpc::Counts::default()).unwrap_or_else(|e| fail(&e));
    println!(
        "largest code, E {}: every ldpc function agrees",
        plan.shape().3
    );
    for (lanes, layered, words) in [(1, 0, 2), (3, 1, 4), (16, 0, 17), (64, 1, 66)] {
        let mut case = run::case(r, &plan, &code);
        case.set = archive::Settings {
            lanes,
            layered,
            step: 187,
            limit: 2,
            offset: 1,
            rounds: u32::MAX,
            first: 0,
            length: 374 * 60,
        };
        case.soft = harness::input::soft(
            r,
            &code,
            words,
            harness::input::Kind::Noise(0.3),
            0,
            374 * 60,
        );
        case.lent = harness::scope::needs(plan.n, &plan.lens, &plan.addrs, words, lanes);
        let mut counts = run::Counts::default();
        disagree(&case, &mut counts);
        println!(
            "{words} words in {lanes} lanes, layered {layered}: {} met, {} unmet, {} iterations; agrees",
            counts.met, counts.unmet, counts.iterations
        );
    }
}

/// Each result of the archive spoilt in turn.
fn selftest(r: &mut Random) {
    let mut done = 0;
    while done < 20 {
        let units = r.within(2, 4);
        let plan = Rc::new(Plan::random(r, units));
        let code = Rc::new(plan.code());
        let mut case = run::case(r, &plan, &code);
        if case.soft.is_empty() {
            continue;
        }
        case.lent.out += 1;
        case.lent.records += 1;
        case.lent.work += 1;
        case.lent.lists += 1;
        disagree(&case, &mut run::Counts::default());
        for what in run::SPOILS {
            if run::compare(&case, &mut run::Counts::default(), Some(what)).is_ok() {
                fail(&format!(
                    "selftest: {what:?} was not found\n{}",
                    run::text(&case)
                ));
            }
        }
        done += 1;
    }
    println!(
        "selftest: {} spoilt results found in each of {done} runs",
        run::SPOILS.len()
    );
    let mut spoilt = 0;
    for _ in 0..20 {
        spoilt = window::selftest(r).unwrap_or_else(|e| fail(&e));
    }
    println!("selftest: {spoilt} spoilt results found in each of 20 pushes onto a full window");
    flips_left(r);
    doubtful_kept(r);
    let (wrong, most) = combine::selftest(r, 20).unwrap_or_else(|e| fail(&e));
    println!(
        "selftest: {wrong} wrong ways to combine found, each 20 times, after {most} calls at most"
    );
}

/// Twenty runs that have such words, each spoilt in this way, are found.
fn spoilt_runs(r: &mut Random, has: fn(&run::Counts) -> u64, what: run::Spoil, name: &str) {
    let mut done = 0;
    while done < 20 {
        let units = r.within(2, 4);
        let plan = Rc::new(Plan::random(r, units));
        let code = Rc::new(plan.code());
        let case = run::case(r, &plan, &code);
        let mut counts = run::Counts::default();
        disagree(&case, &mut counts);
        if has(&counts) == 0 {
            continue;
        }
        if run::compare(&case, &mut counts, Some(what)).is_ok() {
            fail(&format!("selftest: {name} not found\n{}", run::text(&case)));
        }
        done += 1;
    }
}

/// Doubtful words counted as kept ones, in runs that have some.
fn doubtful_kept(r: &mut Random) {
    let name = "doubtful words counted as kept";
    spoilt_runs(r, |c| c.doubtful, run::Spoil::DoubtfulKept, name);
    println!("selftest: {name} found in each of 20 runs");
}

/// The original's flips left in a lost word, of BCH alone and of a run.
fn flips_left(r: &mut Random) {
    bch::selftest(r, 20).unwrap_or_else(|e| fail(&e));
    let name = "flips left in a lost word";
    spoilt_runs(r, |c| c.taken_back, run::Spoil::Flips, name);
    println!(
        "selftest: the original's flips left in a lost word found in each of 20 BCH words and 20 runs"
    );
}

fn main() {
    let (mut seed, mut seconds, mut only) = (1u64, 60u64, String::new());
    let mut modes = Vec::new();
    let mut words = std::env::args().skip(1);
    while let Some(word) = words.next() {
        match word.as_str() {
            "--seed" => {
                seed = words
                    .next()
                    .and_then(|w| w.parse().ok())
                    .unwrap_or_else(|| panic!("{USAGE}"))
            }
            "--seconds" => {
                seconds = words
                    .next()
                    .and_then(|w| w.parse().ok())
                    .unwrap_or_else(|| panic!("{USAGE}"))
            }
            "--only" => only = words.next().unwrap_or_default(),
            "--exact" => EXACT.store(true, Ordering::Relaxed),
            "--selftest" | "--largest" | "--lengths" => modes.push(word),
            _ => {
                println!("{USAGE}");
                exit(2);
            }
        }
    }
    let mut r = Random(seed);
    if archive::record_words() != scope::RECORD as u32
        || archive::tally_words() != scope::TALLY as u32
        || archive::window_words() != scope::WINDOW as u32
    {
        fail("record_words, tally_words, window_words");
    }
    for mode in &modes {
        match mode.as_str() {
            "--selftest" => selftest(&mut r),
            "--largest" => largest(&mut r),
            "--lengths" => lengths(&mut r),
            _ => unreachable!(),
        }
    }
    if !modes.is_empty() {
        return;
    }
    let mut seen = Seen {
        quantise: (0, 0, 0),
        ldpc: ldpc::Counts::default(),
        bch: bch::Counts::default(),
        run: run::Counts::default(),
        window: window::Counts::default(),
        combine: combine::Counts::default(),
    };
    let mut over_runs = window::OverRuns::new(&mut r);
    let names = ["quantise", "ldpc", "bch", "run", "window", "combine"];
    let shares = [6.0, 10.0, 25.0, 50.0, 4.0, 5.0];
    let mut spent = [0.0f64; 6];
    let start = Instant::now();
    let mut told = start;
    while start.elapsed().as_secs() < seconds {
        let turn = match names.iter().position(|n| *n == only) {
            Some(i) => i,
            None => (0..6)
                .min_by(|&a, &b| (spent[a] / shares[a]).total_cmp(&(spent[b] / shares[b])))
                .unwrap(),
        };
        let began = Instant::now();
        match turn {
            0 => {
                let (values, refused) = quantise::compare(&mut r).unwrap_or_else(|e| fail(&e));
                seen.quantise.0 += 1;
                seen.quantise.1 += values as u64;
                seen.quantise.2 += u64::from(refused);
            }
            1 => ldpc::compare(&mut r, &mut seen.ldpc).unwrap_or_else(|e| fail(&e)),
            2 => bch::compare(&mut r, &mut seen.bch).unwrap_or_else(|e| fail(&e)),
            3 => {
                runs(&mut r, &mut seen.run);
                let records = std::mem::take(&mut seen.run.records);
                over_runs
                    .take(&mut r, &records, &mut seen.window)
                    .unwrap_or_else(|e| fail(&e));
            }
            4 => window::compare(&mut r, &mut seen.window).unwrap_or_else(|e| fail(&e)),
            _ => {
                let records = combined(&mut r, &mut seen.combine);
                over_runs
                    .take(&mut r, &records, &mut seen.window)
                    .unwrap_or_else(|e| fail(&e));
            }
        }
        spent[turn] += began.elapsed().as_secs_f64();
        if told.elapsed().as_secs() >= 10 {
            told = Instant::now();
            eprintln!(
                "{:>5} s: {} quantise, {} codes, {} BCH words, {} runs of {} words, {} pushes, {} calls of combine",
                start.elapsed().as_secs(),
                seen.quantise.0,
                seen.ldpc.new + seen.ldpc.refused,
                seen.bch.decode,
                seen.run.runs,
                seen.run.words,
                seen.window.pushes,
                seen.combine.calls
            );
        }
    }
    tell(&seen, seed, start.elapsed());
}
