//! `raxdov_run` against the original's `decode_all`, and its `decode_all_traced` where the round limit stops a run. What the original
//! does not have, refusals and the round rule, is held to the scope (scope.rs).

use crate::archive::{self, LOST, Settings, Space};
use crate::input::{self, Kind, Plan};
use crate::ldpc::spoilt;
use crate::lent::{Lent, same};
use crate::random::Random;
use crate::scope::{self, Lengths, RECORD, Rounds, Status, TALLY};
use oracle::decode_or_leave;
use oracle::ldpc::Code;
use oracle::ldpc::fixed::{Decoder, LaneResult, Params, Schedule};
use std::collections::BTreeMap;
use std::fmt::Write;
use std::rc::Rc;

/// The lane counts that the original is compiled for.
pub const LANES: [u32; 10] = [1, 2, 3, 4, 8, 16, 32, 64, 7, 33];

#[derive(Default)]
pub struct Counts {
    pub runs: u64,
    pub words: u64,
    pub met: u64,
    pub unmet: u64,
    pub held: u64,
    pub waiting: u64,
    pub kept: u64,
    pub doubtful: u64,
    pub lost: u64,
    /// Lost words with flips of the original taken back.
    pub taken_back: u64,
    pub bch_corrected: u64,
    /// Finished and held words with bits changed by LDPC, and finished ones whose count would be another behind BCH.
    pub changed: u64,
    pub changed_held: u64,
    pub other_behind_bch: u64,
    /// Words combined of several whose count would be another against the first of them.
    pub other_by_first: u64,
    pub iterations: u64,
    pub stopped: u64,
    pub layered: u64,
    pub refused: [u64; 14],
    pub lanes: BTreeMap<u32, u64>,
    pub longest: u64,
    /// Records that accepted runs wrote, in their order, for the windows over them.
    pub records: Vec<[u32; RECORD]>,
}

/// One run.
#[derive(Clone)]
pub struct Case {
    pub plan: Rc<Plan>,
    /// The original's code, of an accepted plan.
    pub code: Option<Rc<Code>>,
    pub soft: Vec<i8>,
    /// The first of the soft words of which each word of `soft` is combined; nothing if they are not combined.
    pub first_words: Vec<i8>,
    pub set: Settings,
    pub lent: Lengths,
    pub fill: u64,
}

/// A field spoilt after the archive's run, to see that the comparison finds it.
#[derive(Clone, Copy, Debug)]
pub enum Spoil {
    Answer,
    Out,
    OutTail,
    State,
    Iterations,
    Unsatisfied,
    Check,
    Bch,
    Changed,
    ChangedLast,
    RecordsTail,
    Tally(usize),
    Ending,
    Work,
    WorkTail,
    Lists,
    IndexTail,
    GuardBefore,
    GuardBehind,
    Soft,
    /// The original's flips in lost words; not in `SPOILS`, as most runs have no such word.
    Flips,
    /// Doubtful words counted as kept ones; not in `SPOILS` either.
    DoubtfulKept,
}

pub const SPOILS: [Spoil; 25] = [
    Spoil::Answer,
    Spoil::Out,
    Spoil::OutTail,
    Spoil::State,
    Spoil::Iterations,
    Spoil::Unsatisfied,
    Spoil::Check,
    Spoil::Bch,
    Spoil::Changed,
    Spoil::ChangedLast,
    Spoil::RecordsTail,
    Spoil::Tally(0),
    Spoil::Tally(1),
    Spoil::Tally(2),
    Spoil::Tally(3),
    Spoil::Tally(4),
    Spoil::Tally(5),
    Spoil::Ending,
    Spoil::Work,
    Spoil::WorkTail,
    Spoil::Lists,
    Spoil::IndexTail,
    Spoil::GuardBefore,
    Spoil::GuardBehind,
    Spoil::Soft,
];

fn spoil(what: Spoil, case: &Case, answer: &mut u32, soft: &mut Lent<i8>, to: &mut Space) {
    let need = scope::needs(
        case.plan.n,
        &case.plan.lens,
        &case.plan.addrs,
        case.soft.len() / case.plan.n as usize,
        case.set.lanes,
    );
    match what {
        Spoil::Answer => *answer ^= 1,
        Spoil::Out => to
            .out
            .spoil(need.out as isize / 2, to.out.now()[need.out / 2] ^ 1),
        Spoil::OutTail => to.out.spoil(need.out as isize, to.out.now()[need.out] ^ 1),
        Spoil::State => to.records.spoil(0, to.records.now()[0] ^ 1),
        Spoil::Iterations => to.records.spoil(1, to.records.now()[1] + 1),
        Spoil::Unsatisfied => to.records.spoil(2, to.records.now()[2] + 1),
        Spoil::Check => to.records.spoil(3, u32::MAX),
        Spoil::Bch => to.records.spoil(4, to.records.now()[4] ^ 1),
        Spoil::Changed => to.records.spoil(5, to.records.now()[5] + 1),
        // of the last word, which may be waiting
        Spoil::ChangedLast => to.records.spoil(
            need.records as isize - 1,
            to.records.now()[need.records - 1] ^ 1,
        ),
        Spoil::RecordsTail => to
            .records
            .spoil(need.records as isize, to.records.now()[need.records] ^ 1),
        Spoil::Tally(i) => to.tally.spoil(i as isize, to.tally.now()[i] + 1),
        Spoil::Ending => to.ending.spoil(0, to.ending.now()[0] ^ 1),
        Spoil::Work => to.work.spoil(need.work as isize - 1, 1),
        Spoil::WorkTail => to
            .work
            .spoil(need.work as isize, to.work.now()[need.work] ^ 1),
        Spoil::Lists => to.lists.spoil(need.lists as isize - 1, 1),
        Spoil::IndexTail => to
            .lists
            .spoil(need.lists as isize, to.lists.now()[need.lists] ^ 1),
        Spoil::GuardBefore => to.out.spoil(-1, to.out.guard_value(-1) ^ 1),
        Spoil::GuardBehind => {
            let n = to.work.len() as isize;
            to.work.spoil(n, to.work.guard_value(n) ^ 1);
        }
        Spoil::Soft => soft.spoil(0, soft.now()[0] ^ 1),
        Spoil::DoubtfulKept => {
            let (kept, doubtful) = (to.tally.now()[3], to.tally.now()[5]);
            to.tally.spoil(3, kept + doubtful);
            to.tally.spoil(5, 0);
        }
        Spoil::Flips => {
            let n = case.plan.n as usize;
            for w in 0..case.soft.len() / n {
                if to.records.now()[RECORD * w + 4] == LOST {
                    let from = n * w + case.set.first as usize;
                    let mut part = to.out.now()[from..from + case.set.length as usize].to_vec();
                    let _ = oracle::bch::decode(&mut part);
                    for (i, &bit) in part.iter().enumerate() {
                        to.out.spoil((from + i) as isize, bit);
                    }
                }
            }
        }
    }
}

type Answers = Vec<(LaneResult, Vec<u8>)>;

fn decode<const W: usize>(code: &Code, words: &[&[i8]], p: Params) -> Answers {
    Decoder::<W>::default().decode_all(code, words, p)
}

fn traced<const W: usize>(
    code: &Code,
    words: &[&[i8]],
    p: Params,
    f: &mut dyn FnMut(usize, &[u8]),
) -> Answers {
    Decoder::<W>::default().decode_all_traced(code, words, p, f)
}

/// With as many lanes, or with 4 where the original is not compiled for them: a word's outcome does not depend on that.
macro_rules! with_lanes {
    ($lanes:expr, $f:ident, $($arg:expr),*) => {
        match $lanes {
            1 => $f::<1>($($arg),*),
            2 => $f::<2>($($arg),*),
            3 => $f::<3>($($arg),*),
            7 => $f::<7>($($arg),*),
            8 => $f::<8>($($arg),*),
            16 => $f::<16>($($arg),*),
            32 => $f::<32>($($arg),*),
            33 => $f::<33>($($arg),*),
            64 => $f::<64>($($arg),*),
            _ => $f::<4>($($arg),*),
        }
    };
}

pub fn params(set: Settings) -> Params {
    let schedule = if set.layered == 0 {
        Schedule::Sequential
    } else {
        Schedule::Layered {
            step: set.step as usize,
        }
    };
    Params {
        max_iter: set.limit as usize,
        offset: set.offset,
        schedule,
    }
}

pub fn original(code: &Code, words: &[&[i8]], set: Settings) -> Answers {
    with_lanes!(set.lanes, decode, code, words, params(set))
}

fn original_traced(
    code: &Code,
    words: &[&[i8]],
    set: Settings,
    f: &mut dyn FnMut(usize, &[u8]),
) -> Answers {
    with_lanes!(set.lanes, traced, code, words, params(set), f)
}

/// A word as its record tells it, without the named check; its bits before BCH, and after; whether it is lost and the original
/// flipped bits of it.
struct Word {
    record: [u32; RECORD],
    before: Vec<u8>,
    after: Vec<u8>,
    taken_back: bool,
}

/// The hard decisions of a word's soft values.
fn decisions(soft: &[i8]) -> Vec<u8> {
    soft.iter().map(|&l| u8::from(l < 0)).collect()
}

/// "positions where the hard decisions, before BCH, differ from those of the input"
fn changed(soft: &[i8], bits: &[u8]) -> u32 {
    let pairs = decisions(soft).into_iter().zip(bits);
    pairs.filter(|(a, b)| a != *b).count() as u32
}

fn words_of(case: &Case, code: &Code) -> (Rounds, Vec<Option<Word>>) {
    let words: Vec<&[i8]> = case.soft.chunks(case.plan.n as usize).collect();
    let answers = original(code, &words, case.set);
    let ends: Vec<u32> = answers
        .iter()
        .map(|(a, _)| match a {
            Ok(d) => d.iterations as u32,
            Err(e) => e.iterations as u32,
        })
        .collect();
    let rounds = scope::rounds(&ends, case.set.lanes as usize, case.set.rounds);
    // a held word's bits: its soft values' before an iteration, and else as the trace has them
    let mut held: Vec<Option<Vec<u8>>> = vec![None; words.len()];
    for (w, status) in rounds.status.iter().enumerate() {
        if *status == Status::Held(0) {
            held[w] = Some(decisions(words[w]));
        }
    }
    if rounds
        .status
        .iter()
        .any(|s| matches!(s, Status::Held(i) if *i > 0))
    {
        let mut seen = vec![0; words.len()];
        original_traced(code, &words, case.set, &mut |w, bits| {
            seen[w] += 1;
            if rounds.status[w] == Status::Held(seen[w]) {
                held[w] = Some(bits.to_vec());
            }
        });
    }
    let (first, length) = (case.set.first as usize, case.set.length as usize);
    let told = answers
        .into_iter()
        .zip(held)
        .zip(&words)
        .zip(&rounds.status)
        .map(|((((answer, bits), held), soft), status)| match status {
            Status::Waiting => None,
            Status::Held(i) => {
                let before = held.expect("a held word's bits");
                let unmet = code.syndrome_weight(&before) as u32;
                Some(Word {
                    record: [1, *i, unmet, 0, 0, changed(soft, &before)],
                    after: before.clone(),
                    before,
                    taken_back: false,
                })
            }
            Status::Finished => {
                let (state, iterations, unmet) = match answer {
                    Ok(d) => (2, d.iterations, 0),
                    Err(e) => (3, e.iterations, e.unsatisfied),
                };
                let mut after = bits.clone();
                let bch = decode_or_leave(&mut after[first..first + length]);
                let taken_back = bch.is_err_and(|lost| lost.flips > 0);
                let bch = bch.map_or(LOST, |m| m as u32);
                let changed = changed(soft, &bits);
                Some(Word {
                    record: [state, iterations as u32, unmet as u32, 0, bch, changed],
                    before: bits,
                    after,
                    taken_back,
                })
            }
        })
        .collect();
    (rounds, told)
}

/// The archive's run, and what both sides make of it.
pub fn compare(case: &Case, counts: &mut Counts, spoils: Option<Spoil>) -> Result<(), String> {
    let mut r = Random(case.fill);
    let plan = &case.plan;
    let n = plan.n as usize;
    let table = plan.lent(&mut r);
    let mut soft = Lent::of(&case.soft, &mut r);
    let mut to = Space {
        out: Lent::filled(case.lent.out, &mut r),
        records: Lent::filled(case.lent.records, &mut r),
        tally: Lent::filled(TALLY, &mut r),
        ending: Lent::filled(1, &mut r),
        work: Lent::filled(case.lent.work, &mut r),
        lists: Lent::filled(case.lent.lists, &mut r),
    };
    let mut number = archive::run(&table, &soft, case.set, &mut to);
    if let Some(what) = spoils {
        spoil(what, case, &mut number, &mut soft, &mut to);
    }
    let wanted = scope::run_refusal(
        plan.n,
        &plan.lens,
        &plan.addrs,
        case.soft.len(),
        case.set,
        case.lent,
    );
    counts.runs += 1;
    counts.refused[wanted as usize] += 1;
    same("answer", number, wanted)?;
    table.unchanged()?;
    soft.unchanged("soft")?;
    if wanted != 0 {
        to.out.unchanged("out")?;
        to.records.unchanged("records")?;
        to.tally.unchanged("tally")?;
        to.ending.unchanged("ending")?;
        to.work.unchanged("work")?;
        return to.lists.unchanged("lists");
    }

    let code = case.code.as_ref().expect("an accepted plan's code");
    let (rounds, told) = words_of(case, code);
    let words = told.len();
    let need = scope::needs(plan.n, &plan.lens, &plan.addrs, words, case.set.lanes);
    let (mut given, mut loaded) = (0, 0);
    let (mut kept, mut lost, mut doubtful) = (0, 0, 0);
    to.out.holds("out", &[], need.out)?;
    to.records.holds("records", &[], need.records)?;
    for (w, word) in told.iter().enumerate() {
        let record = &to.records.now()[RECORD * w..RECORD * (w + 1)];
        let bits = &to.out.now()[n * w..n * w + n];
        let Some(word) = word else {
            counts.waiting += 1;
            same(&format!("word {w}'s record"), record, &[0; RECORD])?;
            if bits != &to.out.was()[n * w..n * w + n] {
                return Err(format!("word {w} waits, and its output was written"));
            }
            continue;
        };
        loaded += 1;
        given += word.record[1];
        let mut without = [record[0], record[1], record[2], 0, record[4], record[5]];
        same(&format!("word {w}'s record"), without, word.record)?;
        without[3] = record[3];
        let named = record[3] as usize;
        let unmet = named < code.checks()
            && code
                .check(named)
                .iter()
                .fold(0, |x, &v| x ^ word.before[v as usize])
                & 1
                == 1;
        if if record[2] == 0 { named != 0 } else { !unmet } {
            return Err(format!(
                "word {w}'s record {without:?}: the named check is met, or is not there"
            ));
        }
        if bits != word.after {
            let at = (0..n).find(|&i| bits[i] != word.after[i]).unwrap();
            return Err(format!(
                "word {w}: bit {at} is {}, expected {}",
                bits[at], word.after[at]
            ));
        }
        match record[0] {
            1 => counts.held += 1,
            2 => counts.met += 1,
            _ => counts.unmet += 1,
        }
        if let Some(first) = case.first_words.get(n * w..n * (w + 1)) {
            counts.other_by_first += u64::from(record[5] != changed(first, &word.before));
        }
        let turned = u64::from(record[5] > 0);
        if record[0] == 1 {
            counts.changed_held += turned;
        } else {
            counts.changed += turned;
            let behind = changed(&case.soft[n * w..n * (w + 1)], bits);
            counts.other_behind_bch += u64::from(record[5] != behind);
            // kept, doubtful or lost, by the original's answers
            if word.record[4] == LOST {
                lost += 1;
                counts.taken_back += u64::from(word.taken_back);
            } else {
                if word.record[0] == 2 {
                    kept += 1;
                } else {
                    doubtful += 1;
                }
                counts.bch_corrected += u64::from(record[4] > 0);
            }
        }
        counts.longest = counts.longest.max(u64::from(record[1]));
    }
    let tally = [rounds.rounds, loaded, given, kept, lost, doubtful];
    to.tally.holds("tally", &tally, TALLY)?;
    to.ending.holds("ending", &[u32::from(rounds.stopped)], 1)?;
    to.work.holds("work", &vec![0; need.work], need.work)?;
    to.lists.holds("lists", &vec![0; need.lists], need.lists)?;
    counts.words += words as u64;
    counts.kept += u64::from(kept);
    counts.doubtful += u64::from(doubtful);
    counts.lost += u64::from(lost);
    counts.iterations += u64::from(given);
    counts.stopped += u64::from(rounds.stopped);
    counts.layered += u64::from(case.set.layered != 0);
    *counts.lanes.entry(case.set.lanes).or_default() += 1;
    let written = to.records.now()[..need.records].chunks_exact(RECORD);
    counts
        .records
        .extend(written.map(|record| <[u32; RECORD]>::try_from(record).unwrap()));
    Ok(())
}

/// How many tests the archive makes for the conflicts of a layered iteration, roughly.
fn layered_cost(plan: &Plan) -> usize {
    let q = plan.shape().2;
    let mut at = 0;
    let mut cost = 0;
    for &l in &plan.lens {
        let row = &plan.addrs[at..at + l as usize];
        at += l as usize;
        let mut counts = vec![0usize; q];
        row.iter().for_each(|&a| counts[usize::from(a) % q] += 1);
        cost += 374
            * row.len()
            * counts
                .iter()
                .filter(|&&c| c > 1)
                .map(|c| c * c)
                .sum::<usize>();
    }
    cost
}

/// A run of an accepted code.
pub fn case(r: &mut Random, plan: &Rc<Plan>, code: &Rc<Code>) -> Case {
    let n = plan.n as usize;
    let (k, _, _, e) = plan.shape();
    let lanes = if r.one_in(8) {
        r.within(1, 64) as u32
    } else {
        r.pick(&LANES[..8])
    };
    let limit = match r.below(20) {
        0 => 0,
        1 => 1,
        2 => 2,
        3 if e < 4000 => 40,
        4 if e < 3000 && r.one_in(40) => 65_535,
        _ => r.within(2, 9) as u32,
    };
    let budget = if r.one_in(8) { 1_500_000 } else { 150_000 };
    let most = (budget / (e * limit.clamp(1, 10) as usize)).clamp(2, 3 * lanes as usize + 3);
    let words = match r.below(12) {
        0 => 0,
        1 => 1,
        2 if e < 2000 && r.one_in(60) => 4096,
        _ => r.within(1, most),
    };
    let length = match r.below(4) {
        0 => r.within(193, n),
        1 => 193,
        2 => n,
        _ if k >= 193 => k,
        _ => 200,
    };
    let first = if length == k {
        0
    } else {
        r.below(n - length + 1)
    };
    let kind = match r.below(10) {
        0 => Kind::Random,
        1 => Kind::Small,
        2 => Kind::Constant,
        _ => Kind::Noise(r.pick(&[0.1, 0.4, 0.5, 0.6, 0.7, 0.8, 1.0])),
    };
    let kind = if limit == 65_535 {
        Kind::Noise(0.3)
    } else {
        kind
    };
    let soft = input::soft(r, code, words, kind, first, length);
    let rounds = match r.below(5) {
        0 => r.below(3) as u32,
        1 | 2 => r.below(words * (limit as usize).min(12) / lanes as usize + 3) as u32,
        _ => u32::MAX,
    };
    let set = Settings {
        lanes,
        limit,
        layered: r.pick(&[0, 1, 1, u32::MAX]),
        step: match r.below(4) {
            0 => r.pick(&[1, 2, 373, 374, 375, u32::MAX]),
            1 => r.pick(&[34, 187, 11, 17]),
            _ => r.within(1, 400) as u32,
        },
        offset: match r.below(3) {
            0 => r.next() as i8,
            _ => r.pick(&[0, 1, 1, 2, 3, -1, -128, 127]),
        },
        rounds,
        first: first as u32,
        length: length as u32,
    };
    // the archive's layered iteration takes long where many addresses of a row are equal modulo q
    let dense = layered_cost(plan) * limit.max(1) as usize > 20_000_000 && !r.one_in(300);
    let set = if dense {
        Settings { layered: 0, ..set }
    } else {
        set
    };
    let set = if set.layered == 0 && r.one_in(2) {
        Settings { step: 0, ..set }
    } else {
        set
    };
    let need = scope::needs(plan.n, &plan.lens, &plan.addrs, words, lanes);
    let more = |r: &mut Random, x: usize| if r.one_in(2) { x } else { x + r.below(30) };
    let lent = Lengths {
        out: more(r, need.out),
        records: more(r, need.records),
        work: more(r, need.work),
        lists: more(r, need.lists),
    };
    Case {
        plan: plan.clone(),
        code: Some(code.clone()),
        soft,
        first_words: Vec::new(),
        set,
        lent,
        fill: r.next(),
    }
}

/// A run with one fault or two, which may be refused.
pub fn faulty(r: &mut Random, plan: &Rc<Plan>, code: &Rc<Code>) -> Case {
    let mut c = case(r, plan, code);
    for _ in 0..r.within(1, 2) {
        match r.below(12) {
            0 | 1 => {
                let other = Rc::new(spoilt(r, &c.plan));
                c.code = (other.refusal() == 0).then(|| Rc::new(other.code()));
                c.plan = other;
            }
            2 => c.set.lanes = r.pick(&[0, 65, 66, u32::MAX]),
            3 => {
                c.soft.push(0);
            }
            4 if c.plan.n == 374 => c.soft.resize(374 * 4097, 1),
            4 => {
                c.soft.pop();
            }
            5 => c.set.limit = r.pick(&[65_536, u32::MAX]),
            6 => {
                c.set.layered = 1;
                c.set.step = 0;
            }
            7 => {
                (c.set.first, c.set.length) = r.pick(&[
                    (0, 192),
                    (0, 0),
                    (0, 65_536),
                    (u32::MAX, 193),
                    (u32::MAX - 192, 193),
                    (c.plan.n.saturating_sub(192), 193),
                    (0, c.plan.n.wrapping_add(1)),
                    (1, c.plan.n),
                ]);
            }
            8 => c.lent.out = r.below(c.lent.out + 1),
            9 => c.lent.records = r.below(c.lent.records + 1),
            10 => c.lent.work = r.below(c.lent.work + 1),
            _ => c.lent.lists = r.below(c.lent.lists + 1),
        }
    }
    c
}

/// The smallest disagreement that a few simple steps lead to: fewer words, fewer lanes, a smaller limit, fewer rounds.
pub fn shrink(case: &Case) -> Case {
    let mut best = case.clone();
    let disagrees = |c: &Case| compare(c, &mut Counts::default(), None).is_err();
    let n = best.plan.n as usize;
    let mut tries = 0;
    loop {
        let mut next = Vec::new();
        let words = if n == 0 { 0 } else { best.soft.len() / n };
        if n > 0 && best.soft.len() % n == 0 {
            let mut part = words / 2;
            while part > 0 {
                for at in (0..words).step_by(part) {
                    let mut c = best.clone();
                    c.soft.drain(at * n..((at + part) * n).min(c.soft.len()));
                    next.push(c);
                }
                part /= 2;
            }
        }
        for lanes in LANES.iter().filter(|&&l| l < best.set.lanes) {
            let mut c = best.clone();
            c.set.lanes = *lanes;
            next.push(c);
        }
        for limit in [0, 1, best.set.limit / 2, best.set.limit.saturating_sub(1)] {
            if limit < best.set.limit {
                let mut c = best.clone();
                c.set.limit = limit;
                next.push(c);
            }
        }
        for rounds in [0, 1, best.set.rounds / 2, best.set.rounds.saturating_sub(1)] {
            if rounds < best.set.rounds {
                let mut c = best.clone();
                c.set.rounds = rounds;
                next.push(c);
            }
        }
        tries += next.len();
        match next.into_iter().find(disagrees) {
            Some(c) if tries < 4000 => best = c,
            _ => return best,
        }
    }
}

/// A run in the form of the report program's input.
pub fn text(case: &Case) -> String {
    let mut s = format!("N\t{}\n", case.plan.n);
    let mut rest = &case.plan.addrs[..];
    for &l in &case.plan.lens {
        let (row, after) = rest.split_at((l as usize).min(rest.len()));
        s += "R";
        row.iter().for_each(|a| write!(s, "\t{a}").unwrap());
        s += "\n";
        rest = after;
    }
    let set = case.set;
    let step = if set.layered == 0 {
        "S".into()
    } else {
        set.step.to_string()
    };
    writeln!(
        s,
        "P\t{}\t{}\t{}\t{step}\t{}\t{}\t{}",
        set.lanes, set.limit, set.offset, set.rounds, set.first, set.length
    )
    .unwrap();
    for word in case.soft.chunks((case.plan.n as usize).max(1)) {
        let most = word[word.len() / 2];
        write!(s, "W\t{most}").unwrap();
        word.iter()
            .enumerate()
            .filter(|&(_, v)| *v != most)
            .for_each(|(i, v)| write!(s, "\t{i}\t{v}").unwrap());
        s += "\n";
    }
    s + &format!(
        "lent: {:?}; lens {:?}; {} addresses; {} soft values\n",
        case.lent,
        case.plan.lens,
        case.plan.addrs.len(),
        case.soft.len()
    )
}
