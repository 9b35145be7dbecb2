//! A run by the present archive beside an earlier one, in turn in one process (build.rs renames the earlier one's functions).

use crate::codes::plan;
use crate::runs::{LANES, Row, row};
use crate::time::pair;
use harness::archive::{self, LOST, Settings, Space, Table};
use harness::lent::Lent;
use harness::random::Random;
use harness::scope::RECORD;
use std::cell::RefCell;

unsafe extern "C" {
    fn before_raxdov_record_words() -> u32;
    fn before_raxdov_tally_words() -> u32;
    fn before_raxdov_run(
        n: u32,
        lens: *const u32,
        lens_len: usize,
        addrs: *const u16,
        addrs_len: usize,
        soft: *const i8,
        soft_len: usize,
        lanes: u32,
        limit: u32,
        layered: u32,
        step: u32,
        offset: i8,
        rounds: u32,
        first: u32,
        length: u32,
        out: *mut u8,
        out_len: usize,
        records: *mut u32,
        records_len: usize,
        tally: *mut u32,
        ending: *mut u32,
        work: *mut i8,
        work_len: usize,
        lists: *mut u32,
        lists_len: usize,
    ) -> u32;
}

/// The earlier archive's run, as `harness::archive::run` calls the present one's. Every pointer is that of a live slice of the length passed with it.
fn before(t: &Table, soft: &Lent<i8>, set: Settings, to: &mut Space) -> u32 {
    let (out, records) = (to.out.len(), to.records.len());
    let (work, lists) = (to.work.len(), to.lists.len());
    unsafe {
        before_raxdov_run(
            t.n,
            t.lens.ptr(),
            t.lens.len(),
            t.addrs.ptr(),
            t.addrs.len(),
            soft.ptr(),
            soft.len(),
            set.lanes,
            set.limit,
            set.layered,
            set.step,
            set.offset,
            set.rounds,
            set.first,
            set.length,
            to.out.ptr_mut(),
            out,
            to.records.ptr_mut(),
            records,
            to.tally.ptr_mut(),
            to.ending.ptr_mut(),
            to.work.ptr_mut(),
            work,
            to.lists.ptr_mut(),
            lists,
        )
    }
}

/// Whether word w has the same bits in both archives' outputs, but for the original's flips in a lost word: an earlier archive may have left
/// them.
fn same_word(row: &Row, before: &[u8], w: usize) -> bool {
    let n = row.to.out.len() / row.words;
    let (now, before) = (
        &row.to.out.now()[n * w..n * w + n],
        &before[n * w..n * w + n],
    );
    if now == before {
        return true;
    }
    let mut flipped = now.to_vec();
    let (first, length) = (row.set.first as usize, row.set.length as usize);
    let _ = oracle::bch::decode(&mut flipped[first..first + length]);
    row.to.records.now()[RECORD * w + 4] == LOST && flipped == before
}

/// A line: both archives' milliseconds for a run, and how many times as fast the present one is. The same space is lent to both.
fn line(
    r: &mut Random,
    plan: &harness::input::Plan,
    lanes: u32,
    step: u32,
    limit: u32,
    mix: bool,
    what: &str,
) {
    let mut row = row(r, plan, lanes, u32::from(step > 0), step, limit, mix);
    let most = unsafe { before_raxdov_record_words().max(archive::record_words()) } as usize;
    row.to.records = Lent::filled(row.words * most, r);
    let tally = unsafe { before_raxdov_tally_words().max(archive::tally_words()) } as usize;
    row.to.tally = Lent::filled(tally, r);
    let lent = Lent::of(&row.soft, r);
    let (samples, turns) = match lanes {
        _ if limit < 2 => (201, 1),
        1 if limit < 20 => (101, 2),
        1 => (41, 1),
        8 | 16 => (25, 1),
        _ => (15, 1),
    };
    // where memory lies makes a difference of some per cent: both have the same
    let to = RefCell::new(row.to);
    let now = || {
        assert_eq!(
            archive::run(&row.table, &lent, row.set, &mut to.borrow_mut()),
            0
        )
    };
    let then = || assert_eq!(before(&row.table, &lent, row.set, &mut to.borrow_mut()), 0);
    let p = pair(samples, turns, now, then);
    then();
    let bits = to.borrow().out.now().to_vec();
    now();
    row.to = to.into_inner();
    assert!(
        (0..row.words).all(|w| same_word(&row, &bits, w)),
        "the two archives wrote different bits"
    );
    println!(
        "| {} | {what} | {lanes} | {:.2} | {:.2} | {:.3} | {:.3} to {:.3} |",
        row.told(),
        p.ours.least * 1e3,
        p.theirs.least * 1e3,
        p.ratio,
        p.low,
        p.high
    );
}

/// All rows of `bench runs`, words of 5 iterations in one lane, and words that leave with 0 or 1, where what is done once for a word counts most.
pub fn bench(name: &str, count: Option<u32>) {
    let mut r = Random(9);
    let (apart, pairs) = (plan(&mut r, false), plan(&mut r, true));
    let wanted =
        |what: &str, lanes: u32| what.starts_with(name) && count.is_none_or(|c| c == lanes);
    println!(
        "| words | schedule | lanes | now, ms | before, ms | times as fast | quartiles of pairs |"
    );
    println!("|---|---|---|---|---|---|---|");
    let schedules = [("sequential", 0), ("layered 34", 34), ("layered 374", 374)];
    for (limit, mix) in [(20, false), (20, true)] {
        for (what, step) in schedules {
            for lanes in LANES.into_iter().filter(|l| wanted(what, *l)) {
                line(&mut r, &apart, lanes, step, limit, mix, what);
            }
        }
    }
    for (what, step) in [
        ("layered 34, equal addresses", 34),
        ("layered 374, equal addresses", 374),
    ] {
        for lanes in [1, 16, 64].into_iter().filter(|l| wanted(what, *l)) {
            line(&mut r, &pairs, lanes, step, 20, false, what);
        }
    }
    for (what, step) in schedules.into_iter().filter(|(what, _)| wanted(what, 1)) {
        line(&mut r, &apart, 1, step, 5, false, what);
    }
    for limit in [0, 1] {
        for lanes in [1, 16, 64].into_iter().filter(|l| wanted("few", *l)) {
            line(&mut r, &apart, lanes, 0, limit, false, "few, sequential");
        }
    }
}
