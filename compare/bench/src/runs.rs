//! The run: word-iterations a second by lanes and schedule.

use crate::chart::{Chart, Series};
use crate::codes::plan;
use crate::noise;
use crate::time::pair;
use harness::archive::{self, Settings, Space, Table};
use harness::input::{self, Kind, Plan};
use harness::lent::Lent;
use harness::random::Random;
use harness::scope;
use oracle::ldpc::Code;
use oracle::ldpc::fixed::{Decoder, Params};
use std::hint::black_box;

pub const LANES: [u32; 5] = [1, 8, 16, 32, 64];

/// The original's decoder with its buffers, kept between calls.
trait Decodes {
    fn decode(&mut self, code: &Code, words: &[&[i8]], p: Params) -> Vec<Vec<u8>>;
}

impl<const W: usize> Decodes for Decoder<W> {
    fn decode(&mut self, code: &Code, words: &[&[i8]], p: Params) -> Vec<Vec<u8>> {
        self.decode_all(code, words, p)
            .into_iter()
            .map(|(_, bits)| bits)
            .collect()
    }
}

fn decoder(lanes: u32) -> Box<dyn Decodes> {
    match lanes {
        1 => Box::new(Decoder::<1>::default()),
        8 => Box::new(Decoder::<8>::default()),
        16 => Box::new(Decoder::<16>::default()),
        32 => Box::new(Decoder::<32>::default()),
        _ => Box::new(Decoder::<64>::default()),
    }
}

pub fn space(r: &mut Random, table: &Table, words: usize, lanes: u32) -> Space {
    let need = scope::needs(table.n, table.lens.now(), table.addrs.now(), words, lanes);
    Space {
        out: Lent::filled(need.out, r),
        records: Lent::filled(need.records, r),
        tally: Lent::filled(scope::TALLY, r),
        ending: Lent::filled(1, r),
        work: Lent::filled(need.work, r),
        lists: Lent::filled(need.lists, r),
    }
}

/// A row of a table: what is run, and where it goes.
pub struct Row {
    pub code: Code,
    pub table: Table,
    pub words: usize,
    pub soft: Vec<i8>,
    pub set: Settings,
    pub to: Space,
    mix: bool,
}

/// Words of which none converges, or, mixed, each in its own time, three times as many as lanes.
pub fn row(
    r: &mut Random,
    plan: &Plan,
    lanes: u32,
    layered: u32,
    step: u32,
    limit: u32,
    mix: bool,
) -> Row {
    let code = plan.code();
    let table = plan.lent(r);
    let words = if mix {
        3 * lanes as usize
    } else {
        lanes as usize
    };
    let length = if mix { 22_440 } else { 193 };
    let soft = if mix {
        noise::words(r, &code, -1.0, words)
    } else {
        input::soft(r, &code, words, Kind::Random, 0, length)
    };
    let set = Settings {
        lanes,
        limit,
        layered,
        step,
        offset: 1,
        rounds: u32::MAX,
        first: 0,
        length: length as u32,
    };
    let to = space(r, &table, words, lanes);
    Row {
        code,
        table,
        words,
        soft,
        set,
        to,
        mix,
    }
}

impl Row {
    /// What was run, after a run: the words and their iterations.
    pub fn told(&self) -> String {
        let (given, kept) = (f64::from(self.to.tally.now()[2]), self.to.tally.now()[3]);
        if self.mix {
            format!(
                "{}, {:.1} iterations a word, {kept} kept",
                self.words,
                given / self.words as f64
            )
        } else {
            format!("{}, {} iterations each", self.words, self.set.limit)
        }
    }
}

/// Both sides on the same words: the archive's word-iterations a second, and the original's.
fn both(
    r: &mut Random,
    plan: &Plan,
    lanes: u32,
    layered: u32,
    step: u32,
    mix: bool,
    what: &str,
) -> (f64, f64) {
    let mut row = row(r, plan, lanes, layered, step, 20, mix);
    let lent = Lent::of(&row.soft, r);
    let list: Vec<&[i8]> = row.soft.chunks(44_880).collect();
    let length = row.set.length as usize;
    let mut theirs = decoder(lanes);
    let p = pair(
        if lanes > 16 { 9 } else { 15 },
        1,
        || assert_eq!(archive::run(&row.table, &lent, row.set, &mut row.to), 0),
        || {
            for mut bits in theirs.decode(&row.code, &list, harness::run::params(row.set)) {
                black_box(oracle::bch::decode(&mut bits[..length]).is_ok());
            }
        },
    );
    let (given, told) = (f64::from(row.to.tally.now()[2]), row.told());
    println!(
        "| {told} | {what} | {lanes} | {:.0} | {:.0} | {:.2} | {:.2} to {:.2} |",
        given / p.ours.least,
        given / p.theirs.least,
        p.ratio,
        p.low,
        p.high
    );
    (given / p.ours.least, given / p.theirs.least)
}

/// All rows, or those whose schedule starts with `name` and whose lane count is `count`.
pub fn bench(file: Option<&str>, name: &str, count: Option<u32>) {
    let wanted =
        |what: &str, lanes: u32| what.starts_with(name) && count.is_none_or(|c| c == lanes);
    let mut r = Random(9);
    let (apart, pairs) = (plan(&mut r, false), plan(&mut r, true));
    let mut chart = Chart::new(
        "Word-iterations a second, n 44,880, E 224,399, 20 iterations",
        "lanes",
        "word-iterations a second",
    );
    println!(
        "| words | schedule | lanes | ours, word-iterations/s | original | ratio | quartiles of pairs |"
    );
    println!("|---|---|---|---|---|---|---|");
    for (name, layered, step) in [
        ("sequential", 0, 0),
        ("layered 34", 1, 34),
        ("layered 374", 1, 374),
    ] {
        let (mut a, mut b) = (Vec::new(), Vec::new());
        for lanes in LANES {
            if !wanted(name, lanes) {
                continue;
            }
            let (x, y) = both(&mut r, &apart, lanes, layered, step, false, name);
            a.push((f64::from(lanes), x));
            b.push((f64::from(lanes), y));
        }
        chart.add(Series {
            name: format!("Raxdov, {name}"),
            points: a,
            dashed: false,
        });
        chart.add(Series {
            name: format!("isdb-rs, {name}"),
            points: b,
            dashed: true,
        });
    }
    for (name, layered, step) in [
        ("sequential", 0, 0),
        ("layered 34", 1, 34),
        ("layered 374", 1, 374),
    ] {
        for lanes in LANES {
            if wanted(name, lanes) {
                both(&mut r, &apart, lanes, layered, step, true, name);
            }
        }
    }
    for step in [34, 374] {
        for lanes in [1, 16, 64] {
            let what = format!("layered {step}, equal addresses");
            if wanted(&what, lanes) {
                both(&mut r, &pairs, lanes, 1, step, false, &what);
            }
        }
    }
    if let Some(file) = file {
        std::fs::write(file, chart.svg(false)).unwrap();
    }
}
