//! `raxdov_window_push`, which the original does not have, held to the scope (scope.rs): figures worked out afresh from the
//! last finished records, and what a push makes of any window.

use crate::archive::{self, LOST};
use crate::lent::{Lent, same};
use crate::random::Random;
use crate::scope::{self, RECORD, WINDOW};

type Record = [u32; RECORD];

#[derive(Default)]
pub struct Counts {
    /// Series from an empty window on, and windows that were altered.
    pub series: u64,
    pub altered: u64,
    pub pushes: u64,
    /// Of them: of unfinished records, of records before which the oldest left, of doubtful words, before which a doubtful word left,
    /// with figures worked out afresh, of a run's records.
    pub passed: u64,
    pub full: u64,
    pub doubtful: u64,
    pub doubtful_left: u64,
    pub afresh: u64,
    pub of_runs: u64,
    /// By 13 and by 14; by 14 where the ring was too short as well.
    pub refused: [u64; 2],
    pub both: u64,
}

/// A result spoilt after the push.
#[derive(Clone, Copy, Debug)]
pub enum Spoil {
    Answer,
    Number(usize),
    Slot(usize),
    Elsewhere,
    Tail,
    GuardBefore,
    GuardBehind,
    Record,
}

pub const SPOILS: [Spoil; 15] = [
    Spoil::Answer,
    Spoil::Number(0),
    Spoil::Number(1),
    Spoil::Number(2),
    Spoil::Number(3),
    Spoil::Number(4),
    Spoil::Number(5),
    Spoil::Slot(0),
    Spoil::Slot(1),
    Spoil::Slot(2),
    Spoil::Elsewhere,
    Spoil::Tail,
    Spoil::GuardBefore,
    Spoil::GuardBehind,
    Spoil::Record,
];

/// A window with its ring, handed on.
#[derive(Clone, Debug)]
pub struct State {
    pub numbers: [u64; WINDOW],
    pub ring: Vec<u32>,
}

impl State {
    /// An empty window; its ring holds anything.
    pub fn empty(r: &mut Random, ring: usize) -> Self {
        Self {
            numbers: [0; WINDOW],
            ring: (0..ring).map(|_| number(r)).collect(),
        }
    }

    fn figures(&self) -> [u64; 5] {
        let [_, figures @ ..] = self.numbers;
        figures
    }
}

/// Of any size, and often of a kind that means something.
fn number(r: &mut Random) -> u32 {
    match r.below(4) {
        0 => r.next() as u32,
        1 => r.pick(&[0, 1, 2, 3, 4, LOST - 1, LOST, 1 << 31]),
        _ => r.below(51) as u32,
    }
}

/// A record as a run writes it, or of any numbers.
fn record(r: &mut Random) -> Record {
    let state = match r.below(16) {
        0 => 0,
        1 => 1,
        2 => r.pick(&[4, 5, 6, 7, 258, LOST]),
        3 => r.next() as u32,
        4..9 => 3,
        _ => 2,
    };
    let any = r.one_in(4);
    let mut field = |most| if any { number(r) } else { r.below(most) as u32 };
    let (iterations, unsatisfied, check, bch, changed) =
        (field(51), field(374), field(374), field(13), field(748));
    let bch = if r.one_in(5) { LOST } else { bch };
    [state, iterations, unsatisfied, check, bch, changed]
}

/// One push of the archive, held to the scope's; the window goes on from there.
fn push(
    r: &mut Random,
    width: u32,
    state: &mut State,
    record: &Record,
    counts: &mut Counts,
    spoils: Option<Spoil>,
) -> Result<(), String> {
    let mut lent = Lent::of(record, r);
    let mut to = archive::Window {
        numbers: Lent::of(&state.numbers, r),
        ring: Lent::of(&state.ring, r),
    };
    let mut got = archive::window_push(width, &mut to, &lent);
    if let Some(what) = spoils {
        spoil(what, width, state, &mut got, &mut lent, &mut to);
    }
    let tell = |e: String| {
        let short = &state.ring[..state.ring.len().min(24)];
        let State { numbers, ring } = &state;
        format!(
            "window: {e}; width {width}, window {numbers:?}, record {record:?}, ring of {} {short:?}",
            ring.len()
        )
    };
    let wanted = scope::window_refusal(width, state.ring.len());
    same("answer", got, wanted).map_err(tell)?;
    lent.unchanged("record").map_err(tell)?;
    counts.pushes += 1;
    let mut next = state.clone();
    if wanted == 0 {
        scope::window_push(width, &mut next.numbers, record, &mut next.ring);
        if !scope::finished(record) {
            counts.passed += 1;
        } else {
            counts.doubtful += u64::from(scope::doubtful(record[0], record[4]));
            if state.numbers[1] >= u64::from(width) {
                counts.full += 1;
                let at = state.numbers[0] as usize;
                let old = &state.ring[3 * if at < width as usize { at } else { 0 }..];
                counts.doubtful_left += u64::from(scope::doubtful(old[0], old[2]));
            }
        }
    } else {
        counts.refused[wanted as usize - 13] += 1;
        counts.both += u64::from(wanted == 14 && state.ring.len() < 3 * width as usize);
    }
    to.numbers
        .holds("window", &next.numbers, WINDOW)
        .map_err(tell)?;
    to.ring
        .holds("ring", &next.ring, next.ring.len())
        .map_err(tell)?;
    *state = next;
    Ok(())
}

fn spoil(
    what: Spoil,
    width: u32,
    was: &State,
    answer: &mut u32,
    record: &mut Lent<u32>,
    to: &mut archive::Window,
) {
    let slot = 3 * was.numbers[0] as isize;
    let ring = |ring: &mut Lent<u32>, at: isize| ring.spoil(at, ring.guard_value(at) ^ 1);
    match what {
        Spoil::Answer => *answer ^= 1,
        Spoil::Number(i) => to
            .numbers
            .spoil(i as isize, to.numbers.now()[i].wrapping_add(1)),
        Spoil::Slot(i) => ring(&mut to.ring, slot + i as isize),
        Spoil::Elsewhere => ring(&mut to.ring, (slot + 4) % (3 * width as isize)),
        Spoil::Tail => ring(&mut to.ring, 3 * width as isize),
        Spoil::GuardBefore => ring(&mut to.ring, -1),
        Spoil::GuardBehind => {
            let end = to.numbers.len() as isize;
            to.numbers.spoil(end, to.numbers.guard_value(end) ^ 1);
        }
        Spoil::Record => ring(record, 0),
    }
}

/// After a push: the figures are those of the last finished records.
fn held_to(
    width: u32,
    state: &State,
    finished: &[Record],
    counts: &mut Counts,
) -> Result<(), String> {
    counts.afresh += 1;
    let wanted = scope::afresh(width as usize, finished);
    same(
        &format!(
            "window of {width} after {} finished records",
            finished.len()
        ),
        state.figures(),
        wanted,
    )
}

fn width(r: &mut Random) -> u32 {
    match r.below(40) {
        0 => r.pick(&[4095, 4096]),
        1 => r.within(100, 4094) as u32,
        2..20 => r.within(1, 4) as u32,
        _ => r.within(1, 99) as u32,
    }
}

/// A width or a ring that is refused, and a ring for it.
fn refused(r: &mut Random) -> (u32, usize) {
    // three times the last is 2 modulo 2^32
    let wide = r.pick(&[
        0,
        4097,
        4098,
        8192,
        1 << 16,
        1 << 31,
        u32::MAX,
        1_431_655_766,
    ]);
    match r.below(4) {
        0 => (wide, r.below(40)),
        1 => (wide, 3 * (wide.min(4097) as usize) + r.below(3)),
        2 => (wide, 0),
        _ => {
            let width = width(r);
            let short = match r.below(3) {
                0 => 1,
                1 => 3,
                _ => r.within(1, 3 * width as usize),
            };
            (width, 3 * width as usize - short)
        }
    }
}

/// Records from an empty window on.
fn series(r: &mut Random, counts: &mut Counts) -> Result<(), String> {
    let width = width(r);
    let wide = width as usize;
    let count = if r.one_in(3) {
        r.below(wide + 2)
    } else {
        r.within(wide, 3 * wide.min(2000) + 9)
    };
    let longer = if r.one_in(2) { 0 } else { r.below(9) };
    let mut state = State::empty(r, 3 * wide + longer);
    let mut finished = Vec::new();
    counts.series += 1;
    for i in 0..count {
        let record = record(r);
        if r.one_in(30) {
            // a refused push does not count
            let other = r.pick(&[0, 4097, u32::MAX]);
            push(r, other, &mut state, &record, counts, None)?;
        }
        push(r, width, &mut state, &record, counts, None)?;
        if scope::finished(&record) {
            finished.push(record);
        }
        if wide < 100 || i % 61 == 0 || i + 3 > count {
            held_to(width, &state, &finished, counts)?;
        }
    }
    Ok(())
}

/// Windows and rings of any numbers, at widths that change.
fn altered(r: &mut Random, counts: &mut Counts) -> Result<(), String> {
    let first = width(r);
    let most = first.min(200) as usize + r.below(4);
    let ring = 3 * most.max(first as usize) + r.below(4);
    let mut state = State::empty(r, ring);
    counts.altered += 1;
    let near = |r: &mut Random| match r.below(6) {
        0 => r.next(),
        1 => u64::MAX - r.below(2) as u64,
        2 => 0,
        3 => (1 << 32) + r.below(9) as u64,
        _ => (u64::from(first) + 1).saturating_sub(r.below(4) as u64),
    };
    for _ in 0..r.within(1, 12) {
        for i in 0..WINDOW {
            if r.one_in(2) {
                state.numbers[i] = near(r);
            }
        }
        let width = if r.one_in(2) {
            first
        } else {
            r.within(1, most.max(1)) as u32
        };
        for _ in 0..r.within(1, 6) {
            let record = record(r);
            push(r, width, &mut state, &record, counts, None)?;
        }
    }
    Ok(())
}

pub fn compare(r: &mut Random, counts: &mut Counts) -> Result<(), String> {
    match r.below(6) {
        0 => {
            let (width, ring) = refused(r);
            let mut state = State::empty(r, ring);
            if r.one_in(2) {
                state.numbers = [(); WINDOW].map(|()| r.next());
            }
            let record = record(r);
            push(r, width, &mut state, &record, counts, None)
        }
        1 => altered(r, counts),
        _ => series(r, counts),
    }
}

/// Windows over the records of all runs, one after the other.
pub struct OverRuns {
    windows: Vec<(u32, State)>,
    finished: Vec<Record>,
}

impl OverRuns {
    pub fn new(r: &mut Random) -> Self {
        let empty = |width: u32| (width, State::empty(r, 3 * width as usize));
        Self {
            windows: [1, 7, 64, 1000, 4096].map(empty).into(),
            finished: Vec::new(),
        }
    }

    pub fn take(
        &mut self,
        r: &mut Random,
        records: &[Record],
        counts: &mut Counts,
    ) -> Result<(), String> {
        for record in records {
            if scope::finished(record) {
                self.finished.push(*record);
            }
            for (width, state) in &mut self.windows {
                push(r, *width, state, record, counts, None)?;
                held_to(*width, state, &self.finished, counts)?;
                counts.of_runs += 1;
            }
            if self.finished.len() > 100_000 {
                self.finished.drain(..90_000);
            }
        }
        Ok(())
    }
}

/// Each result of a push onto a full window spoilt in turn; how many there are.
pub fn selftest(r: &mut Random) -> Result<usize, String> {
    let width = r.within(2, 9) as u32;
    let mut state = State::empty(r, 3 * width as usize + 1);
    let counts = &mut Counts::default();
    let record = |r: &mut Random| {
        let (state, iterations) = (r.within(2, 3), r.below(50));
        [state as u32, iterations as u32, 0, 0, r.below(13) as u32, 0]
    };
    for _ in 0..r.within(width as usize, 20) {
        let record = record(r);
        push(r, width, &mut state, &record, counts, None)?;
    }
    let record = record(r);
    for what in SPOILS {
        if push(r, width, &mut state.clone(), &record, counts, Some(what)).is_ok() {
            return Err(format!("selftest: {what:?} of a window was not found"));
        }
    }
    Ok(SPOILS.len())
}
