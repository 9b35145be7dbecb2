//! Writes the blocks of records that `crates/vectors_window` replays (the file named first) and what that program must print (the
//! file named second). The original has no window: this is a second model, written from the request's sentences, which asks the
//! original nothing.
//!
//! In a series the model keeps every finished record and sums the last ones afresh after each record; it has no ring and no
//! running sums. A window that was altered has no meaning in the request: for it the rule of docs/DECISIONS.md ("The window") is
//! worked out, in numbers that do not wrap.
//!
//! The form: palettes of 24 bytes, eight each for state, iterations and bch (see `value`), and zeros up to 256 bytes; then 16 bytes a block,
//! numbers of four: the width, the length of the ring, kind + 4 * palette + 64 * records, and the checksum. Kind 0 goes on with the
//! series before, 1 begins one, 2 begins with a window that was altered, 3 goes on with it. Records, windows and what a ring holds
//! at first are made from the block's number on both sides.

use std::collections::BTreeMap;

const LOST: u32 = u32::MAX;

// Palettes.
const ANY: [usize; 2] = [0, 1];
const FINISHED: usize = 2;
const UNFINISHED: usize = 3;
const LARGEST: usize = 4;
const ALL_LOST: usize = 5;
const USUAL: usize = 6;

const NUMBERS: [u8; 8] = [0, 12, 50, 252, 253, 254, 255, 255];
const LARGE: [u8; 8] = [254; 8];
const FINISHED_STATES: [u8; 8] = [2, 3, 2, 3, 2, 3, 2, 3];
const PALETTES: [[[u8; 8]; 3]; 7] = [
    [
        [2, 3, 2, 3, 2, 0, 4, 254],
        NUMBERS,
        [0, 12, 254, 252, 253, 254, 255, 3],
    ],
    [
        [2, 3, 2, 3, 3, 1, 5, 255],
        NUMBERS,
        [0, 1, 254, 252, 253, 255, 2, 7],
    ],
    [
        FINISHED_STATES,
        NUMBERS,
        [0, 12, 254, 252, 253, 254, 255, 3],
    ],
    [
        [0, 1, 4, 5, 254, 0, 1, 255],
        NUMBERS,
        [0, 12, 254, 252, 253, 254, 255, 3],
    ],
    [FINISHED_STATES, LARGE, [253; 8]],
    [FINISHED_STATES, [0; 8], LARGE],
    [
        [2, 2, 2, 3, 2, 2, 3, 1],
        [3, 7, 12, 20, 50, 5, 1, 0],
        [0, 1, 2, 12, 254, 0, 0, 5],
    ],
];

/// Numbers of a window that was altered.
const ALTERED: [u64; 16] = [
    0,
    1,
    2,
    6,
    7,
    8,
    63,
    64,
    65,
    4095,
    4096,
    4097,
    1 << 32,
    1 << 63,
    u64::MAX - 1,
    u64::MAX,
];

const WIDTHS: [u32; 5] = [1, 2, 7, 64, 4096];

/// The widths and rings of the single pushes: three times the tenth is 2 modulo 2^32.
const ALL_WIDTHS: [u32; 12] = [
    0,
    1,
    2,
    7,
    64,
    4095,
    4096,
    4097,
    65537,
    1431655766,
    1 << 31,
    u32::MAX,
];
const ROOMS: [usize; 16] = [
    0, 1, 2, 3, 5, 6, 20, 21, 191, 192, 12284, 12285, 12287, 12288, 12289, 12300,
];

#[derive(Clone, Copy, Debug)]
struct Record {
    state: u32,
    iterations: u32,
    bch: u32,
}

impl Record {
    fn finished(&self) -> bool {
        matches!(self.state, 2 | 3)
    }

    fn lost(&self) -> bool {
        self.finished() && self.bch == LOST
    }

    fn doubtful(&self) -> bool {
        self.state == 3 && self.bch != LOST
    }

    fn corrected(&self) -> u128 {
        if self.bch == LOST { 0 } else { self.bch.into() }
    }
}

// What both sides make.

fn mixed(x: u32) -> u32 {
    let a = x.wrapping_mul(2_654_435_761).wrapping_add(1_013_904_223);
    a ^ a >> 15
}

fn stir(x: u32) -> u32 {
    mixed(mixed(mixed(x)))
}

fn value(code: u8, any: u32) -> u32 {
    match code {
        0..252 => code.into(),
        252 => any % 65536,
        253 => u32::MAX - 1,
        254 => u32::MAX,
        255 => any,
    }
}

fn record(palette: usize, number: u32, i: u32) -> Record {
    let drawn = |field: u32| {
        let v = stir(number * 4096 + i * 4 + field);
        value(PALETTES[palette][field as usize][v as usize % 8], stir(v))
    };
    Record {
        state: drawn(0),
        iterations: drawn(1),
        bch: drawn(2),
    }
}

fn garbage(number: u32, j: u32) -> u32 {
    let v = stir((1 << 31) + number * 16384 + j);
    match v % 6 {
        0 => LOST,
        1 => 2 + v / 6 % 2,
        _ => v,
    }
}

fn altered(number: u32) -> Window {
    [3, 7, 11, 15, 19, 23].map(|k| ALTERED[stir(number * 4096 + k) as usize % 16])
}

fn mix(h: u64, v: u32) -> u64 {
    (h * 31 + u64::from(v) + 1) % 4_294_967_291
}

fn mix_wide(h: u64, v: u64) -> u64 {
    mix(mix(h, v as u32), (v >> 32) as u32)
}

// The model of a series.

/// Words, lost, iterations, corrected and doubtful over the last `width` of the finished records.
fn figures(width: usize, finished: &[Record]) -> [u64; 5] {
    let last = &finished[finished.len().saturating_sub(width)..];
    let sum = |of: fn(&Record) -> u128| last.iter().map(of).sum::<u128>();
    [
        last.len() as u128,
        sum(|r| r.lost().into()),
        sum(|r| r.iterations.into()),
        sum(Record::corrected),
        sum(|r| r.doubtful().into()),
    ]
    .map(|sum| sum.try_into().unwrap())
}

// The model of one push into any window.

/// The slot that is next, words, lost, iterations, corrected and doubtful.
type Window = [u64; 6];

fn refusal(width: u32, room: usize) -> u32 {
    match width {
        1..=4096 if room >= 3 * width as usize => 0,
        1..=4096 => 13,
        _ => 14,
    }
}

fn pushed(width: u32, was: Window, new: Record, ring: &mut [u32]) -> Window {
    if !new.finished() {
        return was;
    }
    let width = u64::from(width);
    let slot = if was[0] < width { was[0] } else { 0 };
    let full = was[1] >= width;
    let own = &mut ring[3 * slot as usize..][..3];
    let old = Record {
        state: own[0],
        iterations: own[1],
        bch: own[2],
    };
    own.copy_from_slice(&[new.state, new.iterations, new.bch]);
    let adds = |r: Record| {
        [
            r.lost().into(),
            r.iterations.into(),
            r.corrected(),
            r.doubtful().into(),
        ]
    };
    let (more, less) = (adds(new), if full { adds(old) } else { [0; 4] });
    let sum =
        |k: usize| ((u128::from(was[2 + k]) + (1 << 64) + more[k] - less[k]) % (1 << 64)) as u64;
    let words = if full { width } else { was[1] + 1 };
    [(slot + 1) % width, words, sum(0), sum(1), sum(2), sum(3)]
}

#[derive(Default)]
struct Written {
    blocks: Vec<[u32; 4]>,
    reached: BTreeMap<String, u64>,
}

impl Written {
    fn number(&self) -> u32 {
        self.blocks.len() as u32
    }

    fn count(&mut self, what: String) {
        *self.reached.entry(what).or_default() += 1;
    }

    fn block(
        &mut self,
        width: u32,
        room: usize,
        kind: u32,
        palette: usize,
        records: u32,
        sum: u64,
    ) {
        let form = kind + 4 * palette as u32 + 64 * records;
        self.blocks.push([width, room as u32, form, sum as u32]);
    }

    fn seen(&mut self, r: Record) {
        let state = match r.state {
            0..4 => ["waiting", "held", "met", "unmet"][r.state as usize],
            _ => "state above 3",
        };
        self.count(format!(
            "{state}{}",
            if r.bch == LOST {
                ", bch 4,294,967,295"
            } else {
                ""
            }
        ));
    }

    /// That a record comes or goes, if it is doubtful.
    fn doubtful(&mut self, of: &Record, how: &str) {
        if of.doubtful() {
            let bch = match of.bch {
                0 => "0",
                12 => "12",
                4_294_967_294 => "4,294,967,294",
                _ => "another",
            };
            self.count(format!("{how}, bch {bch}"));
        }
    }

    /// A series: so many records of each palette, in blocks of at most 64, in a ring with a tail.
    fn series(&mut self, width: u32, parts: &[(usize, u32)]) {
        let tail = self.number() as usize % 4 * 5;
        let room = 3 * width as usize + tail;
        let first = self.number();
        let behind: Vec<u32> = (3 * width..room as u32)
            .map(|j| garbage(first, j))
            .collect();
        let mut finished = Vec::new();
        for &(palette, records) in parts {
            for from in (0..records).step_by(64) {
                let n = (records - from).min(64);
                let mut sum = 0;
                for i in 0..n {
                    let new = record(palette, self.number(), i);
                    self.seen(new);
                    if new.finished() {
                        if let Some(old) = finished.len().checked_sub(width as usize) {
                            self.doubtful(&finished[old], "doubtful leaves a series");
                        }
                        self.doubtful(&new, "doubtful enters a series");
                        finished.push(new);
                    }
                    sum = figures(width as usize, &finished)
                        .into_iter()
                        .fold(mix(sum, 0), mix_wide);
                }
                let sum = behind.iter().fold(sum, |h, &v| mix(h, v));
                self.block(
                    width,
                    room,
                    (self.number() == first).into(),
                    palette,
                    n,
                    sum,
                );
            }
        }
        let filled = match finished.len().cmp(&(width as usize)) {
            std::cmp::Ordering::Less => "not full",
            std::cmp::Ordering::Equal => "just full",
            std::cmp::Ordering::Greater => "full and more",
        };
        self.count(format!("series that end {filled}"));
        self.count("series".into());
    }

    /// One push into a window: one that was altered, or the one of the push before.
    fn single(
        &mut self,
        width: u32,
        palette: usize,
        ring: &mut Vec<u32>,
        window: &mut Window,
        made: Option<usize>,
    ) {
        let number = self.number();
        if let Some(room) = made {
            *ring = (0..room as u32).map(|j| garbage(number, j)).collect();
            *window = altered(number);
        }
        let new = record(palette, number, 0);
        let refused = refusal(width, ring.len());
        let end = match refused {
            0 if new.finished() => "taken".into(),
            0 => "passed over".into(),
            _ => format!(
                "refused by {refused}{}",
                if new.finished() { "" } else { ", unfinished" }
            ),
        };
        self.count(format!("single: {end}"));
        if refused == 0 {
            if new.finished() && window[0] >= width.into() {
                self.count("single: taken, place at or past the width".into());
            }
            if new.finished() && window[1] > width.into() {
                self.count("single: taken, more words than the width".into());
            }
            if new.finished() {
                self.doubtful(&new, "single: doubtful enters");
                if window[1] >= width.into() {
                    let at = 3 * if window[0] < width.into() {
                        window[0] as usize
                    } else {
                        0
                    };
                    let old = Record {
                        state: ring[at],
                        iterations: ring[at + 1],
                        bch: ring[at + 2],
                    };
                    self.doubtful(&old, "single: doubtful leaves");
                }
            }
            *window = pushed(width, *window, new, ring);
        }
        let sum = window[1..]
            .iter()
            .fold(mix(0, refused), |h, &v| mix_wide(h, v));
        let sum = ring
            .iter()
            .fold(mix_wide(sum, window[0]), |h, &v| mix(h, v));
        let kind = if made.is_some() { 2 } else { 3 };
        self.block(width, ring.len(), kind, palette, 1, sum);
    }
}

fn all_series(to: &mut Written) {
    for w in WIDTHS {
        // any states, in blocks of one palette and the other
        let any = |records: u32| {
            (0..records.div_ceil(64))
                .map(|b| (ANY[b as usize % 2], (records - 64 * b).min(64)))
                .collect::<Vec<_>>()
        };
        for records in [w - 1, w, w + 1].into_iter().filter(|&n| n > 0) {
            to.series(w, &[(FINISHED, records)]);
        }
        to.series(w, &any(5 * w + 5));
        to.series(w, &any(2 * w + 1000));
        to.series(w, &[(USUAL, 2 * w + 100)]);
        // the largest numbers, and after them none
        to.series(
            w,
            &[(LARGEST, w + 104), (ALL_LOST, w + 104), (FINISHED, 100)],
        );
        to.series(w, &[(UNFINISHED, 40)]);
        // unfinished records at first, when the window is full but one, when it is, and in between
        to.series(
            w,
            &[
                (UNFINISHED, 5),
                (FINISHED, w - 1),
                (UNFINISHED, 9),
                (FINISHED, 1),
                (UNFINISHED, 70),
                (FINISHED, w),
                (UNFINISHED, 1),
                (FINISHED, 3),
                (UNFINISHED, 2),
                (FINISHED, w),
            ],
        );
    }
}

fn all_singles(to: &mut Written) {
    let (mut ring, mut window) = (Vec::new(), [0; 6]);
    for width in ALL_WIDTHS {
        for room in ROOMS {
            for palette in [FINISHED, UNFINISHED] {
                to.single(width, palette, &mut ring, &mut window, Some(room));
            }
        }
    }
    for i in 0..500 {
        let width = WIDTHS[i % 5];
        let room = 3 * width as usize + i % 4;
        to.single(
            width,
            if i % 9 == 0 { ANY[0] } else { FINISHED },
            &mut ring,
            &mut window,
            Some(room),
        );
    }
    // handed on at another width every few records
    for i in 0..500 {
        let width = WIDTHS[stir(i / 4) as usize % 5];
        let made = if i == 0 { Some(12291) } else { None };
        to.single(width, ANY[i as usize % 2], &mut ring, &mut window, made);
    }
}

fn main() {
    let files: Vec<String> = std::env::args().skip(1).collect();
    let mut to = Written::default();
    all_series(&mut to);
    let in_series: u32 = to.blocks.iter().map(|b| b[2] / 64).sum();
    all_singles(&mut to);
    let mut bytes: Vec<u8> = PALETTES.concat().concat();
    bytes.resize(256, 0);
    bytes.extend(to.blocks.concat().iter().flat_map(|n| n.to_le_bytes()));
    let text = format!(
        "{in_series} records compared with sums made afresh, 0 differ\n{} blocks compared with the second model, 0 differ\n",
        to.blocks.len()
    );
    for (what, n) in &to.reached {
        eprintln!("{n} {what}");
    }
    eprintln!("{} blocks, {in_series} records in series", to.blocks.len());
    std::fs::write(&files[0], bytes).unwrap();
    std::fs::write(&files[1], text).unwrap();
}
