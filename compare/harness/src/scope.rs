//! What the scope says by itself: the numbers of refusal in their order, the round rule, windows, and combined words. Each is
//! written out from its sentences.

use crate::archive::Settings;

/// 2 to 6, or 0.
pub fn code_refusal(n: u32, lens: &[u32], addrs: &[u16]) -> u32 {
    let n = n as usize;
    if n == 0 || n % 374 != 0 || n > 44_880 {
        return 2;
    }
    if 374 * lens.len() >= n {
        return 3;
    }
    if lens.iter().any(|&l| l > 128) {
        return 4;
    }
    if lens.iter().map(|&l| l as usize).sum::<usize>() != addrs.len() {
        return 5;
    }
    let q = (n - 374 * lens.len()) / 374;
    let mut counts = vec![0; q];
    for &a in addrs {
        counts[usize::from(a) % q] += 1;
    }
    if counts.iter().any(|&c| c > 126) {
        6
    } else {
        0
    }
}

/// k, P, q, E of an accepted code.
pub fn shape(n: u32, lens: &[u32], addrs: &[u16]) -> (usize, usize, usize, usize) {
    let k = 374 * lens.len();
    let p = n as usize - k;
    (k, p, p / 374, 374 * addrs.len() + 2 * p - 1)
}

/// The numbers of a word's record: state, iterations, unsatisfied checks, named check, BCH result, bits changed by LDPC.
pub const RECORD: usize = 6;

/// The numbers of a tally: rounds, words loaded, iterations given, kept, lost, doubtful.
pub const TALLY: usize = 6;

/// How long each slice lent to a run is: output, records (in u32s), work, lists.
#[derive(Clone, Copy, Debug)]
pub struct Lengths {
    pub out: usize,
    pub records: usize,
    pub work: usize,
    pub lists: usize,
}

/// What an accepted run needs.
pub fn needs(n: u32, lens: &[u32], addrs: &[u16], words: usize, lanes: u32) -> Lengths {
    let (_, p, _, e) = shape(n, lens, addrs);
    let n = n as usize;
    Lengths {
        out: words * n,
        records: RECORD * words,
        work: (n + 3 * e) * lanes as usize,
        lists: e + p + 1,
    }
}

/// 2 to 11 and 13, or 0.
pub fn run_refusal(
    n: u32,
    lens: &[u32],
    addrs: &[u16],
    soft: usize,
    set: Settings,
    lent: Lengths,
) -> u32 {
    let code = code_refusal(n, lens, addrs);
    if code != 0 {
        return code;
    }
    if set.lanes < 1 || set.lanes > 64 {
        return 7;
    }
    if soft % n as usize != 0 || soft / n as usize > 4096 {
        return 8;
    }
    if set.limit > 65_535 {
        return 9;
    }
    if set.layered != 0 && set.step == 0 {
        return 10;
    }
    if set.length < 193
        || set.length > 65_535
        || u64::from(set.first) + u64::from(set.length) > u64::from(n)
    {
        return 11;
    }
    let need = needs(n, lens, addrs, soft / n as usize, set.lanes);
    let short = lent.out < need.out
        || lent.records < need.records
        || lent.work < need.work
        || lent.lists < need.lists;
    if short { 13 } else { 0 }
}

/// Where a word stands when a run ends.
#[derive(Clone, Copy, Debug, PartialEq)]
pub enum Status {
    Waiting,
    /// With so many iterations.
    Held(u32),
    Finished,
}

pub struct Rounds {
    pub stopped: bool,
    pub rounds: u32,
    pub status: Vec<Status>,
}

/// The round rule, for words that end after `ends` iterations.
pub fn rounds(ends: &[u32], lanes: usize, limit: u32) -> Rounds {
    let mut lane: Vec<Option<usize>> = vec![None; lanes];
    let mut status = vec![Status::Waiting; ends.len()];
    let (mut next, mut rounds) = (0, 0);
    loop {
        // "Before a round, empty lanes, lowest first, take words in input order"
        while next < ends.len() {
            let Some(empty) = lane.iter().position(Option::is_none) else {
                break;
            };
            // "a word that is already a codeword leaves its lane with 0 iterations, and the lane refills before the round"
            if ends[next] == 0 {
                status[next] = Status::Finished;
            } else {
                status[next] = Status::Held(0);
                lane[empty] = Some(next);
            }
            next += 1;
        }
        // "After refilling: finished if no lane is held; stopped if the round limit is used up; else a round"
        if lane.iter().all(Option::is_none) {
            return Rounds {
                stopped: false,
                rounds,
                status,
            };
        }
        if rounds == limit {
            return Rounds {
                stopped: true,
                rounds,
                status,
            };
        }
        rounds += 1;
        // "A round gives each held word one iteration"
        for held in &mut lane {
            let Some(w) = *held else { continue };
            let Status::Held(i) = status[w] else {
                unreachable!()
            };
            if i + 1 == ends[w] {
                status[w] = Status::Finished;
                *held = None;
            } else {
                status[w] = Status::Held(i + 1);
            }
        }
    }
}

/// The numbers of a window: place, words, lost, iterations, corrected bits, doubtful.
pub const WINDOW: usize = 6;

/// 14 and then 13, or 0: "refuses with 14 a width that is 0 or above 4,096, as the first of its checks".
pub fn window_refusal(width: u32, ring: usize) -> u32 {
    if !(1..=4096).contains(&width) {
        14
    } else if ring < 3 * width as usize {
        13
    } else {
        0
    }
}

/// Met or unmet.
pub fn finished(record: &[u32; RECORD]) -> bool {
    record[0] == 2 || record[0] == 3
}

/// "BCH accepted it but LDPC left checks unmet"
pub fn doubtful(state: u32, bch: u32) -> bool {
    state == 3 && bch != u32::MAX
}

/// "the number lost, the sums of iterations and of corrected bits, over the last w records or all if there are fewer", of
/// finished records; and how many these are. "A lost word adds 0 corrected bits." "The window counts doubtful words as well."
pub fn afresh(width: usize, finished: &[[u32; RECORD]]) -> [u64; 5] {
    let last = &finished[finished.len().saturating_sub(width)..];
    let lost = |r: &[u32; RECORD]| r[4] == u32::MAX;
    [
        last.len() as u64,
        last.iter().filter(|r| lost(r)).count() as u64,
        last.iter().map(|r| u64::from(r[1])).sum(),
        last.iter()
            .map(|r| if lost(r) { 0 } else { u64::from(r[4]) })
            .sum(),
        last.iter().filter(|r| doubtful(r[0], r[4])).count() as u64,
    ]
}

/// An accepted push onto any window and ring, altered ones too, where the request leaves open what comes of it: a place at or
/// past the width is taken as 0, as many words as the width or more as a full window, and sums are modulo 2^64.
pub fn window_push(
    width: u32,
    window: &mut [u64; WINDOW],
    record: &[u32; RECORD],
    ring: &mut [u32],
) {
    // "An unfinished record is passed over"
    if !finished(record) {
        return;
    }
    let width = u64::from(width);
    let [at, words, sums @ ..] = *window;
    let slot = if at < width { at } else { 0 };
    let place = &mut ring[3 * slot as usize..][..3];
    let old = if words < width {
        [0; 3]
    } else {
        [place[0], place[1], place[2]]
    };
    let new = [record[0], record[1], record[4]];
    place.copy_from_slice(&new);
    let adds = |[state, iterations, bch]: [u32; 3]| {
        let lost = bch == u32::MAX;
        let counted = lost && (state == 2 || state == 3);
        [
            i128::from(counted),
            i128::from(iterations),
            if lost { 0 } else { i128::from(bch) },
            i128::from(doubtful(state, bch)),
        ]
    };
    let (more, less) = (adds(new), adds(old));
    window[0] = (slot + 1) % width;
    window[1] = (words.min(width - 1)) + 1;
    for i in 0..4 {
        let sum = i128::from(sums[i]) + more[i] - less[i];
        window[2 + i] = sum.rem_euclid(1 << 64) as u64;
    }
}

/// How many soft words are combined at most.
pub const COMBINED_MOST: usize = 8;

/// 15 and then 13, or 0: "refuses with 15 a .. count outside 1 to 8, unequal lengths, or lengths that don't add up to the slice,
/// before looking at the output slice".
pub fn combine_refusal(lengths: &[u32], soft: usize, out: usize) -> u32 {
    let sum: u64 = lengths.iter().map(|&l| u64::from(l)).sum();
    let counted = (1..=COMBINED_MOST).contains(&lengths.len());
    if !counted || lengths.iter().any(|l| *l != lengths[0]) || sum != soft as u64 {
        15
    } else if out < lengths[0] as usize {
        13
    } else {
        0
    }
}

/// "each position gets the exact sum of its values, clamped to ±127 a single time at the end": of so many equally long words, one
/// after another.
pub fn combined(count: usize, soft: &[i8]) -> Vec<i8> {
    let n = soft.len() / count;
    let sum = |i: usize| (0..count).map(|w| i32::from(soft[w * n + i])).sum::<i32>();
    (0..n).map(|i| sum(i).clamp(-127, 127) as i8).collect()
}
