//! `raxdov_combine`, which the original does not have, held to the scope (scope.rs); and runs of combined words, which the harness
//! holds to the original's decoder like every other run.

use crate::archive;
use crate::input::Plan;
use crate::lent::{Lent, same};
use crate::random::Random;
use crate::run;
use crate::scope::{self, COMBINED_MOST};
use oracle::ldpc::Code;
use std::rc::Rc;

#[derive(Default)]
pub struct Counts {
    /// Calls, and how many of them were accepted with 1 to 8 words.
    pub calls: u64,
    pub words: [u64; COMBINED_MOST + 1],
    /// Values of combined words; of them clamped, and other ones if each word's addition were clamped.
    pub values: u64,
    pub clamped: u64,
    pub other_by_steps: u64,
    /// Calls made again with the words in another order, and with a word of zeros more.
    pub orders: u64,
    pub zeros: u64,
    /// By 13 and by 15; by 15 where the output was too short for the first length as well, where the lengths add up to the slice,
    /// and where they do so modulo 2^32 only.
    pub refused: [u64; 2],
    pub both: u64,
    pub adding_up: u64,
    pub wrapping: u64,
    /// Runs of combined words.
    pub runs: run::Counts,
}

/// A call: the words' lengths, the words, the output's length.
#[derive(Clone, Debug)]
struct Case {
    lengths: Vec<u32>,
    soft: Vec<i8>,
    out: usize,
}

/// What a call answers, and what it leaves of what it is lent.
type By<'a> = &'a dyn Fn(&mut Lent<u32>, &mut Lent<i8>, &mut Lent<i8>) -> u32;

fn by_archive(lengths: &mut Lent<u32>, soft: &mut Lent<i8>, out: &mut Lent<i8>) -> u32 {
    archive::combine(lengths, soft, out)
}

/// One call, held to the scope's; the combined word, if it is not refused.
fn call(
    r: &mut Random,
    case: &Case,
    counts: &mut Counts,
    by: By,
) -> Result<Option<Vec<i8>>, String> {
    let Case { lengths, soft, out } = case;
    let mut lent = (
        Lent::of(lengths, r),
        Lent::of(soft, r),
        Lent::filled(*out, r),
    );
    let got = by(&mut lent.0, &mut lent.1, &mut lent.2);
    let tell = |e: String| {
        let short = &soft[..soft.len().min(400)];
        format!(
            "combine: {e}; lengths {lengths:?}, output of {out}, {} values {short:?}",
            soft.len()
        )
    };
    let wanted = scope::combine_refusal(lengths, soft.len(), *out);
    same("answer", got, wanted).map_err(tell)?;
    lent.0.unchanged("lengths").map_err(tell)?;
    lent.1.unchanged("soft").map_err(tell)?;
    counts.calls += 1;
    if wanted != 0 {
        lent.2.unchanged("out").map_err(tell)?;
        counts.refused[usize::from(wanted == 15)] += 1;
        if wanted == 15 {
            let sum: u64 = lengths.iter().map(|&l| u64::from(l)).sum();
            let first = lengths.first().copied().unwrap_or(0) as usize;
            counts.both += u64::from(*out < first);
            counts.adding_up += u64::from(sum == soft.len() as u64);
            counts.wrapping += u64::from(sum >> 32 > 0 && sum as u32 as usize == soft.len());
        }
        return Ok(None);
    }
    let count = lengths.len();
    let word = scope::combined(count, soft);
    lent.2.holds("out", &word, word.len()).map_err(tell)?;
    counts.words[count] += 1;
    counts.values += word.len() as u64;
    let n = word.len();
    for (i, &value) in word.iter().enumerate() {
        let at = |w: usize| i32::from(soft[w * n + i]);
        let sum: i32 = (0..count).map(at).sum();
        let steps = (0..count).fold(0, |s, w| (s + at(w)).clamp(-127, 127));
        counts.clamped += u64::from(sum.abs() > 127);
        counts.other_by_steps += u64::from(steps != i32::from(value));
    }
    Ok(Some(lent.2.now()[..n].to_vec()))
}

fn length(r: &mut Random) -> usize {
    match r.below(60) {
        0 => r.pick(&[44_880, 22_440, 4096, 65_535]),
        1..3 => r.below(5000),
        3..10 => r.below(4),
        10..40 => (16 * r.below(12) + r.below(5)).saturating_sub(2),
        40..43 => r.pick(&[374, 748, 1122]),
        _ => r.below(300),
    }
}

/// So many words of n values: of any size, at the ends, small, alike, about the clamp, or against each other.
fn words(r: &mut Random, count: usize, n: usize) -> Vec<i8> {
    let ends = [-128, -127, -126, -1, 0, 1, 126, 127];
    let mut soft: Vec<i8> = match r.below(6) {
        0 => (0..count * n).map(|_| r.pick(&ends)).collect(),
        1 => (0..count * n).map(|_| r.below(33) as i8 - 16).collect(),
        2 => (0..count)
            .flat_map(|_| std::iter::repeat_n(r.pick(&ends), n))
            .collect(),
        _ => r.bytes(count * n).iter().map(|&b| b as i8).collect(),
    };
    if count > 1 && r.one_in(2) {
        // one word brings each sum near to a number
        let (w, against) = (r.below(count), r.one_in(3));
        for i in 0..n {
            soft[w * n + i] = 0;
            let sum: i32 = (0..count).map(|v| i32::from(soft[v * n + i])).sum();
            let near = if against {
                r.below(3) as i32 - 1
            } else {
                r.pick(&[-127, 127]) + r.below(5) as i32 - 2
            };
            soft[w * n + i] = (near - sum).clamp(-128, 127) as i8;
        }
    }
    if count > 0 && r.one_in(6) {
        let w = r.below(count);
        soft[w * n..][..n].fill(0);
    }
    soft
}

fn room(r: &mut Random, n: usize) -> usize {
    match r.below(10) {
        0 => n.saturating_sub(1),
        1 => r.below(n + 1),
        2 => r.pick(&[0, 1, 2 * n, 8 * n]),
        3..6 => n + r.below(40),
        _ => n,
    }
}

fn case(r: &mut Random) -> Case {
    let (count, n) = (r.within(1, COMBINED_MOST), length(r));
    Case {
        lengths: vec![n as u32; count],
        soft: words(r, count, n),
        out: room(r, n),
    }
}

/// A call that is refused by 15, but for a few.
fn faulty(r: &mut Random) -> Case {
    let mut c = case(r);
    let (count, n) = (c.lengths.len(), c.lengths[0] as usize);
    match r.below(8) {
        // too many, or none, that add up
        0 => {
            let many = r.pick(&[0, 9, 9, 10, 16, 256]);
            let n = n.min(1000);
            c.lengths = vec![n as u32; many];
            c.soft = words(r, many, n);
        }
        // none, and words
        1 => c.lengths.clear(),
        // unequal, that add up
        2 | 3 if count > 1 && n > 0 => {
            let (from, by) = (r.below(count), r.within(1, n));
            let to = (from + r.within(1, count - 1)) % count;
            c.lengths[from] -= by as u32;
            c.lengths[to] += by as u32;
        }
        4 => {
            let w = r.below(count);
            c.lengths[w] = (n + r.below(4)) as u32;
            let sum: u32 = c.lengths.iter().sum();
            c.soft.resize(sum as usize, 1);
        }
        // that don't add up
        5 => {
            let size = c.soft.len();
            let size = match r.below(4) {
                0 => size.saturating_sub(1),
                1 => size + 1,
                2 => size.saturating_sub(n),
                _ => size + n,
            };
            c.soft.resize(size, 1);
        }
        // equal, that add up modulo 2^32
        6 => {
            let count = r.pick(&[2, 4, 8]);
            let n = n.min(1000);
            c.lengths = vec![n as u32 + (u32::MAX / count as u32 + 1); count];
            c.soft = words(r, count, n);
        }
        _ => {
            let huge = r.pick(&[1 << 29, 1 << 30, 1 << 31, u32::MAX, u32::MAX - 1]);
            if r.one_in(2) {
                c.lengths.fill(huge);
            } else {
                // the first of them, and the others make up for it modulo 2^32
                let rest = c.lengths.iter().skip(1).sum::<u32>();
                c.lengths[0] = (c.soft.len() as u32).wrapping_sub(rest);
                let w = r.below(count);
                c.lengths[w] = c.lengths[w].wrapping_add(huge);
                c.lengths[0] = c.lengths[0].wrapping_sub(huge);
            }
            if r.one_in(2) {
                c.soft.clear();
            }
        }
    }
    c
}

/// The words of a slice in another order.
fn shuffled(r: &mut Random, count: usize, soft: &[i8]) -> Vec<i8> {
    let n = soft.len() / count;
    let mut order: Vec<usize> = (0..count).collect();
    for i in (1..count).rev() {
        order.swap(i, r.below(i + 1));
    }
    let word = |&w: &usize| soft[w * n..][..n].iter().copied();
    order.iter().flat_map(word).collect()
}

/// One call, refused or not; now and then again with the words in another order, and with a word of zeros among them.
pub fn compare(r: &mut Random, counts: &mut Counts) -> Result<(), String> {
    let case = if r.one_in(3) { faulty(r) } else { case(r) };
    let Some(word) = call(r, &case, counts, &by_archive)? else {
        return Ok(());
    };
    let (count, n) = (case.lengths.len(), word.len());
    if count > 1 && r.one_in(3) {
        counts.orders += 1;
        let soft = shuffled(r, count, &case.soft);
        let other = call(
            r,
            &Case {
                soft,
                ..case.clone()
            },
            counts,
            &by_archive,
        )?;
        same(
            "combine: the words in another order",
            other.as_ref(),
            Some(&word),
        )?;
    }
    if count < COMBINED_MOST && r.one_in(3) {
        counts.zeros += 1;
        let mut more = case.clone();
        more.lengths.push(n as u32);
        let at = r.within(0, count) * n;
        more.soft.splice(at..at, std::iter::repeat_n(0, n));
        let other = call(r, &more, counts, &by_archive)?;
        // of one word alone -128 becomes -127 with and without
        same("combine: a word of zeros more", other.as_ref(), Some(&word))?;
    }
    Ok(())
}

/// Words of every length up to 600, as many of each as there may be, and eight of the longest that a run takes.
pub fn lengths(r: &mut Random) -> Result<Counts, String> {
    let mut counts = Counts::default();
    let sizes = (0..=600).flat_map(|n| (1..=COMBINED_MOST).map(move |count| (n, count)));
    for (n, count) in sizes.chain([(44_880, COMBINED_MOST)]) {
        let case = Case {
            lengths: vec![n as u32; count],
            soft: words(r, count, n),
            out: n + r.below(2),
        };
        call(r, &case, &mut counts, &by_archive)?;
    }
    Ok(counts)
}

/// A word as it may be received: as it is, with noise, weaker, zeros in part or whole, disturbed.
fn received(r: &mut Random, word: &[i8]) -> Vec<i8> {
    let n = word.len();
    let deviation = r.pick(&[3.0, 8.0, 16.0]);
    let mut got = match r.below(16) {
        0 => vec![0; n],
        1 if r.one_in(3) => r.bytes(n).iter().map(|&b| b as i8).collect(),
        2 => word.iter().map(|v| v / 4).collect(),
        3..10 => {
            let noisy = |&v: &i8| f64::from(v) + deviation * r.normal();
            let values = word.iter().map(noisy);
            values
                .map(|x| x.round().clamp(-128.0, 127.0) as i8)
                .collect()
        }
        _ => word.to_vec(),
    };
    if r.one_in(3) {
        let from = r.below(n);
        let part = &mut got[from..from + r.below(n - from + 1)];
        if r.one_in(4) {
            let short = part.len() / 8;
            part[..short]
                .iter_mut()
                .for_each(|v| *v = v.saturating_neg());
        } else {
            part.fill(0);
        }
    }
    got
}

/// A run whose words are combined, by the archive, of one to eight each.
pub fn run(
    r: &mut Random,
    plan: &Rc<Plan>,
    code: &Rc<Code>,
    counts: &mut Counts,
) -> Result<run::Case, String> {
    let mut run = run::case(r, plan, code);
    // the combined words may be of no codeword, and then each takes as many iterations as there may be
    run.set.limit = run.set.limit.min(40);
    let n = plan.n as usize;
    let mut soft = Vec::with_capacity(run.soft.len());
    for word in run.soft.chunks(n) {
        let count = r.within(1, COMBINED_MOST);
        let all: Vec<i8> = (0..count).flat_map(|_| received(r, word)).collect();
        run.first_words.extend_from_slice(&all[..n]);
        let case = Case {
            lengths: vec![plan.n; count],
            soft: all,
            out: n + r.below(3),
        };
        let word = call(r, &case, counts, &by_archive)?;
        soft.extend(word.expect("an accepted call"));
    }
    run.soft = soft;
    Ok(run)
}

/// Ways to combine that are wrong.
#[derive(Clone, Copy, Debug)]
enum Wrong {
    // values
    ClampedEach,
    ClampedEachTo128,
    ClampedTo128,
    Wrapping,
    LastWordLeftOut,
    FirstWordEachTime,
    OneWordCopied,
    Mean,
    ZeroGivesNothing,
    WordsOneFurther,
    LastValueLeft,
    RestOfSixteenLeft,
    // refusals
    UnequalAccepted,
    LastNotCompared,
    SumNotTested,
    SumModulo,
    LongerSliceAccepted,
    NineAccepted,
    NoneAccepted,
    EightRefused,
    EmptyRefused,
    ShortFirst,
    ShortBesideUnequal,
    OneShortAccepted,
    LongerOutputRefused,
    RoomForAllAsked,
    // what is left
    TailZeroed,
    OneMoreWritten,
    WrittenBefore,
    WrittenBehind,
    RefusedWrites,
    SoftWritten,
    LengthsWritten,
}

const WRONG: [Wrong; 33] = [
    Wrong::ClampedEach,
    Wrong::ClampedEachTo128,
    Wrong::ClampedTo128,
    Wrong::Wrapping,
    Wrong::LastWordLeftOut,
    Wrong::FirstWordEachTime,
    Wrong::OneWordCopied,
    Wrong::Mean,
    Wrong::ZeroGivesNothing,
    Wrong::WordsOneFurther,
    Wrong::LastValueLeft,
    Wrong::RestOfSixteenLeft,
    Wrong::UnequalAccepted,
    Wrong::LastNotCompared,
    Wrong::SumNotTested,
    Wrong::SumModulo,
    Wrong::LongerSliceAccepted,
    Wrong::NineAccepted,
    Wrong::NoneAccepted,
    Wrong::EightRefused,
    Wrong::EmptyRefused,
    Wrong::ShortFirst,
    Wrong::ShortBesideUnequal,
    Wrong::OneShortAccepted,
    Wrong::LongerOutputRefused,
    Wrong::RoomForAllAsked,
    Wrong::TailZeroed,
    Wrong::OneMoreWritten,
    Wrong::WrittenBefore,
    Wrong::WrittenBehind,
    Wrong::RefusedWrites,
    Wrong::SoftWritten,
    Wrong::LengthsWritten,
];

fn wrong_refusal(what: Wrong, lengths: &[u32], soft: usize, out: usize) -> u32 {
    let (count, n) = (lengths.len(), lengths.first().map_or(0, |&l| l as usize));
    let sum: u64 = lengths.iter().map(|&l| u64::from(l)).sum();
    let counted = match what {
        Wrong::NineAccepted => (1..=9).contains(&count),
        Wrong::NoneAccepted => count <= 8,
        Wrong::EightRefused => (1..8).contains(&count),
        _ => (1..=8).contains(&count),
    };
    let compared = match what {
        Wrong::UnequalAccepted => 0,
        Wrong::LastNotCompared => count.saturating_sub(1),
        _ => count,
    };
    let equal = lengths[..compared].iter().all(|&l| l as usize == n);
    let whole = match what {
        Wrong::SumNotTested => true,
        Wrong::SumModulo => sum as u32 == soft as u32,
        Wrong::LongerSliceAccepted => sum <= soft as u64,
        Wrong::EmptyRefused => sum == soft as u64 && n > 0,
        _ => sum == soft as u64,
    };
    let short = match what {
        Wrong::OneShortAccepted => out + 1 < n,
        Wrong::LongerOutputRefused => out != n,
        Wrong::RoomForAllAsked => out < soft,
        _ => out < n,
    };
    let first = match what {
        Wrong::ShortFirst => short,
        Wrong::ShortBesideUnequal => short && counted && !equal,
        _ => false,
    };
    if first {
        13
    } else if !(counted && equal && whole) {
        15
    } else if short {
        13
    } else {
        0
    }
}

/// The value at place i.
fn wrong_value(what: Wrong, count: usize, n: usize, soft: &[i8], i: usize) -> i8 {
    let step = match what {
        Wrong::WordsOneFurther => n + 1,
        Wrong::FirstWordEachTime => 0,
        _ => n,
    };
    let last = count - usize::from(matches!(what, Wrong::LastWordLeftOut));
    let at = |w: usize| soft.get(w * step + i).map_or(0, |&v| i32::from(v));
    let all = || (0..last).map(at);
    let sum: i32 = all().sum();
    let value = match what {
        Wrong::ClampedEach => all().fold(0, |s, v| (s + v).clamp(-127, 127)),
        Wrong::ClampedEachTo128 => all().fold(0, |s, v| (s + v).clamp(-128, 127)).max(-127),
        Wrong::ClampedTo128 => sum.clamp(-128, 127),
        Wrong::Wrapping => i32::from(sum as i8).max(-127),
        Wrong::OneWordCopied if count == 1 => sum,
        Wrong::Mean => sum / count as i32,
        Wrong::ZeroGivesNothing if all().any(|v| v == 0) => 0,
        _ => sum.clamp(-127, 127),
    };
    value as i8
}

fn wrong(what: Wrong, lengths: &mut Lent<u32>, soft: &mut Lent<i8>, out: &mut Lent<i8>) -> u32 {
    let (count, n) = (
        lengths.len(),
        lengths.now().first().map_or(0, |&l| l as usize),
    );
    let size = out.len();
    let answer = wrong_refusal(what, lengths.now(), soft.len(), size);
    let refused_writes = matches!(what, Wrong::RefusedWrites);
    if answer == 0 || refused_writes {
        let written = match what {
            Wrong::LastValueLeft => n.saturating_sub(1),
            Wrong::RestOfSixteenLeft => n / 16 * 16,
            _ => n,
        };
        for i in 0..written.min(size) {
            out.spoil(i as isize, wrong_value(what, count, n, soft.now(), i));
        }
    }
    if answer == 0 {
        let turn = |slice: &mut Lent<i8>, at: isize| slice.spoil(at, slice.guard_value(at) ^ 1);
        match what {
            Wrong::TailZeroed => (n..size).for_each(|i| out.spoil(i as isize, 0)),
            Wrong::OneMoreWritten => turn(out, n as isize),
            Wrong::WrittenBefore => turn(out, -1),
            Wrong::WrittenBehind => turn(out, size as isize),
            Wrong::SoftWritten if !soft.is_empty() => turn(soft, 0),
            Wrong::LengthsWritten => lengths.spoil(count as isize - 1, !lengths.now()[count - 1]),
            _ => {}
        }
    }
    answer
}

/// Each wrong way is found, so many times; how many there are, and the most calls that one took.
pub fn selftest(r: &mut Random, times: usize) -> Result<(usize, usize), String> {
    let mut most = 0;
    for what in WRONG {
        for _ in 0..times {
            let by = |lengths: &mut Lent<u32>, soft: &mut Lent<i8>, out: &mut Lent<i8>| {
                wrong(what, lengths, soft, out)
            };
            let mut calls = 0;
            loop {
                let case = if r.one_in(3) { faulty(r) } else { case(r) };
                calls += 1;
                call(r, &case, &mut Counts::default(), &by_archive)?;
                if call(r, &case, &mut Counts::default(), &by).is_err() {
                    break;
                }
                if calls == 5000 {
                    return Err(format!("selftest: {what:?} of combine was not found"));
                }
            }
            most = most.max(calls);
        }
    }
    Ok((WRONG.len(), most))
}
