//! What a run with a round limit gives: the scope's round rule over the original's own answers. `decode_all_traced` has each
//! word's hard decisions after each of its iterations, and how it ended; `bch::decode` what becomes of its BCH part, which is left as
//! it was if it is lost.

use crate::decode_or_leave;
use crate::ldpc::Code;
use crate::ldpc::fixed::{Decoder, Params, Schedule};
use std::collections::BTreeMap;

#[derive(Clone, Copy, Debug)]
pub struct Settings {
    pub lanes: u32,
    pub limit: u32,
    /// The step of the layered schedule; none: sequential.
    pub step: Option<u32>,
    pub offset: i8,
    pub rounds: u32,
    pub first: u32,
    pub length: u32,
}

#[derive(Clone, Copy, PartialEq, Eq, Debug)]
pub enum State {
    Waiting,
    Held,
    Met,
    Unmet,
}

/// A word's record but for the named check, and its bits.
#[derive(Clone, Debug)]
pub struct Word {
    pub state: State,
    pub iterations: usize,
    /// The checks that its bits before BCH leave unsatisfied.
    pub unsatisfied: Vec<usize>,
    /// Bits corrected; none: lost.
    pub bch: Option<usize>,
    /// None of a word that waits.
    pub bits: Option<Vec<u8>>,
    /// Whether it is lost and the original flipped bits of it.
    pub taken_back: bool,
    /// Positions where its bits before BCH differ from the input's hard decisions.
    pub changed: usize,
    /// That number by wrong readings.
    pub misread: Misread,
}

/// Numbers that are not asked for; where they are others, a list tells the readings apart.
#[derive(Clone, Copy, Default, Debug)]
pub struct Misread {
    /// BCH's corrections are in it.
    pub after_bch: usize,
    /// Positions outside the BCH part are not.
    pub in_part: usize,
    /// A bit that is turned and turned back counts twice.
    pub turns: usize,
    /// A soft value of 0 is a 1 bit.
    pub zeros: usize,
}

/// What there is to tell of the words' changed positions.
pub fn tell(counts: &mut BTreeMap<String, u32>, words: &[Word]) {
    for word in words {
        let (changed, misread) = (word.changed, word.misread);
        for (wrong, what) in [
            (0, "not 0"),
            (misread.after_bch, "not as after BCH"),
            (misread.in_part, "not as in the BCH part"),
            (misread.turns, "not as by turns"),
            (misread.zeros, "not as with 0 for a 1"),
        ] {
            if changed != wrong {
                *counts.entry(format!("changed {what}: {:?}", word.state)).or_default() += 1;
            }
        }
        let most = counts.entry("changed at most".into()).or_default();
        *most = (*most).max(changed as u32);
    }
}

pub struct Ran {
    pub stopped: bool,
    pub rounds: u32,
    pub loaded: usize,
    pub given: usize,
    pub kept: usize,
    pub lost: usize,
    pub doubtful: usize,
    pub words: Vec<Word>,
}

/// The code of row lengths and addresses.
pub fn code(n: usize, lens: &[u32], addrs: &[u16]) -> Code {
    let mut rest = addrs;
    let mut table: Vec<&[u16]> = Vec::new();
    for &l in lens {
        let (row, after) = rest.split_at(l as usize);
        table.push(row);
        rest = after;
    }
    Code::new(n, &table)
}

/// How many i8s and u32s of work a run needs, of a code that is not refused.
pub fn work(n: u32, lens: &[u32], addrs: &[u16], lanes: u32) -> (usize, usize) {
    let code = code(n as usize, lens, addrs);
    let e: usize = (0..code.checks()).map(|c| code.check(c).len()).sum();
    ((code.n() + 3 * e) * lanes as usize, e + code.checks() + 1)
}

/// The scope's numbers of refusal from 2 to 11, in their order; 0 if none applies.
pub fn refusal(n: u32, lens: &[u32], addrs: &[u16], soft: usize, s: &Settings) -> u32 {
    let (n, rows, soft) = (u64::from(n), lens.len() as u64, soft as u64);
    if n == 0 || n % 374 != 0 || n > 44_880 {
        return 2;
    }
    if 374 * rows >= n {
        return 3;
    }
    if lens.iter().any(|&l| l > 128) {
        return 4;
    }
    if lens.iter().map(|&l| u64::from(l)).sum::<u64>() != addrs.len() as u64 {
        return 5;
    }
    let q = (n - 374 * rows) / 374;
    let equal = |a: u64| addrs.iter().filter(|&&b| u64::from(b) % q == a % q).count();
    if addrs.iter().any(|&a| equal(u64::from(a)) > 126) {
        return 6;
    }
    if s.lanes == 0 || s.lanes > 64 {
        return 7;
    }
    if soft % n != 0 || soft / n > 4096 {
        return 8;
    }
    if s.limit > 65_535 {
        return 9;
    }
    if s.step == Some(0) {
        return 10;
    }
    if s.length < 193 || s.length > 65_535 || u64::from(s.first) + u64::from(s.length) > n {
        return 11;
    }
    0
}

fn unsatisfied(code: &Code, bits: &[u8]) -> Vec<usize> {
    let odd = |c: &usize| code.check(*c).iter().fold(0, |a, &v| a ^ bits[v as usize]) & 1 == 1;
    let checks: Vec<usize> = (0..code.checks()).filter(odd).collect();
    assert_eq!(checks.len(), code.syndrome_weight(bits));
    checks
}

/// Each word's bits after 0, 1, .. iterations up to its end, and the words in the order in which they were given iterations.
fn decode<const W: usize>(code: &Code, soft: &[&[i8]], p: Params) -> (Vec<Vec<Vec<u8>>>, Vec<usize>) {
    // the input's hard decisions are the original's too: its answer at iteration limit 0
    let begun = Decoder::<W>::default().decode_all(code, soft, Params { max_iter: 0, ..p });
    let mut bits: Vec<Vec<Vec<u8>>> = begun.into_iter().map(|(_, hard)| vec![hard]).collect();
    let hard = |own: &&[i8]| own.iter().map(|&x| u8::from(x < 0)).collect::<Vec<u8>>();
    assert!(bits.iter().map(|seen| &seen[0]).eq(&soft.iter().map(hard).collect::<Vec<_>>()));
    let mut order = Vec::new();
    let traced = Decoder::<W>::default().decode_all_traced(code, soft, p, |w, b| {
        bits[w].push(b.to_vec());
        order.push(w);
    });
    assert_eq!(traced, Decoder::<W>::default().decode_all(code, soft, p));
    for ((result, end), seen) in traced.iter().zip(&bits) {
        let (iterations, left) = match result {
            Ok(d) => (d.iterations, 0),
            Err(e) => (e.iterations, e.unsatisfied),
        };
        assert_eq!(iterations + 1, seen.len());
        assert_eq!(end, seen.last().unwrap());
        assert_eq!(left, unsatisfied(code, end).len());
    }
    (bits, order)
}

fn decode_in(lanes: u32, code: &Code, soft: &[&[i8]], p: Params) -> (Vec<Vec<Vec<u8>>>, Vec<usize>) {
    match lanes {
        1 => decode::<1>(code, soft, p),
        2 => decode::<2>(code, soft, p),
        3 => decode::<3>(code, soft, p),
        4 => decode::<4>(code, soft, p),
        8 => decode::<8>(code, soft, p),
        16 => decode::<16>(code, soft, p),
        17 => decode::<17>(code, soft, p),
        32 => decode::<32>(code, soft, p),
        33 => decode::<33>(code, soft, p),
        64 => decode::<64>(code, soft, p),
        _ => panic!("{lanes} lanes"),
    }
}

/// Which words were given an iteration in each round, how many were taken, and whether the round limit ended it.
struct Rounds {
    by_round: Vec<Vec<usize>>,
    loaded: usize,
    stopped: bool,
}

/// The round rule, from the iterations that each word needs.
fn round_rule(needs: &[usize], lanes: usize, limit: u32) -> Rounds {
    let mut held: Vec<Option<usize>> = vec![None; lanes];
    let mut given = vec![0; needs.len()];
    let mut loaded = 0;
    let mut by_round = Vec::new();
    loop {
        // empty lanes, lowest first, take words in input order; one that needs none leaves at once and its lane refills
        for lane in &mut held {
            while lane.is_none() && loaded < needs.len() {
                if needs[loaded] > 0 {
                    *lane = Some(loaded);
                }
                loaded += 1;
            }
        }
        let words: Vec<usize> = held.iter().flatten().copied().collect();
        if words.is_empty() || by_round.len() == limit as usize {
            let stopped = !words.is_empty();
            return Rounds { by_round, loaded, stopped };
        }
        for lane in &mut held {
            if let Some(w) = *lane {
                given[w] += 1;
                if given[w] == needs[w] {
                    *lane = None;
                }
            }
        }
        by_round.push(words);
    }
}

/// That the original gave its iterations in these rounds.
fn same_rounds(rule: &Rounds, order: &[usize]) {
    let mut rest = order;
    for words in &rule.by_round {
        let (round, after) = rest.split_at(words.len());
        let (mut a, mut b) = (words.clone(), round.to_vec());
        a.sort_unstable();
        b.sort_unstable();
        assert_eq!(a, b);
        rest = after;
    }
    assert!(rest.is_empty());
}

/// Positions where two words differ.
fn differ(a: &[u8], b: &[u8]) -> usize {
    assert_eq!(a.len(), b.len());
    a.iter().zip(b).filter(|(x, y)| x != y).count()
}

/// A word taken, after some of its iterations.
fn word(code: &Code, own: &[i8], seen: &[Vec<u8>], iterations: usize, s: &Settings) -> Word {
    let (begun, before) = (&seen[0], &seen[iterations]);
    let left = unsatisfied(code, before);
    let part = s.first as usize..(s.first + s.length) as usize;
    let mut bits = before.clone();
    let (state, bch) = if iterations + 1 < seen.len() {
        (State::Held, Ok(0))
    } else {
        let fixed = decode_or_leave(&mut bits[part.clone()]);
        (if left.is_empty() { State::Met } else { State::Unmet }, fixed)
    };
    let (bch, taken_back) = (bch.ok(), bch.is_err_and(|lost| lost.flips > 0));
    let changed = differ(begun, before);
    let ones: Vec<u8> = own.iter().map(|&x| u8::from(x <= 0)).collect();
    let misread = Misread {
        after_bch: differ(begun, &bits),
        in_part: differ(&begun[part.clone()], &before[part]),
        turns: seen[..=iterations].windows(2).map(|two| differ(&two[0], &two[1])).sum(),
        zeros: differ(&ones, before),
    };
    Word { state, iterations, unsatisfied: left, bch, bits: Some(bits), taken_back, changed, misread }
}

/// A run that is not refused. How many rounds it makes without a limit is the second answer.
pub fn run(code: &Code, soft: &[i8], s: &Settings) -> (Ran, u32) {
    let schedule = match s.step {
        None => Schedule::Sequential,
        Some(step) => Schedule::Layered { step: step as usize },
    };
    let p = Params { max_iter: s.limit as usize, offset: s.offset, schedule };
    let soft: Vec<&[i8]> = soft.chunks(code.n()).collect();
    let (seen, order) = decode_in(s.lanes, code, &soft, p);
    let needs: Vec<usize> = seen.iter().map(|b| b.len() - 1).collect();
    let whole = round_rule(&needs, s.lanes as usize, u32::MAX);
    same_rounds(&whole, &order);
    let rule = round_rule(&needs, s.lanes as usize, s.rounds);
    let mut given = vec![0; soft.len()];
    for &w in rule.by_round.iter().flatten() {
        given[w] += 1;
    }
    let waiting = Word {
        state: State::Waiting,
        iterations: 0,
        unsatisfied: Vec::new(),
        bch: Some(0),
        bits: None,
        taken_back: false,
        changed: 0,
        misread: Misread::default(),
    };
    // a word alone, in one lane, with as many iterations as it was given, has the same bits
    for w in 0..rule.loaded {
        let alone = Decoder::<1>::default().decode_all(code, &soft[w..=w], Params { max_iter: given[w], ..p });
        assert_eq!(alone[0].1, seen[w][given[w]]);
    }
    let words: Vec<Word> = (0..soft.len())
        .map(|w| if w < rule.loaded { word(code, soft[w], &seen[w], given[w], s) } else { waiting.clone() })
        .collect();
    // kept: met and accepted by BCH; doubtful: accepted, with checks left unmet; lost: finished and not accepted
    let count = |which: fn(&Word) -> bool| words.iter().filter(|w| which(w)).count();
    let ran = Ran {
        stopped: rule.stopped,
        rounds: rule.by_round.len() as u32,
        loaded: rule.loaded,
        given: given.iter().sum(),
        kept: count(|w| w.state == State::Met && w.bch.is_some()),
        lost: count(|w| matches!(w.state, State::Met | State::Unmet) && w.bch.is_none()),
        doubtful: count(|w| w.state == State::Unmet && w.bch.is_some()),
        words,
    };
    (ran, whole.by_round.len() as u32)
}
