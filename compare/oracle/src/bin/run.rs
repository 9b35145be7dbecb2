//! Writes the cases that `crates/vectors_run` replays (the file named first) and what the original gives for them (the file
//! named second).
//!
//! A case has 20 numbers of 32 bits, lowest byte first: n, rows, addresses, soft values, lanes, iteration limit, 1 for layered,
//! step, offset + 128, round limit, first, length, the lengths of the lent output, records, work and lists, bytes of base
//! words, recipes, bytes of maps, P. Then come the row lengths (4 bytes each), the addresses (2 bytes each), the base words
//! (n bits each, one behind the other, lowest bit of a byte first), the recipes (12 bytes each), and a map of P bits for each
//! word: its unsatisfied checks. Bits behind the end of what is stored are 0.
//!
//! Word w is made by recipe w mod recipes: two bytes for the bit at which its base word starts, bytes a, b, c, d, e and 0, and
//! a seed of four. The state starts at the seed plus w. For each place six numbers are drawn: the value is a, or -a where the base word has a 1, and noise of -b to b;
//! it is negated by chance of c in 256, any value by chance of d, one of -128, -1, 0, 1, 127 by chance of e; then clamped.
//!
//! In the second file a case has a line, and each of its words one: state, iterations, unsatisfied checks, BCH result, 1 (the
//! named check is right), and the bits that LDPC changed. A lost word's bits, in the sum over the output, are those that LDPC left:
//! the original's flips are taken back.
//!
//! The output is lent with (7i + 13) mod 251 at place i, work with 77, lists with 777,777,777, and the tally with 901 to 906.

use oracle::bch;
use oracle::ldpc::Code;
use oracle::poly::power;
use oracle::rounds::{self, Settings, State};
use std::collections::BTreeMap;
use std::fmt::Write;

fn next(x: u64) -> u64 {
    ((x % 2147483648) * 1103515245 + 12345) % 2147483648
}

fn draw(x: u64, m: u64) -> u64 {
    if m == 0 { 0 } else { x / 65536 % m }
}

/// A sum over every byte and its place, below 2^48.
fn sum(bytes: &[u8]) -> u64 {
    bytes.iter().fold(0, |h, &b| (h * 16_411 + u64::from(b) + 1) % 281_474_976_710_597)
}

#[derive(Clone, Copy, Default)]
struct Recipe {
    base: u8,
    a: u8,
    b: u8,
    c: u8,
    d: u8,
    e: u8,
    seed: u32,
}

impl Recipe {
    fn value(&self, bit: bool, x: &mut u64) -> i8 {
        let mut drawn = |m: u64| {
            *x = next(*x);
            draw(*x, m) as i64
        };
        let (a, b) = (i64::from(self.a), i64::from(self.b));
        let mut v = if bit { -a } else { a };
        v += drawn(2 * b as u64 + 1) - b;
        if drawn(256) < i64::from(self.c) {
            v = -v;
        }
        let any = drawn(256) < i64::from(self.d);
        let which = drawn(256) - 128;
        if any {
            v = which;
        }
        let edge = drawn(256) < i64::from(self.e);
        let which = [-128, -1, 0, 1, 127][drawn(5) as usize];
        if edge {
            v = which;
        }
        v.clamp(-128, 127) as i8
    }

    fn word(&self, w: usize, base: &[u8], n: usize) -> Vec<i8> {
        let mut x = u64::from(self.seed) + w as u64;
        (0..n).map(|i| self.value(base.get(i) == Some(&1), &mut x)).collect()
    }
}

#[derive(Clone)]
struct Case {
    n: u32,
    lens: Vec<u32>,
    addrs: Vec<u16>,
    soft: usize,
    set: Settings,
    out: usize,
    room: usize,
    work: usize,
    lists: usize,
    bases: Vec<Vec<u8>>,
    recipes: Vec<Recipe>,
}

impl Case {
    /// The number of refusal; 0 if none applies.
    fn refusal(&self) -> u32 {
        let number = rounds::refusal(self.n, &self.lens, &self.addrs, self.soft, &self.set);
        if number > 0 {
            return number;
        }
        let (work, lists) = rounds::work(self.n, &self.lens, &self.addrs, self.set.lanes);
        let words = self.soft / self.n as usize;
        if self.out < self.soft || self.room < words || self.work < work || self.lists < lists {
            return 13;
        }
        0
    }

    /// Slices as long as needed, and longer by these.
    fn lend(&mut self, out: usize, room: usize, work: usize, lists: usize) {
        let need = rounds::work(self.n, &self.lens, &self.addrs, self.set.lanes);
        self.out = self.soft + out;
        self.room = self.soft / self.n as usize + room;
        self.work = need.0 + work;
        self.lists = need.1 + lists;
    }

    fn word(&self, w: usize) -> Vec<i8> {
        let recipe = &self.recipes[w % self.recipes.len()];
        let none = Vec::new();
        let base = self.bases.get(usize::from(recipe.base)).unwrap_or(&none);
        recipe.word(w, base, self.n as usize)
    }

    fn soft(&self) -> Vec<i8> {
        if self.recipes.is_empty() {
            return vec![0; self.soft];
        }
        (0..self.soft / self.n as usize).flat_map(|w| self.word(w)).collect()
    }

    /// The case as the replaying program reads it.
    fn bytes(&self, p: usize, maps: &[Vec<usize>]) -> Vec<u8> {
        let s = &self.set;
        let packed = pack(self.bases.len() * self.n as usize, |i| {
            self.bases[i / self.n as usize][i % self.n as usize] == 1
        });
        let used = maps.iter().rposition(|m| !m.is_empty()).map_or(0, |last| last + 1);
        let map = pack(used * p, |i| maps[i / p].binary_search(&(i % p)).is_ok());
        let mut r = Vec::new();
        for number in [
            self.n,
            self.lens.len() as u32,
            self.addrs.len() as u32,
            self.soft as u32,
            s.lanes,
            s.limit,
            s.step.is_some().into(),
            s.step.unwrap_or(0),
            (i32::from(s.offset) + 128) as u32,
            s.rounds,
            s.first,
            s.length,
            self.out as u32,
            self.room as u32,
            self.work as u32,
            self.lists as u32,
            packed.len() as u32,
            self.recipes.len() as u32,
            map.len() as u32,
            p as u32,
        ] {
            r.extend(number.to_le_bytes());
        }
        for &l in &self.lens {
            r.extend(l.to_le_bytes());
        }
        for &a in &self.addrs {
            r.extend(a.to_le_bytes());
        }
        r.extend(packed);
        for q in &self.recipes {
            r.extend((u16::from(q.base) * self.n as u16).to_le_bytes());
            r.extend([q.a, q.b, q.c, q.d, q.e, 0]);
            r.extend(q.seed.to_le_bytes());
        }
        r.extend(map);
        assert!(self.lens.len() <= 128 && self.addrs.len() <= 512 && self.recipes.len() <= 100);
        assert!(self.soft <= 1_532_300 && self.out <= 1_532_300 && self.work <= 1_300_000 && self.lists <= 140_000);
        r
    }
}

fn pack(bits: usize, bit: impl Fn(usize) -> bool) -> Vec<u8> {
    let mut bytes = vec![0; bits.div_ceil(8)];
    for i in (0..bits).filter(|&i| bit(i)) {
        bytes[i / 8] |= 1 << (i % 8);
    }
    bytes
}

/// What was seen, to be told at the end.
#[derive(Default)]
struct Seen {
    input: Vec<u8>,
    output: String,
    cases: u32,
    counts: BTreeMap<String, u32>,
}

impl Seen {
    fn count(&mut self, what: &str) {
        *self.counts.entry(what.into()).or_default() += 1;
    }

    fn refused(&mut self, case: &Case, number: u32) {
        assert_eq!(case.refusal(), number);
        let case = &Case { bases: vec![], recipes: vec![], ..case.clone() };
        self.input.extend(case.bytes(0, &[]));
        let out: Vec<u8> = (0..case.out).map(|i| ((7 * i + 13) % 251) as u8).collect();
        let (work, lists) = (case.work, case.lists);
        writeln!(self.output, "{} refused {number} 901 902 903 904 905 906 {} 0 {work} 0 {lists}", self.cases, sum(&out)).unwrap();
        self.cases += 1;
        self.count("refused");
    }

    /// An accepted case; how many rounds it makes without a limit.
    fn accepted(&mut self, case: &Case) -> u32 {
        assert_eq!(case.refusal(), 0);
        let code = rounds::code(case.n as usize, &case.lens, &case.addrs);
        let (ran, whole) = rounds::run(&code, &case.soft(), &case.set);
        let maps: Vec<Vec<usize>> = ran.words.iter().map(|w| w.unsatisfied.clone()).collect();
        self.input.extend(case.bytes(code.checks(), &maps));
        let mut out: Vec<u8> = (0..case.out).map(|i| ((7 * i + 13) % 251) as u8).collect();
        for (w, word) in ran.words.iter().enumerate() {
            if let Some(bits) = &word.bits {
                out[w * code.n()..(w + 1) * code.n()].copy_from_slice(bits);
            }
        }
        let (work, lists) = rounds::work(case.n, &case.lens, &case.addrs, case.set.lanes);
        let ending = if ran.stopped { "stopped" } else { "finished" };
        write!(self.output, "{} {ending} {} {} ", self.cases, ran.rounds, ran.loaded).unwrap();
        write!(self.output, "{} {} {} {} {} ", ran.given, ran.kept, ran.lost, ran.doubtful, sum(&out)).unwrap();
        writeln!(self.output, "{work} {} {lists} {}", case.work - work, case.lists - lists).unwrap();
        for word in &ran.words {
            let state = word.state as u32;
            let bch = word.bch.map_or("-".into(), |fixed| fixed.to_string());
            let left = word.unsatisfied.len();
            writeln!(self.output, "{state} {} {left} {bch} 1 {}", word.iterations, word.changed).unwrap();
        }
        self.cases += 1;
        self.tell(case, &ran);
        whole
    }

    fn tell(&mut self, case: &Case, ran: &rounds::Ran) {
        let s = &case.set;
        self.count("accepted");
        self.count(if ran.stopped { "stopped" } else { "finished" });
        self.count(&s.step.map_or("sequential".into(), |step| format!("step {step}")));
        self.count(&format!("lanes {}", s.lanes));
        self.count(&format!("limit {}", s.limit));
        self.count(&format!("offset {}", s.offset));
        self.count(&format!("n {}", case.n));
        for word in &ran.words {
            let end = match (word.state, word.iterations, word.bch) {
                (State::Waiting, _, _) => "waiting".into(),
                (State::Held, 0, _) => "held at 0".into(),
                (State::Held, _, _) => "held after some".into(),
                (state, iterations, bch) => {
                    let state = match (state, iterations) {
                        (State::Met, 0) => "met at 0",
                        (State::Met, _) => "met after some",
                        _ => "unmet",
                    };
                    let bch = match (bch, word.taken_back) {
                        (Some(0), _) => "clean",
                        (Some(_), _) => "corrected",
                        (None, false) => "lost without flips of the original",
                        (None, true) => "lost with flips of the original taken back",
                    };
                    format!("{state} {bch}")
                }
            };
            self.count(&format!("words {end}"));
            self.count("words");
        }
        for (what, words) in [("kept", ran.kept), ("doubtful", ran.doubtful), ("lost", ran.lost)] {
            *self.counts.entry(format!("tally {what}")).or_default() += words as u32;
        }
        rounds::tell(&mut self.counts, &ran.words);
    }
}

/// Choices by `next`, from one seed.
struct Choice(u64);

impl Choice {
    fn below(&mut self, n: u64) -> u64 {
        self.0 = next(next(self.0));
        draw(self.0, n)
    }

    fn of<T: Copy>(&mut self, list: &[T]) -> T {
        list[self.below(list.len() as u64) as usize]
    }

    fn bits(&mut self, n: usize) -> Vec<u8> {
        (0..n).map(|_| self.below(2) as u8).collect()
    }

    fn flip(&mut self, word: &mut [u8], errors: usize) {
        let mut places = Vec::new();
        while places.len() < errors {
            let at = self.below(word.len() as u64) as usize;
            if !places.contains(&at) {
                places.push(at);
                word[at] ^= 1;
            }
        }
    }

    /// A BCH word: with up to 12 errors; or (13) uncorrectable, without flips of the original; or (14) with them.
    fn part(&mut self, length: usize, kind: usize) -> Vec<u8> {
        loop {
            let message = self.bits(length - bch::PARITY);
            let mut word = bch::encode(&message);
            match kind {
                0..=12 => self.flip(&mut word, kind),
                13 => self.flip(&mut word, 17),
                _ => {
                    let outside = power(length as u32 + self.below(500) as u32);
                    for (i, &c) in outside.iter().enumerate() {
                        word[length - 1 - i] ^= c;
                    }
                    let inside = 1 + self.below(9) as usize;
                    self.flip(&mut word, inside);
                }
            }
            let mut after = word.clone();
            let result = bch::decode(&mut after);
            let wanted = match kind {
                0..=12 => result == Ok(kind),
                13 => result.is_err() && after == word,
                _ => result.is_err() && after != word,
            };
            if wanted {
                return word;
            }
        }
    }

    /// A word of the code with such a BCH part, where that lies in the information; without a code: any word with it.
    fn base(&mut self, code: &Code, s: &Settings, kind: usize, coded: bool) -> Vec<u8> {
        let (first, end) = (s.first as usize, (s.first + s.length) as usize);
        let part = self.part(s.length as usize, kind);
        if coded {
            let mut info = self.bits(code.k());
            if end <= code.k() {
                info[first..end].copy_from_slice(&part);
            }
            code.encode(&info)
        } else {
            let mut word = self.bits(code.n());
            word[first..end].copy_from_slice(&part);
            word
        }
    }

    fn recipe(&mut self, kind: u64, bases: u64) -> Recipe {
        let base = self.below(bases) as u8;
        let seed = self.below(32_768) as u32 * 65_536 + self.below(32_768) as u32;
        let plain = Recipe { base, seed, ..Recipe::default() };
        let near = |q: &mut Self| 1 + q.below(6) as u8;
        match kind {
            0 => Recipe { a: self.of(&[1, 2, 5, 20, 127, 128]), ..plain },
            1 => Recipe { a: 20, b: 12 + self.below(24) as u8, ..plain },
            2 => Recipe { a: self.of(&[4, 10, 30]), c: near(self), ..plain },
            3 => Recipe { d: 255, ..plain },
            4 => Recipe { e: 255, ..plain },
            5 => Recipe { b: self.below(2) as u8, ..plain },
            6 => Recipe { a: 12, b: 6, c: near(self), e: 4, ..plain },
            7 => Recipe { a: 25, b: 10, d: near(self), ..plain },
            8 => Recipe { a: 128, b: 2, c: near(self), e: 2, ..plain },
            _ => Recipe { a: 40, b: 70, ..plain },
        }
    }

    /// One address in four repeats the one before, one is P further and one is q further.
    fn addresses(&mut self, count: usize, p: u64) -> Vec<u16> {
        let mut a = 0;
        (0..count)
            .map(|_| {
                a = match self.below(4) {
                    1 => a,
                    2 => (a + p) % 65_536,
                    3 => (a + p / 374) % 65_536,
                    _ => self.below(256) * 256 + self.below(256),
                };
                a as u16
            })
            .collect()
    }
}

/// The codes of the cases: n, row lengths and addresses.
fn codes(choice: &mut Choice) -> Vec<(u32, Vec<u32>, Vec<u16>)> {
    let spread = |count: u16, by: u16| (0..count).map(|i| i * by).collect::<Vec<u16>>();
    let mut codes = vec![
        (374, vec![], vec![]),
        (748, vec![], vec![]),
        (1122, vec![], vec![]),
        (748, vec![1], vec![0]),
        (748, vec![0], vec![]),
        (748, vec![2], vec![5, 5]),
        (748, vec![3], vec![0, 374, 748]),
        (748, vec![3], vec![1, 99, 260]),
        (748, vec![4], vec![3, 3, 377, 50_000]),
        (1122, vec![3], vec![0, 2, 4]),
        (1122, vec![4], vec![0, 301, 748, 640]),
        (1122, vec![4], vec![7, 7, 8, 8]),
        (1122, vec![0, 0], vec![]),
        (1122, vec![0, 2], vec![7, 300]),
        (1122, vec![3, 0], vec![7, 300, 65_535]),
        (1122, vec![3, 3], vec![0, 100, 230, 17, 190, 331]),
        (1122, vec![4, 3], vec![12, 386, 130, 300, 299, 299, 40]),
        (748, vec![126], vec![0; 126]),
        (748, vec![126], spread(126, 3)),
        (1122, vec![128], spread(128, 5)),
        (2244, vec![3, 3, 3], vec![5, 422, 900, 17, 617, 1000, 344, 777, 1121]),
        (2244, vec![3, 4, 3, 3, 3], (0..16).map(|i| i * i * 23 % 374).collect()),
        (1496, vec![5], vec![0, 3, 6, 700, 1121]),
    ];
    for (n, lens) in [(748, vec![5]), (1122, vec![6]), (1122, vec![2, 5]), (1870, vec![4, 0, 3]), (1496, vec![3, 3])] {
        let p = n - 374 * lens.len() as u32;
        let total = lens.iter().sum::<u32>() as usize;
        let addrs = choice.addresses(total, u64::from(p));
        codes.push((n, lens, addrs));
    }
    codes
}

const STEPS: [u32; 9] = [1, 2, 7, 61, 186, 187, 373, 374, 400];
const LANES: [u32; 10] = [1, 2, 3, 4, 8, 16, 17, 32, 33, 64];
const OFFSETS: [i8; 7] = [-128, -1, 0, 1, 2, 3, 127];
const LIMITS: [u32; 7] = [0, 1, 2, 5, 5, 30, 30];
const COUNTS: [usize; 14] = [0, 1, 2, 3, 4, 5, 6, 7, 9, 12, 18, 24, 35, 70];

/// The t-th case of a code.
fn case(choice: &mut Choice, t: usize, (n, lens, addrs): &(u32, Vec<u32>, Vec<u16>)) -> Case {
    let code = rounds::code(*n as usize, lens, addrs);
    let k = code.k() as u32;
    let part = match choice.below(6) {
        0 => (0, *n),
        1 => (*n - 193, 193),
        2 if k > 0 => (k - 200, 300),
        3 if k > 0 => (100, 200 + choice.below(u64::from(k) - 300) as u32),
        _ => (0, 374),
    };
    let wide = addrs.len() > 100;
    let lanes = if wide { choice.of(&[1, 2, 3, 4]) } else { LANES[t * 3 % 10] };
    let set = Settings {
        lanes,
        limit: if wide { choice.of(&LIMITS[..3]) } else { choice.of(&LIMITS) },
        step: match t % 3 {
            0 => None,
            _ if wide => Some(choice.of(&[1, 2, 7])),
            r => Some(STEPS[(t / 3 * 2 + r - 1) % 9]),
        },
        offset: if t % 2 == 0 { choice.of(&OFFSETS) } else { choice.of(&[0, 1, 2]) },
        rounds: u32::MAX,
        first: part.0,
        length: part.1,
    };
    let words = match (wide, *n > 1122) {
        (true, _) => 1 + choice.below(3) as usize,
        (_, true) => choice.of(&COUNTS[..8]),
        _ => choice.of(&COUNTS),
    };
    let bases: Vec<Vec<u8>> = (0..4)
        .map(|b| {
            let kind = match choice.below(5) {
                0 => 0,
                1 => 13,
                2 => 14,
                _ => 1 + choice.below(12) as usize,
            };
            choice.base(&code, &set, kind, b < 3 && (set.limit > 0 || b < 1))
        })
        .collect();
    let recipes = (0..words.min(9)).map(|_| {
        let kind = choice.of(&[0, 1, 1, 2, 2, 2, 3, 4, 5, 6, 6, 7, 7, 8, 8, 9]);
        choice.recipe(kind, 4)
    });
    let recipes = recipes.collect();
    let mut case = Case {
        n: *n,
        lens: lens.clone(),
        addrs: addrs.clone(),
        soft: words * *n as usize,
        set,
        out: 0,
        room: 0,
        work: 0,
        lists: 0,
        bases,
        recipes,
    };
    let tail = |choice: &mut Choice| choice.of(&[0, 1, 5, 40]);
    let (a, b, c, d) = (tail(choice), tail(choice), tail(choice), tail(choice));
    case.lend(a, b, c, d);
    case
}

/// Words that take many iterations.
fn slow(choice: &mut Choice, t: usize, code: &(u32, Vec<u32>, Vec<u16>)) -> Case {
    let mut case = case(choice, t, code);
    case.set.limit = 30;
    case.set.offset = choice.of(&[0, 1, 2]);
    case.soft = 12 * case.n as usize;
    case.recipes = (0..12)
        .map(|_| {
            let kind = choice.of(&[1, 9]);
            choice.recipe(kind, 3)
        })
        .collect();
    case.lend(1, 2, 3, 4);
    case
}

/// A case with no round limit, and where it makes some rounds also with one.
fn limited(choice: &mut Choice, seen: &mut Seen, mut case: Case) {
    let whole = seen.accepted(&case);
    seen.count("round limit none");
    let wanted = match choice.below(4) {
        0 => 0,
        1 => 1,
        2 => 2,
        _ => whole / 2,
    };
    if wanted < whole {
        case.set.rounds = wanted;
        seen.accepted(&case);
        seen.count(&match wanted {
            0..=2 => format!("round limit {wanted}"),
            _ => "round limit in the middle".into(),
        });
    } else if whole > 0 {
        // the limit is used up in the round after which no lane is held
        case.set.rounds = whole;
        seen.accepted(&case);
        seen.count("round limit just enough");
    }
}

/// A run of two words that is accepted.
fn plain() -> Case {
    let mut case = Case {
        n: 748,
        lens: vec![3],
        addrs: vec![0, 1, 2],
        soft: 1496,
        set: Settings { lanes: 2, limit: 5, step: Some(7), offset: 1, rounds: 10, first: 0, length: 374 },
        out: 0,
        room: 0,
        work: 0,
        lists: 0,
        bases: vec![vec![0; 748]],
        recipes: vec![Recipe { a: 10, c: 9, seed: 5, ..Recipe::default() }],
    };
    case.lend(3, 3, 3, 3);
    case
}

/// At the limits: as many words, edges, lanes and iterations as there may be, and n 44,880.
fn edges(choice: &mut Choice, seen: &mut Seen) {
    let recipe = |a, c, seed| Recipe { a, c, seed, ..Recipe::default() };
    let mut many = Case { n: 374, lens: vec![], addrs: vec![], soft: 4096 * 374, bases: vec![vec![0; 374]], ..plain() };
    many.set = Settings { lanes: 64, limit: 65_535, step: None, offset: 0, rounds: 0, first: 181, length: 193 };
    many.recipes = vec![recipe(1, 0, 1), recipe(127, 0, 2), recipe(0, 0, 3)];
    many.lend(5, 0, 5, 5);
    seen.accepted(&many);
    many.set.rounds = 1;
    many.recipes = vec![recipe(1, 0, 1), recipe(9, 40, 2)];
    seen.accepted(&many);
    // as many edges of a variable in a run of checks as there may be, and many in a whole layer
    for (many, step) in [(126, 61), (40, 374)] {
        let mut dense = Case { lens: vec![many], addrs: (0..many as u16).map(|i| i * 3).collect(), soft: 748, ..plain() };
        dense.set = Settings { lanes: 1, limit: 2, step: Some(step), offset: -128, ..dense.set };
        dense.recipes = vec![Recipe { a: 1, b: 3, seed: 4, ..Recipe::default() }];
        dense.lend(1, 1, 1, 1);
        seen.accepted(&dense);
    }
    let mut long = plain();
    long.set.limit = 65_535;
    long.set.step = Some(u32::MAX);
    long.recipes = vec![recipe(20, 3, 77)];
    seen.accepted(&long);
    let rows = 60;
    let addrs: Vec<u16> = (0..180).map(|_| (choice.below(256) * 256 + choice.below(256)) as u16).collect();
    let mut big = Case { n: 44_880, lens: vec![3; rows], addrs, soft: 3 * 44_880, ..plain() };
    let code = rounds::code(44_880, &big.lens, &big.addrs);
    for (step, kind) in [(None, 9), (Some(187), 14)] {
        big.set = Settings { lanes: 2, limit: 6, step, offset: 1, rounds: 4, first: 440, length: 22_000 };
        big.bases = vec![choice.base(&code, &big.set, kind, true)];
        big.recipes = vec![recipe(20, 0, 8), Recipe { a: 20, b: 22, seed: 9, ..Recipe::default() }, recipe(9, 80, 10)];
        big.lend(7, 1, 7, 7);
        seen.accepted(&big);
    }
}

type Change = (u32, fn(&mut Case));

/// Changes of the accepted run, each with the number that it gives.
const CHANGES: [Change; 50] = [
    (2, |c| c.n = 0),
    (2, |c| c.n = 1),
    (2, |c| c.n = 373),
    (2, |c| c.n = 749),
    (2, |c| c.n = 44_881),
    (2, |c| c.n = 45_254),
    (2, |c| c.n = u32::MAX),
    (3, |c| c.n = 374),
    (3, |c| c.lens = vec![3, 0]),
    (3, |c| c.lens = vec![1, 1, 1]),
    (3, |c| (c.n, c.lens) = (44_880, vec![0; 120])),
    (4, |c| (c.lens, c.addrs) = (vec![129], (0..129).collect())),
    (4, |c| c.lens = vec![u32::MAX]),
    (4, |c| (c.n, c.lens) = (1122, vec![3, 129])),
    (5, |c| c.addrs = vec![0, 1]),
    (5, |c| c.addrs = vec![0, 1, 2, 3]),
    (5, |c| c.addrs = vec![]),
    (5, |c| c.lens = vec![0]),
    (5, |c| c.lens = vec![]),
    (5, |c| (c.n, c.lens) = (1122, vec![1, 1])),
    (6, |c| (c.lens, c.addrs) = (vec![127], vec![0; 127])),
    (6, |c| (c.lens, c.addrs) = (vec![127], (0..127).map(|i| i * 500).collect())),
    (6, |c| (c.n, c.lens, c.addrs) = (1122, vec![128], (0..128).map(|i| i * 2 + i / 127).collect())),
    (6, |c| (c.n, c.lens, c.addrs) = (1122, vec![64, 63], (0..127).collect())),
    (7, |c| c.set.lanes = 0),
    (7, |c| c.set.lanes = 65),
    (7, |c| c.set.lanes = u32::MAX),
    (8, |c| c.soft = 1),
    (8, |c| c.soft = 747),
    (8, |c| c.soft = 1497),
    (8, |c| (c.n, c.lens, c.addrs, c.soft) = (374, vec![], vec![], 4097 * 374)),
    (9, |c| c.set.limit = 65_536),
    (9, |c| c.set.limit = u32::MAX),
    (10, |c| c.set.step = Some(0)),
    (11, |c| c.set.length = 0),
    (11, |c| c.set.length = 192),
    (11, |c| c.set.length = 749),
    (11, |c| c.set.length = 65_536),
    (11, |c| c.set.length = u32::MAX),
    (11, |c| c.set.first = 375),
    (11, |c| c.set.first = u32::MAX),
    (11, |c| (c.set.first, c.set.length) = (u32::MAX - 99, 300)),
    (11, |c| (c.set.length, c.soft) = (0, 0)),
    (13, |c| c.out -= 4),
    (13, |c| c.out = 0),
    (13, |c| c.room -= 4),
    (13, |c| c.work -= 4),
    (13, |c| c.lists -= 4),
    (13, |c| (c.soft, c.work) = (0, 0)),
    (13, |c| (c.soft, c.out, c.room, c.lists) = (0, 0, 0, 10)),
];

/// Every change, and every two that do not undo each other: the lower number is given.
fn refusals(seen: &mut Seen) {
    for (number, change) in CHANGES {
        let mut case = plain();
        change(&mut case);
        seen.refused(&case, number);
        seen.count(&format!("refusal {number} alone"));
    }
    for (i, (low, first)) in CHANGES.iter().enumerate() {
        for (high, second) in CHANGES[i..].iter().step_by(5).filter(|(high, _)| low < high) {
            let mut case = plain();
            first(&mut case);
            second(&mut case);
            if case.refusal() == *low {
                seen.refused(&case, *low);
                seen.count(&format!("refusal {low} before {high}"));
            }
        }
    }
}

fn main() {
    let mut choice = Choice(2026);
    let mut seen = Seen::default();
    let list = codes(&mut choice);
    let mut t = 0;
    for code in &list {
        for _ in 0..4 {
            let case = case(&mut choice, t, code);
            limited(&mut choice, &mut seen, case);
            t += 1;
        }
    }
    for code in list.iter().filter(|code| code.2.len() > 5 && code.2.len() < 100) {
        let case = slow(&mut choice, t, code);
        limited(&mut choice, &mut seen, case);
        t += 1;
    }
    edges(&mut choice, &mut seen);
    refusals(&mut seen);
    let files: Vec<String> = std::env::args().skip(1).collect();
    std::fs::write(&files[0], &seen.input).unwrap();
    std::fs::write(&files[1], &seen.output).unwrap();
    eprintln!("{} cases, {} bytes, {} bytes", seen.cases, seen.input.len(), seen.output.len());
    for (what, count) in &seen.counts {
        eprintln!("{count} {what}");
    }
}
