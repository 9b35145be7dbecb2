//! Writes texts for `crates/vectors_report` (the file named first) and the report on each (the file named second): the lines of
//! the run by the original's answers, or the refusal that the scope's form and list give.
//!
//! In the first file a text stands behind its length, four bytes, lowest first. In the second its report stands behind a line
//! with `#` and the text's number.

use oracle::rounds::{self, Settings, State};
use std::collections::BTreeMap;
use std::fmt::Write;

/// A text of the form.
#[derive(Clone)]
struct Text {
    n: u32,
    rows: Vec<Vec<u16>>,
    set: Settings,
    words: Vec<(i8, Vec<(u32, i8)>)>,
}

impl Text {
    fn bytes(&self) -> String {
        let mut t = format!("N\t{}\n", self.n);
        for row in &self.rows {
            t += "R";
            for a in row {
                write!(t, "\t{a}").unwrap();
            }
            t += "\n";
        }
        let s = &self.set;
        let step = s.step.map_or("S".into(), |step| step.to_string());
        let (rounds, first, length) = (s.rounds, s.first, s.length);
        writeln!(t, "P\t{}\t{}\t{}\t{step}\t{rounds}\t{first}\t{length}", s.lanes, s.limit, s.offset).unwrap();
        for (value, pairs) in &self.words {
            write!(t, "W\t{value}").unwrap();
            for (at, value) in pairs {
                write!(t, "\t{at}\t{value}").unwrap();
            }
            t += "\n";
        }
        t
    }

    fn soft(&self) -> Vec<i8> {
        let mut soft = Vec::new();
        for (value, pairs) in &self.words {
            let from = soft.len();
            soft.resize(from + self.n as usize, *value);
            for &(at, value) in pairs {
                soft[from + at as usize] = value;
            }
        }
        soft
    }

    fn report(&self, counts: &mut BTreeMap<String, u32>) -> String {
        let mut count = |what: &str| *counts.entry(what.into()).or_default() += 1;
        let lens: Vec<u32> = self.rows.iter().map(|row| row.len() as u32).collect();
        let addrs: Vec<u16> = self.rows.concat();
        let soft = self.soft();
        let number = rounds::refusal(self.n, &lens, &addrs, soft.len(), &self.set);
        if number > 0 {
            count(&format!("refused {number}"));
            return format!("refused\t{number}\n");
        }
        let code = rounds::code(self.n as usize, &lens, &addrs);
        let (ran, _) = rounds::run(&code, &soft, &self.set);
        let ending = if ran.stopped { "stopped" } else { "finished" };
        count(ending);
        count(if self.set.step.is_some() { "layered" } else { "sequential" });
        let mut report = format!("{ending}\t{}\n", ran.rounds);
        for (w, word) in ran.words.iter().enumerate() {
            let state = match word.state {
                State::Waiting => "waiting",
                State::Held => "held",
                State::Met => "met",
                State::Unmet => "unmet",
            };
            let bch = word.bch.map_or("-".into(), |fixed| fixed.to_string());
            let (iterations, left, changed) = (word.iterations, word.unsatisfied.len(), word.changed);
            writeln!(report, "{w}\t{state}\t{iterations}\t{left}\t{bch}\t{changed}").unwrap();
            let what = match (word.state, word.bch, word.iterations) {
                (State::Waiting, ..) => "",
                (State::Held, _, 0) => " at 0",
                (State::Held, ..) => " after some",
                (_, None, _) => " lost",
                (_, Some(0), 0) => " clean at 0",
                (_, Some(0), _) => " clean after some",
                (_, Some(_), _) => " corrected",
            };
            count(&format!("words {state}{what}"));
        }
        rounds::tell(counts, &ran.words);
        report
    }
}

#[derive(Default)]
struct Seen {
    input: Vec<u8>,
    output: String,
    texts: u32,
    counts: BTreeMap<String, u32>,
}

impl Seen {
    fn add(&mut self, text: &[u8], report: &str) {
        self.input.extend((text.len() as u32).to_le_bytes());
        self.input.extend(text);
        write!(self.output, "# {}\n{report}", self.texts).unwrap();
        self.texts += 1;
    }

    fn right(&mut self, text: &Text) {
        let report = text.report(&mut self.counts);
        let bytes = text.bytes();
        assert!(bytes.len() <= 10_501);
        self.add(bytes.as_bytes(), &report);
        *self.counts.entry("texts of the form".into()).or_default() += 1;
    }

    fn wrong(&mut self, text: &[u8]) {
        self.add(text, "refused\t1\n");
        *self.counts.entry("refused 1".into()).or_default() += 1;
    }
}

struct Choice(u64);

impl Choice {
    fn below(&mut self, n: u32) -> u32 {
        self.0 = (self.0 * 1_103_515_245 + 12_345) % 2_147_483_648;
        (self.0 / 65_536) as u32 % n
    }

    fn of<T: Copy>(&mut self, list: &[T]) -> T {
        list[self.below(list.len() as u32) as usize]
    }

    /// Different places, ascending.
    fn places(&mut self, from: u32, to: u32, count: usize) -> Vec<u32> {
        let mut places = std::collections::BTreeSet::new();
        while places.len() < count {
            places.insert(from + self.below(to - from));
        }
        places.into_iter().collect()
    }

    fn word(&mut self, n: u32) -> (i8, Vec<(u32, i8)>) {
        let value = self.of(&[1, 3, 5, 20, 127]);
        let few = self.below(7) as usize;
        let (count, values): (usize, &[i8]) = match self.below(6) {
            0 => (0, &[0]),
            1 => (few, &[-1, -3]),
            2 => (few, &[-5, -128, 0]),
            3 => (8 + few, &[-2, -4, 2]),
            4 => (58 + few, &[-128, -1, 0, 1, 127]),
            _ => (few + 1, &[-20]),
        };
        let end = if self.below(2) == 0 { n } else { n.min(374) };
        let pairs = self.places(0, end, count).iter().map(|&at| (at, self.of(values))).collect();
        (if self.below(12) == 0 { self.of(&[-1, -128, 0]) } else { value }, pairs)
    }

    fn text(&mut self) -> Text {
        let n = self.of(&[374, 748, 748, 1122, 1122]);
        let rows = (0..self.below(n / 374))
            .map(|_| {
                let base = self.below(400) as u16;
                let count = self.below(5) as usize;
                let list = [base, self.of(&[base, base + 374, 65_535]), self.below(748) as u16, self.below(30_000) as u16];
                list[..count].to_vec()
            })
            .collect();
        let (first, length) = self.of(&[(0, n), (0, 374), (0, 374), (n - 193, 193), (100, 200), (181, 193)]);
        let step = self.of(&[0, 0, 0, 1, 2, 7, 187, 373, 374, 400, u32::MAX]);
        let set = Settings {
            lanes: 1 + self.below(4),
            limit: self.of(&[0, 1, 2, 5, 30, 30]),
            step: if step == 0 { None } else { Some(step) },
            offset: self.of(&[0, 0, 1, 1, 2, -1, -128, 127]),
            rounds: self.of(&[0, 1, 2, 3, 7, 10, 100, u32::MAX]),
            first,
            length,
        };
        let words = (0..self.of(&[0, 1, 2, 3, 5, 8, 16])).map(|_| self.word(n)).collect();
        Text { n, rows, set, words }
    }
}

/// The scope's example.
fn example() -> Text {
    Text {
        n: 748,
        rows: vec![vec![0]],
        set: Settings { lanes: 1, limit: 0, step: None, offset: 0, rounds: 10, first: 0, length: 374 },
        words: vec![(1, vec![]), (1, vec![(0, -1)])],
    }
}

/// Words whose information bits no check sees, with up to 16 of them set in the BCH part.
fn errors(step: Option<u32>, limit: u32) -> Text {
    let mut text = example();
    text.rows = vec![if step.is_some() { vec![] } else { vec![9, 9] }];
    (text.set.step, text.set.limit) = (step, limit);
    let place = |e: u32, i: u32| (i * 23 + e * 5 % 23, -7);
    text.words = (0..16).map(|e| (7, (0..e).map(|i| place(e, i)).collect())).collect();
    text
}

fn full(n: u32, rows: usize) -> Text {
    let pairs: Vec<(u32, i8)> = (1058..1122).map(|at| (at, -128)).collect();
    Text {
        n,
        rows: vec![vec![65_535; 4]; rows],
        set: Settings {
            lanes: 4,
            limit: u32::MAX,
            step: Some(u32::MAX),
            offset: -128,
            rounds: u32::MAX,
            first: u32::MAX,
            length: u32::MAX,
        },
        words: vec![(-128, pairs); 16],
    }
}

/// Texts of the form that are refused later, each for the first number that applies.
fn refused(seen: &mut Seen) {
    let changes: [(u32, fn(&mut Text)); 21] = [
        (2, |t| (t.n, t.words) = (0, vec![(1, vec![])])),
        (2, |t| t.n = 1),
        (2, |t| t.n = 373),
        (2, |t| t.n = 375),
        (2, |t| t.n = 1121),
        (3, |t| t.n = 374),
        (3, |t| t.rows = vec![vec![0], vec![]]),
        (3, |t| (t.n, t.rows) = (1122, vec![vec![0, 1, 2, 65_535]; 3])),
        (7, |t| t.set.lanes = 0),
        (9, |t| t.set.limit = 65_536),
        (9, |t| t.set.limit = u32::MAX),
        (10, |t| t.set.step = Some(0)),
        (11, |t| t.set.length = 0),
        (11, |t| t.set.length = 192),
        (11, |t| t.set.length = 749),
        (11, |t| t.set.length = 65_536),
        (11, |t| t.set.length = u32::MAX),
        (11, |t| t.set.first = 375),
        (11, |t| t.set.first = u32::MAX),
        (11, |t| (t.set.first, t.set.length) = (u32::MAX - 99, 300)),
        (11, |t| (t.set.length, t.words) = (192, vec![])),
    ];
    for (i, (low, first)) in changes.iter().enumerate() {
        for (high, second) in changes[i..].iter().step_by(3) {
            let mut text = example();
            first(&mut text);
            second(&mut text);
            let lens: Vec<u32> = text.rows.iter().map(|row| row.len() as u32).collect();
            if low <= high && rounds::refusal(text.n, &lens, &text.rows.concat(), 0, &text.set) == *low {
                seen.right(&text);
            }
        }
    }
}

/// Texts that are not of the form: the example with one place changed.
const WRONG: [(&str, &str); 92] = [
    ("N\t748", "N\t0748"),
    ("N\t748", "N\t+748"),
    ("N\t748", "N\t-748"),
    ("N\t748", "N\t"),
    ("N\t748", "N"),
    ("N\t748", ""),
    ("N\t748", "N\t748\t"),
    ("N\t748", "N\t\t748"),
    ("N\t748", "\tN\t748"),
    ("N\t748", " N\t748"),
    ("N\t748", "N 748"),
    ("N\t748", "N\t748 "),
    ("N\t748", "N\t7 48"),
    ("N\t748", "n\t748"),
    ("N\t748", "N\t748\t748"),
    ("N\t748", "N\t0x2ec"),
    ("N\t748", "N\t748.0"),
    ("N\t748", "N\t1123"),
    ("N\t748", "N\t1496"),
    ("N\t748", "N\t4294967295"),
    ("N\t748", "N\t4294968044"),
    ("N\t748", "N\t18446744073709552364"),
    ("N\t748", "N\t748\r"),
    ("N\t748\n", ""),
    ("N\t748\n", "N\t748\nN\t748\n"),
    ("N\t748\n", "\nN\t748\n"),
    ("N\t748\nR\t0\n", "R\t0\nN\t748\n"),
    ("R\t0", "R\t"),
    ("R\t0", "R\t0\t"),
    ("R\t0", "R\t\t0"),
    ("R\t0", "R\t00"),
    ("R\t0", "R\t01"),
    ("R\t0", "R\t-1"),
    ("R\t0", "R\t-0"),
    ("R\t0", "R\t+0"),
    ("R\t0", "R\t65536"),
    ("R\t0", "R\t4294967296"),
    ("R\t0", "R\t0\t1\t2\t3\t4"),
    ("R\t0", "R 0"),
    ("R\t0", "r\t0"),
    ("R\t0\n", "R\t0\n\n"),
    ("R\t0\n", "R\nR\nR\nR\n"),
    ("R\t0\nP\t1\t0\t0\tS\t10\t0\t374\n", "P\t1\t0\t0\tS\t10\t0\t374\nR\t0\n"),
    ("P\t1\t0\t0\tS\t10\t0\t374\n", ""),
    ("P\t1\t0\t0\tS\t10\t0\t374\n", "P\t1\t0\t0\tS\t10\t0\t374\nP\t1\t0\t0\tS\t10\t0\t374\n"),
    ("P\t1\t0\t0\tS\t10\t0\t374\nW\t1\n", "W\t1\nP\t1\t0\t0\tS\t10\t0\t374\n"),
    ("\t374", ""),
    ("\t374", "\t374\t"),
    ("\t374", "\t374\t1"),
    ("\t374", "\t"),
    ("\t374", "\t0374"),
    ("\t374", "\t4294967296"),
    ("P\t1\t", "P\t5\t"),
    ("P\t1\t", "P\t01\t"),
    ("P\t1\t", "P\t-1\t"),
    ("P\t1\t", "P\t\t"),
    ("P\t1\t", "P\t4294967297\t"),
    ("P\t1\t0\t", "P\t1\t4294967296\t"),
    ("P\t1\t0\t", "P\t1\t-1\t"),
    ("P\t1\t0\t0\t", "P\t1\t0\t128\t"),
    ("P\t1\t0\t0\t", "P\t1\t0\t-129\t"),
    ("P\t1\t0\t0\t", "P\t1\t0\t-0\t"),
    ("P\t1\t0\t0\t", "P\t1\t0\t+1\t"),
    ("P\t1\t0\t0\t", "P\t1\t0\t--1\t"),
    ("P\t1\t0\t0\t", "P\t1\t0\t-\t"),
    ("P\t1\t0\t0\t", "P\t1\t0\t256\t"),
    ("\tS\t", "\ts\t"),
    ("\tS\t", "\tS1\t"),
    ("\tS\t", "\tSS\t"),
    ("\tS\t", "\t\t"),
    ("\tS\t", "\t-1\t"),
    ("\tS\t", "\t07\t"),
    ("\tS\t", "\t4294967296\t"),
    ("\tS\t", "\tL\t7\t"),
    ("\t10\t", "\t4294967296\t"),
    ("\t10\t", "\t010\t"),
    ("\t10\t0\t", "\t10\t4294967296\t"),
    ("W\t1\nW", "W\nW"),
    ("W\t1\nW", "W\t\nW"),
    ("W\t1\nW", "W\t1\t\nW"),
    ("W\t1\nW", "W\t128\nW"),
    ("W\t1\nW", "W\t-129\nW"),
    ("W\t1\nW", "W\t-0\nW"),
    ("W\t1\nW", "W\t01\nW"),
    ("W\t1\nW", "W\t1\t5\nW"),
    ("W\t1\nW", "W\t1\t748\t1\nW"),
    ("W\t1\nW", "W\t1\t05\t1\nW"),
    ("W\t1\nW", "W\t1\t5\t1\t5\t1\nW"),
    ("W\t1\nW", "W\t1\t5\t1\t4\t1\nW"),
    ("W\t1\nW", "W\t1\t5\t128\nW"),
    ("W\t1\nW", "W\t1\t4294967301\t1\nW"),
    ("W\t1\nW", "W\t1\nR\t0\nW"),
];

fn malformed(seen: &mut Seen) {
    let text = example().bytes();
    for (from, to) in WRONG {
        let changed = text.replacen(from, to, 1);
        assert_ne!(changed, text, "{from:?}");
        seen.wrong(changed.as_bytes());
    }
    let lines = |more: &[u8]| [text.as_bytes(), more].concat();
    seen.wrong(b"");
    seen.wrong(b"\n");
    seen.wrong(b"N\t748\n");
    seen.wrong(text.trim_end().as_bytes());
    seen.wrong(text.replace('\n', "\r\n").as_bytes());
    seen.wrong(text.replace('\t', " ").as_bytes());
    seen.wrong(text.replace('\n', "\t\n").as_bytes());
    seen.wrong(format!("\u{feff}{text}").as_bytes());
    for more in ["\n", " ", "\t", "\0", "W", "W\t1", "X\t1\n", "N\t748\n", "R\n", "P\t1\t0\t0\tS\t10\t0\t374\n"] {
        seen.wrong(&lines(more.as_bytes()));
    }
    seen.wrong(&lines(b"\xff\n"));
    // 17 words, 65 pairs, and longer than any text of the form
    seen.wrong(&lines("W\t1\n".repeat(15).as_bytes()));
    let pairs: String = (0..65).map(|at| format!("\t{at}\t-1")).collect();
    seen.wrong(&lines(format!("W\t1{pairs}\n").as_bytes()));
    let longest = full(1122, 3).bytes();
    assert_eq!(longest.len(), 10_501);
    seen.wrong(format!("{longest}\n").as_bytes());
    seen.wrong(format!("{longest}W\t1\n").as_bytes());
    seen.wrong(&[longest.as_bytes(), &[b'\n'; 2000]].concat());
}

fn main() {
    let mut seen = Seen::default();
    let mut choice = Choice(2026);
    assert_eq!(example().report(&mut BTreeMap::new()), "finished\t0\n0\tmet\t0\t0\t0\t0\n1\tunmet\t0\t1\t1\t0\n");
    seen.right(&example());
    for (step, limit) in [(None, 0), (None, 5), (Some(1), 5), (Some(374), 65_535)] {
        seen.right(&errors(step, limit));
    }
    for _ in 0..110 {
        let text = choice.text();
        seen.right(&text);
    }
    // the longest text, and the longest that is accepted
    seen.right(&full(1122, 3));
    let mut longest = full(1122, 2);
    longest.set = Settings { limit: 65_535, rounds: 12, first: 929, length: 193, ..longest.set };
    seen.right(&longest);
    refused(&mut seen);
    malformed(&mut seen);
    let files: Vec<String> = std::env::args().skip(1).collect();
    std::fs::write(&files[0], &seen.input).unwrap();
    std::fs::write(&files[1], &seen.output).unwrap();
    eprintln!("{} texts, {} bytes, {} bytes", seen.texts, seen.input.len(), seen.output.len());
    for (what, count) in &seen.counts {
        eprintln!("{count} {what}");
    }
}
