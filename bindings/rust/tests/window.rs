//! Windows beside a plain model: all finished records, whose last ones are summed afresh.

use raxdov::Refusal;
use raxdov::bch::Uncorrectable;
use raxdov::ldpc::Code;
use raxdov::run::{Record, Runner, Settings, State, Window};

/// The same numbers for the same seed.
struct Draw(u64);

impl Draw {
    fn below(&mut self, m: u64) -> u64 {
        self.0 ^= self.0 << 13;
        self.0 ^= self.0 >> 7;
        self.0 ^= self.0 << 17;
        (self.0 >> 11) % m
    }

    /// A record as a run's, or of whatever numbers its type has.
    fn record(&mut self) -> Record {
        let any = self.below(8) == 0;
        let mut most = |most: u64| self.below(if any { 1 << 32 } else { most }) as u32;
        let (iterations, corrected, check) = (most(51), most(13), most(374));
        Record {
            state: [State::Met, State::Unmet, State::Waiting, State::Held]
                [[0, 0, 0, 1, 1, 2, 3][self.below(7) as usize]],
            iterations,
            unsatisfied: check,
            check,
            bch: match self.below(4) {
                0 => Err(Uncorrectable),
                _ => Ok(corrected.min(u32::MAX - 1)),
            },
            changed: check,
        }
    }
}

fn finished(record: &Record) -> bool {
    matches!(record.state, State::Met | State::Unmet)
}

/// Unmet and accepted by BCH.
fn doubtful(record: &Record) -> bool {
    record.state == State::Unmet && record.bch.is_ok()
}

/// Words, lost, iterations, corrected bits, doubtful.
fn figures(window: &Window) -> [u64; 5] {
    [
        window.words(),
        window.lost(),
        window.iterations(),
        window.corrected(),
        window.doubtful(),
    ]
}

/// Of the last `width` finished records.
fn afresh(width: u32, all: &[Record]) -> [u64; 5] {
    let finished = all.iter().rev().filter(|r| finished(r));
    let last: Vec<&Record> = finished.take(width as usize).collect();
    [
        last.len() as u64,
        last.iter().filter(|r| r.bch.is_err()).count() as u64,
        last.iter().map(|r| u64::from(r.iterations)).sum(),
        last.iter().map(|r| u64::from(r.bch.unwrap_or(0))).sum(),
        last.iter().filter(|r| doubtful(r)).count() as u64,
    ]
}

#[test]
fn figures_are_those_worked_out_afresh() {
    let mut d = Draw(7);
    for (width, count) in [
        (1, 60),
        (2, 90),
        (3, 90),
        (7, 200),
        (64, 700),
        (1000, 4000),
        (4095, 10_000),
        (4096, 10_000),
    ] {
        let mut window = Window::new(width).unwrap();
        let mut all = Vec::new();
        // doubtful words that came for others, and that left for others
        let (mut came, mut left) = (0, 0);
        for i in 0..count {
            let record = d.record();
            let before = window.clone();
            window.push(&record);
            all.push(record);
            came += usize::from(window.doubtful() > before.doubtful());
            left += usize::from(window.doubtful() < before.doubtful());
            if !finished(&record) {
                assert_eq!(window, before);
            }
            // afresh takes as long as the window is wide
            if width < 100 || i % 61 == 0 || count - i < 5 {
                assert_eq!(figures(&window), afresh(width, &all), "width {width}, {i}");
            }
        }
        assert_eq!((window.width(), window.words()), (width, u64::from(width)));
        assert!(came > 5 && left > 5, "width {width}: {came}, {left}");
        // many at once, borrowed and not
        let (early, late) = all.split_at(all.len() / 3);
        let mut again = Window::new(width).unwrap();
        again.extend(early);
        again.extend(late.to_vec());
        assert_eq!(again, window);
    }
}

/// 4,096 of the greatest numbers that a record can have.
#[test]
fn the_greatest_sums() {
    let greatest = Record {
        state: State::Met,
        iterations: u32::MAX,
        unsatisfied: u32::MAX,
        check: u32::MAX,
        bch: Ok(u32::MAX - 1),
        changed: u32::MAX,
    };
    let mut window = Window::new(4096).unwrap();
    window.extend([greatest; 5000]);
    let all = [greatest; 4096];
    assert_eq!(figures(&window), afresh(4096, &all));
    assert_eq!(window.iterations(), 4096 * u64::from(u32::MAX));
    // a corrected count that is a lost word's number is taken for one
    let lost = Record {
        bch: Ok(u32::MAX),
        ..greatest
    };
    window.extend([lost; 4096]);
    assert_eq!((window.lost(), window.corrected()), (4096, 0));
    // unmet, it is lost all the same; with one corrected bit fewer it is doubtful
    let unmet = |bch| Record {
        state: State::Unmet,
        bch: Ok(bch),
        ..greatest
    };
    window.extend([unmet(u32::MAX); 4096]);
    assert_eq!((window.lost(), window.doubtful()), (4096, 0));
    window.extend([unmet(u32::MAX - 1); 4096]);
    assert_eq!((window.lost(), window.doubtful()), (0, 4096));
}

/// One of each sort after the other, in a window of three: what each is counted as when it comes and when it leaves.
#[test]
fn kept_doubtful_and_lost_come_and_leave() {
    let record = |state, bch| Record {
        state,
        iterations: 1,
        unsatisfied: 0,
        check: 0,
        bch,
        changed: 0,
    };
    let [kept, doubtful] = [State::Met, State::Unmet].map(|state| record(state, Ok(2)));
    let [lost, lost_unmet] =
        [State::Met, State::Unmet].map(|state| record(state, Err(Uncorrectable)));
    let [waiting, held] = [State::Waiting, State::Held].map(|state| record(state, Ok(0)));
    let mut window = Window::new(3).unwrap();
    // the record, and then how many are kept, doubtful and lost
    for (record, sorts) in [
        (waiting, [0, 0, 0]),
        (doubtful, [0, 1, 0]),
        (held, [0, 1, 0]),
        (doubtful, [0, 2, 0]),
        (kept, [1, 2, 0]),
        (lost, [1, 1, 1]),
        (kept, [2, 0, 1]),
        (waiting, [2, 0, 1]),
        (doubtful, [1, 1, 1]),
        (lost_unmet, [1, 1, 1]),
        (held, [1, 1, 1]),
        (doubtful, [0, 2, 1]),
        (record(State::Unmet, Ok(0)), [0, 2, 1]),
        (kept, [1, 2, 0]),
        (lost_unmet, [1, 1, 1]),
        (lost, [1, 0, 2]),
    ] {
        window.push(&record);
        let kept = window.words() - window.doubtful() - window.lost();
        assert_eq!([kept, window.doubtful(), window.lost()], sorts);
    }
    window.clear();
    assert_eq!(figures(&window), [0; 5]);
    window.extend([doubtful; 5]);
    assert_eq!(figures(&window), [3, 0, 3, 6, 3]);
}

#[test]
fn widths() {
    for width in [1, 2, 63, 64, 65, 4095, 4096] {
        let window = Window::new(width).unwrap();
        assert_eq!((window.width(), figures(&window)), (width, [0; 5]));
    }
    for width in [0, 4097, 65_536, 1 << 31, u32::MAX] {
        assert_eq!(Window::new(width), Err(Refusal::Width));
    }
    assert_eq!(Refusal::Width.number(), 14);
}

/// By width and by what is covered, wherever it stands in the ring.
#[test]
fn equality() {
    let mut d = Draw(11);
    let records: Vec<Record> = std::iter::repeat_with(|| d.record())
        .filter(finished)
        .take(40)
        .collect();
    let of = |width, records: &[Record]| {
        let mut window = Window::new(width).unwrap();
        window.extend(records);
        window
    };
    for start in 0..=32 {
        assert_eq!(of(8, &records[start..]), of(8, &records[32..]));
    }
    assert_ne!(of(8, &records), of(9, &records));
    assert_ne!(of(8, &records[..7]), of(8, &records[..8]));
    assert_ne!(of(8, &records[..8]), of(8, &records[1..9]));
    assert_eq!(of(8, &[]), of(8, &[]));
    // the same figures in another order
    let [a, b] = [records[0], records[1]];
    assert_eq!(figures(&of(2, &[a, b])), figures(&of(2, &[b, a])));
    assert_ne!(of(2, &[a, b]), of(2, &[b, a]));
    // a clone goes its own way
    let mut window = of(2, &[a, b]);
    let clone = window.clone();
    window.push(&b);
    assert_eq!((clone, window), (of(2, &[a, b]), of(2, &[b, b])));
}

#[test]
fn what_it_prints() {
    let mut window = Window::new(5).unwrap();
    window.extend([Record {
        state: State::Unmet,
        iterations: 50,
        unsatisfied: 3,
        check: 1,
        bch: Ok(2),
        changed: 9,
    }]);
    assert_eq!(
        format!("{window:?}"),
        "Window { width: 5, words: 1, lost: 0, iterations: 50, corrected: 2, doubtful: 1, .. }"
    );
}

/// Records of runs, pushed in a thread of their own.
#[test]
fn runs_and_threads() {
    let code = Code::new(748, &[&[0, 40, 121]]);
    let mut d = Draw(5);
    let mut runner = Runner::new();
    let mut all = Vec::new();
    let mut window = Window::new(10).unwrap();
    // round and iteration limits; without an iteration, words with few errors are doubtful
    for (rounds, limit) in [
        (u32::MAX, 5),
        (0, 5),
        (2, 5),
        (u32::MAX, 0),
        (u32::MAX, 5),
        (3, 5),
    ] {
        let soft: Vec<i8> = (0..8 * 748)
            .map(|at| {
                let noise = 1 + at as u64 / 748;
                20 - (0..8).map(|_| d.below(noise) as i8).sum::<i8>()
            })
            .collect();
        let settings = Settings {
            rounds,
            ..Settings::new(3, limit)
        };
        let ran = runner.run(&code, &soft, &settings, &mut vec![0; 8 * 748]);
        let records = ran.unwrap().records;
        all.extend_from_slice(&records);
        window = std::thread::spawn(move || {
            window.extend(&records);
            window
        })
        .join()
        .unwrap();
        assert_eq!(figures(&window), afresh(10, &all));
    }
    assert_eq!(window.words(), 10);
    assert!(all.iter().any(|r| !finished(r)));
    assert!(all.iter().any(doubtful));
    fn shared<T: Send + Sync>(_: &T) {}
    shared(&window);
}
