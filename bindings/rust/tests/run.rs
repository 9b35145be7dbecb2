//! Refusals of a run, what its records and tally say, memory that is used again, and the stack that a run needs.

use raxdov::Refusal;
use raxdov::bch::Uncorrectable;
use raxdov::ldpc::Code;
use raxdov::ldpc::fixed::Schedule;
use raxdov::run::{Record, Runner, Settings, State, Window};

fn code() -> Code {
    Code::new(748, &[&[0, 40, 121]])
}

#[test]
fn refusals_in_order_and_nothing_changed() {
    let good = Settings::new(1, 50);
    let wrong = Settings {
        lanes: 0,
        limit: 65_536,
        schedule: Schedule::Layered { step: 0 },
        length: 192,
        ..good
    };
    let cases = [
        (7, 747, 748, wrong),
        (7, 748, 748, Settings { lanes: 65, ..good }),
        (8, 747, 748, Settings { lanes: 64, ..wrong }),
        (9, 748, 748, Settings { lanes: 64, ..wrong }),
        (
            10,
            748,
            748,
            Settings {
                lanes: 64,
                limit: 65_535,
                ..wrong
            },
        ),
        (
            11,
            748,
            747,
            Settings {
                length: 192,
                ..good
            },
        ),
        (11, 748, 747, Settings { first: 556, ..good }),
        (
            11,
            748,
            747,
            Settings {
                first: u32::MAX,
                length: u32::MAX,
                ..good
            },
        ),
        (13, 748, 747, good),
        (0, 748, 748, Settings { first: 555, ..good }),
        (
            0,
            748,
            749,
            Settings {
                lanes: 64,
                limit: 65_535,
                ..good
            },
        ),
    ];
    let mut runner = Runner::new();
    for (number, soft, room, settings) in cases {
        let mut out = vec![9; room];
        let ran = runner.run(&code(), &vec![1; soft], &settings, &mut out);
        assert_eq!(
            ran.as_ref().err().map_or(0, |r| r.number()),
            number,
            "{settings:?}"
        );
        assert_eq!(out == vec![9; room], number != 0);
    }
    let mut out = [];
    let words = vec![1; 374 * 4097];
    let short = Code::new(374, &[]);
    assert_eq!(
        runner.run(&short, &words, &good, &mut out),
        Err(Refusal::Words)
    );
    assert_eq!(
        runner.run(&short, &words[374..], &good, &mut out),
        Err(Refusal::TooShort)
    );
}

#[test]
fn every_refusal_has_a_number_and_a_sentence() {
    for number in 1..=15 {
        let refusal = Refusal::from_number(number).unwrap();
        assert_eq!(refusal.number(), number);
        let told = format!("refused by {number}: {}", refusal.sentence());
        assert_eq!(refusal.to_string(), told);
    }
    assert_eq!(
        (Refusal::from_number(0), Refusal::from_number(16)),
        (None, None)
    );
}

/// The sentences stand in the C header too.
#[test]
fn sentences_are_those_of_the_header() {
    let file = concat!(env!("CARGO_MANIFEST_DIR"), "/../c/raxdov.h");
    let header = std::fs::read_to_string(file).unwrap();
    let header = header
        .split_whitespace()
        .collect::<Vec<_>>()
        .join(" ")
        .to_lowercase();
    let numbers = header.replace(", /*", " /*");
    for number in 1..=15 {
        let refusal = Refusal::from_number(number).unwrap();
        let sentence = format!("= {number} /* {}", refusal.sentence().to_lowercase());
        assert!(numbers.contains(&sentence), "{sentence}");
    }
}

/// Bits changed by LDPC: before BCH, so far of a held word, none of a waiting one.
#[test]
fn bits_changed_by_ldpc() {
    // two words of zeros, each with three bits received wrong, two of them in the BCH part; the first iteration turns
    // one of those and the third, the second iteration the last
    let mut soft = vec![9; 2 * 748];
    for at in [5, 100, 500] {
        soft[at] = -11;
        soft[748 + at] = -11;
    }
    let run = |limit, rounds| {
        let settings = Settings {
            rounds,
            ..Settings::new(1, limit)
        };
        let ran = Runner::new().run(&code(), &soft, &settings, &mut vec![0; soft.len()]);
        let records = ran.unwrap().records;
        [0, 1].map(|w: usize| (records[w].state, records[w].bch, records[w].changed))
    };
    assert_eq!(run(50, u32::MAX), [(State::Met, Ok(0), 3); 2]);
    assert_eq!(run(1, u32::MAX), [(State::Unmet, Ok(1), 2); 2]);
    assert_eq!(run(0, u32::MAX), [(State::Unmet, Ok(2), 0); 2]);
    let waiting = (State::Waiting, Ok(0), 0);
    assert_eq!(run(50, 0), [(State::Held, Ok(0), 0), waiting]);
    assert_eq!(run(50, 1), [(State::Held, Ok(0), 2), waiting]);
    let both = [(State::Met, Ok(0), 3), (State::Held, Ok(0), 2)];
    assert_eq!(run(50, 3), both);
}

/// Which of kept, doubtful and lost a word is, by its record; none of them before it is finished.
fn sorts(record: &Record) -> [u32; 3] {
    match (record.state, record.bch) {
        (State::Waiting | State::Held, _) => [0, 0, 0],
        (State::Met, Ok(_)) => [1, 0, 0],
        (State::Unmet, Ok(_)) => [0, 1, 0],
        (State::Met | State::Unmet, Err(Uncorrectable)) => [0, 0, 1],
    }
}

/// Words of every sort in one run: the tally counts them as their records say, and so does a window.
#[test]
fn kept_doubtful_and_lost() {
    // a codeword of LDPC; no codeword of BCH is near its first 193 bits
    let thirteen = code().encode(&[vec![1; 13], vec![0; 361]].concat());
    let values = |bits: &[u8], wrong: &[usize]| -> Vec<i8> {
        let mut word: Vec<i8> = bits.iter().map(|&b| 9 - 18 * b as i8).collect();
        for &at in wrong {
            word[at] = -word[at];
        }
        word
    };
    let zeros = vec![0; 748];
    let soft = [
        values(&zeros, &[]),         // met, accepted
        values(&zeros, &[0]),        // unmet, and BCH corrects it
        values(&zeros, &[747]),      // unmet behind the BCH part, which BCH accepts as it is
        values(&thirteen, &[]),      // met, and BCH gives it up
        values(&thirteen, &[747]),   // unmet, and BCH gives it up
        values(&zeros, &[747, 192]), // unmet in both
    ]
    .concat();
    let run = |lanes, rounds| {
        let settings = Settings {
            rounds,
            ..Settings::new(lanes, if rounds == 0 { 1 } else { 0 })
        };
        let ran = Runner::new()
            .run(&code(), &soft, &settings, &mut vec![0; soft.len()])
            .unwrap();
        let (tally, finished) = (ran.tally, sorts_of(&ran.records));
        assert_eq!([tally.kept, tally.doubtful, tally.lost], finished);
        let mut window = Window::new(4096).unwrap();
        window.extend(&ran.records);
        let kept = window.words() - window.doubtful() - window.lost();
        let figures = [kept, window.doubtful(), window.lost()];
        assert_eq!(figures, finished.map(u64::from));
        ran.records
    };
    let [met, unmet] = [State::Met, State::Unmet];
    let records = run(1, u32::MAX);
    let told: Vec<_> = records.iter().map(|r| (r.state, r.bch)).collect();
    assert_eq!(
        told,
        [
            (met, Ok(0)),
            (unmet, Ok(1)),
            (unmet, Ok(0)),
            (met, Err(Uncorrectable)),
            (unmet, Err(Uncorrectable)),
            (unmet, Ok(1)),
        ]
    );
    assert_eq!(sorts_of(&records), [1, 3, 2]);
    // held and waiting words are none of them
    assert_eq!(sorts_of(&run(1, 0)), [1, 0, 0]);
    assert_eq!(sorts_of(&run(64, 0)), [1, 0, 1]);
}

fn sorts_of(records: &[Record]) -> [u32; 3] {
    records.iter().map(sorts).fold([0; 3], |sum, one| {
        [sum[0] + one[0], sum[1] + one[1], sum[2] + one[2]]
    })
}

/// One runner for codes and lanes of any size, in any order.
#[test]
fn memory_is_used_again() {
    let codes = [
        code(),
        Code::new(374, &[]),
        Code::new(3740, &[&[1, 2, 3], &[77]]),
    ];
    let mut runner = Runner::new();
    for (lanes, code) in [(1, 0), (64, 2), (3, 1), (64, 0), (1, 2)] {
        let code = &codes[code];
        let mut soft = vec![5; 3 * code.n()];
        soft[7] = -1;
        let settings = Settings::new(lanes, 50);
        let mut out = vec![9; 3 * code.n()];
        let ran = runner.run(code, &soft, &settings, &mut out).unwrap();
        let mut fresh = vec![9; 3 * code.n()];
        let alone = Runner::new()
            .run(code, &soft, &settings, &mut fresh)
            .unwrap();
        assert_eq!((ran, out), (alone, fresh));
    }
}

/// As the header says: 256 KiB of stack are enough for a run with the most words and lanes.
#[test]
fn a_run_on_a_small_stack() {
    let thread = std::thread::Builder::new()
        .stack_size(256 * 1024)
        .spawn(|| {
            let code = Code::new(374, &[]);
            let mut soft = vec![1; 374 * 4096];
            soft[374 * 4095] = -1;
            let mut out = vec![0; soft.len()];
            let settings = Settings {
                schedule: Schedule::Layered { step: 100 },
                ..Settings::new(64, 50)
            };
            Runner::new()
                .run(&code, &soft, &settings, &mut out)
                .unwrap()
        });
    let ran = thread.unwrap().join().unwrap();
    assert!(ran.records.iter().all(|record| record.state == State::Met));
    assert_eq!(ran.tally.loaded, 4096);
}
