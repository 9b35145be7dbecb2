//! Combined words beside a plain model: each place's sum in an i32, clamped at the end.

use raxdov::bch::Uncorrectable;
use raxdov::ldpc::Code;
use raxdov::run::{Runner, Settings, State};
use raxdov::{Refusal, combine};

/// The same numbers for the same seed.
struct Draw(u64);

impl Draw {
    fn below(&mut self, m: u64) -> u64 {
        self.0 ^= self.0 << 13;
        self.0 ^= self.0 >> 7;
        self.0 ^= self.0 << 17;
        (self.0 >> 11) % m
    }

    /// A value up to `most` either way; above 127 any i8, or at 129 only the greatest and the least.
    fn value(&mut self, most: u64) -> i8 {
        match most {
            129 => [127, -127, -128][self.below(3) as usize],
            128 => self.below(256) as u8 as i8,
            _ => (self.below(2 * most + 1) as i64 - most as i64) as i8,
        }
    }

    fn values(&mut self, count: usize, most: u64) -> Vec<i8> {
        (0..count).map(|_| self.value(most)).collect()
    }
}

/// Words of n values, one after the other.
fn model(n: usize, soft: &[i8]) -> Vec<i8> {
    let sum = |i| -> i32 {
        let values = soft.iter().skip(i).step_by(n);
        values.map(|&x| i32::from(x)).sum()
    };
    (0..n).map(|i| sum(i).clamp(-127, 127) as i8).collect()
}

fn combined(words: &[Vec<i8>]) -> Vec<i8> {
    let lengths: Vec<u32> = words.iter().map(|w| w.len() as u32).collect();
    let mut out = vec![99; words[0].len()];
    combine(&lengths, &words.concat(), &mut out).unwrap();
    out
}

#[test]
fn words_are_those_of_the_model() {
    let mut d = Draw(3);
    let sizes = (0..=70).chain([127, 128, 129, 374, 748, 3740, 44_880, 70_001]);
    for n in sizes {
        for count in 1..=8 {
            for most in [0, 1, 20, 63, 127, 128, 129] {
                let soft = d.values(count * n, most);
                for longer in [0, 1, 15, 16, 40] {
                    let mut out = d.values(n + longer, 128);
                    let wanted = [&model(n, &soft), &out[n..]].concat();
                    assert_eq!(combine(&vec![n as u32; count], &soft, &mut out), Ok(()));
                    assert_eq!(out, wanted, "{count} words of {n}, values to {most}");
                }
            }
        }
    }
}

/// Every value, and every two.
#[test]
fn all_values() {
    let all: Vec<i8> = (i8::MIN..=i8::MAX).collect();
    let alone: Vec<i8> = all.iter().map(|&x| x.max(-127)).collect();
    assert_eq!(combined(std::slice::from_ref(&all)), alone);
    let first = all.iter().flat_map(|&x| [x; 256]).collect();
    let second = all.repeat(256);
    let sums: Vec<i8> = all
        .iter()
        .flat_map(|&x| all.iter().map(move |&y| x.saturating_add(y).max(-127)))
        .collect();
    assert_eq!(combined(&[first, second]), sums);
}

/// The clamp comes once, at the end: sums on the way pass it and come back.
#[test]
fn the_clamp() {
    let at = |values: &[i8]| {
        let words: Vec<Vec<i8>> = values.iter().map(|&x| vec![x; 19]).collect();
        let out = combined(&words);
        assert_eq!(out, vec![out[0]; 19]);
        out[0]
    };
    for (values, sum) in [
        (&[-128][..], -127),
        (&[-127], -127),
        (&[127], 127),
        (&[63, 63], 126),
        (&[63, 64], 127),
        (&[64, 64], 127),
        (&[-63, -63], -126),
        (&[-63, -64], -127),
        (&[-64, -64], -127),
        (&[-128, 0], -127),
        (&[-128, 1], -127),
        (&[-128, 2], -126),
        (&[127, -128], -1),
        (&[-128, 127], -1),
        (&[127, 127, -128], 126),
        (&[127, 127, -127, -127], 0),
        (&[-128, -128, 127, 127], -2),
        (&[127, 127, 127, 127, -127, -127, -127, -127], 0),
        (&[-128, -128, -128, -128, 127, 127, 127, 127], -4),
        (&[127, 127, 127, 127, 127, 127, -128, -128], 127),
        (&[127; 8], 127),
        (&[-128; 8], -127),
    ] {
        assert_eq!(at(values), sum, "{values:?}");
    }
}

#[test]
fn the_order_makes_no_difference() {
    let mut d = Draw(21);
    for count in 2..=8 {
        for most in [20, 128, 129] {
            let mut words: Vec<Vec<i8>> = (0..count).map(|_| d.values(50, most)).collect();
            let wanted = combined(&words);
            for _ in 0..40 {
                for i in (1..count).rev() {
                    words.swap(i, d.below(i as u64 + 1) as usize);
                }
                assert_eq!(combined(&words), wanted);
            }
        }
    }
}

#[test]
fn words_of_zeros_change_nothing() {
    let mut d = Draw(22);
    for count in 1..8 {
        for most in [20, 128, 129] {
            let words: Vec<Vec<i8>> = (0..count).map(|_| d.values(50, most)).collect();
            let wanted = combined(&words);
            for at in 0..=count {
                let mut more = words.clone();
                while more.len() < 8 {
                    more.insert(at, vec![0; 50]);
                    assert_eq!(combined(&more), wanted);
                }
            }
        }
    }
    assert_eq!(combined(&vec![vec![0; 50]; 8]), [0; 50]);
}

/// Each cause of 15, and 15 before 13; what is refused writes nothing.
#[test]
fn refusals_in_order_and_nothing_changed() {
    let cases: [(u32, &[u32], usize, usize); 36] = [
        // words that are not 1 to 8
        (15, &[], 0, 4),
        (15, &[], 4, 4),
        (15, &[], 0, 0),
        (15, &[0; 9], 0, 4),
        (15, &[0; 9], 0, 0),
        (15, &[4; 9], 36, 4),
        (15, &[4; 9], 36, 3),
        (15, &[1; 100], 100, 1),
        // lengths that are not equal, though they add up
        (15, &[4, 5], 9, 9),
        (15, &[5, 4], 9, 9),
        (15, &[4, 5], 9, 3),
        (15, &[0, 4], 4, 4),
        (15, &[4, 0], 4, 4),
        (15, &[4, 4, 4, 4, 4, 4, 4, 5], 33, 9),
        (15, &[5, 4, 4, 4, 4, 4, 4, 4], 33, 9),
        (15, &[4, 4, 3, 5], 16, 16),
        // equal lengths that don't add up
        (15, &[4], 3, 4),
        (15, &[4], 5, 5),
        (15, &[4, 4], 7, 4),
        (15, &[4, 4], 9, 9),
        (15, &[4, 4], 4, 4),
        (15, &[4, 4], 0, 4),
        (15, &[0], 1, 4),
        (15, &[0; 8], 8, 4),
        (15, &[4, 4], 9, 3),
        // sums that would be right modulo 2^32
        (15, &[1 << 31; 2], 0, 0),
        (15, &[1 << 29; 8], 0, 4),
        (15, &[(1 << 29) + 1; 8], 8, 4),
        (15, &[(1 << 30) + 2; 4], 8, 8),
        (15, &[u32::MAX], 0, 4),
        (15, &[u32::MAX; 8], 8, 4),
        // an output shorter than one word
        (13, &[1], 1, 0),
        (13, &[4, 4], 8, 3),
        (13, &[17; 8], 136, 16),
        (13, &[44_880; 8], 359_040, 44_879),
        (0, &[4, 4], 8, 4),
    ];
    for (number, lengths, soft, room) in cases {
        let mut out = vec![9; room];
        let answer = combine(lengths, &vec![1; soft], &mut out);
        assert_eq!(
            answer.err().map_or(0, Refusal::number),
            number,
            "{lengths:?}, {soft} values, room for {room}"
        );
        assert_eq!(out == vec![9; room], number != 0);
    }
    assert_eq!(Refusal::Lengths.number(), 15);
}

#[test]
fn words_of_no_length() {
    for count in 1..=8 {
        for room in [0, 1, 20] {
            let mut out = vec![9; room];
            assert_eq!(combine(&vec![0; count], &[], &mut out), Ok(()));
            assert_eq!(out, vec![9; room]);
        }
    }
}

/// The soft values of a whole run at once, as word by word.
#[test]
fn a_run_at_once() {
    let mut d = Draw(23);
    let (n, words, receivers) = (748, 5, 3);
    let received: Vec<Vec<i8>> = (0..receivers).map(|_| d.values(n * words, 128)).collect();
    let by_word: Vec<i8> = (0..words)
        .flat_map(|w| {
            let some = received.iter().map(|r| r[n * w..n * (w + 1)].to_vec());
            combined(&some.collect::<Vec<_>>())
        })
        .collect();
    assert_eq!(combined(&received), by_word);
}

/// Bits changed by LDPC are counted from the signs of the combined word. The words that it is made of are lost alone.
#[test]
fn a_run_of_a_combined_word() {
    let code = Code::new(
        3740,
        &[
            &[41, 388, 617, 904, 1276, 1730],
            &[95, 512, 833, 1409],
            &[230, 781, 1644],
            &[3, 1067, 1528],
            &[356, 992, 1815],
        ],
    );
    let (n, k) = (code.n(), code.k());
    let settings = Settings {
        offset: 1,
        first: 0,
        length: k as u32,
        ..Settings::new(1, 50)
    };
    let run = |word: &[i8]| {
        let mut bits = vec![9; n];
        let ran = Runner::new().run(&code, word, &settings, &mut bits);
        (ran.unwrap().records[0], bits)
    };
    let mut d = Draw(24);
    let message: Vec<u8> = (0..k - 192).map(|_| d.below(2) as u8).collect();
    let sent = code.encode(&raxdov::bch::encode(&message));
    // with noise, and zeros where nothing is received
    let mut receive = |there: std::ops::Range<usize>| -> Vec<i8> {
        (0..n)
            .map(|at| {
                let value = if sent[at] == 0 { 20 } else { -20 };
                let noise: i8 = (0..4).map(|_| d.value(12)).sum();
                if there.contains(&at) {
                    value + noise
                } else {
                    0
                }
            })
            .collect()
    };
    let received = [receive(0..n / 2), receive(n / 3..n)];
    let word = combined(&received);
    assert_eq!(word, model(n, &received.concat()));
    let wrong = |word: &[i8]| {
        let signs = word.iter().map(|&x| u8::from(x < 0));
        signs.zip(&sent).filter(|(x, b)| x != *b).count() as u32
    };
    let (record, bits) = run(&word);
    assert_eq!((record.state, record.bch), (State::Met, Ok(0)));
    assert_eq!(record.changed, wrong(&word));
    assert!(wrong(&word) > 100);
    assert_eq!(bits, sent);
    for one in &received {
        let (record, _) = run(one);
        assert_eq!(
            (record.state, record.bch),
            (State::Unmet, Err(Uncorrectable))
        );
    }
}
