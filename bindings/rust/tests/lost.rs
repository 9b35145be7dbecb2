//! A lost word is untouched: by `bch::decode` every byte, in a run every bit.

use raxdov::bch::{self, Uncorrectable};
use raxdov::ldpc::Code;
use raxdov::ldpc::fixed::{Decoder, Params};
use raxdov::run::{Runner, Settings, State};

/// 193 zeros with errors at some places, and at some powers that the word doesn't have: for up to 12 in all BCH's register
/// has these as its roots.
fn errors(places: &[usize], absent: &[usize]) -> Vec<u8> {
    let mut word = vec![0; 193];
    for power in absent {
        // x^power mod g
        let mut message = vec![0; power - 191];
        message[0] = 1;
        for (w, r) in word[1..].iter_mut().zip(bch::parity(&message)) {
            *w ^= r;
        }
    }
    for &at in places {
        word[at] ^= 1;
    }
    word
}

/// 193 bits: the product of the table's first six entries. Its first 12 syndromes are 0 and the 13th is not: the register
/// is longer than 12.
fn long_register() -> Vec<u8> {
    let mut word = vec![0; 193];
    word[192] = 1;
    for g in &bch::TABLE_3_4_1[..6] {
        word = (0..193)
            .map(|at| {
                g.iter()
                    .filter_map(|&e| word.get(at + e as usize))
                    .fold(0, |sum, bit| sum ^ bit)
            })
            .collect();
    }
    word
}

/// Words of 193 bits that BCH calls uncorrectable.
fn lost_words() -> Vec<Vec<u8>> {
    let all: Vec<usize> = (0..193).step_by(17).collect();
    vec![
        errors(&[192], &[193]),
        errors(&[0], &[193]),
        errors(&[0, 1, 5, 100, 191, 192], &[193, 194, 300, 60_000]),
        errors(&all[..11], &[65_534]),
        errors(&[], &[1000]),
        errors(&all, &[193]),
        long_register(),
    ]
}

#[test]
fn uncorrectable_words_keep_every_byte() {
    for word in lost_words() {
        for high in [0, 2, 0x80, 0xfe] {
            let sent: Vec<u8> = (0..193)
                .map(|i| word[i] | (high & !(i as u8) & !1))
                .collect();
            let mut left = sent.clone();
            assert_eq!(bch::decode(&mut left), Err(Uncorrectable));
            assert_eq!(left, sent);
        }
    }
}

/// Soft values whose signs are the bits.
fn soft(bits: &[u8]) -> Vec<i8> {
    bits.iter()
        .map(|&b| if b == 0 { 20 } else { -20 })
        .collect()
}

/// Words with checks unmet and words without, all lost. The first go out as they are held with a limit one higher, the
/// others as they were sent, and all as `decode_all` gives them.
#[test]
fn a_run_gives_the_hard_decisions_of_lost_words() {
    let code = Code::new(748, &[&[0, 40, 121]]);
    // the BCH part of a word stands in the information, and LDPC has something to do
    let part = 100..293;
    let (mut sent, mut words) = (Vec::new(), Vec::new());
    for (w, lost) in lost_words().iter().enumerate() {
        for wrong in [0, 3, 40] {
            let mut info = vec![0; 374];
            info[part.clone()].copy_from_slice(lost);
            sent.push(code.encode(&info));
            let mut word = soft(&sent[sent.len() - 1]);
            for i in 0..wrong {
                let at = 293 + (29 * i + 31 * w) % 455;
                word[at] = -word[at];
            }
            words.push(word);
        }
    }
    let n = code.n();
    let mut states = [0; 4];
    let mut iterations = 0;
    for limit in [0, 1, 2, 8] {
        let settings = Settings {
            offset: 1,
            first: part.start as u32,
            length: part.len() as u32,
            ..Settings::new(3, limit)
        };
        let mut out = vec![9; n * words.len()];
        let ran = Runner::new()
            .run(&code, &words.concat(), &settings, &mut out)
            .unwrap();
        let tally = ran.tally;
        let lost = words.len() as u32;
        assert_eq!((tally.kept, tally.doubtful, tally.lost), (0, 0, lost));
        let soft: Vec<&[i8]> = words.iter().map(Vec::as_slice).collect();
        let params = Params::new(limit as usize, 1);
        let alone = Decoder::<64>::default().decode_all(&code, &soft, params);
        for (w, record) in ran.records.iter().enumerate() {
            assert_eq!(record.bch, Err(Uncorrectable));
            states[record.state as usize] += 1;
            iterations += record.iterations;
            let bits = &out[n * w..n * (w + 1)];
            assert_eq!(bits, alone[w].1);
            if record.state == State::Unmet {
                // with one iteration more to go, the word is held
                let settings = Settings {
                    limit: limit + 1,
                    rounds: limit,
                    ..settings
                };
                let mut held = vec![9; n];
                let ran = Runner::new()
                    .run(&code, &words[w], &settings, &mut held)
                    .unwrap();
                assert_eq!(ran.records[0].state, State::Held);
                assert_eq!(bits, held);
            } else {
                assert_eq!(bits, sent[w]);
            }
        }
    }
    assert!(
        states[State::Met as usize] > 20 && states[State::Unmet as usize] > 20,
        "{states:?}"
    );
    assert!(iterations > 20, "{iterations}");
}

/// More words than lanes, at limit 0: their bits are the signs of what goes in, whether BCH gives up their last 193 bits
/// or corrects them.
#[test]
fn decode_all_gives_bits_before_bch() {
    let code = Code::new(748, &[&[0, 40, 121]]);
    let mut tails = lost_words();
    tails.push(errors(&[7], &[]));
    tails.push(errors(&[0, 192], &[]));
    let words: Vec<Vec<u8>> = tails
        .iter()
        .map(|tail| [&[0; 555][..], tail].concat())
        .collect();
    let values: Vec<Vec<i8>> = words.iter().map(|word| soft(word)).collect();
    let values: Vec<&[i8]> = values.iter().map(Vec::as_slice).collect();
    let results = Decoder::<2>::default().decode_all(&code, &values, Params::new(0, 0));
    for (word, (result, bits)) in words.iter().zip(&results) {
        assert!(result.is_err());
        assert_eq!(bits, word);
    }
}
