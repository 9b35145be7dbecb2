//! A run against the original's `decode_all_traced` with its `bch::decode` after it, but that lost words stay as they
//! were: records, bits and tally, at every kind of round limit; and a window over the records of all runs.

use against::{Draw, given_up, rows, words};
use oracle::ldpc::fixed::{Decoder, Params, Schedule};
use raxdov::bch::Uncorrectable;
use raxdov::run::{Ending, Ran, Runner, Settings, State, Window};

/// A word of the original: its bits after 0, 1, 2, .. iterations; whether it met every check; its last bits, corrected by
/// BCH if it is not lost; what BCH said, and how many bits of a lost word it left changed.
struct Alone {
    bits: Vec<Vec<u8>>,
    met: bool,
    after: Vec<u8>,
    bch: Result<u32, Uncorrectable>,
    flips: usize,
}

fn alone(code: &oracle::ldpc::Code, soft: &[i8], settings: &Settings) -> Alone {
    let schedule = match settings.schedule {
        raxdov::ldpc::fixed::Schedule::Sequential => Schedule::Sequential,
        raxdov::ldpc::fixed::Schedule::Layered { step } => Schedule::Layered { step },
    };
    let p = Params {
        schedule,
        ..Params::new(settings.limit as usize, settings.offset)
    };
    let mut bits: Vec<Vec<u8>> = vec![soft.iter().map(|&x| u8::from(x < 0)).collect()];
    let results =
        Decoder::<1>::default().decode_all_traced(code, &[soft], p, |_, b| bits.push(b.to_vec()));
    let (result, mut after) = results[0].clone();
    let part = settings.first as usize..(settings.first + settings.length) as usize;
    let bch = oracle::decode_or_leave(&mut after[part]);
    Alone {
        bits,
        met: result.is_ok(),
        after,
        bch: bch.map(|count| count as u32).map_err(|_| Uncorrectable),
        flips: bch.err().map_or(0, |lost| lost.flips),
    }
}

/// The iterations of each word when a round gives every held word one and empty lanes take words in order; none of a
/// word that waits. And whether words were held at the end, and the rounds.
fn schedule(ends: &[usize], lanes: usize, rounds: u32) -> (Vec<Option<usize>>, bool, u32) {
    let mut given: Vec<Option<usize>> = vec![None; ends.len()];
    let mut held: Vec<usize> = Vec::new();
    let mut next = 0;
    let mut made = 0;
    loop {
        while held.len() < lanes && next < ends.len() {
            given[next] = Some(0);
            if ends[next] > 0 {
                held.push(next);
            }
            next += 1;
        }
        if held.is_empty() || made == rounds {
            return (given, !held.is_empty(), made);
        }
        made += 1;
        for &w in &held {
            given[w] = given[w].map(|i| i + 1);
        }
        held.retain(|&w| given[w] < Some(ends[w]));
    }
}

/// Positions where they differ.
fn distance(a: &[u8], b: &[u8]) -> usize {
    a.iter().zip(b).filter(|(x, y)| x != y).count()
}

fn compare(
    ran: &Ran,
    out: &[u8],
    n: usize,
    code: &oracle::ldpc::Code,
    alone: &[Alone],
    settings: &Settings,
) {
    let ends: Vec<usize> = alone.iter().map(|a| a.bits.len() - 1).collect();
    let (given, stopped, rounds) = schedule(&ends, settings.lanes as usize, settings.rounds);
    let (mut kept, mut doubtful, mut lost) = (0, 0, 0);
    for (w, (word, record)) in alone.iter().zip(&ran.records).enumerate() {
        let bits = &out[n * w..n * (w + 1)];
        let Some(i) = given[w] else {
            assert_eq!((record.state, record.iterations), (State::Waiting, 0));
            assert_eq!(
                (record.unsatisfied, record.check, record.bch, record.changed),
                (0, 0, Ok(0), 0)
            );
            assert!(bits.iter().all(|&b| b == 9), "a waiting word's bits");
            continue;
        };
        let before = &word.bits[i];
        let (state, bch, after) = match (i == ends[w], word.met) {
            (false, _) => (State::Held, Ok(0), before),
            (true, true) => (State::Met, word.bch, &word.after),
            (true, false) => (State::Unmet, word.bch, &word.after),
        };
        if i == ends[w] {
            kept += u32::from(word.met && bch.is_ok());
            doubtful += u32::from(!word.met && bch.is_ok());
            lost += u32::from(bch.is_err());
        }
        assert_eq!(bits, after);
        assert_eq!(
            (record.state, record.iterations as usize, record.bch),
            (state, i, bch)
        );
        assert_eq!(record.unsatisfied as usize, code.syndrome_weight(before));
        assert_eq!(record.changed as usize, distance(before, &word.bits[0]));
        let named = code.check(record.check as usize);
        let odd = named.iter().fold(0, |a, &v| a ^ before[v as usize]);
        assert_eq!(odd == 1, record.unsatisfied > 0, "the named check");
        assert!(record.unsatisfied > 0 || record.check == 0);
    }
    let tally = ran.tally;
    assert_eq!(tally.rounds, rounds);
    assert_eq!(
        (tally.kept, tally.doubtful, tally.lost),
        (kept, doubtful, lost)
    );
    assert_eq!(tally.loaded as usize, given.iter().flatten().count());
    assert_eq!(
        tally.iterations as usize,
        given.iter().flatten().sum::<usize>()
    );
    assert_eq!(ran.ending == Ending::Stopped, stopped);
}

/// A finished word's answers by the original: its iterations, whether it met every check, and what BCH said.
type Finished = (usize, bool, Result<u32, Uncorrectable>);

/// Words, iterations, corrected bits, lost, doubtful.
fn figures(last: &[Finished]) -> [u64; 5] {
    let mut sums = [last.len() as u64, 0, 0, 0, 0];
    for (iterations, met, bch) in last {
        sums[1] += *iterations as u64;
        match bch {
            Ok(count) => sums[2] += u64::from(*count),
            Err(Uncorrectable) => sums[3] += 1,
        }
        sums[4] += u64::from(!met && bch.is_ok());
    }
    sums
}

#[test]
fn runs() {
    let mut d = Draw::new(50);
    let mut runner = Runner::new();
    let mut states = [0; 4];
    let (mut corrected, mut lost) = (0, 0);
    // lost words with bits that the original's BCH leaves changed, by state
    let mut flipped = [0; 4];
    // words with bits changed by LDPC, by state; those where it counts that BCH comes behind
    let (mut changed, mut before_bch) = ([0; 4], 0);
    // words that are kept, doubtful and lost
    let mut sorts = [0; 3];
    // over the records of all runs, and what the original answered
    let mut window = Window::new(40).unwrap();
    let mut answers: Vec<Finished> = Vec::new();
    for _ in 0..150 {
        let groups = 2 + d.below(6);
        let count = 1 + d.below(groups - 1);
        let table = d.table(groups, count, 5);
        let n = 374 * groups;
        let code = oracle::ldpc::Code::new(n, &rows(&table));
        let ours = raxdov::ldpc::Code::new(n, &rows(&table));
        let length = 193 + d.below(2) * d.below(n - 193 + 1).min(d.below(400));
        let settings = Settings {
            lanes: [1, 2, 3, 8, 16, 33, 64][d.below(7)],
            limit: [0, 1, 3, 8][d.below(4)],
            schedule: match d.below(4) {
                0 => raxdov::ldpc::fixed::Schedule::Layered {
                    step: 1 + d.below(400),
                },
                _ => raxdov::ldpc::fixed::Schedule::Sequential,
            },
            offset: [0, 1, 2, -4][d.below(4)],
            rounds: [0, 1, 2, 4, 7, u32::MAX][d.below(6)],
            first: d.below(n - length + 1) as u32,
            length: length as u32,
        };
        let soft: Vec<Vec<i8>> = (0..d.below(24))
            .map(|_| {
                // a BCH word in its part, where it lies in the information, or one that BCH gives up; else whatever
                // comes
                let mut info = d.bytes(code.k(), false);
                let part = settings.first as usize..(settings.first as usize + length);
                if part.end <= info.len() {
                    let message = info[part.start..part.end - 192].to_vec();
                    let (present, absent) = (1 + d.below(6), 1 + d.below(6));
                    let word = if length == 193 && d.below(2) == 0 {
                        given_up(&mut d, present, absent)
                    } else {
                        oracle::bch::encode(&message)
                    };
                    info[part].copy_from_slice(&word);
                }
                let noise = [0, 4, 7, 10][d.below(4)];
                d.soft(&code.encode(&info), 20, noise)
            })
            .collect();
        let alone: Vec<Alone> = soft.iter().map(|w| alone(&code, w, &settings)).collect();
        let mut out = vec![9; n * soft.len() + 3];
        let ran = runner
            .run(&ours, &words(&soft).concat(), &settings, &mut out)
            .unwrap();
        assert_eq!(out[n * soft.len()..], [9; 3]);
        assert_eq!(ran.records.len(), soft.len());
        compare(&ran, &out, n, &code, &alone, &settings);
        let tally = ran.tally;
        for (sum, count) in sorts
            .iter_mut()
            .zip([tally.kept, tally.doubtful, tally.lost])
        {
            *sum += count;
        }
        for (w, record) in ran.records.iter().enumerate() {
            states[record.state as usize] += 1;
            corrected += usize::from(matches!(record.bch, Ok(1..)));
            lost += usize::from(record.bch.is_err());
            let finished = matches!(record.state, State::Met | State::Unmet);
            flipped[record.state as usize] += usize::from(finished && alone[w].flips > 0);
            changed[record.state as usize] += usize::from(record.changed > 0);
            let after = distance(&out[n * w..n * (w + 1)], &alone[w].bits[0]);
            before_bch += usize::from(finished && record.changed as usize != after);
            if finished {
                answers.push((alone[w].bits.len() - 1, alone[w].met, alone[w].bch));
            }
            window.push(record);
            assert_eq!(
                [
                    window.words(),
                    window.iterations(),
                    window.corrected(),
                    window.lost(),
                    window.doubtful()
                ],
                figures(&answers[answers.len().saturating_sub(40)..])
            );
        }
    }
    assert!(states.iter().all(|&count| count > 50), "{states:?}");
    assert!(corrected > 20 && lost > 50, "{corrected} {lost}");
    assert!(flipped[2..].iter().all(|&count| count > 10), "{flipped:?}");
    assert!(changed[1..].iter().all(|&count| count > 50), "{changed:?}");
    assert!(before_bch > 20, "{before_bch}");
    assert!(sorts.iter().all(|&count| count > 50), "{sorts:?}");
}
