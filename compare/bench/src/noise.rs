//! Words lost against noise, by both decoders on the same words.

use crate::chart::{Chart, Series};
use crate::codes::plan;
use crate::runs::space;
use harness::archive::{self, LOST, Settings};
use harness::lent::Lent;
use harness::random::Random;
use harness::run::params;
use harness::scope::RECORD;
use oracle::decode_or_leave;
use oracle::ldpc::Code;
use oracle::ldpc::fixed::{Decoder, quantise};

fn normal(r: &mut Random) -> f64 {
    let (a, b) = (r.unit(), r.unit());
    (-2.0 * (1.0 - a).ln()).sqrt() * (std::f64::consts::TAU * b).cos()
}

/// Codewords, each with a BCH word as its information, at so many dB Es/N0 over a channel with normal noise.
pub fn words(r: &mut Random, code: &Code, snr: f64, words: usize) -> Vec<i8> {
    let variance = 0.5 * 10f64.powf(-snr / 10.0);
    let mut soft = Vec::with_capacity(words * code.n());
    let mut word = Vec::new();
    for _ in 0..words {
        let info = oracle::bch::encode(&r.bits(code.k() - 192));
        let llr: Vec<f32> = code
            .encode(&info)
            .iter()
            .map(|&b| {
                let sent = if b == 1 { -1.0 } else { 1.0 };
                (2.0 * (sent + variance.sqrt() * normal(r)) / variance) as f32
            })
            .collect();
        quantise(&llr, 1.5, &mut word);
        soft.extend_from_slice(&word);
    }
    soft
}

pub fn bench(file: Option<&str>, words: usize) {
    let mut r = Random(11);
    let plan = plan(&mut r, false);
    let code = plan.code();
    let table = plan.lent(&mut r);
    let (k, n) = (code.k(), code.n());
    let mut chart = Chart::new(
        &format!("Words lost, of {words} at each point; n 44,880, rate 1/2, 20 iterations"),
        "Es/N0, dB",
        "words lost, of each",
    );
    println!(
        "| Es/N0, dB | schedule | lost by Raxdov | lost by isdb-rs | of them with flips taken back | words that differ | iterations a word |"
    );
    println!("|---|---|---|---|---|---|---|");
    let lanes = 16;
    for (name, layered, step) in [("sequential", 0, 0), ("layered 374", 1, 374)] {
        let (mut ours, mut theirs) = (Vec::new(), Vec::new());
        for hundredth in (-190..=-110).step_by(8) {
            let snr = f64::from(hundredth) / 100.0;
            let soft = self::words(&mut r, &code, snr, words);
            let set = Settings {
                lanes,
                limit: 20,
                layered,
                step,
                offset: 1,
                rounds: u32::MAX,
                first: 0,
                length: k as u32,
            };
            let mut to = space(&mut r, &table, words, lanes);
            let lent = Lent::of(&soft, &mut r);
            assert_eq!(archive::run(&table, &lent, set, &mut to), 0);
            let list: Vec<&[i8]> = soft.chunks(n).collect();
            let answers = Decoder::<16>::default().decode_all(&code, &list, params(set));
            let (mut lost, mut flips, mut other) = (0, 0, 0);
            for (w, (_, mut bits)) in answers.into_iter().enumerate() {
                let answer = decode_or_leave(&mut bits[..k]);
                let fails = answer.is_err();
                lost += u32::from(fails);
                flips += u32::from(answer.is_err_and(|lost| lost.flips > 0));
                let same = bits == to.out.now()[w * n..w * n + n]
                    && fails == (to.records.now()[RECORD * w + 4] == LOST);
                other += u32::from(!same);
            }
            let tally = to.tally.now();
            println!(
                "| {snr:.2} | {name} | {} | {lost} | {flips} | {other} | {:.1} |",
                tally[4],
                f64::from(tally[2]) / words as f64
            );
            ours.push((snr, f64::from(tally[4]) / words as f64));
            theirs.push((snr, f64::from(lost) / words as f64));
        }
        chart.add(Series {
            name: format!("Raxdov, {name}"),
            points: ours,
            dashed: false,
        });
        chart.add(Series {
            name: format!("isdb-rs, {name}"),
            points: theirs,
            dashed: true,
        });
    }
    if let Some(file) = file {
        std::fs::write(file, chart.svg(true)).unwrap();
    }
}
