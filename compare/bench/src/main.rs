//! Times the archive and the original on the same input in one process, in turn, and writes tables and charts. See docs/BENCH.md.

#[cfg(before)]
mod bch;
#[cfg(before)]
mod beside;
mod chart;
mod codes;
mod combine;
mod growth;
mod noise;
mod place;
mod runs;
mod time;
mod windows;

const USAGE: &str =
    "bench codes | growth | windows | combine | runs [CHART.svg] [SCHEDULE] [LANES] | noise [CHART.svg] [WORDS]
bench beside [SCHEDULE] [LANES] | bch: built with RAXDOV_BEFORE, an earlier libraxdov.a";

fn main() {
    let words: Vec<String> = std::env::args().skip(1).collect();
    let chart = words.get(1).map(String::as_str);
    if !words.is_empty() {
        place::print();
    }
    match words.first().map(String::as_str) {
        Some("codes") => codes::bench(),
        Some("growth") => growth::bench(),
        Some("windows") => windows::bench(),
        Some("combine") => combine::bench(),
        Some("runs") => runs::bench(
            chart,
            words.get(2).map_or("", String::as_str),
            words.get(3).and_then(|w| w.parse().ok()),
        ),
        #[cfg(before)]
        Some("bch") => bch::bench(),
        #[cfg(before)]
        Some("beside") => beside::bench(
            words.get(1).map_or("", String::as_str),
            words.get(2).and_then(|w| w.parse().ok()),
        ),
        Some("noise") => noise::bench(
            chart,
            words.get(2).and_then(|w| w.parse().ok()).unwrap_or(200),
        ),
        _ => println!("{USAGE}"),
    }
}
