//! Where and when figures were taken: machine, date, compilers.

use std::fs;
use std::process::Command;

/// What a command prints, or nothing.
fn said(command: &str, word: &str) -> String {
    Command::new(command)
        .arg(word)
        .output()
        .map(|o| String::from_utf8_lossy(&o.stdout).trim().to_string())
        .unwrap_or_default()
}

pub fn print() {
    let info = fs::read_to_string("/proc/cpuinfo").unwrap_or_default();
    let model = info
        .lines()
        .find_map(|l| l.strip_prefix("model name")?.split(':').nth(1))
        .unwrap_or("unknown")
        .trim();
    let count = std::thread::available_parallelism().map_or(0, |n| n.get());
    println!(
        "machine: {model}, {count} processors, {}",
        said("uname", "-sm")
    );
    println!("date: {}", said("date", "-u"));
    println!(
        "compilers: {} for the original, {} for the archive\n",
        env!("COMPILER"),
        said("rt", "version")
    );
}
