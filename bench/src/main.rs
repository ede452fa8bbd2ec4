//! Replays the same journals through the original and through the proved library, and times single lookups and snapshots.

mod journals;
mod lookups;
mod snapshots;

use std::time::Instant;

use layer::Original;
use solgaverna::Journal;

/// How many journals, and how many commands each holds.
const JOURNALS: u64 = 20;
const COMMANDS: usize = 500;

fn main() {
    let words: Vec<_> = std::env::args().skip(1).collect();
    match words.iter().map(String::as_str).collect::<Vec<_>>()[..] {
        ["write", file] => journals::write(file, JOURNALS, COMMANDS),
        ["count", side, file] => count(side, &journals::read(file)),
        ["measure", runs, file] => measure(runs.parse().expect("a number of runs"), &journals::read(file)),
        _ => eprintln!("usage: bench write FILE, bench measure RUNS FILE, bench count SIDE FILE"),
    }
}

/// One side once, for a tool that counts instructions.
fn count(side: &str, journals: &[Vec<u8>]) {
    for bytes in journals {
        match side {
            "original" => drop(Original::default().replay(bytes)),
            "port" => drop(Journal::from(bytes.clone()).listing()),
            _ => (),
        }
    }
}

fn measure(runs: usize, journals: &[Vec<u8>]) {
    println!("{JOURNALS} journals of {COMMANDS} commands, {runs} runs; microseconds for a command, lowest, middle and highest");
    let mut original = Vec::new();
    let mut port = Vec::new();
    let mut bare = Vec::new();
    for _ in 0..runs {
        let (one, texts) = timed(|| journals.iter().map(|bytes| Original::default().replay(bytes)).collect::<Vec<_>>());
        let (two, lists) = timed(|| journals.iter().map(|bytes| Journal::from(bytes.clone()).listing()).collect::<Vec<_>>());
        assert_eq!(texts, lists, "both sides print the same listings");
        let (three, _) = timed(|| journals.iter().map(|bytes| lookups::replay(bytes)).sum::<u64>());
        original.push(one);
        port.push(two);
        bare.push(three);
    }
    show("original, replay and listing", &mut original);
    show("library, replay and listing", &mut port);
    show("library, replay alone", &mut bare);
    let ratio: Vec<_> = original.iter().zip(&port).map(|(one, two)| two / one).collect();
    println!("library / original, replay and listing: {:.2} (middles)", middle(&ratio));
    lookups::measure(runs, &journals[0]);
    snapshots::measure(runs, journals);
}

fn timed<T>(work: impl FnOnce() -> T) -> (f64, T) {
    let began = Instant::now();
    let made = work();
    let commands = JOURNALS as f64 * COMMANDS as f64;
    (began.elapsed().as_secs_f64() * 1e6 / commands, made)
}

fn middle(times: &[f64]) -> f64 {
    let mut times = times.to_vec();
    times.sort_by(f64::total_cmp);
    times[times.len() / 2]
}

fn show(what: &str, times: &mut [f64]) {
    times.sort_by(f64::total_cmp);
    println!("{what:32} {:8.3} {:8.3} {:8.3}", times[0], middle(times), times[times.len() - 1]);
}
