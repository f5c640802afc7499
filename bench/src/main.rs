//! One line a piece of work: our time over that of plain Rust or of the published crate, the intake's over our solver's, taken in this process in turns.
mod builders;
mod field;
mod intake;
mod octets;
mod plain;
mod solver;
mod stores;

use std::time::Instant;

/// The time of `work` done `times` over, in seconds.
pub fn timed(times: usize, work: &mut dyn FnMut()) -> f64 {
    let start = Instant::now();
    for _ in 0..times {
        work();
    }
    start.elapsed().as_secs_f64()
}

/// Ours over theirs: each is the best of nine rounds, taken in turns so that both see the same machine.
pub fn ratio(times: usize, ours: &mut dyn FnMut(), theirs: &mut dyn FnMut()) -> f64 {
    let (mut a, mut b) = (f64::MAX, f64::MAX);
    for _ in 0..9 {
        a = a.min(timed(times, ours));
        b = b.min(timed(times, theirs));
    }
    a / b
}

pub fn line(work: &str, against: &str, ratio: f64, bar: Option<f64>) {
    let bar = bar.map_or(String::new(), |b| format!(" (at most {b}){}", if ratio <= b { "" } else { ": MISSED" }));
    println!("{work:<34} {ratio:>6.2} times {against}{bar}");
}

/// The time of a piece of work as a part of another's; the pieces may be small.
pub fn part(work: &str, of: &str, part: f64) {
    println!("{work:<34} {part:>8.4} of {of}");
}

/// All areas, or the one that is named.
fn main() {
    let areas: [(&str, fn()); 5] =
        [("field", field::run), ("stores", stores::run), ("builders", builders::run), ("solver", solver::run), ("intake", intake::run)];
    let named = std::env::args().nth(1);
    let chosen: Vec<_> = areas.iter().filter(|(name, _)| named.as_deref().is_none_or(|n| n == *name)).collect();
    if chosen.is_empty() {
        eprintln!("run: there is no such area");
        std::process::exit(2);
    }
    for (_, run) in chosen {
        run();
    }
}
