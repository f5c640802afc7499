//! `differential AREA [COUNT] [SEED]`: see the script `run` beside this folder.
mod constraints;
mod encoding;
mod field;
mod floor;
mod headers;
mod intake;
mod matrix;
mod nights;
mod receive;
mod records;
mod slab;
mod solver;
mod tables;
mod vectors;

use differential::report::{DEFAULT_COUNT, Found};

fn main() {
    let words: Vec<String> = std::env::args().skip(1).collect();
    if words.len() == 2 && words[0] == "vectors" {
        return vectors::write(&words[1]).expect("the files are written");
    }
    let number = |at: usize, default: u64| words.get(at).map_or(Ok(default), |w| w.parse());
    let (Some(area), Ok(count), Ok(seed)) = (words.first(), number(1, DEFAULT_COUNT), number(2, 1)) else {
        eprintln!("usage: run AREA [COUNT] [SEED]");
        std::process::exit(2);
    };
    let areas: [(&str, fn(u64, u64) -> Found); 12] = [
        ("field", field::run),
        ("headers", headers::run),
        ("matrix", matrix::run),
        ("slab", slab::run),
        ("constraints", constraints::run),
        ("encoding", encoding::run),
        ("solver", solver::run),
        ("intake", intake::run),
        ("nights", nights::run),
        ("floor", floor::run),
        ("receive", receive::run),
        ("tables", tables::run),
    ];
    let chosen: Vec<_> = areas.iter().filter(|(name, _)| area == name || area == "all").collect();
    if chosen.is_empty() {
        eprintln!("run: there is no area {area}");
        std::process::exit(2);
    }
    Found::head();
    let all = chosen.iter().fold(Found::default(), |sum, (_, run)| sum.with(run(count, seed)));
    if chosen.len() > 1 {
        all.row("all");
    }
    std::process::exit(if all.differences == 0 { 0 } else { 1 });
}
