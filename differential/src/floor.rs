//! The shortfall as a floor: chains of packets that come one at a time, to `solve` with all that came before and to an intake. Our answers are held to one
//! another, and to the rank of the rows alone: one arrival more lowers the number by one where its row is independent of those before and else leaves it,
//! whatever its symbol is, if that contradicts nothing; and after an m it takes at least m more arrivals until the block is solved, refused ones not counted.
use crate::intake::night::{self, Block};
use crate::solver;
use differential::Random;
use differential::report::{Found, Report};
use raptorq_lent::rng::lent::published;

mod chain;
mod said;
use chain::Chain;

/// A small block: one chain in three begins with any number of packets, and to one in four no more than K of them come.
fn small(report: &mut Report, random: &mut Random) -> u64 {
    let block = night::any_block(random);
    let few = 1 + random.below(block.count.into()) as u32;
    let most = if random.below(4) == 0 { few } else { block.count + block.count / 2 + random.below(24) as u32 };
    let first = if random.below(3) == 0 { random.below(most.into()) as u32 } else { 0 };
    Chain::new(random, block, most).pass(report, random, first)
}

/// The last packets of a block of up to 300 source symbols.
fn medium(report: &mut Report, random: &mut Random) -> u64 {
    let (count, t) = (61 + random.below(240) as u32, 1 + random.below(4) as u16);
    let first = count + random.below(u64::from(count) / 4) as u32;
    let block = Block { row: solver::row_for(count), count, tables: published(), t };
    Chain::new(random, block, first + 40).pass(report, random, first)
}

/// The last packets of a block around the bound of the larger frame.
fn large(report: &mut Report, random: &mut Random) -> u64 {
    let block = night::large_block(random);
    let first = block.count.saturating_sub(random.below(4) as u32);
    Chain::new(random, block, first + 10).pass(report, random, first)
}

pub fn run(count: u64, seed: u64) -> Found {
    let mut report = Report::new("floor", seed);
    let mut random = Random::new(seed);
    let mut steps = 0;
    while steps < count / 8 {
        steps += small(&mut report, &mut random);
    }
    for _ in 0..count / 10_000 {
        medium(&mut report, &mut random);
        large(&mut report, &mut random);
    }
    said::met(&mut report, count);
    report.close()
}
