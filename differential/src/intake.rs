//! The intake: random nights of begins, packets and questions on one memory. Each answer is held to the harness's own elimination and to `solve` on the packets
//! accepted since the last accepted begin, each refusal to document 02, and the whole memory after each call to what the call may write.
use crate::records;
use differential::Random;
use differential::report::{Found, Report};

mod content;
pub mod memory;
pub mod night;
pub mod stretch;
use night::{ANSWERS, CROWDED, IN_LARGER, Night, QUESTIONS, REFUSED};

pub fn run(count: u64, seed: u64) -> Found {
    let mut report = Report::new("intake", seed);
    let mut random = Random::new(seed);
    let mut calls = 0;
    while calls < count {
        let most = 1 + random.below(400);
        calls += Night::new(&mut random, night::any_block).pass(&mut report, &mut random, most);
    }
    for _ in 0..count / 20_000 {
        Night::new(&mut random, night::large_block).pass(&mut report, &mut random, 40);
    }
    (0..count / 400).for_each(|_| content::tried(&mut report, &mut random, 4));
    records::tried(&mut report, &mut random, count / 500, &records::INTAKE, 10);
    report.met(1..=10, 1000, count);
    report.met_kinds([QUESTIONS], 100_000, count);
    report.met_kinds(ANSWERS, 10_000, count);
    report.met_kinds([CROWDED], 10_000, count);
    report.met_kinds([IN_LARGER], 200, count);
    report.met_kinds(REFUSED.map(|(_, kind)| kind), 1000, count);
    report.met_kinds(content::KINDS, 500, count);
    report.close()
}
