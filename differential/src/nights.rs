//! Long nights: as many packets as one names, a million without a number, on stores for exactly L places, most of them dependent on those before. Each question
//! is held to an elimination of the harness's own that takes one equation at a time, each refused call leaves all as it was, and what the process holds of
//! the machine's memory does not grow.
use crate::intake::memory::{Begun, Call, Memory, Room, Step};
use crate::intake::night::{Block, spoil};
use crate::solver;
use differential::report::{Found, Report, line};
use differential::system::{self, Verdict};
use differential::{Random, rows, telling};
use raptorq_lent::rng::lent::published;

mod known;
mod resident;
use known::Known;
use resident::Resident;

const PACKETS: &str = "packets accepted";
const DEPENDENT: &str = "packets that depended on those before";
const DAMAGED: &str = "packets damaged";
const BEGINS: &str = "begins accepted";
const BETWEEN: &str = "calls between refused";
const ANSWERS: [&str; 3] = ["questions solved", "questions contradictory", "questions open"];

/// Which packets come in a night, the n-th of so many.
type Esis = fn(&mut Random, u32, u64, u64) -> u32;

/// A carousel of half as many repair as source symbols, which goes round.
fn carousel(_: &mut Random, count: u32, n: u64, _: u64) -> u32 {
    (n % u64::from(count + count / 2)) as u32
}

fn any(random: &mut Random, _: u32, _: u64, _: u64) -> u32 {
    random.below(1 << 24) as u32
}

/// Two source symbols too few, over and over, and at the end all of them: an independent packet has its place whatever came before.
fn few(_: &mut Random, count: u32, n: u64, all: u64) -> u32 {
    let left = all - n;
    if left <= u64::from(count) { count - left as u32 } else { (n % u64::from(count - 2)) as u32 }
}

/// What is settled of a night before it.
struct Plan {
    name: &'static str,
    esis: Esis,
    /// Of these blocks one.
    block: fn(&mut Random) -> Block,
    /// So many begins, about, and so many damaged packets in each of two stretches in three.
    begins: u64,
    damaged: u64,
    /// No question before so many of a hundred packets.
    silent: u64,
}

const PLANS: [Plan; 5] = [
    Plan { name: "a carousel", esis: carousel, block: ordinary, begins: 1, damaged: 0, silent: 0 },
    Plan { name: "any packets", esis: any, block: ordinary, begins: 1, damaged: 0, silent: 10 },
    Plan { name: "two too few", esis: few, block: smallest, begins: 1, damaged: 0, silent: 50 },
    Plan { name: "some damaged", esis: carousel, block: ordinary, begins: 12, damaged: 2, silent: 0 },
    Plan { name: "a row of no table", esis: any, block: made_up, begins: 5, damaged: 1, silent: 0 },
];

/// A block of 10 to 60 source symbols as the crate would have it.
fn ordinary(random: &mut Random) -> Block {
    let (count, t) = (10 + random.below(51) as u32, 1 + random.below(16) as u16);
    Block { row: solver::row_for(count), count, tables: published(), t }
}

/// One that stays open makes the harness work: 10 to 12 source symbols.
fn smallest(random: &mut Random) -> Block {
    let count = 10 + random.below(3) as u32;
    Block { row: solver::row_for(count), count, tables: published(), t: 1 + random.below(4) as u16 }
}

fn made_up(random: &mut Random) -> Block {
    let (row, tables) = (rows::accepted_of(random, [30, 6, 12]), rows::any_tables(random));
    Block { row, count: 1 + random.below(row[0].into()) as u32, tables, t: 1 + random.below(8) as u16 }
}

/// A night under way: its block, what its sender sends, what the harness knows since the last begin, and the memory that is lent.
struct Night {
    block: Block,
    begun: Begun,
    begin: Step,
    room: Room,
    fixed: Vec<Vec<u8>>,
    set: Vec<u8>,
    known: Known,
    /// One packet in so many of this stretch is damaged; none if it is 0.
    damage: u64,
    memory: Memory,
    before: Memory,
}

impl Night {
    /// The stores are for L places, and nothing is lent past them: what lies there has to stay.
    fn new(random: &mut Random, block: Block) -> Night {
        let (record, count, t) = (rows::record(block.row), block.count, block.t);
        let begun = Begun::new(record, t.into());
        let room = begun.needs();
        let mut memory = Memory::default();
        memory.grow(random, room.map(|n| n + 3));
        let fixed = system::fixed(block.row, &block.tables, count);
        let set = system::fitting(fixed.clone(), begun.l, begun.t, random);
        let begin = Step { call: Call::Begin { record, tables: block.tables.clone(), count, t }, room };
        let known = Known::new(&fixed, begun.l, begun.t);
        let before = memory.clone();
        Night { block, begun, begin, room, fixed, set, known, damage: 0, memory, before }
    }

    fn told(&self, n: u64) -> String {
        let Block { row, count, tables, t } = &self.block;
        format!("packet {n} of a block of {count}, {row:?}, T = {t}, tables {tables:?}")
    }

    fn begin_anew(&mut self, report: &mut Report, n: u64, damage: u64) {
        let code = self.begin.made(&mut self.memory);
        self.known = Known::new(&self.fixed, self.begun.l, self.begun.t);
        self.damage = damage;
        self.before.copy(&self.memory);
        report.of(BEGINS, code == 0, || self.told(n));
    }

    fn packet(&mut self, report: &mut Report, random: &mut Random, esi: u32, n: u64) {
        let Block { row, count, tables, .. } = &self.block;
        let coefficients = system::sent(*row, tables, *count, esi);
        let mut symbol = system::made(&coefficients, &self.set, self.begun.t);
        if self.damage > 0 && random.below(self.damage) == 0 {
            symbol[telling::place(random, self.begun.t)] ^= telling::other(random);
            report.kind(DAMAGED);
        }
        if !self.known.take(&coefficients, &symbol) {
            report.kind(DEPENDENT);
        }
        let code = Step { call: Call::Packet { esi, symbol }, room: self.room }.made(&mut self.memory);
        report.of(PACKETS, code == 0, || format!("{code}: {}", self.told(n)));
    }

    /// The answer, the number and the symbols are those of the harness, and the state says the same. Neither it nor the packets before it wrote what they may
    /// not.
    fn question(&mut self, report: &mut Report, random: &mut Random, n: u64) {
        let step = Step { call: Call::Question, room: self.room };
        // A packet writes no symbols and no number, as a question that contradicts.
        let packets_kept = step.keeps(self.begun, 100, &self.before, &self.memory);
        self.memory.stir(random, self.begun.needs());
        self.before.copy(&self.memory);
        let code = step.made(&mut self.memory);
        let verdict = self.known.verdict();
        let [solved, contradictory, open] = ANSWERS;
        let (kind, same) = match &verdict {
            Verdict::Solved(set) => (solved, code == 0 && self.memory.out.starts_with(set)),
            Verdict::Contradiction => (contradictory, code == 100),
            Verdict::Open(lack) => (open, code == 101 && self.memory.shortfall[0] == *lack),
        };
        let kept = packets_kept && step.keeps(self.begun, code, &self.before, &self.memory) && self.begun.noted(&verdict, &self.memory.state);
        self.before.copy(&self.memory);
        report.of(kind, same && kept, || format!("{code}, due {verdict:?}: {}", self.told(n)));
    }

    /// A call that is refused, for one thing or more.
    fn refused(&mut self, report: &mut Report, random: &mut Random, n: u64) {
        let (step, due) = loop {
            let packet = Call::Packet { esi: random.below(1 << 24) as u32, symbol: random.bytes(self.begun.t) };
            let call = [Call::Question, packet, self.begin.call.clone()][random.below(3) as usize].clone();
            let mut step = Step { call, room: self.room };
            spoil(random, &mut step);
            if let Some(due) = step.refused(Some(self.begun)) {
                break (step, due);
            }
        };
        self.before.copy(&self.memory);
        let code = step.made(&mut self.memory);
        let same = code == due && self.memory == self.before;
        report.kind(BETWEEN);
        report.refusal(same, || format!("{step:?} gave {code}, due is {due}: {}", self.told(n)));
    }
}

/// A night of so many packets. Questions are dense at the start, around 65,535 and at the end.
fn pass(report: &mut Report, random: &mut Random, plan: &Plan, all: u64) {
    let block = (plan.block)(random);
    let mut night = Night::new(random, block);
    let stretch = all / plan.begins;
    let mut memory = Resident::new();
    night.begin_anew(report, 0, 0);
    for n in 0..all {
        if plan.begins > 1 && random.below(stretch) == 0 {
            let damage = if random.below(3) == 0 { 0 } else { stretch / plan.damaged };
            night.begin_anew(report, n, damage);
        }
        let esi = (plan.esis)(random, night.block.count, n, all);
        night.packet(report, random, esi, n);
        if random.below(300) == 0 {
            night.refused(report, random, n);
        }
        let dense = n < 300 || n.abs_diff(65535) < 5 || all - n < 30;
        if n * 100 >= plan.silent * all && (dense || random.below(400) == 0) {
            night.question(report, random, n);
        }
        memory.look(n, all);
    }
    let Block { count, t, .. } = &night.block;
    let told = format!("{}, K = {count}, T = {t}, {} places: {all} packets, {}", plan.name, night.begun.l, memory.told());
    line(&format!("{:<12} {told}", "nights"));
    report.of("nights in which the process did not grow", memory.stays(), || told.clone());
}

pub fn run(count: u64, seed: u64) -> Found {
    let mut report = Report::new("nights", seed);
    let mut random = Random::new(seed);
    PLANS.iter().for_each(|plan| pass(&mut report, &mut random, plan, count));
    report.met_kinds([PACKETS, DEPENDENT], 4_000_000, count);
    report.met_kinds(ANSWERS, 300, count);
    report.met_kinds([BETWEEN], 10_000, count);
    report.met_kinds([DAMAGED, BEGINS], 5, count);
    report.close()
}
