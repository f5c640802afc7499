//! Random nights: begins, packets and questions in any order on one memory, refused calls among them.
use super::memory::{Begun, Call, Memory, Room, Step};
use super::stretch::Stretch;
use crate::solver;
use differential::archive::{INTAKE_STATE, Record, Row};
use differential::report::Report;
use differential::system::Verdict;
use differential::{Random, near, number, rows, telling};
use raptorq_lent::rng::lent::published;

pub const QUESTIONS: &str = "questions answered";
pub const ANSWERS: [&str; 3] = ["questions solved", "questions contradictory", "questions open"];
pub const IN_LARGER: &str = "questions in the larger frame";
pub const CROWDED: &str = "questions on more packets than places";
pub const REFUSED: [(u32, &str); 6] = [
    (4, "of the intake refused by 4"),
    (5, "of the intake refused by 5"),
    (8, "of the intake refused by 8"),
    (9, "of the intake refused by 9"),
    (10, "of the intake refused by 10"),
    (14, "of the intake refused by 14"),
];

/// What a begin names.
pub struct Block {
    pub row: Row,
    pub count: u32,
    pub tables: Vec<u32>,
    pub t: u16,
}

/// T of most stretches: short.
fn any_size(random: &mut Random) -> u16 {
    match random.below(60) {
        0 => telling::LENGTHS[1 + random.below(13) as usize] as u16,
        1..4 => 17 + random.below(300) as u16,
        _ => 1 + random.below(16) as u16,
    }
}

/// A block of at most 60 source symbols, most of fewer: as the crate would have it, in any row of Table 2 that has room, or in a made-up row.
pub fn any_block(random: &mut Random) -> Block {
    let (most, t) = ([10, 25, 60][random.below(3) as usize], any_size(random));
    let tables = if random.below(2) == 0 { published() } else { rows::any_tables(random) };
    let count = 1 + random.below(most) as u32;
    match random.below(4) {
        0 => Block { row: solver::row_for(count), count, tables: published(), t },
        1 => {
            let fitting: Vec<Row> = rows::published().into_iter().filter(|r| (count..=60).contains(&r[0])).collect();
            Block { row: fitting[random.below(fitting.len() as u64) as usize], count, tables, t }
        }
        _ => {
            let row = rows::accepted_of(random, [most, 6, 12]);
            let count = if random.below(3) == 0 { row[0] } else { 1 + random.below(row[0].into()) as u32 };
            Block { row, count, tables, t }
        }
    }
}

/// A block around the bound of the larger frame, or far above it: a made-up row of few source symbols and many LDPC rows, or long symbols.
pub fn large_block(random: &mut Random) -> Block {
    let block = any_block(random);
    if random.below(2) == 0 {
        return Block { t: [2047, 2048, 2049, 2050, 4097, 65535][random.below(6) as usize], ..block };
    }
    loop {
        let [k, h] = [1 + random.below(9) as u32, 2 + random.below(9) as u32];
        let (l, w) = (2046 + random.below(6) as u32, 2027 + 2 * random.below(12) as u32);
        let row = [k, random.below(65536) as u32, l - k - h, h, w];
        if rows::sizes(row).is_some() {
            return Block { row, count: 1 + random.below(k.into()) as u32, ..block };
        }
    }
}

/// How often a night does what: one call in so many.
struct Odds {
    begins: u64,
    questions: u64,
    spoiled: u64,
}

impl Odds {
    fn any(random: &mut Random) -> Odds {
        let mut one = |of: [u64; 4]| of[random.below(4) as usize];
        Odds { begins: one([10, 60, 150, 1000]), questions: one([3, 5, 9, 20]), spoiled: one([3, 10, 30, 1000]) }
    }
}

pub struct Night {
    odds: Odds,
    blocks: fn(&mut Random) -> Block,
    memory: Memory,
    before: Memory,
    stretch: Option<Stretch>,
    /// All so far, for the input of a difference.
    steps: Vec<Step>,
}

/// Each store is up to two elements longer than it has to be, or all that there is.
fn enough(random: &mut Random, needs: Room, all: Room) -> Room {
    if random.below(4) == 0 {
        return std::array::from_fn(|at| needs[at].max(all[at]));
    }
    needs.map(|n| n + random.below(3) as usize)
}

/// One store is shorter by little, or any part of it.
fn cut(random: &mut Random, room: &mut Room, of: u64) {
    let n = &mut room[random.below(of) as usize];
    *n = if random.below(2) == 0 { n.saturating_sub(1 + random.below(4) as usize) } else { random.below(*n as u64 + 1) as usize };
}

fn one(random: &mut Random, of: [u32; 4]) -> u32 {
    of[random.below(4) as usize]
}

/// A record near one of the rules.
pub fn any_record(random: &mut Random) -> Record {
    let part = 1 + random.below(10) as u32;
    near::record(random, part)
}

/// Something about a step that is not as it should be, or just is.
pub fn spoil(random: &mut Random, Step { call, room }: &mut Step) {
    match call {
        Call::Begin { record, tables, count, t } => match random.below(7) {
            0 => *record = any_record(random),
            1 => {
                let at = random.below(9) as usize;
                *record = near::wrong(random, *record, at);
            }
            2 => tables.resize(one(random, [0, 1023, 1025, 2048]) as usize, 7),
            3 => *count = one(random, [0, record[0].wrapping_add(1), record[0], u32::MAX]),
            4 => *t = one(random, [0, 0, u32::from(*t) + 1, 65535]) as u16,
            _ => cut(random, room, 4),
        },
        Call::Packet { esi, symbol } => match random.below(4) {
            0 => *esi = one(random, [1 << 24, (1 << 24) - 1, (1 << 24) + 1, u32::MAX]),
            1 => {
                let n = symbol.len() as u32;
                symbol.resize(one(random, [0, n.saturating_sub(1), n + 1, 2 * n]) as usize, 7);
            }
            _ => cut(random, room, 4),
        },
        Call::Question => cut(random, room, 6),
    }
}

/// The words that an accepted begin leaves: what it was given, nothing is held, and the mark of that.
fn begun_state(record: Record, tables: &[u32], count: u32, t: u16) -> Vec<u32> {
    [&record[..], &[count, t.into(), 0, 1], tables].concat()
}

impl Night {
    /// Before the first begin the state is all 0, or anything.
    pub fn new(random: &mut Random, blocks: fn(&mut Random) -> Block) -> Night {
        let mut memory = Memory::default();
        memory.grow(random, [INTAKE_STATE + 2, 20, 400, 100, 100, 3]);
        if random.below(2) == 0 {
            memory.state.fill(0);
        }
        Night { odds: Odds::any(random), blocks, memory, before: Memory::default(), stretch: None, steps: vec![] }
    }

    fn begun(&self) -> Option<Begun> {
        self.stretch.as_ref().map(|s| s.begun)
    }

    fn any_begin(&self, random: &mut Random) -> Step {
        let Block { row, count, tables, t } = (self.blocks)(random);
        let record = rows::record(row);
        let room = enough(random, Begun::new(record, t.into()).needs(), self.memory.sizes());
        Step { call: Call::Begin { record, tables, count, t }, room }
    }

    /// A packet or a question before the first begin.
    fn too_early(&self, random: &mut Random) -> Step {
        let room = self.memory.sizes().map(|n| random.below(n as u64 + 1) as usize);
        let n = random.below(4) as usize;
        let packet = Call::Packet { esi: random.word() as u32 >> random.below(32), symbol: random.bytes(n) };
        Step { call: if random.below(2) == 0 { Call::Question } else { packet }, room }
    }

    fn any_step(&self, random: &mut Random) -> Step {
        let Some(stretch) = &self.stretch else {
            return if random.below(3) == 0 { self.any_begin(random) } else { self.too_early(random) };
        };
        if random.below(self.odds.begins) == 0 {
            return self.any_begin(random);
        }
        let call = if random.below(self.odds.questions) == 0 { Call::Question } else { Call::packet(stretch.packet(random)) };
        Step { call, room: enough(random, stretch.begun.needs(), self.memory.sizes()) }
    }

    /// Makes so many calls, or fewer where one differs: what would follow it tells nothing. How many were made.
    pub fn pass(&mut self, report: &mut Report, random: &mut Random, calls: u64) -> u64 {
        for made in 1..=calls {
            let mut step = self.any_step(random);
            // Begins are few, and can be refused in most ways.
            let odds = if matches!(step.call, Call::Begin { .. }) { self.odds.spoiled.min(3) } else { self.odds.spoiled };
            if random.below(odds) == 0 {
                (0..=random.below(2)).for_each(|_| spoil(random, &mut step));
            }
            if random.below(16) == 0 {
                self.memory.stir(random, self.begun().map_or([0; 6], Begun::needs));
            }
            if !self.make(report, random, step) {
                return made;
            }
        }
        calls
    }

    /// Makes a call and holds it to documents 01 and 02; whether it is as they say.
    fn make(&mut self, report: &mut Report, random: &mut Random, step: Step) -> bool {
        self.memory.grow(random, step.room);
        self.before.copy(&self.memory);
        let due = report.due(step.refused(self.begun()));
        self.steps.push(step.clone());
        let code = step.made(&mut self.memory);
        let inputs = self.steps.last() == Some(&step);
        let Some(refused) = due else { return self.taken(report, random, step, code, inputs) };
        let same = inputs && code == refused && self.memory == self.before;
        report.kind(REFUSED.iter().find(|(n, _)| *n == number(refused)).expect("a refusal of the intake").1);
        report.refusal(same, || format!("{:?}", self.steps));
        same
    }

    /// The same for a call that is not to be refused.
    fn taken(&mut self, report: &mut Report, random: &mut Random, step: Step, code: u32, inputs: bool) -> bool {
        match &step.call {
            Call::Begin { record, tables, count, t } => {
                let right = begun_state(*record, tables, *count, *t);
                self.before.state[..INTAKE_STATE].copy_from_slice(&right);
                let same = inputs && code == 0 && self.memory == self.before;
                let row = std::array::from_fn(|at| record[at]);
                self.stretch = Some(Stretch::new(random, row, tables, *count, Begun::new(*record, (*t).into())));
                report.of("begins accepted", same, || format!("{:?}", self.steps));
                same
            }
            Call::Packet { esi, symbol } => {
                let stretch = self.stretch.as_mut().expect("no packet is accepted before a begin");
                let kept = step.keeps(stretch.begun, code, &self.before, &self.memory);
                stretch.accept(*esi, symbol);
                let same = inputs && code == 0 && kept && stretch.counted(&self.memory.state);
                report.of("packets accepted", same, || format!("{:?}", self.steps));
                same
            }
            Call::Question => self.asked(report, random, &step, code),
        }
    }

    fn asked(&mut self, report: &mut Report, random: &mut Random, step: &Step, code: u32) -> bool {
        let stretch = self.stretch.as_mut().expect("no question is answered before a begin");
        let (verdict, solver) = stretch.verdict(random);
        let kept = step.keeps(stretch.begun, code, &self.before, &self.memory) && stretch.begun.noted(&verdict, &self.memory.state);
        let by_crate = stretch.asked(&verdict);
        let same = solver && kept && stretch.answers(&verdict, code, &self.memory) && by_crate.unwrap_or(true);
        let said = || format!("{verdict:?} after {:?}", self.steps);
        let [solved, contradictory, open] = ANSWERS;
        report.kind(QUESTIONS);
        let others = [(IN_LARGER, stretch.begun.larger()), (CROWDED, stretch.begun.came > stretch.begun.l)];
        others.iter().filter(|(_, is)| *is).for_each(|(kind, _)| report.kind(kind));
        report.kind(match verdict {
            Verdict::Solved(_) => solved,
            Verdict::Contradiction => contradictory,
            Verdict::Open(_) => open,
        });
        match verdict {
            Verdict::Solved(_) if by_crate.is_some() => report.equal(same, said),
            Verdict::Open(_) if by_crate.is_some() => report.listed("D21 (too few packets)", same, said),
            _ => report.computed(same, said),
        }
        same
    }
}
