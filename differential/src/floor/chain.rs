//! One chain: a block, its packets one at a time, and what `solve` and an intake say after each.
use super::said::{self, AGAIN, CHAINS, REORDERED, STEPS, Said};
use crate::intake::memory::{Begun, Call, Memory, Room, Step};
use crate::intake::night::{Block, spoil};
use crate::intake::stretch::Stretch;
use crate::solver;
use differential::archive::Arrived;
use differential::report::Report;
use differential::{Random, rows, system, telling};

pub struct Chain {
    block: Block,
    stretch: Stretch,
    /// The begin of the intake, which is lent what all its calls are.
    begin: Step,
    memory: Memory,
    /// The memory before a call that is refused.
    before: Memory,
    /// The memory before the last packet, for a second symbol.
    other: Memory,
    /// As many rows as are independent of those whose symbols are 0 and those of the packets, in reduced form. No symbol is here.
    rows: Vec<Vec<u8>>,
    /// What was said last, which is no answer until something is asked.
    said: Said,
    /// The most that a number so far asks for: how many had come, and the number.
    floor: u64,
    /// Every symbol was the sender's.
    honest: bool,
    /// How many packets come at most.
    most: usize,
}

/// What a question says on a memory. What is not the intake's between calls is any.
fn question(random: &mut Random, memory: &mut Memory, begun: Begun, room: Room) -> Said {
    memory.stir(random, begun.needs());
    let code = Step { call: Call::Question, room }.made(memory);
    Said::new(code, memory.shortfall[0])
}

impl Chain {
    pub fn new(random: &mut Random, block: Block, most: u32) -> Chain {
        let (record, count, t) = (rows::record(block.row), block.count, block.t);
        let begun = Begun::new(record, t.into());
        let room = begun.needs().map(|n| n + random.below(3) as usize);
        let mut memory = Memory::default();
        memory.grow(random, room);
        let begin = Step { call: Call::Begin { record, tables: block.tables.clone(), count, t }, room };
        let stretch = Stretch::new(random, block.row, &block.tables, count, begun);
        let rows = system::independent(system::fixed(block.row, &block.tables, count), begun.l);
        let (before, other) = (Memory::default(), Memory::default());
        Chain { block, stretch, begin, memory, before, other, rows, said: Said::Else(0, 0), floor: 0, honest: true, most: most as usize }
    }

    /// Lets packets come one at a time after the first: until no more may, or a few have come since the answer was open, or one differs, as what would follow
    /// it tells nothing. How many, or 1 of none.
    pub fn pass(mut self, report: &mut Report, random: &mut Random, first: u32) -> u64 {
        let (mut made, mut more) = (0, 1 + random.below(4));
        let mut same = self.start(report, random, first);
        while same && more > 0 && self.stretch.begun.came < self.most {
            same = self.step(report, random);
            made += 1;
            more -= u64::from(!self.said.is_open());
        }
        made.max(1)
    }

    /// The begin, and the first packets before anything is asked; whether all is as it has to be.
    fn start(&mut self, report: &mut Report, random: &mut Random, first: u32) -> bool {
        let mut same = self.begin.made(&mut self.memory) == 0;
        for _ in 0..first {
            let packet = self.stretch.packet(random);
            same &= self.accept(packet).1;
        }
        let lacks = Said::Number((self.stretch.begun.l - self.rows.len()) as u64);
        same &= self.ask(report, random) && [lacks, Said::Contradiction].contains(&self.said);
        report.of(CHAINS, same, || format!("{lacks:?} or a contradiction: {}", self.told()));
        same
    }

    /// One arrival more; whether all is as it has to be.
    fn step(&mut self, report: &mut Report, random: &mut Random) -> bool {
        if !self.between(report, random) || !self.again(report, random) {
            return false;
        }
        let ((esi, symbol), before) = (self.any_packet(random), self.said);
        let (new, second) = (!self.stretch.came().esis.contains(&esi), self.another(random, esi, &symbol));
        self.other.copy(&self.memory);
        let (independent, accepted) = self.accept((esi, symbol));
        let same = accepted && self.between(report, random) && self.ask(report, random) && self.said.follows(before, independent);
        said::count(report, [before, self.said], independent, new, self.stretch.begun.larger());
        report.of(STEPS, same, || format!("{before:?}, then the last arrival, independent {independent}: {}", self.told()));
        same && (before == Said::Contradiction || self.second(report, random, second, before, independent))
    }

    /// A packet of the stretch, or one that came, as it came, or one whose row depends on those before, if there is one among a few; now and then with another
    /// symbol.
    fn any_packet(&self, random: &mut Random) -> (u32, Vec<u8>) {
        let came = self.stretch.came();
        let (esi, symbol) = match random.below(12) {
            0 if !came.esis.is_empty() => {
                let esi = came.esis[random.below(came.esis.len() as u64) as usize];
                (esi, self.known(esi))
            }
            1..4 if matches!(self.said, Said::Number(1..7)) => {
                let mut few = (0..6).map(|_| self.stretch.packet(random));
                let depends = |(esi, _): &(u32, _)| self.rows_with(*esi).len() == self.rows.len();
                few.find(depends).unwrap_or_else(|| self.stretch.packet(random))
            }
            _ => return self.stretch.packet(random),
        };
        let other = random.below(12) == 0;
        (esi, if other { self.another(random, esi, &symbol) } else { symbol })
    }

    /// The symbol with which an ESI first came, or else the sender's.
    fn known(&self, esi: u32) -> Vec<u8> {
        let (came, t) = (self.stretch.came(), self.stretch.begun.t);
        let first = came.esis.iter().position(|e| *e == esi);
        first.map_or_else(|| self.stretch.own(esi), |at| came.symbols[at * t..][..t].to_vec())
    }

    /// The independent rows, if this ESI came too.
    fn rows_with(&self, esi: u32) -> Vec<Vec<u8>> {
        let mut rows = self.rows.clone();
        rows.push(self.stretch.coefficients(esi));
        system::independent(rows, self.stretch.begun.l)
    }

    /// A packet as a call of the intake.
    fn call(&self, packet: (u32, Vec<u8>)) -> Step {
        Step { call: Call::packet(packet), room: self.begin.room }
    }

    /// A packet comes; whether its row is independent of those before, and whether the intake takes it.
    fn accept(&mut self, packet: (u32, Vec<u8>)) -> (bool, bool) {
        let (esi, symbol) = &packet;
        let rows = self.rows_with(*esi);
        let independent = rows.len() > self.rows.len();
        self.rows = rows;
        self.honest &= *symbol == self.stretch.own(*esi);
        self.stretch.accept(*esi, symbol);
        (independent, self.call(packet).made(&mut self.memory) == 0)
    }

    /// What `solve` says of arrivals, now and then in another order.
    fn solve(&self, report: &mut Report, random: &mut Random, came: Arrived) -> Said {
        let (n, t) = (came.esis.len(), self.stretch.begun.t);
        let mut order: Vec<usize> = (0..n).collect();
        if random.below(3) == 0 {
            report.kind(REORDERED);
            order = solver::some(random, order, n);
        }
        let esis: Vec<u32> = order.iter().map(|at| came.esis[*at]).collect();
        let symbols: Vec<u8> = order.iter().flat_map(|at| &came.symbols[at * t..][..t]).copied().collect();
        let (code, [_, lent]) = solver::answered(random, self.block.row, &self.block.tables, Arrived { esis: &esis, symbols: &symbols, ..came });
        Said::new(code, lent.shortfall[0])
    }

    /// Asks both of all that came; whether they say the same, and it may be said.
    fn ask(&mut self, report: &mut Report, random: &mut Random) -> bool {
        self.said = question(random, &mut self.memory, self.stretch.begun, self.begin.room);
        self.said == self.solve(report, random, self.stretch.came()) && self.stands()
    }

    /// That no number before asked for more arrivals than have come and this one asks for, and that what one sender sent contradicts nothing.
    fn stands(&mut self) -> bool {
        match self.said {
            Said::Number(n) => {
                let asks = self.stretch.begun.came as u64 + n;
                self.floor = self.floor.max(asks);
                asks == self.floor
            }
            Said::Contradiction => !self.honest,
            Said::Else(..) => false,
        }
    }

    /// Now and then the intake is asked once more, and has to say the same.
    fn again(&mut self, report: &mut Report, random: &mut Random) -> bool {
        if random.below(4) > 0 {
            return true;
        }
        let said = question(random, &mut self.memory, self.stretch.begun, self.begin.room);
        report.of(AGAIN, said == self.said, || format!("{said:?} where nothing came: {}", self.told()));
        said == self.said
    }

    /// Now and then one to three calls that are refused; whether they are, and change nothing.
    fn between(&mut self, report: &mut Report, random: &mut Random) -> bool {
        let calls = if random.below(4) == 0 { 1 + random.below(3) } else { 0 };
        (0..calls).all(|_| {
            let (step, code) = self.refused(random);
            report.due(Some(code));
            self.before.copy(&self.memory);
            let given = step.made(&mut self.memory);
            let same = given == code && self.memory == self.before;
            report.kind(said::kind_of_refused(&step, code));
            report.refusal(same, || format!("{step:?} gave {given}, due is {code}: {}", self.told()));
            same
        })
    }

    /// A packet, now and then the begin, spoiled most times, that is refused; and its code.
    fn refused(&self, random: &mut Random) -> (Step, u32) {
        loop {
            let mut step = if random.below(6) == 0 { self.begin.clone() } else { self.call(self.any_packet(random)) };
            if random.below(3) > 0 {
                spoil(random, &mut step);
            }
            if let Some(code) = step.refused(Some(self.stretch.begun)) {
                return (step, code);
            }
        }
    }

    /// Another symbol than this of an ESI: any, or the known one, or one octet is changed.
    fn another(&self, random: &mut Random, esi: u32, symbol: &[u8]) -> Vec<u8> {
        let t = symbol.len();
        let mut other = if random.below(3) == 0 { random.bytes(t) } else { self.known(esi) };
        if other == symbol {
            other[telling::place(random, t)] ^= telling::other(random);
        }
        other
    }

    /// The last arrival with another symbol, to `solve` and to the intake as it was before; whether what is said is as it has to be.
    fn second(&mut self, report: &mut Report, random: &mut Random, symbol: Vec<u8>, before: Said, independent: bool) -> bool {
        let (came, first) = (self.stretch.came(), self.said);
        let (esi, at) = (came.esis[came.esis.len() - 1], came.symbols.len() - self.stretch.begun.t);
        let symbols = [&came.symbols[..at], &symbol].concat();
        let by_solver = self.solve(report, random, Arrived { symbols: &symbols, ..came });
        let accepted = self.call((esi, symbol)).made(&mut self.other) == 0;
        let said = question(random, &mut self.other, self.stretch.begun, self.begin.room);
        let same = accepted && said == by_solver && said.follows(before, independent) && said.beside(first, independent);
        let told =
            || format!("{before:?}, {said:?} and {by_solver:?} with {:?} as the last symbol, independent {independent}: {}", &symbols[at..], self.told());
        report.of(said::kind_of_second([first, said]), same, told);
        same
    }

    /// The arrivals, and what was last said of them.
    fn told(&self) -> String {
        let Block { row, tables, .. } = &self.block;
        format!("{:?} of {:?}, {row:?}, tables {tables:?}", self.said, self.stretch.came())
    }
}
