//! The memory of a night, the calls on it, and what document 02 says of each: how it is refused, and what it may write.
use differential::archive::{self, Held, INTAKE_STATE, Record};
use differential::system::Verdict;
use differential::{Random, refusal, rows};

/// How many elements a call is lent, needs or may write, from the front on: of state, pivots, rows, values, out and shortfall.
pub type Room = [usize; 6];
pub const STATE: usize = 0;
pub const PIVOTS: usize = 1;
pub const ROWS: usize = 2;
pub const VALUES: usize = 3;
pub const OUT: usize = 4;
pub const SHORTFALL: usize = 5;

/// The words of a state that a packet or a question may write: how many rows are held, the mark.
pub const WRITTEN: std::ops::Range<usize> = 11..13;

/// All that the calls of a night are lent a part of.
#[derive(Clone, Debug, Default, PartialEq)]
pub struct Memory {
    pub state: Vec<u32>,
    pub pivots: Vec<u16>,
    pub rows: Vec<u8>,
    pub values: Vec<u8>,
    pub out: Vec<u8>,
    pub shortfall: Vec<u64>,
}

/// Brings a store to n elements of any content where it has fewer.
fn grown<T: Clone>(store: &mut Vec<T>, n: usize, any: impl FnMut() -> T) {
    if n > store.len() {
        store.resize_with(n, any);
    }
}

impl Memory {
    pub fn grow(&mut self, random: &mut Random, [state, pivots, rows, values, out, shortfall]: Room) {
        grown(&mut self.state, state, || random.word() as u32);
        grown(&mut self.pivots, pivots, || random.word() as u16);
        grown(&mut self.rows, rows, || random.byte());
        grown(&mut self.values, values, || random.byte());
        grown(&mut self.out, out, || random.byte());
        grown(&mut self.shortfall, shortfall, || random.word());
    }

    pub fn sizes(&self) -> Room {
        [self.state.len(), self.pivots.len(), self.rows.len(), self.values.len(), self.out.len(), self.shortfall.len()]
    }

    /// Becomes what `of` is, in the memory that it has: a night has hundreds of calls.
    pub fn copy(&mut self, of: &Memory) {
        self.state.clone_from(&of.state);
        self.pivots.clone_from(&of.pivots);
        self.rows.clone_from(&of.rows);
        self.values.clone_from(&of.values);
        self.out.clone_from(&of.out);
        self.shortfall.clone_from(&of.shortfall);
    }

    /// What is not the intake's between calls may change between them: what lies past the used parts, and what a question alone is lent.
    pub fn stir(&mut self, random: &mut Random, [state, pivots, rows, values, ..]: Room) {
        let word = random.word();
        self.state[state..].fill(word as u32);
        self.pivots[pivots..].fill(word as u16);
        self.rows[rows..].fill(word as u8);
        self.values[values..].fill(word as u8);
        self.out.fill((word >> 8) as u8);
        self.shortfall.fill(word);
    }
}

/// What a begin settled, in numbers, and how many packets were accepted since, which the intake does not count.
#[derive(Clone, Copy, Debug, Default)]
pub struct Begun {
    pub l: usize,
    pub t: usize,
    pub came: usize,
}

impl Begun {
    pub fn new(record: Record, t: u32) -> Begun {
        let [l, t] = [record[5], t].map(|n| n as usize);
        Begun { l, t, came: 0 }
    }

    /// Document 02, E14: L places, whatever number of packets comes.
    pub fn needs(self) -> Room {
        let Begun { l, t, .. } = self;
        [INTAKE_STATE, l, l * l, l * t, l * t, 1]
    }

    /// That the two words that a question may write say what it found: how many rows are held, of all that there are, or the contradiction.
    pub fn noted(self, verdict: &Verdict, state: &[u32]) -> bool {
        let [held, mark] = [0, 1].map(|at| u64::from(state[WRITTEN.start + at]));
        match verdict {
            Verdict::Solved(_) => [held, mark] == [self.l as u64, 2],
            Verdict::Contradiction => mark == 3,
            Verdict::Open(lack) => [held + lack, mark] == [self.l as u64, 2],
        }
    }

    /// From L or T of 2,049 on the intake and the solver have another frame.
    pub fn larger(self) -> bool {
        self.l.max(self.t) >= 2049
    }
}

#[derive(Clone, Debug, PartialEq)]
pub enum Call {
    Begin { record: Record, tables: Vec<u32>, count: u32, t: u16 },
    Packet { esi: u32, symbol: Vec<u8> },
    Question,
}

impl Call {
    /// An ESI and its symbol come.
    pub fn packet((esi, symbol): (u32, Vec<u8>)) -> Call {
        Call::Packet { esi, symbol }
    }
}

/// A call of a night, and how much it is lent.
#[derive(Clone, Debug, PartialEq)]
pub struct Step {
    pub call: Call,
    pub room: Room,
}

impl Step {
    /// What ours gives: 0, the 100 or 101 of a question, or the code of the refusal.
    pub fn made(&self, memory: &mut Memory) -> u32 {
        let [state, pivots, rows, values, out, shortfall] = self.room;
        let (state, pivots) = (&mut memory.state[..state], &mut memory.pivots[..pivots]);
        let mut held = Held { state, pivots, rows: &mut memory.rows[..rows], values: &mut memory.values[..values] };
        match &self.call {
            Call::Begin { record, tables, count, t } => archive::intake_begin(*record, tables, *count, *t, &mut held).err().unwrap_or(0),
            Call::Packet { esi, symbol } => archive::intake_packet(*esi, symbol, &mut held).err().unwrap_or(0),
            Call::Question => archive::intake_question(&mut held, &mut memory.out[..out], &mut memory.shortfall[..shortfall]),
        }
    }

    fn short(&self, needs: Room, of: &[usize]) -> bool {
        of.iter().any(|at| self.room[*at] < needs[*at])
    }

    /// What document 02 says of the step after a begin that was accepted, or without one.
    pub fn refused(&self, begun: Option<Begun>) -> Option<u32> {
        let since = begun.unwrap_or_default();
        let needs = since.needs();
        let not_begun = (14, begun.is_none() || self.short(needs, &[STATE, PIVOTS]));
        match &self.call {
            Call::Begin { record, tables, count, t } => self.refused_begin(*record, tables, *count, *t),
            Call::Packet { esi, symbol } => refusal(&[not_begun, (9, *esi >= 1 << 24), (10, symbol.len() != since.t), (8, self.short(needs, &[ROWS, VALUES]))]),
            Call::Question => refusal(&[not_begun, (8, self.short(needs, &[ROWS, VALUES, OUT, SHORTFALL]))]),
        }
    }

    fn refused_begin(&self, record: Record, tables: &[u32], count: u32, t: u16) -> Option<u32> {
        let part = rows::record_part(record);
        let counted = (1..=record[0]).contains(&count);
        let needs = if part.is_none() && counted { Begun::new(record, t.into()).needs() } else { [0; 6] };
        refusal(&[rows::reason(part), (5, tables.len() != 1024), (9, !counted), (10, t == 0), (8, self.short(needs, &[STATE, PIVOTS, ROWS, VALUES]))])
    }

    /// How much a packet or a question that gave this code may have written.
    fn may_write(&self, begun: Begun, code: u32) -> Room {
        let [_, pivots, rows, values, out, shortfall] = begun.needs();
        let (solved, open) = (self.call == Call::Question && code == 0, code == 101);
        [WRITTEN.end, pivots, rows, values, if solved { out } else { 0 }, if open { shortfall } else { 0 }]
    }

    /// That a packet or a question which was not refused wrote nothing but what it may.
    pub fn keeps(&self, begun: Begun, code: u32, before: &Memory, after: &Memory) -> bool {
        let [state, pivots, rows, values, out, shortfall] = self.may_write(begun, code);
        before.state[..WRITTEN.start] == after.state[..WRITTEN.start]
            && before.state[state..] == after.state[state..]
            && before.pivots[pivots..] == after.pivots[pivots..]
            && before.rows[rows..] == after.rows[rows..]
            && before.values[values..] == after.values[values..]
            && before.out[out..] == after.out[out..]
            && before.shortfall[shortfall..] == after.shortfall[shortfall..]
    }
}
