//! State and stores of other content than the last call left: of another night, damaged, random, cut short. What a call answers then is not promised; it has
//! to return, refuse by 14 every state that no begin and what followed can have left, change nothing where it refuses, and else write only what it may.
use super::memory::{Begun, Call, Memory, Room, Step, WRITTEN};
use super::night::{Block, any_block, any_record, spoil};
use differential::archive::INTAKE_STATE;
use differential::report::Report;
use differential::{Random, rows, system};
use std::collections::BTreeSet;

pub const KINDS: [&str; 3] = ["calls on other content not begun", "calls on other content refused else", "calls on other content taken"];

/// What a state says of itself.
enum Read {
    /// It breaks a rule of every state that is left by a begin and what followed.
    NotBegun,
    /// It cannot have been left, but breaks none of the rules that a call looks at: two held rows have one pivot, or rows are held after a contradiction.
    Perhaps(Begun),
    Begun(Begun),
}

/// The first words of a state and the pivots, by the rules of every state.
fn read(state: &[u32], pivots: &[u16]) -> Read {
    if state.len() < INTAKE_STATE {
        return Read::NotBegun;
    }
    let record = std::array::from_fn(|at| state[at]);
    let [count, t, held, mark] = std::array::from_fn(|at| state[9 + at]);
    let numbers = (1..=record[0]).contains(&count) && (1..=65535).contains(&t) && (1..=3).contains(&mark);
    if rows::record_part(record).is_some() || !numbers {
        return Read::NotBegun;
    }
    let begun = Begun::new(record, t);
    let (l, held) = (begun.l, held as usize);
    if mark == 3 && pivots.len() >= l {
        return if held > 0 { Read::Perhaps(begun) } else { Read::Begun(begun) };
    }
    if pivots.len() < l || held > l || pivots[..held].iter().any(|p| usize::from(*p) >= l) {
        return Read::NotBegun;
    }
    let columns: BTreeSet<&u16> = pivots[..held].iter().collect();
    if columns.len() < held { Read::Perhaps(begun) } else { Read::Begun(begun) }
}

/// What a night of some packets and perhaps a question has left in a small block.
fn left(random: &mut Random) -> (Memory, Begun) {
    let Block { row, count, tables, .. } = any_block(random);
    let (record, t) = (rows::record(row), 1 + random.below(6) as u16);
    let begun = Begun::new(record, t.into());
    let (mut memory, room) = (Memory::default(), begun.needs());
    let more = room.map(|n| n + random.below(3) as usize);
    memory.grow(random, more);
    let fixed = system::fixed(row, &tables, count);
    let set = system::fitting(fixed, begun.l, begun.t, random);
    Step { call: Call::Begin { record, tables: tables.clone(), count, t }, room }.made(&mut memory);
    for _ in 0..random.below(u64::from(count) + 20) {
        let esi = random.below(u64::from(count) + 40) as u32;
        let symbol = system::made(&system::sent(row, &tables, count, esi), &set, begun.t);
        Step { call: Call::Packet { esi, symbol }, room }.made(&mut memory);
        if random.below(20) == 0 {
            Step { call: Call::Question, room }.made(&mut memory);
        }
    }
    (memory, begun)
}

/// A word of a state becomes one near it, or any.
fn other_word(random: &mut Random, n: u32) -> u32 {
    match random.below(6) {
        0 => n.wrapping_sub(1),
        1 => n.wrapping_add(1),
        2 => 0,
        3 => n ^ 1u32 << random.below(32),
        4 => random.below(70) as u32,
        _ => random.word() as u32 >> random.below(32),
    }
}

/// One kind of other content.
fn change(random: &mut Random, memory: &mut Memory, begun: Begun) {
    let Memory { state, pivots, rows, values, .. } = memory;
    match random.below(11) {
        0 => state.iter_mut().for_each(|word| *word = random.word() as u32),
        1 => state.fill([0, 1, u32::MAX][random.below(3) as usize]),
        2 | 3 => {
            let at = random.below(13) as usize;
            state[at] = other_word(random, state[at]);
        }
        4 => {
            let words = [random.below(begun.l as u64 + 2), random.below(5)];
            state[WRITTEN].copy_from_slice(&words.map(|n| n as u32));
        }
        5 => state[..9].copy_from_slice(&any_record(random)),
        6 => state[13..].iter_mut().for_each(|word| *word = random.word() as u32),
        7 => {
            let many = [begun.l, begun.l, 65536][random.below(3) as usize] as u64;
            pivots.iter_mut().for_each(|pivot| *pivot = random.below(many) as u16);
        }
        8 => {
            // One of a held row, if there is one.
            let at = random.below(state[11].clamp(1, begun.l as u32).into()) as usize;
            pivots[at] = [begun.l, begun.l - 1, begun.l + 1, 0, 65535][random.below(5) as usize] as u16;
        }
        9 => rows.iter_mut().for_each(|octet| *octet = random.byte() >> random.below(9).min(7)),
        _ => {
            values.iter_mut().for_each(|octet| *octet = random.byte());
            let at = random.below(rows.len() as u64) as usize;
            rows[at] = random.byte();
        }
    }
}

/// The memory of a night, with one or two kinds of other content, or one part of it of another night.
fn other(random: &mut Random) -> (Memory, Begun) {
    let (mut memory, begun) = left(random);
    if random.below(4) == 0 {
        let (another, _) = left(random);
        match random.below(4) {
            0 => memory.state = another.state,
            1 => memory.pivots = another.pivots,
            2 => memory.rows = another.rows,
            _ => memory.values = another.values,
        }
        // Each night has all that its own block needs.
        memory.grow(random, begun.needs());
    } else {
        (0..=random.below(2)).for_each(|_| change(random, &mut memory, begun));
    }
    (memory, begun)
}

/// Room for what the state says that it needs, where it says so and that is not too much, else for what the night needed.
fn room(random: &mut Random, memory: &Memory, night: Begun) -> Room {
    let said = match read(&memory.state, &memory.pivots) {
        Read::Perhaps(begun) | Read::Begun(begun) => begun.needs(),
        Read::NotBegun => night.needs(),
    };
    let needs = if said.iter().sum::<usize>() < 1 << 20 { said } else { night.needs() };
    needs.map(|n| n + random.below(3) as usize)
}

/// Some calls on one memory, each on what the one before left.
pub fn tried(report: &mut Report, random: &mut Random, calls: u64) {
    let (mut memory, night) = other(random);
    for _ in 0..calls {
        let t = memory.state.get(10).map_or(0, |t| *t as usize % 65536).min(1 << 12);
        let packet = Call::Packet { esi: random.below(1 << 24) as u32 >> random.below(20), symbol: random.bytes(t) };
        let call = if random.below(2) == 0 { Call::Question } else { packet };
        let mut step = Step { call, room: room(random, &memory, night) };
        memory.grow(random, step.room);
        if random.below(3) == 0 {
            spoil(random, &mut step);
        }
        held(report, &mut memory, &step);
    }
}

/// One call: the refusal that the state has to be given, or one of two where it may be one that is left, and the memory.
fn held(report: &mut Report, memory: &mut Memory, step: &Step) {
    let before = memory.clone();
    let [state, pivots, ..] = step.room;
    let (begun, perhaps) = match read(&before.state[..state], &before.pivots[..pivots]) {
        Read::NotBegun => (None, false),
        Read::Perhaps(begun) => (Some(begun), true),
        Read::Begun(begun) => (Some(begun), false),
    };
    let due = step.refused(begun);
    let code = step.made(memory);
    let answered = code == 0 || (step.call == Call::Question && [100, 101].contains(&code));
    let refused = *memory == before && (due == Some(code) || (perhaps && code == 14));
    let taken = due.is_none() && answered && begun.is_some_and(|b| step.keeps(b, code, &before, memory));
    let [not_begun, else_refused, answers] = KINDS;
    report.kind(match code {
        14 => not_begun,
        0 | 100 | 101 => answers,
        _ => else_refused,
    });
    let said = || format!("{step:?} gave {code}, due is {due:?}, on {before:?}");
    if answered { report.computed(taken, said) } else { report.refusal(refused, said) }
}
