//! Records that break a rule, in the row's own numbers or in L, P, B or P1: every call that takes a record refuses such a one by 4 and the part of the first
//! rule that breaks, before all else that it refuses, and leaves every element that it was lent.
use crate::solver::stores;
use differential::archive::{self, Answer, Arrived, Held, INTAKE_STATE, Record, Stores};
use differential::near::{self, wrong};
use differential::report::Report;
use differential::{Random, refusal, rows};

/// What a call has besides the record, of which each takes its part.
#[derive(Clone, Debug, Default, PartialEq)]
struct Given {
    tables: Vec<u32>,
    tuple: [u32; 6],
    count: u32,
    t: u16,
    esi: u32,
    /// The ISIs of a builder, the ESIs of arrivals.
    ids: Vec<u32>,
    /// One for each id, at least L: arrivals, or intermediate symbols.
    symbols: Vec<u8>,
    words: Vec<u64>,
    octets: Vec<u8>,
    list: Vec<u32>,
    pivots: Vec<u16>,
    stores: Stores,
}

impl Given {
    /// All that the call needs to take the record.
    fn new(random: &mut Random, record: Record, taker: &Taker) -> Given {
        let [k, j, s, h, w, l, _, _, p1] = record;
        let tables = rows::any_tables(random);
        let (n, t) = (u64::from(l) + random.below(3), 1 + random.below(4) as u16);
        let mut given = Given {
            tuple: rows::tuple([k, j, s, h, w], p1, &tables, random.word() as u32),
            tables,
            count: 1 + random.below(k.into()) as u32,
            t,
            esi: random.below(1 << 24) as u32,
            ids: (0..n).map(|_| random.below(1 << 24) as u32).collect(),
            symbols: random.bytes(n as usize * usize::from(t)),
            ..Given::default()
        };
        (taker.lend)(&mut given, random, record);
        given
    }
}

/// A call that takes a record.
pub struct Taker {
    name: &'static str,
    /// Lends what the call writes to, of any content, and up to four elements more.
    lend: fn(&mut Given, &mut Random, Record),
    ask: fn(&mut Given, Record) -> Answer<()>,
    /// What the call refuses too, but later, and by which number. The first of them is refused whatever the row is.
    later: &'static [(u32, fn(&mut Given))],
}

fn words(random: &mut Random, n: usize) -> Vec<u64> {
    let more = random.below(3) as usize;
    random.words(n + more)
}

fn octets(random: &mut Random, n: usize) -> Vec<u8> {
    let more = random.below(3) as usize;
    random.bytes(n + more)
}

fn list(random: &mut Random, n: u32) -> Vec<u32> {
    let more = random.below(3) as u32;
    (0..n + more).map(|_| random.word() as u32).collect()
}

fn solve(g: &mut Given, record: Record) -> Answer<()> {
    let came = Arrived { count: g.count, t: g.t, esis: &g.ids, symbols: &g.symbols };
    match archive::solve(record, &g.tables, came, &mut g.stores) {
        0 | 100 | 101 => Ok(()),
        refused => Err(refused),
    }
}

fn begin(g: &mut Given, record: Record) -> Answer<()> {
    let Stores { rows, values, .. } = &mut g.stores;
    archive::intake_begin(record, &g.tables, g.count, g.t, &mut Held { state: &mut g.list, pivots: &mut g.pivots, rows, values })
}

/// A state in the list, pivots and two stores: for L places, as the solver has them for K arrivals.
fn lend_intake(g: &mut Given, random: &mut Random, [k, j, s, h, w, l, ..]: Record) {
    g.list = list(random, INTAKE_STATE as u32);
    g.pivots = list(random, l).into_iter().map(|n| n as u16).collect();
    g.stores = stores(random, [k, j, s, h, w], g.count, g.t, g.count as usize);
}

fn other_tables(g: &mut Given) {
    g.tables.pop();
}

fn no_count(g: &mut Given) {
    g.count = 0;
}

fn large_count(g: &mut Given) {
    g.count = 56404;
}

fn large_esi(g: &mut Given) {
    (g.esi, g.ids[0]) = (1 << 24, 1 << 24);
}

fn no_degree(g: &mut Given) {
    g.tuple[0] = 0;
}

fn few_ids(g: &mut Given) {
    g.ids.clear();
}

fn no_size(g: &mut Given) {
    g.t = 0;
}

fn few_symbols(g: &mut Given) {
    g.symbols.truncate(5);
}

/// What a call writes to is too short: `lend` gave at most four elements more than it needs.
fn short(g: &mut Given) {
    g.words.truncate(g.words.len().saturating_sub(5));
    g.octets.truncate(g.octets.len().saturating_sub(5));
    g.list.truncate(g.list.len().saturating_sub(5));
    g.pivots.truncate(g.pivots.len().saturating_sub(5));
    g.stores.out.truncate(g.stores.out.len().saturating_sub(5));
}

pub const HEADERS: [Taker; 2] = [
    Taker {
        name: "isi",
        lend: |g, random, _| g.words = words(random, 1),
        ask: |g, record| archive::isi(record, g.count, g.esi, &mut g.words),
        later: &[(9, no_count), (9, large_count), (9, large_esi), (8, short)],
    },
    Taker {
        name: "tuple",
        lend: |g, random, _| g.words = words(random, 6),
        ask: |g, record| archive::tuple(record, &g.tables, g.esi, &mut g.words),
        later: &[(5, other_tables), (8, short)],
    },
];

pub const CONSTRAINTS: [Taker; 4] = [
    Taker {
        name: "enc_indices",
        lend: |g, random, _| g.list = list(random, g.tuple[0] + g.tuple[3]),
        ask: |g, record| archive::enc_indices(record, g.tuple, &mut g.list),
        later: &[(2, no_degree), (8, short)],
    },
    Taker {
        name: "hdpc_rows",
        lend: |g, random, [_, _, _, h, _, l, ..]| g.octets = octets(random, (h * l) as usize),
        ask: |g, record| archive::hdpc_rows(record, &g.tables, &mut g.octets),
        later: &[(5, other_tables), (8, short)],
    },
    Taker {
        name: "constraint_matrix",
        lend: |g, random, [_, _, s, h, _, l, ..]| g.words = words(random, ((s + h) as usize + g.ids.len()) * l.div_ceil(64) as usize),
        ask: |g, record| archive::constraint_matrix(record, &g.tables, &g.ids, &mut g.words),
        later: &[(5, other_tables), (9, few_ids), (8, short)],
    },
    Taker {
        name: "constraint_matrix_no_hdpc",
        lend: |g, random, [_, _, s, _, _, l, ..]| g.words = words(random, (s as usize + g.ids.len()) * l.div_ceil(64) as usize),
        ask: |g, record| archive::constraint_matrix_no_hdpc(record, &g.tables, &g.ids, &mut g.words),
        later: &[(5, other_tables), (9, few_ids), (8, short)],
    },
];

pub const ENCODING: [Taker; 1] = [Taker {
    name: "encode",
    lend: |g, random, _| g.octets = octets(random, g.t.into()),
    ask: |g, record| archive::encode(record, &g.tables, g.count, g.t, g.esi, &g.symbols, &mut g.octets),
    later: &[(5, other_tables), (9, no_count), (9, large_count), (9, large_esi), (10, no_size), (8, few_symbols), (8, short)],
}];

pub const SOLVER: [Taker; 1] = [Taker {
    name: "solve",
    lend: |g, random, [k, j, s, h, w, ..]| g.stores = stores(random, [k, j, s, h, w], g.count, g.t, g.ids.len()),
    ask: solve,
    later: &[(5, other_tables), (9, no_count), (9, large_count), (9, large_esi), (10, no_size), (10, few_symbols), (8, short)],
}];

pub const INTAKE: [Taker; 1] =
    [Taker { name: "intake_begin", lend: lend_intake, ask: begin, later: &[(5, other_tables), (9, no_count), (9, large_count), (10, no_size), (8, short)] }];

impl Taker {
    /// The answer, and what the call leaves.
    fn called(&self, given: &Given, record: Record) -> (Answer<()>, Given) {
        let mut after = given.clone();
        ((self.ask)(&mut after, record), after)
    }

    /// One case of a kind: the record is refused by 4 and its part, and all stays as it was. `shows`: the right record was answered as it should be; else the
    /// case would show nothing, and is a difference too.
    fn refuses(&self, report: &mut Report, kind: &'static str, record: Record, given: &Given, shows: bool) {
        let due = report.due(refusal(&[rows::reason(rows::record_part(record))]));
        let (answer, after) = self.called(given, record);
        report.kind(kind);
        report.refusal(shows && due.is_some() && answer.err() == due && after == *given, || format!("{kind}: {} with {record:?}, {given:?}", self.name));
    }

    /// Records near each rule. One that keeps them all comes beside something that is refused later, and is refused by that number; so do half of the others.
    fn near(&self, report: &mut Report, random: &mut Random, given: &Given) {
        for part in 1..=10 {
            let record = near::record(random, part);
            let (reason, (number, spoil)) = (rows::reason(rows::record_part(record)), self.later[0]);
            let mut lent = given.clone();
            if !reason.1 || random.below(2) == 0 {
                spoil(&mut lent);
            }
            let due = report.due(refusal(&[reason, (number, true)]));
            let (answer, after) = self.called(&lent, record);
            report.kind("records near a rule");
            report.refusal(answer.err() == due && after == lent, || format!("near rule {part}: {} with {record:?}, {lent:?}", self.name));
        }
    }
}

/// The places of L, P, B and P1 in a record, and the kinds under which they are counted.
const WRONG: [(usize, &str); 4] = [(5, "records with L wrong"), (6, "records with P wrong"), (7, "records with B wrong"), (8, "records with P1 wrong")];

/// The row's five numbers and the four of another, or one of K', S, H and W moved by one and all else left.
fn of_two_rows(random: &mut Random, right: Record) -> Record {
    let mut record = right;
    while record == right {
        if random.below(2) == 0 {
            let other = rows::record(rows::accepted_or_published(random, 477));
            record[5..].copy_from_slice(&other[5..]);
        } else {
            let n = &mut record[[0, 2, 3, 4][random.below(4) as usize]];
            *n = if random.below(2) == 0 { *n - 1 } else { *n + 1 };
        }
    }
    record
}

/// Each call in each round, on an accepted row, small or one of so many published ones: with each of the four numbers wrong, alone and beside something
/// that is refused later, with a record of two rows, and with records near each rule.
pub fn tried(report: &mut Report, random: &mut Random, rounds: u64, takers: &[Taker], published: u64) {
    for taker in (0..rounds).flat_map(|_| takers) {
        let right = rows::record(rows::accepted_or_published(random, published));
        let given = Given::new(random, right, taker);
        let taken = taker.called(&given, right).0.is_ok();
        for (at, kind) in WRONG {
            taker.refuses(report, kind, wrong(random, right, at), &given, taken);
            let (number, spoil) = taker.later[random.below(taker.later.len() as u64) as usize];
            let mut spoiled = given.clone();
            spoil(&mut spoiled);
            let later = taker.called(&spoiled, right).0 == Err(number);
            taker.refuses(report, "wrong records before a later refusal", wrong(random, right, at), &spoiled, later);
        }
        taker.refuses(report, "records of two rows", of_two_rows(random, right), &given, taken);
        taker.near(report, random, &given);
    }
}
