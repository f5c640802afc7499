//! Constraint rows: walks, HDPC octets and both builders, over the published rows and tables and over made-up ones.
use crate::records;
use differential::archive::{self, Answer, Row};
use differential::report::{Found, Report};
use differential::rows::{self, part, sizes};
use differential::{Lent, Random, caught, number, places, refusal, system};
use raptorq_lent::constraint_matrix::{self as theirs, enc_indices};
use raptorq_lent::matrix::DenseBinaryMatrix;
use raptorq_lent::rng::lent as tables_lent;
use raptorq_lent::systematic_constants::lent as row_lent;

const BROKEN_ROW: &str = "D24 (a row that breaks its rules)";
const WRITTEN: &str = "walks of 33 places written";
const NO_ROOM: &str = "walks of 33 places refused for room";

/// What the crate asserts of a tuple.
fn asserted([d, a, b, d1, a1, b1]: [u32; 6], w: u32, p1: u32) -> bool {
    d > 0 && (1..w).contains(&a) && b < w && (2..=3).contains(&d1) && (1..p1).contains(&a1) && b1 < p1
}

/// What document 01 says a tuple has to be, W and P1 being those of an accepted row.
fn in_bounds(tuple: [u32; 6], w: u32, p1: u32) -> bool {
    asserted(tuple, w, p1) && tuple[0] <= 30 && tuple[0] + 2 <= w
}

/// A tuple around the bounds of its row.
fn any_tuple(random: &mut Random, w: u32, p1: u32) -> [u32; 6] {
    let near = |random: &mut Random, n: u32| random.near(n as usize) as u32;
    let d = match random.below(4) {
        0 => 28 + near(random, 6),
        1 => near(random, 5) + w.min(100).saturating_sub(5),
        _ => near(random, w.min(32)),
    };
    let d1 = if random.below(12) == 0 { near(random, 4) } else { 2 + random.below(2) as u32 };
    [d, near(random, w), near(random, w), d1, near(random, p1), near(random, p1)]
}

/// Our walk into a list with this room.
fn walk(row: Row, tuple: [u32; 6], room: usize) -> Answer<Vec<u32>> {
    places(room, |list| archive::enc_indices(rows::record(row), tuple, list).map(|()| (tuple[0] + tuple[3]) as usize))
}

fn walks(report: &mut Report, random: &mut Random) {
    let row = match random.below(4) {
        0 => rows::published()[random.below(300) as usize],
        1 => rows::made_up(random),
        _ => rows::accepted(random),
    };
    let w = row[4];
    // A row with more LT symbols than intermediate ones has no P to hand the crate.
    let numbers = rows::pi_sizes(row);
    let [p, p1] = numbers.unwrap_or([0, 2]);
    let tuple = any_tuple(random, w, p1);
    let [d, a, b, d1, a1, b1] = tuple;
    let n = (d + d1) as usize;
    // One place too few tells most.
    let room = if n > 0 && random.below(16) == 0 { n - 1 } else { random.room(n) };
    let ours = walk(row, tuple, room);
    let said = || format!("walk of {tuple:?} in {row:?}, room {room}");
    let refused = report.due(refusal(&[rows::reason(part(row)), (2, !in_bounds(tuple, w, p1)), (8, room < n)]));
    // A tuple of the caller's own may have 33 places, which that of no ISI has.
    match refused {
        None if n == 33 => report.kind(WRITTEN),
        Some(8) if n == 33 => report.kind(NO_ROOM),
        _ => (),
    }
    // With P = 0 the crate's walk would not end; its closure needs no room.
    if numbers.is_none() || p == 0 || refused == Some(8) {
        return report.refusal(refused.is_some() && ours.err() == refused, said);
    }
    let mut places = vec![];
    let given = caught(|| enc_indices((d, a, b, d1, a1, b1), w, p, p1, |j| places.push(j as u32))).map(|()| places);
    let right = |places: &Vec<u32>| *places == rows::walk(tuple, w, p, p1);
    match refused {
        Some(n) if number(n) == 4 => report.listed(BROKEN_ROW, ours == Err(n) && given.as_ref().is_none_or(right), said),
        Some(n) if asserted(tuple, w, p1) => report.listed("D26 (a degree above its bounds)", ours == Err(n) && given.as_ref().is_some_and(right), said),
        Some(n) => report.listed("D25 (a tuple that the crate asserts against)", ours == Err(n) && given.is_none(), said),
        None => report.equal(given.is_some() && ours.ok() == given, said),
    }
}

/// Tuples of 33 places, d = 30 and d1 = 3: in the row of the least W that takes them, 37, and in published ones the crate's closure is given the same 33. With
/// room for 32 none is written.
fn of_33_places(report: &mut Report) {
    let published = rows::published();
    for row in [[30, 254, 7, 10, 37], published[4], published[100], published[476]] {
        let (w, [_, p, _, p1]) = (row[4], sizes(row).expect("an accepted row"));
        for [a, b, a1, b1] in [[1, 0, 1, p - 1], [w - 1, 3, p1 - 1, 1], [w / 2, w - 1, p1 / 2, p1 - 1]] {
            let mut places = vec![];
            enc_indices((30, a, b, 3, a1, b1), w, p, p1, |j| places.push(j as u32));
            let ours = |room| walk(row, [30, a, b, 3, a1, b1], room);
            let said = || format!("33 places of {:?} in {row:?}", [a, b, a1, b1]);
            report.equal(places.len() == 33 && [33, 34].iter().all(|room| ours(*room).as_ref() == Ok(&places)), said);
            report.refusal(ours(32) == Err(8), said);
        }
    }
}

/// Turns the crate's look-ups to these tables, and to a row that it can use.
fn lend(row: Row, tables: &[u32]) {
    row_lent::lend(sizes(row).map(|[_, _, _, p1]| [row[0], row[1], row[2], row[3], row[4], p1]));
    tables_lent::lend(Some(tables.to_vec()));
}

fn hdpc(report: &mut Report, random: &mut Random, row: Row, tables: &[u32]) {
    lend(row, tables);
    let [k, _, s, h, _] = row.map(|n| n as usize);
    let l = k + s + h;
    let (room, lent_tables) = (random.room(h * l), rows::lent_tables(random, tables));
    let lent = Lent::to(random.bytes(room), |store| archive::hdpc_rows(rows::record(row), &lent_tables, store));
    let given = caught(|| {
        let matrix = theirs::generate_hdpc_rows(k, s, h);
        (0..h * l).map(|at| matrix.get(at / l, at % l).byte()).collect::<Vec<u8>>()
    });
    let said = || format!("HDPC rows of {row:?} with {} numbers, room {room}", lent_tables.len());
    match report.due(refusal(&[rows::reason(part(row)), (5, lent_tables.len() != 1024), (8, room < h * l)])) {
        Some(n) if number(n) == 4 => {
            let right = |octets: Vec<u8>| octets == system::hdpc(row.map(|n| n as usize), tables).concat();
            report.listed(BROKEN_ROW, lent.refused(n) && given.is_none_or(right), said);
        }
        Some(n) => report.refusal(lent.refused(n), said),
        None => report.equal(given.is_some_and(|octets| lent.holds(&octets)), said),
    }
}

/// That the rows from `first` on are those of these ISIs, from the harness's own tuple and walk.
fn encodes(words: &[u64], first: usize, row: Row, tables: &[u32], ids: &[u32]) -> bool {
    let [l, p, _, p1] = sizes(row).expect("an accepted row");
    let wide = (l as usize).div_ceil(64);
    ids.iter().zip(words[first * wide..].chunks(wide)).all(|(x, found)| {
        let mut right = vec![0; wide];
        rows::walk(rows::tuple(row, p1, tables, *x), row[4], p, p1).into_iter().for_each(|j| right[j as usize / 64] |= 1u64 << (j % 64));
        found == right
    })
}

/// A builder on these ids, every word of every row.
fn builder(report: &mut Report, random: &mut Random, row: Row, tables: &[u32], ids: &[u32], with_hdpc: bool) {
    lend(row, tables);
    let [k, _, s, h, _] = row.map(|n| n as usize);
    let call = if with_hdpc { archive::constraint_matrix } else { archive::constraint_matrix_no_hdpc };
    let (zero_rows, least) = if with_hdpc { (h, k) } else { (0, k + h) };
    let first = s + zero_rows;
    let used = (first + ids.len()) * (k + s + h).div_ceil(64);
    let (few, many) = (ids.len() < least, ids.len() > 65535);
    let room = if few || many { random.below(9) as usize } else { random.room(used) };
    let lent_tables = rows::lent_tables(random, tables);
    let lent = Lent::to(random.words(room), |words| call(rows::record(row), &lent_tables, ids, words));
    let said = || format!("builder of {row:?} with {} ids, HDPC {with_hdpc}, {} numbers, room {room}", ids.len(), lent_tables.len());
    let refused = report.due(refusal(&[rows::reason(part(row)), (5, lent_tables.len() != 1024), (9, few), (9, many), (8, room < used)]));
    if let Some(n) = refused.filter(|n| number(*n) != 9) {
        return report.refusal(lent.refused(n), said);
    }
    let given = caught(|| match with_hdpc {
        true => theirs::generate_constraint_matrix::<DenseBinaryMatrix>(row[0], ids).0.elements,
        false => theirs::generate_constraint_matrix_no_hdpc::<DenseBinaryMatrix>(row[0], ids).elements,
    });
    match (refused, given) {
        (Some(n), given) if few => report.listed("D30 (too few ids)", lent.refused(n) && given.is_none(), said),
        (Some(n), given) => report.listed("D31 (65,536 ids)", lent.refused(n) && given.is_some_and(|words| encodes(&words, first, row, tables, ids)), said),
        (None, Some(words)) => report.equal(lent.holds(&words[..used]), said),
        // The crate's rand overflowed at one of the ids.
        (None, None) => {
            let same = lent.answer == Ok(()) && lent.after[used..] == lent.before[used..];
            report.listed("D11 (rand overflows)", same && encodes(&lent.after, first, row, tables, ids), said);
        }
    }
}

fn builders(report: &mut Report, random: &mut Random, row: Row, tables: &[u32], ids: &[u32]) {
    builder(report, random, row, tables, ids, true);
    builder(report, random, row, tables, ids, false);
}

fn published(report: &mut Report, random: &mut Random) {
    let tables = tables_lent::published();
    let all = rows::published();
    let small = all.iter().filter(|r| r[0] <= 1000).copied().collect::<Vec<_>>();
    let dozen: Vec<Row> = (0..12).map(|_| all[small.len() + random.below((all.len() - small.len()) as u64) as usize]).collect();
    for row in small.into_iter().chain(dozen) {
        hdpc(report, random, row, &tables);
        let mut ids: Vec<u32> = (0..row[0] + 50).collect();
        builders(report, random, row, &tables, &ids);
        ids.extend((0..50 + row[3]).map(|_| random.word() as u32 >> random.below(24)));
        builders(report, random, row, &tables, &ids);
        builders(report, random, row, &tables, &ids[..row[0] as usize - 1]);
    }
    for row in &all[..8] {
        let ids: Vec<u32> = (0..65536).collect();
        builders(report, random, *row, &tables, &ids[1..]);
        builders(report, random, *row, &tables, &ids);
    }
}

fn made_up(report: &mut Report, random: &mut Random) {
    let tables = rows::any_or_long_tables(random);
    let row = rows::accepted(random);
    hdpc(report, random, row, &tables);
    let n = (row[0] + random.below(u64::from(row[3]) + 5) as u32).saturating_sub(random.below(3) as u32);
    let mut ids: Vec<u32> = (0..n).map(|_| random.word() as u32 >> random.below(32)).collect();
    builders(report, random, row, &tables, &ids);
    // Here the crate's rand overflows.
    ids.push(u32::MAX - random.below(3) as u32);
    builders(report, random, row, &tables, &ids);
    let broken = rows::broken(random);
    hdpc(report, random, broken, &tables);
    builders(report, random, broken, &tables, &ids);
}

pub fn run(count: u64, seed: u64) -> Found {
    let mut report = Report::new("constraints", seed);
    let mut random = Random::new(seed);
    for _ in 0..count / 2 {
        walks(&mut report, &mut random);
    }
    of_33_places(&mut report);
    published(&mut report, &mut random);
    for _ in 0..count / 500 {
        made_up(&mut report, &mut random);
    }
    row_lent::lend(None);
    tables_lent::lend(None);
    records::tried(&mut report, &mut random, count / 500, &records::CONSTRAINTS, 40);
    report.met(1..=10, 1000, count);
    report.met_kinds([WRITTEN], 5000, count);
    report.met_kinds([NO_ROOM], 500, count);
    report.close()
}
