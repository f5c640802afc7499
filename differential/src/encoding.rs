//! The encoding of one symbol: blocks that the crate encoded, and made-up rows and intermediates against the crate's tuple and walk.
use crate::records;
use differential::archive::{self, Row};
use differential::report::{Found, Report};
use differential::rows::{self, part, sizes};
use differential::{Lent, Random, caught, refusal};
use raptorq::{ObjectTransmissionInformation, SourceBlockEncoder};
use raptorq_lent::base::{self, PayloadId};
use raptorq_lent::constraint_matrix::enc_indices;
use raptorq_lent::rng;

const LONGEST: &str = "walks of 32 places";
const THREE: &str = "walks with d1 = 3";
const OTHERS: &str = "other walks";

/// The intermediate symbols of the crate's tuple and walk; None where its rand overflows.
fn walked(row: Row, x: u32) -> Option<Vec<u32>> {
    let [_, p, _, p1] = sizes(row)?;
    let tuple = caught(|| base::intermediate_tuple(x, row[4], row[1], p1))?;
    let mut places = vec![];
    enc_indices(tuple, row[4], p, p1, |j| places.push(j as u32));
    Some(places)
}

/// The same from the harness's own tuple and walk.
fn walked_here(row: Row, tables: &[u32], x: u32) -> Vec<u32> {
    let [_, p, _, p1] = sizes(row).expect("an accepted row");
    rows::walk(rows::tuple(row, p1, tables, x), row[4], p, p1)
}

/// Counts the walk of an ISI, and tells whether it has at most 32 places, which is all that the encoding of a symbol has room for: d1, the number of its PI
/// symbols, is 3 only where d is below 4.
fn fits(report: &mut Report, row: Row, places: &[u32]) -> bool {
    let d1 = places.iter().filter(|j| **j >= row[4]).count();
    report.kind(match (places.len(), d1) {
        (32, _) => LONGEST,
        (_, 3) => THREE,
        _ => OTHERS,
    });
    places.len() <= 32 && (d1 == 2 || d1 == 3 && places.len() < 7)
}

/// These intermediate symbols of t octets, added up.
fn sum(places: &[u32], t: usize, intermediates: &[u8]) -> Vec<u8> {
    let mut symbol = vec![0; t];
    places.iter().for_each(|j| symbol.iter_mut().zip(&intermediates[*j as usize * t..]).for_each(|(a, b)| *a ^= b));
    symbol
}

fn made_up(report: &mut Report, random: &mut Random) {
    let tables = rows::any_or_long_tables(random);
    rng::lent::lend(Some(tables.clone()));
    let row = if random.below(4) == 0 { rows::made_up(random) } else { rows::accepted(random) };
    let t = random.below(40) as u16;
    let l = sizes(row).map_or(10, |s| s[0] as usize);
    let have = (l.min(2000) * usize::from(t)).saturating_sub(usize::from(random.below(12) == 0));
    let intermediates = random.bytes(have);
    for _ in 0..8 {
        let count = random.near(row[0].min(70000) as usize + 1) as u32;
        let esi = if random.below(8) == 0 { (1 << 24) - 1 + random.below(3) as u32 } else { random.word() as u32 >> random.below(32) };
        encode(report, random, (row, &tables), (count, t, esi), &intermediates);
    }
    rng::lent::lend(None);
}

/// The symbol of an ESI of a block of `count` source symbols of t octets.
fn encode(report: &mut Report, random: &mut Random, (row, tables): (Row, &[u32]), (count, t, esi): (u32, u16, u32), intermediates: &[u8]) {
    let (room, lent_tables) = (random.room(t.into()), rows::lent_tables(random, tables));
    let lent = Lent::to(random.bytes(room), |out| archive::encode(rows::record(row), &lent_tables, count, t, esi, intermediates, out));
    let said = || format!("encode {esi} of {count}, T {t}, {row:?}, {} numbers, {} octets, room {room}", lent_tables.len(), intermediates.len());
    let short = sizes(row).is_some_and(|[l, ..]| intermediates.len() < l as usize * usize::from(t));
    let refused = refusal(&[
        rows::reason(part(row)),
        (5, lent_tables.len() != 1024),
        (9, !(1..=row[0]).contains(&count)),
        (9, esi >= 1 << 24),
        (10, t == 0),
        (8, short),
        (8, room < t.into()),
    ]);
    match report.due(refused) {
        Some(9) if esi >= 1 << 24 => report.listed("D6 (ESI of 2^24)", lent.refused(9) && caught(|| PayloadId::new(0, esi)).is_none(), said),
        Some(n) => report.refusal(lent.refused(n), said),
        None => {
            let x = rows::shifted(row, count, esi);
            let given = walked(row, x);
            let overflows = given.is_none();
            let places = given.unwrap_or_else(|| walked_here(row, tables, x));
            let same = fits(report, row, &places) && lent.holds(&sum(&places, t.into(), intermediates));
            if overflows { report.listed("D11 (rand overflows)", same, said) } else { report.equal(same, said) }
        }
    }
}

/// Real blocks: a symbol of the crate's packets is the encoding of its ESI from the crate's own intermediates.
fn real(report: &mut Report, random: &mut Random) {
    let tables = rng::lent::published();
    let (k, t) = (1 + random.below(120) as u32, 16u16);
    let data = random.bytes(k as usize * 16);
    let config = ObjectTransmissionInformation::new(u64::from(k) * 16, t, 1, 1, 8);
    let encoder = SourceBlockEncoder::new(0, &config, &data);
    let row = *rows::published().iter().find(|r| r[0] >= k).unwrap();
    let slab = &encoder.intermediate_symbols;
    let intermediates: Vec<u8> = (0..slab.len()).flat_map(|i| slab.get(i).to_vec()).collect();
    for packet in encoder.source_packets().into_iter().chain(encoder.repair_packets(0, 20)) {
        let (id, symbol) = packet.split();
        let esi = id.encoding_symbol_id();
        let lent = Lent::to(vec![0; 16], |out| archive::encode(rows::record(row), &tables, k, t, esi, &intermediates, out));
        let short = walked(row, rows::shifted(row, k, esi)).is_some_and(|places| fits(report, row, &places));
        report.equal(short && lent.holds(&symbol), || format!("symbol {esi} of a block of {k}"));
    }
    let last = (1 << 24) - k;
    let given = caught(|| encoder.repair_packets(last, 1));
    let lent = Lent::to(vec![0; 16], |out| archive::encode(rows::record(row), &tables, k, t, 1 << 24, &intermediates, out));
    report.listed("D6 (ESI of 2^24)", lent.refused(9) && given.is_none(), || format!("symbol 2^24 of a block of {k}"));
}

/// A call of ours for a symbol of a block that is refused, and the crate's encoder with its bytes.
fn refused_blocks(report: &mut Report) {
    let tables = rng::lent::published();
    for (k, t, row, rule) in rows::refused_blocks() {
        let config = ObjectTransmissionInformation::new(u64::from(k * u32::from(t)), t, 2, 1, 1);
        let data = vec![0; k as usize * usize::from(t)];
        let given = caught(|| SourceBlockEncoder::new(0, &config, &data).repair_packets(0, 1));
        let seen = if k == 0 { given.is_some_and(|packets| packets[0].data() == [0]) } else { given.is_none() };
        let lent = Lent::to(vec![7; 16], |out| archive::encode(rows::record(row), &tables, k, t, 0, &vec![0; 70000], out));
        let number = refusal(&[(9, !(1..=row[0]).contains(&k)), (10, t == 0)]);
        report.listed(rule, number.is_some_and(|n| lent.refused(n)) && seen, || format!("encode of K {k}, T {t}"));
    }
}

pub fn run(count: u64, seed: u64) -> Found {
    let mut report = Report::new("encoding", seed);
    let mut random = Random::new(seed);
    for _ in 0..count / 20 {
        made_up(&mut report, &mut random);
    }
    for _ in 0..count / 5000 {
        real(&mut report, &mut random);
    }
    refused_blocks(&mut report);
    records::tried(&mut report, &mut random, count / 500, &records::ENCODING, 477);
    report.met(1..=10, 1000, count);
    report.met_kinds([LONGEST, THREE, OTHERS], 10_000, count);
    report.close()
}
