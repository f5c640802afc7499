//! Solving and display: blocks that the crate encoded, made-up systems against the harness's own elimination, and calls that are refused.
use crate::records;
use differential::archive::{self, Arrived, Row, Stores};
use differential::report::{Found, Report};
use differential::rows::{self, any_tables, measures, part};
use differential::system::{self, Verdict};
use differential::{Random, caught, refusal, telling, values};
use raptorq::{EncodingPacket, ObjectTransmissionInformation, PayloadId, SourceBlockDecoder, SourceBlockEncoder};
use raptorq_lent::rng::lent::published;

/// Stores with room for the call and up to four places more, of any content.
pub fn stores(random: &mut Random, row: Row, count: u32, t: u16, n: usize) -> Stores {
    let ([l, m], t) = (measures(row, count, n), usize::from(t));
    let mut more = |n: usize| n + random.below(5) as usize;
    let (rows, values, out, shortfall) = (more(m * l), more(m * t), more(l * t), more(1));
    Stores { rows: random.bytes(rows), values: random.bytes(values), out: random.bytes(out), shortfall: (0..shortfall).map(|_| random.word()).collect() }
}

/// That a call answered by this verdict and left all four stores as document 01 says, down to the last byte.
fn as_told(verdict: &Verdict, code: u32, before: &Stores, after: &Stores, [m, l, t]: [usize; 3]) -> bool {
    let mut right = before.clone();
    right.rows[..m * l].fill(0);
    right.values[..m * t].fill(0);
    let expected = match verdict {
        Verdict::Solved(set) => {
            right.out[..l * t].copy_from_slice(set);
            0
        }
        Verdict::Contradiction => 100,
        Verdict::Open(lack) => {
            right.shortfall[0] = *lack;
            101
        }
    };
    code == expected && *after == right
}

/// What the harness makes of the system of a call, and its M, L and T. `fixed` are the rows whose symbols are 0.
pub fn judged(row: Row, tables: &[u32], came: Arrived, fixed: &[Vec<u8>]) -> (Verdict, [usize; 3]) {
    let (l, t) = (fixed[0].len(), usize::from(came.t));
    let mut equations: Vec<Vec<u8>> = fixed.iter().map(|r| [&r[..], &vec![0; t]].concat()).collect();
    let arrivals = came.esis.iter().zip(came.symbols.chunks(t)).map(|(e, symbol)| [&system::sent(row, tables, came.count, *e)[..], symbol].concat());
    equations.extend(arrivals);
    let m = equations.len();
    (system::verdict(equations, l), [m, l, t])
}

/// A call of ours: what it answers, and the stores before and after.
pub fn answered(random: &mut Random, row: Row, tables: &[u32], came: Arrived) -> (u32, [Stores; 2]) {
    let before = stores(random, row, came.count, came.t, came.esis.len());
    let mut lent = before.clone();
    (archive::solve(rows::record(row), tables, came, &mut lent), [before, lent])
}

/// A call of ours beside a verdict: whether it is the same in answer and memory, and what it left.
pub fn beside(random: &mut Random, row: Row, tables: &[u32], came: Arrived, verdict: &Verdict) -> (bool, Stores) {
    let (code, [before, lent]) = answered(random, row, tables, came);
    let [l, m] = measures(row, came.count, came.esis.len());
    (as_told(verdict, code, &before, &lent, [m, l, came.t.into()]), lent)
}

/// The verdict, whether ours is the same in answer and memory, and what it left.
fn solved(random: &mut Random, row: Row, tables: &[u32], came: Arrived, fixed: &[Vec<u8>]) -> (Verdict, bool, Stores) {
    let (verdict, _) = judged(row, tables, came, fixed);
    let (same, lent) = beside(random, row, tables, came, &verdict);
    (verdict, same, lent)
}

fn kind(verdict: &Verdict) -> &'static str {
    match verdict {
        Verdict::Solved(_) => "systems solved",
        Verdict::Contradiction => "systems contradictory",
        Verdict::Open(_) => "systems open",
    }
}

/// `n` of these, in any order.
pub fn some<T>(random: &mut Random, mut all: Vec<T>, n: usize) -> Vec<T> {
    for i in 0..n {
        let j = i + random.below((all.len() - i) as u64) as usize;
        all.swap(i, j);
    }
    all.truncate(n);
    all
}

/// The row that the crate takes for a block of k source symbols.
pub fn row_for(k: u32) -> Row {
    *rows::published().iter().find(|r| r[0] >= k).expect("a row of Table 2")
}

/// The crate's intermediate symbols.
pub fn set_of(encoder: &SourceBlockEncoder) -> Vec<u8> {
    let slab = &encoder.intermediate_symbols;
    (0..slab.len()).flat_map(|i| slab.get(i).to_vec()).collect()
}

/// A block that the crate encoded, and its packets.
struct Block {
    data: Vec<u8>,
    config: ObjectTransmissionInformation,
    row: Row,
    /// The crate's intermediate symbols.
    set: Vec<u8>,
    packets: Vec<EncodingPacket>,
}

impl Block {
    fn new(random: &mut Random, k: u32, t: u16) -> Block {
        let data = random.bytes(k as usize * usize::from(t));
        let config = ObjectTransmissionInformation::new(data.len() as u64, t, 1, 1, 1);
        let encoder = SourceBlockEncoder::new(0, &config, &data);
        let first = if random.below(2) == 0 { 0 } else { random.below(100_000) as u32 };
        let packets = encoder.source_packets().into_iter().chain(encoder.repair_packets(first, k + 10)).collect();
        Block { data, config, row: row_for(k), set: set_of(&encoder), packets }
    }

    /// What the crate's decoder makes of packets, or None where it panics.
    fn decoded(&self, packets: Vec<EncodingPacket>) -> Option<Option<Vec<u8>>> {
        caught(|| SourceBlockDecoder::new(0, &self.config, self.data.len() as u64).decode(packets))
    }
}

/// The ESIs of packets, and their symbols one after the other.
fn apart(packets: &[EncodingPacket]) -> (Vec<u32>, Vec<u8>) {
    let esis = packets.iter().map(|p| p.payload_id().encoding_symbol_id()).collect();
    (esis, packets.iter().flat_map(|p| p.data().to_vec()).collect())
}

/// A packet whose symbol is another.
fn changed(packet: &EncodingPacket, change: impl FnOnce(&mut Vec<u8>)) -> EncodingPacket {
    let (id, mut symbol) = packet.clone().split();
    change(&mut symbol);
    EncodingPacket::new(id, symbol)
}

/// A bit of a symbol is flipped, often in its first or last octet, or a packet comes once more with a bit flipped; the rule under which the crate does not see
/// that.
fn spoil(random: &mut Random, packets: &mut Vec<EncodingPacket>) -> Option<&'static str> {
    if packets.is_empty() {
        return None;
    }
    let at = random.below(packets.len() as u64) as usize;
    let spoiled = changed(&packets[at], |symbol| {
        let place = telling::place(random, symbol.len());
        symbol[place] ^= 1 << random.below(8);
    });
    if random.below(2) == 0 {
        packets[at] = spoiled;
        return Some("D19 (symbols that no set yields)");
    }
    packets.push(spoiled);
    Some("D20 (an ESI twice with unequal symbols)")
}

/// T of most blocks: short.
fn any_size(random: &mut Random) -> u16 {
    if random.below(20) == 0 { 41 + random.below(260) as u16 } else { 1 + random.below(40) as u16 }
}

/// A block that the crate encoded, of which k + extra packets came; one time in so many they are spoiled.
fn real(report: &mut Report, random: &mut Random, k: u32, t: u16, extra: i64, odds: u64) {
    let tables = published();
    let block = Block::new(random, k, t);
    let mut packets = some(random, block.packets.clone(), (i64::from(k) + extra).max(0) as usize);
    let rule = if random.below(odds) == 0 { spoil(random, &mut packets) } else { None };
    let (esis, symbols) = apart(&packets);
    let came = Arrived { count: k, t, esis: &esis, symbols: &symbols };
    let (verdict, same, lent) = solved(random, block.row, &tables, came, &system::fixed(block.row, &tables, k));
    let decoded = block.decoded(packets);
    let said = || format!("a block of {k}, T {t}, ESIs {esis:?}, symbols {symbols:?}");
    report.kind(kind(&verdict));
    match &verdict {
        Verdict::Solved(set) => {
            let rebuilt = archive::rebuilt(rows::record(block.row), &tables, k, t, &lent.out).ok();
            let sent = rule.is_some() || (*set == block.set && rebuilt.as_ref() == Some(&block.data));
            report.equal(same && sent && rebuilt.is_some() && decoded == Some(rebuilt), said);
        }
        // Without a sign of it the crate gives some block, or none.
        Verdict::Contradiction => report.listed(rule.unwrap_or("D19"), same && rule.is_some() && decoded.is_some(), said),
        Verdict::Open(_) => report.listed("D21 (too few packets)", same && decoded == Some(None), said),
    }
}

/// An accepted row with L of at most 71, so that many systems are solved in a short time.
fn small_row(random: &mut Random) -> Row {
    rows::accepted_of(random, [45, 6, 12])
}

/// ESIs of one call: of any size, source and repair, some twice; of a number around what is needed, or much less, or none.
fn any_esis(random: &mut Random, k: u32, wanted: usize) -> Vec<u32> {
    let n = match random.below(6) {
        0 => random.below(wanted as u64 + 1) as usize,
        1 => random.below(4) as usize,
        2 => wanted + random.below(12) as usize,
        _ => (wanted + 2 + random.below(3) as usize).saturating_sub(random.below(4) as usize),
    };
    let mut esis: Vec<u32> = vec![];
    for _ in 0..n {
        let again = random.below(12) == 0 && !esis.is_empty();
        esis.push(match random.below(4) {
            _ if again => esis[random.below(esis.len() as u64) as usize],
            0 => random.below(u64::from(k)) as u32,
            1 => random.below(1 << 24) as u32,
            _ => random.below(u64::from(k) + 60) as u32,
        });
    }
    esis
}

/// Symbols of one fitting set, some of them damaged; or any bytes.
fn any_symbols(random: &mut Random, row: Row, tables: &[u32], count: u32, t: usize, esis: &[u32], set: &[u8]) -> Vec<u8> {
    if random.below(8) == 0 {
        return random.bytes(esis.len() * t);
    }
    let mut symbols: Vec<u8> = esis.iter().flat_map(|e| system::made(&system::sent(row, tables, count, *e), set, t)).collect();
    if random.below(3) == 0 && !symbols.is_empty() {
        let at = random.below(symbols.len() as u64) as usize;
        symbols[at] ^= random.byte();
    }
    symbols
}

/// Systems of one made-up row with made-up tables.
fn made_up(report: &mut Report, random: &mut Random) {
    let (row, tables) = (small_row(random), any_tables(random));
    let count = if random.below(3) == 0 { row[0] } else { 1 + random.below(u64::from(row[0])) as u32 };
    let fixed = system::fixed(row, &tables, count);
    let l = fixed[0].len();
    for _ in 0..6 {
        let t = 1 + random.below(9) as usize;
        let set = system::fitting(fixed.clone(), l, t, random);
        let esis = any_esis(random, count, count as usize);
        let symbols = any_symbols(random, row, &tables, count, t, &esis, &set);
        let came = Arrived { count, t: t as u16, esis: &esis, symbols: &symbols };
        let (verdict, same, _) = solved(random, row, &tables, came, &fixed);
        report.of(kind(&verdict), same, || format!("{row:?}, tables {tables:?}, {came:?}, which is {verdict:?}"));
    }
}

const ONE_SUM: &str = "rows made 0 by one sum";
const FIRST: &str = "contradictions in the first octet alone";
const LAST: &str = "contradictions in the last octet alone";
const BETWEEN: &str = "contradictions in one octet between";
const LARGER: &str = "contradictions in the larger frame";

/// T of telling symbols, often on either side of the bound between the frames.
fn telling_size(random: &mut Random) -> usize {
    match random.below(4) {
        0 => 1,
        1 => [2046, 2047, 2048, 2049, 2050][random.below(5) as usize],
        2 => telling::LENGTHS[1 + random.below(13) as usize],
        _ => 2 + random.below(40) as usize,
    }
}

/// Which of the arrivals and, past them, of the padding rows is taken first: one of the least degree.
fn first_taken(row: Row, tables: &[u32], count: u32, esis: &[u32]) -> usize {
    let [.., p1] = rows::record(row);
    let isis = esis.iter().map(|e| rows::shifted(row, count, *e)).chain(count..row[0]);
    let degrees = isis.map(|x| rows::tuple(row, p1, tables, x)[0]).enumerate();
    degrees.min_by_key(|(_, degree)| *degree).expect("there is an arrival").0
}

/// A packet comes twice: its second row is 0 once the first has gone off it, and by that one sum where it is the row that is taken first. All symbols are those
/// of one fitting set, which may be all 0, but for one octet at most.
fn dependent(report: &mut Report, random: &mut Random) {
    let (row, tables, t) = (small_row(random), any_tables(random), telling_size(random));
    let count = if random.below(2) == 0 { row[0] } else { 1 + random.below(u64::from(row[0])) as u32 };
    let fixed = system::fixed(row, &tables, count);
    let l = fixed[0].len();
    let set = if random.below(2) == 0 { vec![0; l * t] } else { system::fitting(fixed.clone(), l, t, random) };
    let wanted = if random.below(2) == 0 { 3 } else { count as usize };
    let mut esis = any_esis(random, count, wanted);
    esis.push(random.below(u64::from(count) + 60) as u32);
    let (first, any) = (first_taken(row, &tables, count, &esis), random.below(esis.len() as u64) as usize);
    let twice = esis[if first < esis.len() && random.below(2) == 0 { first } else { any }];
    esis.insert(random.below(esis.len() as u64 + 1) as usize, twice);
    let one_sum = esis.get(first_taken(row, &tables, count, &esis)) == Some(&twice);
    let mut symbols: Vec<u8> = esis.iter().flat_map(|e| system::made(&system::sent(row, &tables, count, *e), &set, t)).collect();
    let damaged = (random.below(3) > 0).then(|| telling::place(random, t));
    if let Some(place) = damaged {
        let at = if random.below(2) == 0 { esis.iter().position(|e| *e == twice) } else { None };
        let at = at.unwrap_or_else(|| random.below(esis.len() as u64) as usize);
        symbols[at * t + place] ^= telling::other(random);
    }
    let came = Arrived { count, t: t as u16, esis: &esis, symbols: &symbols };
    let (verdict, same, _) = solved(random, row, &tables, came, &fixed);
    if one_sum {
        report.kind(ONE_SUM);
    }
    if let (Verdict::Contradiction, Some(place)) = (&verdict, damaged) {
        report.kind(match place {
            0 => FIRST,
            _ if place + 1 == t => LAST,
            _ => BETWEEN,
        });
        if t > 2048 {
            report.kind(LARGER);
        }
    }
    report.of(kind(&verdict), same, || format!("{row:?}, tables {tables:?}, {came:?}, which is {verdict:?}"));
}

/// A call that may be refused, whole.
#[derive(Clone, Debug, PartialEq)]
struct Call {
    row: Row,
    tables: Vec<u32>,
    count: u32,
    t: u16,
    esis: Vec<u32>,
    symbols: Vec<u8>,
    lent: Stores,
}

/// What document 01 says of a call.
fn refused_by(c: &Call) -> Option<u32> {
    let (n, t) = (c.esis.len(), usize::from(c.t));
    let accepted = part(c.row).is_none() && (1..=c.row[0]).contains(&c.count);
    let [l, m] = if accepted { measures(c.row, c.count, n) } else { [0, 0] };
    refusal(&[
        rows::reason(part(c.row)),
        (5, c.tables.len() != 1024),
        (9, !(1..=c.row[0]).contains(&c.count) || n > 65535 || c.esis.iter().any(|e| *e >= 1 << 24)),
        (10, t == 0 || c.symbols.len() != n * t),
        (8, c.lent.rows.len() < m * l || c.lent.values.len() < m * t || c.lent.out.len() < l * t || c.lent.shortfall.is_empty()),
    ])
}

/// The answer of ours, and what it leaves of all that it was given.
fn called(call: &Call) -> (u32, Call) {
    let mut after = call.clone();
    let came = Arrived { count: call.count, t: call.t, esis: &after.esis, symbols: &after.symbols };
    let code = archive::solve(rows::record(call.row), &after.tables, came, &mut after.lent);
    (code, after)
}

/// That document 01 refuses a call, and ours by the same code, with the whole memory as it was, inputs too.
fn refuses(call: &Call) -> bool {
    let (code, after) = called(call);
    refused_by(call) == Some(code) && after == *call
}

/// Whether the crate makes no packet of one of these ESIs.
fn unpacked(esis: &[u32]) -> bool {
    esis.iter().max().is_some_and(|esi| caught(|| PayloadId::new(0, *esi)).is_none())
}

/// Something about a call that is not as it should be, or just is.
fn damage(random: &mut Random, c: &mut Call) {
    let shorter = |random: &mut Random, n: usize| (n + 2).saturating_sub(1 + random.below(9) as usize);
    match random.below(12) {
        0 => c.row[random.below(5) as usize] = random.word() as u32 >> random.below(32),
        1 => c.row[random.below(5) as usize] ^= 1,
        2 => c.tables.resize([0, 1023, 1025, 1024][random.below(4) as usize], 1),
        3 => c.count = [0, c.row[0].wrapping_add(1), c.row[0], u32::MAX][random.below(4) as usize],
        4 if !c.esis.is_empty() => {
            let at = random.below(c.esis.len() as u64) as usize;
            c.esis[at] = [1 << 24, (1 << 24) - 1, u32::MAX][random.below(3) as usize];
        }
        5 if random.below(50) == 0 => c.esis.resize(65535 + random.below(2) as usize, 3),
        6 => c.t = [0, c.t.wrapping_add(1), 65535][random.below(3) as usize],
        7 => c.symbols.resize(shorter(random, c.symbols.len()), 0),
        8 => c.lent.rows.resize(shorter(random, c.lent.rows.len()), 7),
        9 => c.lent.values.resize(shorter(random, c.lent.values.len()), 7),
        10 => c.lent.out.resize(shorter(random, c.lent.out.len()), 7),
        _ => c.lent.shortfall.truncate(random.below(2) as usize),
    }
}

/// Calls with one to three damages; the whole memory stays where they are refused, inputs too.
fn refused(report: &mut Report, random: &mut Random) {
    let row = small_row(random);
    let count = 1 + random.below(u64::from(row[0])) as u32;
    let esis = any_esis(random, count, count as usize);
    let t = 1 + random.below(5) as u16;
    let symbols = random.bytes(esis.len() * usize::from(t));
    let mut lent = stores(random, row, count, t, esis.len());
    if random.below(2) == 0 {
        // Not one place more than the call needs.
        let ([l, m], t) = (measures(row, count, esis.len()), usize::from(t));
        lent.rows.truncate(m * l);
        lent.values.truncate(m * t);
        lent.out.truncate(l * t);
        lent.shortfall.truncate(1);
    }
    let mut call = Call { row, tables: any_tables(random), count, t, esis, symbols, lent };
    for _ in 0..=random.below(3) {
        damage(random, &mut call);
    }
    let said = || format!("{call:?}");
    match report.due(refused_by(&call)) {
        Some(9) if call.esis.iter().any(|e| *e >= 1 << 24) => report.listed("D6 (ESI of 2^24)", refuses(&call) && unpacked(&call.esis), said),
        Some(_) => report.refusal(refuses(&call), said),
        None => {
            let came = Arrived { count: call.count, t: call.t, esis: &call.esis, symbols: &call.symbols };
            let (verdict, measures) = judged(call.row, &call.tables, came, &system::fixed(call.row, &call.tables, call.count));
            let (code, after) = called(&call);
            let inputs = after.tables == call.tables && after.esis == call.esis && after.symbols == call.symbols;
            report.of(kind(&verdict), as_told(&verdict, code, &call.lent, &after.lent, measures) && inputs, said);
        }
    }
}

/// Document 01's display: the refusal, or the store and the place.
fn displayed(came: Arrived, rebuilt: usize, i: u32, room: usize) -> Result<Vec<u64>, u32> {
    let (n, t) = (came.esis.len(), usize::from(came.t));
    let refused = refusal(&[
        (9, !(1..=56403).contains(&came.count) || n > 65535 || came.esis.iter().any(|e| *e >= 1 << 24)),
        (10, t == 0 || came.symbols.len() != n * t),
        (8, rebuilt < came.count as usize * t || room < 2),
        (6, i >= came.count),
    ]);
    let (store, place) = came.esis.iter().position(|e| *e == i).map_or((1, i as usize), |p| (0, p));
    refused.map_or(Ok(vec![store, (place * t) as u64]), Err)
}

fn display(report: &mut Report, random: &mut Random) {
    let count = match random.below(40) {
        0 => [0, 56403, 56404, u32::MAX][random.below(4) as usize],
        _ => 1 + random.below(30) as u32,
    };
    let t = random.below(6) as u16;
    let near = count.clamp(1, 40);
    let mut esis: Vec<u32> = (0..random.below(40)).map(|_| random.below(u64::from(near) + 4) as u32).collect();
    if random.below(12) == 0 && !esis.is_empty() {
        let at = random.below(esis.len() as u64) as usize;
        esis[at] = [1 << 24, (1 << 24) - 1][random.below(2) as usize];
    }
    if random.below(400) == 0 {
        esis.resize(65535 + random.below(2) as usize, 1);
    }
    let off = |random: &mut Random, n: usize| if random.below(8) == 0 { (n + 1).saturating_sub(random.below(3) as usize) } else { n };
    let (came_len, built_len) = (off(random, esis.len() * usize::from(t)), count.min(56403) as usize * usize::from(t) + random.below(3) as usize);
    let (symbols, rebuilt) = (random.bytes(came_len), vec![1; off(random, built_len)]);
    let came = Arrived { count, t, esis: &esis, symbols: &symbols };
    let i = random.near(near as usize) as u32;
    let room = random.room(2);
    let expected = displayed(came, rebuilt.len(), i, room);
    let answer = values(room, 2, |out| archive::display(came, &rebuilt, i, out));
    let inside = |v: &Vec<u64>| v[1] as usize + usize::from(t) <= [symbols.len(), rebuilt.len()][v[0] as usize];
    let said = || format!("symbol {i} of {count}, T {t}, ESIs {esis:?}, {} and {} bytes, room {room}", symbols.len(), rebuilt.len());
    report.kind("displays");
    match expected {
        Err(_) => report.refusal(answer == expected, said),
        Ok(_) => report.computed(answer == expected && answer.as_ref().is_ok_and(inside), said),
    }
}

/// A call of ours with these packets, in the published tables.
fn call_with(random: &mut Random, row: Row, count: u32, t: u16, packets: &[EncodingPacket]) -> Call {
    let (esis, symbols) = apart(packets);
    let lent = stores(random, row, count.min(row[0]), t, esis.len());
    Call { row, tables: published(), count, t, esis, symbols, lent }
}

/// A call of ours for a block that is refused, without arrivals, and the crate's decoder without packets.
fn refused_blocks(report: &mut Report, random: &mut Random) {
    for (k, t, row, rule) in rows::refused_blocks() {
        let length = u64::from(k) * u64::from(t);
        let config = ObjectTransmissionInformation::new(length, t, 2, 1, 1);
        let given = caught(|| SourceBlockDecoder::new(0, &config, length).decode(vec![]));
        let seen = if k == 0 { given == Some(Some(vec![])) } else { given.is_none() };
        let call = call_with(random, row, k, t, &[]);
        report.listed(rule, refuses(&call) && seen, || format!("solve of K {k}, T {t}"));
    }
}

/// More packets than document 01 takes, and just as many: the crate drops those that came before.
fn many_packets(report: &mut Report, random: &mut Random, k: u32) {
    let block = Block::new(random, k, 1);
    for n in [65535, 65536] {
        let packets: Vec<EncodingPacket> = block.packets.iter().cycle().take(n).cloned().collect();
        let call = call_with(random, block.row, k, 1, &packets);
        let decoded = block.decoded(packets) == Some(Some(block.data.clone()));
        let said = || format!("{n} packets of a block of {k}");
        if refused_by(&call).is_some() {
            report.listed("D33 (65,536 arrivals)", refuses(&call) && decoded, said);
        } else {
            let (code, after) = called(&call);
            report.equal(code == 0 && after.lent.out.starts_with(&block.set) && decoded, said);
        }
    }
}

/// A packet with an octet more or less than T. The crate looks at no symbol below K packets, takes the first T octets of each where all source packets came,
/// and else copies each whole, which panics at another length.
fn other_length(report: &mut Report, random: &mut Random) {
    let (k, t) = (1 + random.below(60) as u32, 1 + random.below(9) as u16);
    let block = Block::new(random, k, t);
    let n = (k + random.below(6) as u32).saturating_sub(2).max(1) as usize;
    let mut packets = if random.below(2) == 0 { block.packets[..n].to_vec() } else { some(random, block.packets.clone(), n) };
    let (at, longer) = (random.below(n as u64) as usize, random.below(2) == 0);
    packets[at] = changed(&packets[at], |symbol| symbol.resize(usize::from(t) + usize::from(longer) * 2 - 1, 7));
    let call = call_with(random, block.row, k, t, &packets);
    let all_source = call.esis.iter().filter(|e| **e < k).count() == k as usize;
    let expected = match n < k as usize {
        true => Some(None),
        false => (all_source && (longer || call.esis[at] >= k)).then(|| Some(block.data.clone())),
    };
    let seen = block.decoded(packets) == expected;
    let said = || format!("a block of {k}, T {t}, ESIs {:?}, symbol {at} longer: {longer}", call.esis);
    report.listed("D35 (a symbol of another length)", refuses(&call) && seen, said);
}

pub fn run(count: u64, seed: u64) -> Found {
    let mut report = Report::new("solver", seed);
    let mut random = Random::new(seed);
    for turn in 0..count.div_ceil(1_000_000) {
        for k in 1..=300 {
            for extra in [0, 1, 2, 3, -1 - (turn as i64 + i64::from(k)) % 3] {
                let t = any_size(&mut random);
                real(&mut report, &mut random, k, t, extra, 4);
            }
        }
    }
    refused_blocks(&mut report, &mut random);
    (1..=3).for_each(|k| many_packets(&mut report, &mut random, k));
    let mut times = |n: u64, case: fn(&mut Report, &mut Random)| (0..n).for_each(|_| case(&mut report, &mut random));
    times(count / 1000, other_length);
    times(count / 50, made_up);
    times(count / 250, dependent);
    times(count / 10, refused);
    times(count / 10, display);
    // The solver has another frame from L or T of 2,049 on: blocks on both sides (the rows of K' = 1,954 and 1,979 have L = 2,048 and 2,073).
    for (k, t) in [(10, 2048), (10, 2049), (10, 65535), (1954, 1), (1979, 1)] {
        [(0, 4), (2, 4), (-2, 4), (3, 1)].into_iter().for_each(|(extra, odds)| real(&mut report, &mut random, k, t, extra, odds));
    }
    records::tried(&mut report, &mut random, count / 500, &records::SOLVER, 10);
    report.met(1..=10, 1000, count);
    report.met_kinds([ONE_SUM, FIRST, LAST, BETWEEN, LARGER], 100, count);
    report.close()
}
