//! Headers and tuples: ids, transmission information, packets, partitions, degrees, rand, parameter rows, the shift, tuples.
use crate::records;
use differential::archive::{self, Row};
use differential::near;
use differential::report::{Found, Report};
use differential::rows::{self, part};
use differential::{Lent, Random, caught, code, number, refusal, values};
use raptorq_lent::base::{self, EncodingPacket, ObjectTransmissionInformation, PayloadId};
use raptorq_lent::rng;

/// A number of the given bits, often near an end or a power of two.
fn edgy(random: &mut Random, bits: u32) -> u64 {
    let top = u64::MAX >> (64 - bits);
    match random.below(4) {
        0 => random.word() & top,
        1 => random.below(5),
        2 => top - random.below(5),
        _ => ((1u64 << random.below(u64::from(bits))).wrapping_add(random.below(5)).wrapping_sub(2)) & top,
    }
}

fn ids(report: &mut Report, random: &mut Random) {
    let length = if random.below(8) == 0 { random.below(9) as usize } else { 4 };
    let (bytes, room) = (random.bytes(length), random.room(2));
    let ours = values(room, 2, |out| archive::payload_id_read(&bytes, out));
    let said = || format!("read id {bytes:?}, room {room}");
    match (refusal(&[(8, length != 4), (8, room < 2)]), <&[u8; 4]>::try_from(bytes.as_slice())) {
        (None, Ok(four)) => {
            let id = PayloadId::deserialize(four);
            report.equal(ours == Ok(vec![id.source_block_number().into(), id.encoding_symbol_id().into()]), said);
        }
        (refused, _) => report.refusal(ours.err() == refused, said),
    }
    let bits = if random.below(4) == 0 { 32 } else { 25 };
    let (sbn, esi, room) = (random.byte(), edgy(random, bits) as u32, random.room(4));
    let lent = Lent::to(random.bytes(room), |store| archive::payload_id_write(sbn, esi, store));
    written(report, &lent, esi, 4, || PayloadId::new(sbn, esi).serialize().to_vec(), || format!("write id {sbn} {esi}, room {room}"));
}

/// A call that writes an id, and maybe more: refused for its ESI, where the crate makes none, or for its room, or as the crate writes it.
fn written(report: &mut Report, lent: &Lent<u8>, esi: u32, long: usize, theirs: impl FnOnce() -> Vec<u8>, said: impl FnOnce() -> String) {
    let given = caught(theirs);
    match refusal(&[(9, esi >= 1 << 24), (8, lent.before.len() < long)]) {
        Some(9) => report.listed("D6 (ESI of 2^24)", lent.refused(9) && given.is_none(), said),
        Some(n) => report.refusal(lent.refused(n), said),
        None => report.equal(given.is_some_and(|front| lent.holds(&front)), said),
    }
}

fn packets(report: &mut Report, random: &mut Random) {
    let (length, room) = (random.below(40) as usize, random.room(4));
    let bytes = random.bytes(length);
    let ours = values(room, 4, |out| archive::packet_read(&bytes, out));
    let given = caught(|| EncodingPacket::deserialize(&bytes).split());
    let said = || format!("read packet {bytes:?}, room {room}");
    match refusal(&[(8, length < 4), (8, room < 4)]) {
        Some(n) if length < 4 => report.listed("D5 (length of a header)", ours == Err(n) && given.is_none(), said),
        Some(n) => report.refusal(ours == Err(n), said),
        None => {
            let found = ours.map(|v| (v[0], v[1], bytes[v[2] as usize..][..v[3] as usize].to_vec()));
            let theirs = given.map(|(id, data)| (id.source_block_number().into(), id.encoding_symbol_id().into(), data));
            report.equal(theirs.is_some() && found.ok() == theirs, said);
        }
    }
    let (sbn, esi, room) = (random.byte(), edgy(random, 25) as u32, random.room(4 + length));
    let lent = Lent::to(random.bytes(room), |store| archive::packet_write(sbn, esi, &bytes, store));
    let theirs = || EncodingPacket::new(PayloadId::new(sbn, esi), bytes.clone()).serialize();
    written(report, &lent, esi, 4 + length, theirs, || format!("write packet {sbn} {esi} {bytes:?}, room {room}"));
}

/// F, T, Z, N and Al.
type Information = (u64, u16, u8, u16, u8);

const LONGEST: u64 = 942_574_504_275;

/// Document 01's rules, as document 02, E3, amends them, with exact quotients; each with the kind under which information is counted that breaks it alone. One
/// is not asked where another that breaks leaves no way to keep it: by 0 nothing is divided, with T = 0 no N is allowed, above its limit F fits no blocks.
const RULES: [(&str, fn(Information) -> bool); 8] = [
    ("F above its limit alone", |(f, ..)| f > LONGEST),
    ("Al of 0 alone", |(.., al)| al == 0),
    ("T not in units of Al alone", |(_, t, .., al)| al != 0 && t % u16::from(al) != 0),
    ("T of 0 alone", |(_, t, ..)| t == 0),
    ("Z of 0 alone", |(_, _, z, ..)| z == 0),
    ("N of 0 alone", |(.., n, _)| n == 0),
    ("N above T/Al alone", |(_, t, _, n, al)| t != 0 && al != 0 && n > t / u16::from(al)),
    ("blocks too large alone", |(f, t, z, ..)| f <= LONGEST && t != 0 && z != 0 && f.div_ceil(t.into()).div_ceil(z.into()) > 56403),
];

const ACCEPTED: &str = "information accepted";

/// The rules that break, by their kinds.
fn broken(information: Information) -> Vec<&'static str> {
    RULES.iter().filter(|(_, breaks)| breaks(information)).map(|(kind, _)| *kind).collect()
}

/// T: most times a few units of Al, at times 0.
fn any_size(random: &mut Random, al: u8) -> u16 {
    match random.below(16) {
        0 => 0,
        1..5 => edgy(random, 16) as u16,
        _ => u16::from(al.max(1)).wrapping_mul(random.below(300) as u16 >> random.below(6)),
    }
}

/// N: around 0, around the units of a symbol, any that is allowed, or anything.
fn any_sub_blocks(random: &mut Random, t: u16, al: u8) -> u16 {
    let units = t.checked_div(al.into()).unwrap_or(t);
    let allowed = 1 + random.below(units.max(1).into()) as u16;
    let (less, more, any) = (units.saturating_sub(1), units.saturating_add(1), edgy(random, 16) as u16);
    [0, 1, less, units, more, allowed, allowed, any][random.below(8) as usize]
}

/// F: around its limit, around that of the blocks or within it, where a count of symbols cut to 32 bits is small, or anything.
fn any_length(random: &mut Random, t: u16, z: u8) -> u64 {
    let (t, room) = (u64::from(t), u64::from(z) * 56403);
    match random.below(10) {
        0 => LONGEST + random.below(5) - 2,
        1..4 => (t * room + random.below(5)).saturating_sub(2),
        4..7 => random.below(t * room + 1),
        7 => (((1 + random.below(3)) << 32) + random.below(2 * room + 1)) * t - random.below(t.max(1)),
        8 => edgy(random, 40),
        _ => edgy(random, 64),
    }
}

/// On both sides of each rule, often with all others kept.
fn any_information(random: &mut Random) -> Information {
    let al = if random.below(3) == 0 { edgy(random, 8) as u8 } else { 1 << random.below(4) };
    let (t, z) = (any_size(random, al), edgy(random, 8) as u8);
    (any_length(random, t, z), t, z, any_sub_blocks(random, t, al), al)
}

/// The layout of RFC 6330, 3.3.2 and 3.3.3; of F the lower 40 bits.
fn laid((f, t, z, n, al): Information) -> [u8; 12] {
    let parts = [&f.to_be_bytes()[3..], &[0], &t.to_be_bytes(), &[z], &n.to_be_bytes(), &[al]];
    parts.concat().try_into().expect("5, 1, 2, 1, 2 and 1 bytes")
}

fn transmission(report: &mut Report, random: &mut Random) {
    let information = any_information(random);
    read(report, random, information);
    let made = made(information);
    check(report, information, made.is_some());
    write(report, random, information, made);
}

/// What the crate makes of the five numbers, or None where it panics.
fn made((f, t, z, n, al): Information) -> Option<ObjectTransmissionInformation> {
    caught(|| ObjectTransmissionInformation::new(f, t, z, n, al))
}

/// Any bytes, or those of this information: no rule applies to what is read.
fn read(report: &mut Report, random: &mut Random, information: Information) {
    let length = if random.below(8) == 0 { random.below(16) as usize } else { 12 };
    let mut bytes = if random.below(2) == 0 { random.bytes(length) } else { laid(information).to_vec() };
    bytes.resize(length, 0);
    let room = random.room(5);
    let ours = values(room, 5, |out| archive::transmission_read(&bytes, out));
    let said = || format!("read transmission information {bytes:?}, room {room}");
    match (refusal(&[(8, length != 12), (8, room < 5)]), <&[u8; 12]>::try_from(bytes.as_slice())) {
        (None, Ok(twelve)) => {
            let o = ObjectTransmissionInformation::deserialize(twelve);
            let theirs = vec![o.transfer_length(), o.symbol_size().into(), o.source_blocks().into(), o.sub_blocks().into(), o.symbol_alignment().into()];
            report.equal(ours == Ok(theirs), said);
        }
        (refused, _) => report.refusal(ours.err() == refused, said),
    }
}

const CUT: &str = "D7 (quotients cut to 32 bits)";
const NO_SIZE: &str = "D36 (symbol size 0 announced)";
const NO_BLOCK: &str = "D37 (no source block)";
const NO_SUB_BLOCK: &str = "D38 (no sub-block)";
const CROWDED: &str = "D39 (more sub-blocks than units of a symbol)";

/// Why the crate makes information that is refused here: the first rule that it does not have; else its quotients are cut, or there is no reason.
fn why_made((f, t, z, n, al): Information) -> Option<&'static str> {
    if t == 0 {
        Some(NO_SIZE)
    } else if z == 0 {
        Some(NO_BLOCK)
    } else if n == 0 {
        Some(NO_SUB_BLOCK)
    } else if t.checked_div(al.into()).is_some_and(|units| n > units) {
        Some(CROWDED)
    } else {
        (f.div_ceil(t.into()) > u32::MAX.into()).then_some(CUT)
    }
}

fn check(report: &mut Report, information: Information, made: bool) {
    let (f, t, z, n, al) = information;
    let answer = archive::transmission_check(f, t, z, n, al);
    let said = || format!("check F {f} T {t} Z {z} N {n} Al {al}");
    let broken = broken(information);
    if let [alone] = broken[..] {
        report.kind(alone);
    }
    match refusal(&[(3, !broken.is_empty())]) {
        Some(n) if made => {
            let why = why_made(information);
            report.listed(why.unwrap_or(CUT), answer == Err(n) && why.is_some(), said);
        }
        Some(n) => report.listed("D12 (information that breaks its rules)", answer == Err(n), said),
        None => {
            report.kind(ACCEPTED);
            report.equal(answer == Ok(()) && made, said);
        }
    }
}

/// Information that docs/DIFFERENCES.md names, which the crate makes: where it is refused here by 3, the difference; and a neighbour that both accept.
const KNOWN: [(Information, Option<&str>); 6] = [
    ((4_294_967_296, 1, 1, 1, 1), Some(CUT)),
    ((10_000, 0, 1, 1, 8), Some(NO_SIZE)),
    ((10_000, 1024, 0, 1, 8), Some(NO_BLOCK)),
    ((10_000, 1024, 1, 0, 8), Some(NO_SUB_BLOCK)),
    ((10_000, 1024, 1, 129, 8), Some(CROWDED)),
    ((10_000, 1024, 1, 128, 8), None),
];

/// Information whose answer is known: the harness's rules and its attribution, the crate and the check all have to give it.
fn known_information(report: &mut Report) {
    for (information, known) in KNOWN {
        let (f, t, z, n, al) = information;
        let (ours, made) = (archive::transmission_check(f, t, z, n, al), made(information).is_some());
        let modelled = broken(information).is_empty() == known.is_none() && why_made(information) == known;
        let said = || format!("information {information:?}, by hand {known:?}");
        match known {
            Some(rule) => report.listed(rule, ours == Err(3) && made && modelled, said),
            None => report.equal(ours == Ok(()) && made && modelled, said),
        }
    }
}

fn write(report: &mut Report, random: &mut Random, information: Information, made: Option<ObjectTransmissionInformation>) {
    let (f, t, z, n, al) = information;
    let room = random.room(12);
    let lent = Lent::to(random.bytes(room), |store| archive::transmission_write(f, t, z, n, al, store));
    let said = || format!("write F {f} T {t} Z {z} N {n} Al {al}, room {room}");
    let laid = laid(information);
    match (refusal(&[(2, f >= 1 << 40), (8, room < 12)]), made) {
        (Some(2), made) => {
            let unchecked = caught(|| ObjectTransmissionInformation::with_defaults(f, 1024).serialize());
            let cut = unchecked.is_none_or(|bytes| bytes[..5] == laid[..5]);
            report.listed("D23 (F of 2^40 to be written)", lent.refused(2) && made.is_none() && cut, said);
        }
        (Some(n), _) => report.refusal(lent.refused(n), said),
        (None, Some(o)) => report.equal(lent.holds(&o.serialize()), said),
        (None, None) => {
            let read = ObjectTransmissionInformation::deserialize(&laid).serialize();
            report.listed("D13 (writing what breaks the rules)", lent.holds(&laid) && read == laid, said);
        }
    }
}

fn numbers(report: &mut Report, random: &mut Random, tables: &[u32]) {
    let (i, j, room) = (edgy(random, 32) as u32, edgy(random, 32) as u32, random.room(4));
    let ours = values(room, 4, |out| archive::partition(i, j, out));
    let given = caught(|| base::partition(i, j)).map(|(il, is, jl, js)| [il, is, jl, js].map(u64::from).to_vec());
    let refused = refusal(&[(2, j == 0), (8, room < 4)]);
    report.asked(refused, (2, "D8 (partition into 0)"), ours, given, || format!("partition {i} into {j}, room {room}"));
    let v = if random.below(2) == 0 { random.below(1 << 20) as u32 } else { edgy(random, 21) as u32 };
    degree(report, v, edgy(random, 17) as u32, random.room(1));
    chosen(report, random, tables);
}

fn degree(report: &mut Report, v: u32, w: u32, room: usize) {
    let ours = values(room, 1, |out| archive::deg(v, w, out));
    let given = caught(|| base::deg(v, w)).map(|d| vec![u64::from(d)]);
    let refused = refusal(&[(2, v >= 1 << 20), (2, w < 2), (8, room < 1)]);
    report.asked(refused, (2, "D9 (degree outside its range)"), ours, given, || format!("deg {v} of {w}, room {room}"));
}

/// A number by rand.
fn chosen(report: &mut Report, random: &mut Random, tables: &[u32]) {
    let (y, i, m, room) = (edgy(random, 32) as u32, random.byte(), edgy(random, 32) as u32, random.room(1));
    let lent = rows::lent_tables(random, tables);
    let ours = values(room, 1, |out| archive::rand(&lent, y, i, m, out));
    let given = caught(|| rng::rand(y, i, m)).map(|x| vec![u64::from(x)]);
    let said = || format!("rand {y} {i} {m} with {} numbers, room {room}", lent.len());
    match (refusal(&[(5, lent.len() != 1024), (2, m == 0), (8, room < 1)]), given) {
        (Some(2), given) => report.listed("D10 (rand below 0)", ours == Err(2) && given.is_none(), said),
        (Some(n), _) => report.refusal(ours == Err(n), said),
        (None, Some(x)) => report.equal(ours == Ok(x), said),
        // The sum of y and i is 2^32 or more: RFC 6330 takes it modulo 256.
        (None, None) => {
            let overflows = u64::from(y) + u64::from(i) > u32::MAX.into();
            report.listed("D11 (rand overflows)", overflows && ours == Ok(vec![rows::rand(tables, y, i, m).into()]), said);
        }
    }
}

/// The thresholds of the degree table, one below and one above each, for every small W.
fn thresholds(report: &mut Report) {
    let table = [
        0, 5243, 529531, 704294, 791675, 844104, 879057, 904023, 922747, 937311, 948962, 958494, 966438, 973160, 978921, 983914, 988283, 992138, 995565,
        998631, 1001391, 1003887, 1006157, 1008229, 1010129, 1011876, 1013490, 1014983, 1016370, 1017662, 1048576u32,
    ];
    for t in table {
        for v in [t.saturating_sub(1), t, t + 1] {
            (0..40).chain([100, 65535]).for_each(|w| degree(report, v, w, 1));
        }
    }
}

/// A row and the shift: the crate looks its rows up and has no check of one, and its shift is a sum inside its decoder.
fn parameter_row(report: &mut Report, random: &mut Random, row: Row) {
    let room = random.room(9);
    let ours = values(room, 9, |out| archive::row_check(row, out));
    let said = || format!("row {row:?}, room {room}");
    match report.due(refusal(&[rows::reason(part(row)), (8, room < 9)])) {
        Some(n) => report.refusal(ours == Err(n), said),
        None => report.computed(ours == Ok(rows::record(row).map(u64::from).to_vec()), said),
    }
    let (k, esi, room) = (edgy(random, 17) as u32, edgy(random, 25) as u32, random.room(1));
    let ours = values(room, 1, |out| archive::isi(rows::record(row), k, esi, out));
    let said = || format!("isi of {esi} with K {k} of {row:?}, room {room}");
    match report.due(refusal(&[rows::reason(part(row)), (9, esi >= 1 << 24), (9, !(1..=row[0]).contains(&k)), (8, room < 1)])) {
        Some(9) if esi >= 1 << 24 => report.listed("D6 (ESI of 2^24)", ours == Err(9) && caught(|| PayloadId::new(0, esi)).is_none(), said),
        Some(n) => report.refusal(ours == Err(n), said),
        None => report.computed(ours == Ok(vec![rows::shifted(row, k, esi).into()]), said),
    }
}

/// The tuple of an ISI, with the tables that the crate reads too; `lent` are those, or of another length.
fn tuple(report: &mut Report, row: Row, tables: &[u32], lent: &[u32], x: u32, room: usize) {
    let ours = values(room, 6, |out| archive::tuple(rows::record(row), lent, x, out));
    let p1 = rows::pi_sizes(row).map(|[_, p1]| p1);
    let given = p1.and_then(|p1| caught(|| base::intermediate_tuple(x, row[4], row[1], p1))).map(|(d, a, b, d1, a1, b1)| [d, a, b, d1, a1, b1]);
    let right = || p1.and_then(|p1| caught(|| rows::tuple(row, p1, tables, x)));
    let wide = |tuple: Option<[u32; 6]>| tuple.map(|t| t.map(u64::from).to_vec()).ok_or(0);
    let said = || format!("tuple of {x} in {row:?} with {} numbers, room {room}", lent.len());
    match report.due(refusal(&[rows::reason(part(row)), (5, lent.len() != 1024), (8, room < 6)])) {
        Some(n) if number(n) == 4 && p1.is_some() => {
            report.listed("D24 (a row that breaks its rules)", ours == Err(n) && (given.is_none() || given == right()), said);
        }
        Some(n) => report.refusal(ours == Err(n), said),
        None if given.is_some() => report.equal(ours == wide(given), said),
        None => report.listed("D11 (rand overflows)", ours == wide(right()), said),
    }
}

fn tuples(report: &mut Report, random: &mut Random, rounds: u64) {
    let published = rng::lent::published();
    for row in rows::published() {
        for x in (0..50).chain((0..50).map(|_| random.word() as u32)).chain(u32::MAX - 5..=u32::MAX) {
            tuple(report, row, &published, &published, x, 6);
        }
        let ours = values(9, 9, |out| archive::row_check(row, out));
        let given = row.into_iter().map(u64::from).chain(rows::published_sizes(row)).collect();
        report.equal(ours == Ok(given), || format!("published row {row:?}"));
    }
    for _ in 0..rounds {
        let tables = rows::any_tables(random);
        rng::lent::lend(Some(tables.clone()));
        let row = rows::accepted(random);
        for turn in 0..50 {
            let row = if turn % 10 == 0 { rows::made_up(random) } else { row };
            let (lent, x) = (rows::lent_tables(random, &tables), edgy(random, 32) as u32);
            tuple(report, row, &tables, &lent, x, random.room(6));
        }
    }
    rng::lent::lend(None);
}

/// Rows whose part is known: the harness's rules and the check both have to give it.
fn by_hand(report: &mut Report) {
    for (row, known) in near::ROWS {
        let due = report.due((known > 0).then(|| code(4, known)));
        let ours = values(9, 9, |out| archive::row_check(row, out));
        report.computed(part(row) == due.map(|code| code / 256) && ours.err() == due, || format!("row {row:?}, by hand part {known}"));
    }
}

/// Rows near the rules on the calls that take five numbers or their record: first every row of the edges, then so many rounds.
fn near_rules(report: &mut Report, random: &mut Random, rounds: u64) {
    let tables = rows::any_tables(random);
    rng::lent::lend(Some(tables.clone()));
    let mut tried = |random: &mut Random, kind: &'static str, row: Row| {
        parameter_row(report, random, row);
        let (lent, x) = (rows::lent_tables(random, &tables), edgy(random, 32) as u32);
        tuple(report, row, &tables, &lent, x, random.room(6));
        (0..3).for_each(|_| report.kind(kind));
    };
    near::grid().into_iter().for_each(|row| tried(random, "rows of edges", row));
    for _ in 0..rounds {
        for part in 1..=9 {
            let row = near::row(random, part);
            tried(random, "rows near a rule", row);
        }
        let row = near::several(random);
        tried(random, "rows of edges", row);
    }
    rng::lent::lend(None);
}

pub fn run(count: u64, seed: u64) -> Found {
    let mut report = Report::new("headers", seed);
    let mut random = Random::new(seed);
    let mut times = |n: u64, case: &mut dyn FnMut(&mut Report, &mut Random)| (0..n).for_each(|_| case(&mut report, &mut random));
    times(count / 8, &mut ids);
    times(count / 4, &mut transmission);
    times(count / 8, &mut packets);
    times(count / 8, &mut |report, random| {
        let row = rows::made_up(random);
        parameter_row(report, random, row);
    });
    let published = rng::lent::published();
    times(count / 8, &mut |report, random| numbers(report, random, &published));
    let tables = rows::any_tables(&mut Random::new(seed));
    rng::lent::lend(Some(tables.clone()));
    times(count / 16, &mut |report, random| numbers(report, random, &tables));
    rng::lent::lend(None);
    thresholds(&mut report);
    known_information(&mut report);
    tuples(&mut report, &mut random, count / 100);
    by_hand(&mut report);
    near_rules(&mut report, &mut random, count / 500);
    records::tried(&mut report, &mut random, count / 500, &records::HEADERS, 477);
    report.met(1..=10, 1000, count);
    report.met_listed([7, 12, 13, 36, 37, 38, 39], 1000, count);
    report.met_kinds(RULES.map(|(kind, _)| kind).into_iter().chain([ACCEPTED]), 1000, count);
    report.close()
}
