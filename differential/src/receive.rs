//! The receiving program, run as a process: deliveries of the crate's encoder, whole, short, damaged and cut, of a few packets and of tens of thousands, with
//! typing errors in the row, with rows and with transmission information near the rules, against docs/DELIVERY.md in plain Rust.
use crate::solver::{judged, some};
use differential::archive::{Arrived, Row};
use differential::report::{Found, Report};
use differential::rows::{self, sizes};
use differential::system::{self, Verdict};
use differential::{Random, code, near};
use raptorq::{ObjectTransmissionInformation, SourceBlockEncoder};
use raptorq_lent::rng::lent::published;
use std::borrow::Cow;
use std::collections::BTreeSet;
use std::fs::{self, File};
use std::process::Stdio;

mod program;
mod typed;
use program::{Files, Program, Seen};

const TOO_LARGE: &str = "too large for this program: T is at most 1,024, L at most 300";

fn number(bytes: &[u8]) -> u64 {
    bytes.iter().fold(0, |n, byte| n << 8 | u64::from(*byte))
}

/// F, T, Z, N and Al.
fn information(d: &[u8]) -> [u64; 5] {
    [&d[..5], &d[6..8], &d[8..9], &d[9..11], &d[11..12]].map(number)
}

fn row(d: &[u8]) -> Row {
    std::array::from_fn(|i| number(&d[12 + 4 * i..][..4]) as u32)
}

/// The line of a delivery that is not taken, in the order of docs/DELIVERY.md.
fn stop(d: &[u8]) -> Option<Cow<'static, str>> {
    if d.len() < 32 {
        return Some("refused 8: the delivery ends in its first 32 bytes".into());
    }
    let [f, t, z, n, al] = information(d);
    if f > 942_574_504_275 || al == 0 || t % al != 0 || t == 0 || z == 0 || n == 0 || n > t / al || f.div_ceil(t).div_ceil(z) > 56403 {
        return Some("refused 3: the transmission information breaks its rules".into());
    }
    if z > 1 || n > 1 {
        return Some("several blocks: this program takes one source block of one sub-block".into());
    }
    let Some([l, _, _, _]) = sizes(row(d)) else { return typed::line(row(d)).map(Cow::from) };
    let (k, most) = (f.div_ceil(t), u64::from(row(d)[0]));
    if k < 1 || k > most {
        return Some("refused 9: the count of source symbols is not from 1 to K'".into());
    }
    if t > 1024 || l > 300 {
        return Some(TOO_LARGE.into());
    }
    (d.len() < 4128).then(|| "refused 5: the random tables are not 1,024 numbers".into())
}

/// What a run comes to: the notes on standard error; then the object's bytes and no word, or a line of words and no byte.
#[derive(Debug, PartialEq)]
struct Outcome {
    notes: Vec<String>,
    came: Result<Vec<u8>, String>,
}

impl Outcome {
    /// A line of words, and no note.
    fn said(words: impl Into<String>) -> Outcome {
        Outcome { notes: vec![], came: Err(words.into()) }
    }
}

/// The words of a verdict, in a note; and in place of an object, which a verdict of solved has none of.
fn words(verdict: &Verdict) -> String {
    match verdict {
        Verdict::Solved(_) => "solved".into(),
        Verdict::Contradiction => "contradiction".into(),
        Verdict::Open(n) => format!("open, {n} more independent packets at least"),
    }
}

/// The verdict on these packets, ESI and symbol each. One that came before says nothing new.
fn verdict(d: &[u8], count: u32, came: &[(u32, &[u8])]) -> Verdict {
    let tables: Vec<u32> = d[32..4128].chunks(4).map(|n| number(n) as u32).collect();
    let (esis, symbols): (Vec<u32>, Vec<&[u8]>) = came.iter().copied().collect::<BTreeSet<_>>().into_iter().unzip();
    let came = Arrived { count, t: number(&d[6..8]) as u16, esis: &esis, symbols: &symbols.concat() };
    judged(row(d), &tables, came, &system::fixed(row(d), &tables, count)).0
}

/// What has to come of a delivery, and its kind in a word.
fn expected(d: &[u8]) -> (&'static str, Outcome) {
    if let Some(words) = stop(d) {
        return ("not taken", Outcome::said(words));
    }
    let (f, t, row) = (number(&d[..5]) as usize, number(&d[6..8]) as usize, row(d));
    let (count, packets) = (f.div_ceil(t) as u32, d[4128..].chunks_exact(t + 4));
    let (cut, all) = (!packets.remainder().is_empty(), packets.len());
    let own: Vec<(u32, &[u8])> = packets.filter(|p| p[0] == 0).map(|p| (number(&p[1..4]) as u32, &p[4..])).collect();
    let hundreds = (100..=own.len()).step_by(100);
    let mut notes: Vec<String> = hundreds.map(|n| format!("note: after {n} packets: {}", words(&verdict(d, count, &own[..n])))).collect();
    let others = all - own.len();
    notes.extend((others > 0).then(|| format!("note: packets of another block, passed over: {others}")));
    notes.extend(cut.then(|| "note: the last packet is not whole, and is passed over".into()));
    match verdict(d, count, &own) {
        Verdict::Solved(set) => {
            let tables: Vec<u32> = d[32..4128].chunks(4).map(|n| number(n) as u32).collect();
            let mut block: Vec<u8> = (0..count).flat_map(|esi| system::made(&system::sent(row, &tables, count, esi), &set, t)).collect();
            block.truncate(f);
            ("blocks", Outcome { notes, came: Ok(block) })
        }
        other => (if other == Verdict::Contradiction { "contradictions" } else { "open" }, Outcome { notes, came: Err(words(&other)) }),
    }
}

/// Names a delivery, and keeps it in a file to be looked at.
fn kept(d: &[u8], seed: u64, number: u64) -> String {
    let name = format!("target/receive-{seed}-{number}.delivery");
    let kept = fs::write(format!("{}/{name}", env!("CARGO_MANIFEST_DIR")), d);
    format!("delivery {number} of seed {seed}: {}", kept.map_or_else(|e| format!("not kept, {e}"), |()| format!("in differential/{name}")))
}

/// A delivery of an object in symbols of t bytes, by the crate's encoder: `came` of its packets, or all.
fn delivery(random: &mut Random, object: &[u8], t: usize, came: usize) -> Vec<u8> {
    let k = object.len().div_ceil(t);
    let mut padded = object.to_vec();
    padded.resize(k * t, 0);
    let config = ObjectTransmissionInformation::new(object.len() as u64, t as u16, 1, 1, 1);
    let encoder = SourceBlockEncoder::new(0, &config, &padded);
    let sent: Vec<_> = encoder.source_packets().into_iter().chain(encoder.repair_packets(random.below(1000) as u32, k as u32 + 10)).collect();
    let mut packets: Vec<Vec<u8>> = some(random, sent, came).iter().map(|p| p.serialize()).collect();
    if random.below(4) == 0 && !packets.is_empty() {
        packets.push(packets[random.below(packets.len() as u64) as usize].clone());
    }
    let row = rows::published().into_iter().find(|r| r[0] as usize >= k).unwrap();
    [head(&config, row), packets.concat()].concat()
}

/// What stands before the packets.
fn head(config: &ObjectTransmissionInformation, row: Row) -> Vec<u8> {
    let numbers = row.into_iter().chain(published()).flat_map(u32::to_be_bytes);
    config.serialize().into_iter().chain(numbers).collect()
}

/// A delivery of a block of k symbols, of which none came.
fn unheard(random: &mut Random, k: u32, row: Row) -> Vec<u8> {
    let t = 1 + random.below(40) as u16;
    head(&ObjectTransmissionInformation::new(u64::from(k) * u64::from(t), t, 1, 1, 1), row)
}

/// A delivery of any object; some packets are lost, some may come twice.
fn sound(random: &mut Random) -> Vec<u8> {
    let (most_k, most_t) = ([250, 40, 40, 20][random.below(4) as usize], if random.below(16) == 0 { 1024 } else { 40 });
    let (k, t) = (1 + random.below(most_k) as usize, 1 + random.below(most_t) as usize);
    let f = k * t - random.below(t as u64) as usize;
    let object = random.bytes(f);
    let came = (k + random.below(8) as usize).saturating_sub(3);
    delivery(random, &object, t, came)
}

/// A delivery of hundreds or thousands of packets, most of which came before, with those of other blocks between and at times an end that is cut.
fn long(random: &mut Random) -> Vec<u8> {
    let (k, t) = (1 + random.below(30) as usize, 1 + random.below(6) as usize);
    let (object, came) = (random.bytes(k * t), (k + random.below(6) as usize).saturating_sub(2));
    let few = delivery(random, &object, t, came);
    let (head, packets) = few.split_at(4128);
    let packets: Vec<&[u8]> = packets.chunks(t + 4).collect();
    let most = [500, 500, 2_000, 30_000][random.below(4) as usize];
    let mut d = head.to_vec();
    for _ in 0..if packets.is_empty() { 0 } else { 100 + random.below(most) } {
        let from = d.len();
        d.extend(packets[random.below(packets.len() as u64) as usize]);
        if random.below(8) == 0 {
            d[from] = random.byte();
        }
    }
    if random.below(4) == 0 {
        let at = 4128 + random.below(d.len() as u64 - 4127) as usize;
        d.truncate(at);
    }
    if random.below(8) == 0 && d.len() > 4128 {
        let at = 4128 + random.below(d.len() as u64 - 4128) as usize;
        d[at] ^= 1 << random.below(8);
    }
    d
}

/// What a delivery may announce other than one block of one sub-block, by the kind under which it is counted.
const ANNOUNCED: [&str; 6] = ["T of 0", "Z of 0", "N of 0", "N above T/Al", "Z above 1", "N from 2 to T/Al"];

/// The first of these that holds, where T is in units of Al.
fn announced(d: &[u8]) -> Option<&'static str> {
    let [_, t, z, n, al] = if d.len() < 32 { [0; 5] } else { information(d) };
    let holds = |units| [t == 0, z == 0, n == 0, n > units, z > 1, n > 1].into_iter().position(|holds| holds);
    t.checked_div(al).filter(|units| units * al == t).and_then(holds).map(|at| ANNOUNCED[at])
}

/// Another Al by which T can be divided, and another T, Z or N on either side of its rule.
fn announce(random: &mut Random, d: &mut [u8]) {
    let t = number(&d[6..8]) as u16;
    let alignments: Vec<u16> = (1..=t.min(255)).filter(|al| t % al == 0).collect();
    let al = alignments[random.below(alignments.len() as u64) as usize];
    d[11] = al as u8;
    let units = t / al;
    let n = [0, 0, 2, units, units + 1, units + 1, 1 + random.below(units.into()) as u16, random.word() as u16][random.below(8) as usize];
    match random.below(4) {
        0 => d[6..8].fill(0),
        1 => d[8] = [0, 0, 2, random.byte()][random.below(4) as usize],
        _ => d[9..11].copy_from_slice(&n.to_be_bytes()),
    }
}

/// What may happen to it on the way, or nothing.
fn damage(random: &mut Random, d: &mut Vec<u8>) {
    let len = d.len() as u64;
    let step = number(&d[6..8]) as usize + 4;
    match random.below(12) {
        0 => d.truncate(random.below(len + 1) as usize),
        1 => d.truncate([31, 32, 4127, 4128][random.below(4) as usize]),
        2 => d[random.below(32) as usize] ^= 1 << random.below(8),
        3 => d[random.below(12) as usize] = random.below(3) as u8,
        4 => d[32 + random.below(4096) as usize] ^= random.byte(),
        5 if len > 4128 => d[4128 + random.below(len - 4128) as usize] ^= 1 << random.below(8),
        6 if len > 4128 => d[4128 + step * random.below((len - 4128) / step as u64) as usize + random.below(4) as usize] ^= 1,
        7 | 8 => announce(random, d),
        _ => {}
    }
}

/// What has to be seen of a run, where the object goes to standard output or to a file of this name.
fn seen(due: &Outcome, to: Option<&str>, before: &Files) -> Seen {
    let said = due.notes.iter().chain(due.came.as_ref().err()).flat_map(|line| format!("{line}\n").into_bytes());
    let mut seen = Seen { output: vec![], words: said.collect(), files: before.clone() };
    match (&due.came, to) {
        (Ok(object), None) => seen.output = object.clone(),
        (Ok(object), Some(name)) => _ = seen.files.insert(name.into(), object.clone()),
        (Err(_), _) => {}
    }
    seen
}

const OUT: &str = "catalogue";

/// What an earlier night left: the file, and what a run that was killed had written beside it.
fn older() -> Files {
    Files::from([(OUT.into(), b"of the night before".to_vec()), (".catalogue.receive-0".into(), b"of the".to_vec())])
}

fn piped() -> [Stdio; 2] {
    [Stdio::piped(), Stdio::piped()]
}

/// Counts the part that a run has to tell, if its row is refused.
fn told(report: &mut Report, due: &Outcome) {
    let part = due.came.as_ref().err().and_then(|line| typed::part_in(line));
    report.due(part.map(|part| code(4, part)));
}

/// One delivery by standard output, and one in four to a file as well: whether that is there before, and whether its path is absolute, goes by the number.
fn tried(report: &mut Report, program: &Program, d: &[u8], seed: u64, number: u64) {
    let (kind, due) = expected(d);
    let nothing = Files::new();
    let same = program.run(&[], piped(), &nothing, d) == seen(&due, None, &nothing);
    told(report, &due);
    announced(d).into_iter().for_each(|kind| report.kind(kind));
    report.of(kind, same, || kept(d, seed, number));
    if number % 4 == 0 {
        let path = if number % 8 == 0 { OUT.into() } else { program.folder.join(OUT).display().to_string() };
        let before = if number % 16 < 8 { older() } else { nothing };
        let same = program.run(&[&path], piped(), &before, d) == seen(&due, Some(OUT), &before);
        report.of("to a file", same, || format!("to a file, {}", kept(d, seed, number)));
    }
}

/// A delivery with a typing error in its row, which may be larger than the program takes: a line that refuses the row has the name of that number.
fn mistyped(report: &mut Report, random: &mut Random, program: &Program, seed: u64, number: u64) {
    let any = rows::published()[random.below(477) as usize];
    let mut d = if random.below(2) == 0 { sound(random) } else { unheard(random, any[0], any) };
    let (wrong, at, slip) = typed::mistyped(random, row(&d));
    d[12..32].copy_from_slice(&wrong.map(u32::to_be_bytes).concat());
    let (kind, due) = expected(&d);
    let nothing = Files::new();
    let ran = program.run(&[], piped(), &nothing, &d);
    let (name, of) = typed::NUMBERS[at];
    let named = rows::part(wrong).is_none() || typed::names(&String::from_utf8_lossy(&ran.words), name);
    told(report, &due);
    [slip, of].into_iter().for_each(|kind| report.kind(kind));
    report.of(kind, ran == seen(&due, None, &nothing) && named, || format!("{wrong:?} with {name} typed wrong, {}", kept(&d, seed, number)));
}

/// What keeps the program from its work though the delivery is solved: it says so, writes nothing, and leaves every file as it was.
fn hindered(report: &mut Report, program: &Program, d: &[u8]) {
    let folder = || [File::open(&program.folder).expect("it is laid").into(), Stdio::piped()];
    let full = || [Stdio::piped(), File::create("/dev/full").expect("Linux has it").into()];
    let (long, longer) = ("x".repeat(250), "x".repeat(4001));
    let one = "more than one argument: it is receive, or receive OUT, with the delivery on standard input";
    let runs: [(&[&str], [Stdio; 2], &str); 10] = [
        (&[OUT, OUT], piped(), one),
        (&[""], piped(), "the name of OUT is empty"),
        (&[&longer], piped(), "the name of OUT has more than 4,000 bytes"),
        (&[&long], piped(), "no file can be made beside OUT: File name too long"),
        (&[], folder(), "standard input cannot be read: Is a directory"),
        (&[OUT], folder(), "standard input cannot be read: Is a directory"),
        (&[], full(), "standard output cannot be written: No space left on device"),
        (&["missing/catalogue"], piped(), "no file can be made beside OUT: No such file or directory"),
        (&["older/catalogue"], piped(), "no file can be made beside OUT: Not a directory"),
        (&["shelf"], piped(), "the file beside OUT cannot be renamed to OUT: Is a directory"),
    ];
    let before = older().into_iter().chain([("older".into(), vec![1]), ("shelf/".into(), vec![])]).collect();
    for (arguments, streams, words) in runs {
        let due = seen(&Outcome::said(words), None, &before);
        report.of("hindered", program.run(arguments, streams, &before, d) == due, || format!("the run that has to say: {words}"));
    }
}

/// A link at OUT is replaced, and not what it leads to.
fn linked(report: &mut Report, program: &Program, d: &[u8], object: &[u8]) {
    let left: Files = older().into_iter().map(|(name, bytes)| (name + ".old", bytes)).collect();
    let mut before = left.clone();
    before.insert("catalogue@".into(), b"catalogue.old".to_vec());
    let due = seen(&Outcome { notes: vec![], came: Ok(object.to_vec()) }, Some(OUT), &left);
    report.of("to a file", program.run(&[OUT], piped(), &before, d) == due, || "a link at OUT".into());
}

pub fn run(count: u64, seed: u64) -> Found {
    let mut report = Report::new("receive", seed);
    let mut random = Random::new(seed);
    let program = Program::new();
    // The object that words could be taken for, with every packet.
    let line = b"contradiction\n";
    let d = delivery(&mut random, line, 7, 14);
    assert_eq!(expected(&d), ("blocks", Outcome { notes: vec![], came: Ok(line.to_vec()) }), "the harness solves it");
    tried(&mut report, &program, &d, seed, 0);
    linked(&mut report, &program, &d, line);
    hindered(&mut report, &program, &d);
    let each = count / 200;
    for number in 1..=each {
        let mut d = sound(&mut random);
        damage(&mut random, &mut d);
        tried(&mut report, &program, &d, seed, number);
    }
    for number in each + 1..=2 * each {
        mistyped(&mut report, &mut random, &program, seed, number);
    }
    for number in 2 * each + 1..=3 * each {
        let row = near::row(&mut random, 1 + number as u32 % 9);
        let d = unheard(&mut random, 1 + number as u32 % 40, row);
        report.kind("rows near a rule");
        tried(&mut report, &program, &d, seed, number);
    }
    for number in 3 * each + 1..=3 * each + each / 4 {
        let d = long(&mut random);
        report.kind("long deliveries");
        tried(&mut report, &program, &d, seed, number);
    }
    report.met(1..=9, 100, count);
    report.met_kinds(ANNOUNCED, 50, count);
    report.close()
}
