//! The symbol slab: random sequences of operations on both sides, the whole memory compared after each; and the answers whether a symbol is all zero now.
use differential::archive::{self, Answer, Slab};
use differential::report::{Found, Report, area};
use differential::telling::{self, Call};
use differential::{Lent, Random, caught, refusal, values};
use raptorq::octet::Octet;
use raptorq::symbol_slab::SymbolSlab;
use std::ops::Range;

const COUNTS: [u64; 7] = [0, 1, 2, 3, 5, 8, 20];
const SIZES: [u64; 14] = [0, 1, 2, 15, 16, 17, 63, 64, 65, 128, 255, 256, 257, 600];
/// Around one chunk and two.
const LONG: [u64; 6] = [1023, 1024, 1025, 2047, 2048, 2049];
const ABOVE_LIMITS: &str = "D27 (stores above the limits)";

/// One operation: a call that changes a symbol, or without one where a symbol lies; its places, its scalar, and the room for what it answers.
#[derive(Debug)]
struct Step {
    call: Option<Call>,
    dest: usize,
    src: usize,
    scalar: u8,
    room: usize,
}

impl Step {
    fn any(random: &mut Random, count: usize) -> Step {
        let scalar = random.byte() >> random.below(8);
        let call = (random.below(4) > 0).then(|| Call::any(random));
        Step { call, dest: random.near(count), src: random.near(count), scalar, room: random.room(if call.is_some() { 1 } else { 2 }) }
    }
    fn places(&self) -> Vec<usize> {
        if matches!(self.call, Some(Call::Add | Call::Fma)) { vec![self.dest, self.src] } else { vec![self.dest] }
    }
    /// How many values it answers.
    fn answers(&self) -> usize {
        if self.call.is_some() { 1 } else { 2 }
    }
}

/// A length that an order of so many symbols cannot have.
fn strange(order: &[u32], slab: Slab) -> bool {
    !order.is_empty() && order.len() != slab.count
}

fn physical(order: &[u32], i: usize) -> Option<usize> {
    if order.is_empty() { Some(i) } else { order.get(i).map(|place| *place as usize) }
}

/// The bytes of a symbol whose place is inside.
fn bytes_of(slab: Slab, order: &[u32], i: usize) -> Range<usize> {
    let t = usize::from(slab.size);
    let at = physical(order, i).expect("it has a place") * t;
    at..at + t
}

/// What documents 01 and 02 say of a step on a store of len bytes: the refusal, if there is one.
fn refused(len: usize, slab: Slab, order: &[u32], step: &Step) -> Option<u32> {
    let places = step.places();
    let outside = |i: &usize| *i >= slab.count || physical(order, *i).is_none_or(|place| place >= slab.count);
    refusal(&[
        (2, slab.count > 131_070),
        (8, step.room < step.answers()),
        (8, len < slab.count * usize::from(slab.size)),
        (8, strange(order, slab)),
        (6, places.iter().any(outside)),
        (7, places.len() == 2 && physical(order, places[0]) == physical(order, places[1])),
    ])
}

/// Whether the crate takes a step: it finds each place in the order, if it has one, and of two it asserts that they differ and are below the count, but
/// a part of 0 bytes lies in any slab. With debug assertions it takes no multiply-add by 0 or 1.
fn takes(slab: Slab, order: &[u32], step: &Step) -> bool {
    let found: Vec<Option<usize>> = step.places().into_iter().map(|i| physical(order, i)).collect();
    let inside = |place: &Option<usize>| place.is_some_and(|p| p < slab.count || (slab.size == 0 && found.len() == 1));
    found.iter().all(inside) && (found.len() == 1 || found[0] != found[1]) && !(cfg!(debug_assertions) && step.call == Some(Call::Fma) && step.scalar < 2)
}

fn ours(store: &mut [u8], slab: Slab, order: &[u32], step: &Step) -> Answer<Vec<u64>> {
    values(step.room, step.answers(), |out| match step.call {
        Some(Call::Add) => archive::slab_add_assign(store, slab, order, step.dest, step.src, out),
        Some(Call::Scale) => archive::slab_mulassign_scalar(store, slab, order, step.dest, step.scalar, out),
        Some(Call::Fma) => archive::slab_fma(store, slab, order, step.dest, step.src, step.scalar, out),
        None => archive::slab_locate(store.len(), slab, order, step.dest, out),
    })
}

/// The crate's answer is the bytes of the symbol, for `get`.
fn theirs(slab: &mut SymbolSlab, step: &Step) -> Vec<u8> {
    let scalar = Octet::new(step.scalar);
    match step.call {
        Some(Call::Add) => slab.add_assign(step.dest, step.src),
        Some(Call::Scale) => slab.mulassign_scalar(step.dest, &scalar),
        Some(Call::Fma) => slab.fma(step.dest, step.src, &scalar),
        None => return slab.get(step.dest).to_vec(),
    }
    vec![]
}

/// The crate's slab with these bytes, or 0 past their end, and this order, if it is one.
fn crates_slab(slab: Slab, order: &[u32], store: &[u8]) -> SymbolSlab {
    let mut crates = SymbolSlab::with_zeros(slab.count, slab.size.into());
    let n = store.len().min(crates.data.len());
    crates.data[..n].copy_from_slice(&store[..n]);
    if !order.is_empty() {
        crates.set_reorder(order.iter().map(|i| *i as usize).collect());
    }
    crates
}

/// How many symbols, of how many bytes; the long ones are few.
fn any_slab(random: &mut Random) -> Slab {
    let few = 2 + random.below(2) as usize;
    match random.below(1024) {
        0 => Slab { count: few, size: 65535 },
        1..64 => Slab { count: few, size: LONG[random.below(6) as usize] as u16 },
        _ => Slab { count: COUNTS[random.below(7) as usize] as usize, size: SIZES[random.below(14) as usize] as u16 },
    }
}

fn sequence(report: &mut Report, random: &mut Random) {
    let slab = any_slab(random);
    let more = random.below(3) as usize;
    let mut store = random.bytes(slab.count * usize::from(slab.size) + more);
    // Entries repeat often, and some lie outside.
    let order: Vec<u32> = match random.below(3) {
        0 => vec![],
        _ => (0..slab.count).map(|_| random.near(slab.count) as u32).collect(),
    };
    let mut crates = crates_slab(slab, &order, &store);
    for _ in 0..=random.below(4) {
        let step = Step::any(random, slab.count);
        if random.below(4) > 0 {
            prepare(random, &mut store, &mut crates, slab, &order, &step);
        }
        one_step(report, &mut store, &mut crates, slab, &order, &step);
    }
}

/// On both sides the destination of a step that is not refused is made such that a telling symbol comes of it.
fn prepare(random: &mut Random, store: &mut [u8], crates: &mut SymbolSlab, slab: Slab, order: &[u32], step: &Step) {
    let Some(call) = step.call.filter(|_| refused(store.len(), slab, order, step).is_none()) else { return };
    let src = if call == Call::Scale { vec![] } else { store[bytes_of(slab, order, step.src)].to_vec() };
    let dst = call.before(telling::left(random, slab.size.into()), &src, step.scalar);
    let at = bytes_of(slab, order, step.dest);
    store[at.clone()].copy_from_slice(&dst);
    crates.data[at].copy_from_slice(&dst);
}

fn one_step(report: &mut Report, store: &mut [u8], crates: &mut SymbolSlab, slab: Slab, order: &[u32], step: &Step) {
    let before = store.to_vec();
    let said = || format!("{slab:?}, order {order:?}, {step:?} on {before:?}");
    let refused = refused(store.len(), slab, order, step);
    let answer = ours(store, slab, order, step);
    if refused == Some(8) && !strange(order, slab) {
        return report.refusal(answer == Err(8) && store == before, said);
    }
    let kept = crates.clone();
    let given = caught(|| theirs(crates, step));
    if let Some(n) = refused {
        *crates = kept;
        let rule = match n {
            2 => ABOVE_LIMITS,
            8 => "D28 (an order of another length)",
            _ if given.is_some() => "D15 (a place outside is taken where T is 0)",
            _ => "D14 (the slab panics)",
        };
        return report.listed(rule, answer == Err(n) && store == before && given.is_some() == takes(slab, order, step), said);
    }
    let by_hand = given.is_none() && !takes(slab, order, step);
    if by_hand {
        (0..step.scalar).for_each(|_| crates.add_assign(step.dest, step.src));
    }
    let used = crates.data.len();
    let memory = store[..used] == crates.data && store[used..] == before[used..];
    let Some(call) = step.call else {
        let shown = answer.map(|v| store[v[0] as usize..v[1] as usize].to_vec()).ok();
        return report.equal(given.is_some() && shown == given && memory, said);
    };
    if by_hand {
        report.listed("D4 (scalars 0 and 1)", answer.is_ok() && memory, said);
    } else {
        report.equal(answer.is_ok() && given.is_some() && memory, said);
    }
    // The crate has no such answer.
    telling::held(report, call, &crates.data[bytes_of(slab, order, step.dest)], &answer, said);
}

/// Zeros in a store of these bytes; what the store then holds.
fn zeros(report: &mut Report, slab: Slab, before: Vec<u8>) -> Vec<u8> {
    let len = before.len();
    let lent = Lent::to(before, |store| archive::slab_with_zeros(store, slab));
    let given = caught(|| SymbolSlab::with_zeros(slab.count, slab.size.into()).data);
    let said = || format!("zeros, {slab:?} in {len}");
    match refusal(&[(2, slab.count > 131_070), (8, len < slab.count * usize::from(slab.size))]) {
        Some(2) => report.listed(ABOVE_LIMITS, lent.refused(2) && given.is_some(), said),
        Some(n) => report.refusal(lent.refused(n), said),
        None => report.equal(given.is_some_and(|bytes| lent.holds(&bytes)), said),
    }
    lent.after
}

/// Stores that are measured: too short, orders of another length, zeroing, and now and then more symbols than there may be.
fn stores(report: &mut Report, random: &mut Random) {
    let slab = Slab { count: random.below(9) as usize, size: random.below(40) as u16 };
    let len = (slab.count * usize::from(slab.size) + random.below(4) as usize).saturating_sub(2);
    zeros(report, slab, random.bytes(len));
    let mut store = random.bytes(len);
    let order: Vec<u32> = (0..random.below(12)).map(|_| random.below(9) as u32).collect();
    let mut crates = crates_slab(slab, &order, &store);
    one_step(report, &mut store, &mut crates, slab, &order, &Step::any(random, 9));
    if random.below(64) == 0 {
        many(report, random);
    }
}

/// More symbols than document 01 allows.
fn many(report: &mut Report, random: &mut Random) {
    let slab = Slab { count: 131_071 + random.below(2) as usize, size: random.below(4) as u16 };
    let mut store = zeros(report, slab, vec![7; slab.count * usize::from(slab.size)]);
    let order: Vec<u32> = if random.below(2) == 0 { vec![] } else { (0..slab.count as u32).rev().collect() };
    let mut crates = crates_slab(slab, &order, &store);
    one_step(report, &mut store, &mut crates, slab, &order, &Step::any(random, slab.count));
}

pub fn run(count: u64, seed: u64) -> Found {
    let mut report = area("slab", count, seed, sequence, stores);
    telling::met(&mut report, count);
    report.close()
}
