//! The six calls that change a run or a symbol tell whether it is all zero now: the whole of it, and nothing beside it. Bytes and answers are compared with
//! those of plain Rust, on destinations that are made so that a call leaves a certain thing of them. How `out` is lent and refused is in bindings/c/zeros.c.
#![forbid(unsafe_code)]
mod common;
use common::{Random, product};
use spoonripple::slab::Slab;
use spoonripple::{Refusal, octets, slab};
use std::collections::BTreeMap;
use std::sync::LazyLock;

/// c · x at place x of row c.
static PRODUCTS: LazyLock<Vec<Vec<u8>>> = LazyLock::new(|| (0..=255).map(|c| (0..=255).map(|x| product(c, x)).collect()).collect());

/// What a call does with dst.
#[derive(Clone, Copy, Debug)]
enum Change {
    /// dst + src.
    Add,
    /// c · dst.
    Scale(u8),
    /// dst + c · src.
    Fma(u8),
}
use Change::{Add, Fma, Scale};

impl Change {
    /// One of the three; scalars 0 and 1 are often among them.
    fn any(random: &mut Random) -> Change {
        let c = [0, 1, 2, 142, random.below(256) as u8][random.below(5)];
        [Add, Scale(c), Fma(c)][random.below(3)]
    }

    fn name(self) -> &'static str {
        match self {
            Add => "add",
            Scale(_) => "scale",
            Fma(_) => "fma",
        }
    }

    /// What it makes of dst, in plain Rust.
    fn of(self, dst: &[u8], src: &[u8]) -> Vec<u8> {
        let (Scale(c) | Fma(c)) = self else { return Fma(1).of(dst, src) };
        let products = &PRODUCTS[usize::from(c)];
        let times = |x: &u8| products[usize::from(*x)];
        if let Scale(_) = self { dst.iter().map(times).collect() } else { dst.iter().zip(src).map(|(a, b)| a ^ times(b)).collect() }
    }

    /// A dst of which it leaves this; what is scaled by 0 can be anything. A sum that is added once more is gone.
    fn before(self, left: &[u8], src: &[u8]) -> Vec<u8> {
        match self {
            Scale(0) => left.to_vec(),
            Scale(c) => Scale((1..=255).find(|x| product(c, *x) == 1).unwrap()).of(left, src),
            Add | Fma(_) => self.of(left, src),
        }
    }

    fn on_run(self, dst: &mut [u8], src: &[u8]) -> Result<bool, Refusal> {
        match self {
            Add => octets::run_add(dst, src),
            Scale(c) => Ok(octets::run_scale(dst, c)),
            Fma(c) => octets::run_fma(dst, src, c),
        }
    }

    fn on_slab(self, store: &mut [u8], slab: Slab, order: &[u32], dest: usize, src: usize) -> Result<bool, Refusal> {
        match self {
            Add => slab::add_assign(store, slab, order, dest, src),
            Scale(c) => slab::mulassign_scalar(store, slab, order, dest, c),
            Fma(c) => slab::fma(store, slab, order, dest, src, c),
        }
    }
}

/// On both sides of what a loop may take at once, and of a chunk of 1,024 bytes.
const LENGTHS: [usize; 12] = [0, 1, 15, 16, 17, 63, 64, 65, 1023, 1024, 1025, 2048];
const CHUNK: usize = 1024;

/// One of these, the longest that a symbol can have, or any; longer than a chunk where that is to be left of it.
fn length(random: &mut Random, what: &str) -> usize {
    let n = match random.below(80) {
        0 => 65535,
        1..15 => random.below(3000),
        _ => LENGTHS[random.below(LENGTHS.len())],
    };
    if what.starts_with("all but") && n <= CHUNK { n + CHUNK } else { n }
}

/// What a call can leave of a destination; all but the first are not zero, though what one gathers of them could be.
const LEFT: [&str; 10] = [
    "zero",
    "the first byte",
    "the last byte",
    "a byte",
    "two of which the exclusive or is 0",
    "two of which the sum is 0",
    "all but the last 1,024 bytes",
    "all but the last chunk of 1,024",
    "all but the first chunk of 1,024",
    "any",
];

/// n bytes of which that is left; where there are too few for it, perhaps none.
fn left(random: &mut Random, what: &str, n: usize) -> Vec<u8> {
    let mut left = vec![0; n];
    if n == 0 {
        return left;
    }
    let (at, other, byte) = (random.below(n), random.below(n), 1 + random.below(255) as u8);
    match what {
        "the first byte" => left[0] = byte,
        "the last byte" => left[n - 1] = byte,
        "a byte" => left[at] = byte,
        "two of which the exclusive or is 0" => (left[at], left[other]) = (byte, byte),
        "two of which the sum is 0" => (left[at], left[other]) = (byte, byte.wrapping_neg()),
        "all but the last 1,024 bytes" => left[..n.saturating_sub(CHUNK)].fill(byte),
        "all but the last chunk of 1,024" => left[..(n - 1) / CHUNK * CHUNK].fill(byte),
        "all but the first chunk of 1,024" => left[CHUNK.min(n)..].fill(byte),
        "any" => left = random.bytes(n),
        _ => (),
    }
    left
}

fn zero(bytes: &[u8]) -> bool {
    bytes.iter().all(|x| *x == 0)
}

/// How often a call left that, and this was the answer.
type Met = BTreeMap<(&'static str, &'static str, bool), u32>;

fn met_all(met: &Met, least: u32) {
    let often = |name, what, due| met.get(&(name, what, due)).is_some_and(|n| *n >= least);
    for name in ["add", "scale", "fma"] {
        assert!(LEFT.iter().all(|what| often(name, what, *what == "zero")), "{met:?}");
    }
}

/// Bytes to be added: any, or zeros.
fn source(random: &mut Random, n: usize) -> Vec<u8> {
    if random.below(8) == 0 { vec![0; n] } else { random.bytes(n) }
}

#[test]
fn a_run_tells_whether_it_is_all_zero_now() {
    let (mut random, mut met) = (Random::new(51), Met::new());
    for case in 0..8000 {
        let (change, what) = (Change::any(&mut random), LEFT[case % LEFT.len()]);
        let n = length(&mut random, what);
        let (left, src) = (left(&mut random, what, n), source(&mut random, n));
        let mut dst = change.before(&left, &src);
        let due = change.of(&dst, &src);
        assert_eq!(change.on_run(&mut dst, &src), Ok(zero(&due)), "{change:?} leaves {what} of {n}");
        assert!(dst == due, "{change:?} leaves {what} of {n}");
        *met.entry((change.name(), what, zero(&due))).or_default() += 1;
    }
    met_all(&met, 50);
}

/// None, each place once, some twice, and with entries outside that are not used.
fn order(random: &mut Random, count: usize) -> Vec<u32> {
    let mut order: Vec<u32> = (0..count as u32).collect();
    match random.below(4) {
        0 => order.clear(),
        1 => (0..count).for_each(|i| order.swap(i, random.below(count))),
        2 => order.fill_with(|| random.below(count) as u32),
        _ => order.fill_with(|| [random.below(count) as u32, count as u32, u32::MAX][random.below(5).saturating_sub(2)]),
    }
    order
}

#[test]
fn a_symbol_tells_whether_it_is_all_zero_now() {
    let (mut random, mut met, mut repeated) = (Random::new(52), Met::new(), 0);
    let mut case = 0;
    while case < 8000 {
        let (change, what) = (Change::any(&mut random), LEFT[case % LEFT.len()]);
        let n = length(&mut random, what);
        let slab = Slab { count: 1 + random.below(if n > 3000 { 3 } else { 7 }), t: n as u16 };
        let order = order(&mut random, slab.count);
        let [dest, src] = [0; 2].map(|_| random.below(slab.count));
        let [to, from] = [dest, src].map(|i| if order.is_empty() { i } else { order[i] as usize });
        // What is scaled needs no src.
        if to >= slab.count || !matches!(change, Scale(_)) && (from >= slab.count || from == to) {
            continue;
        }
        // What lies around dest is zero or not, past the last symbol too.
        let symbols: Vec<Vec<u8>> = (0..slab.count).map(|_| source(&mut random, n)).chain([vec![0, 0, 7]]).collect();
        let mut store = symbols.concat();
        let (left, added) = (left(&mut random, what, n), symbols.get(from).cloned().unwrap_or_default());
        store[to * n..][..n].copy_from_slice(&change.before(&left, &added));
        let made = change.of(&store[to * n..][..n], &added);
        let due = [&store[..to * n], &made, &store[(to + 1) * n..]].concat();
        assert_eq!(change.on_slab(&mut store, slab, &order, dest, src), Ok(zero(&made)), "{change:?} leaves {what} of {slab:?}, {order:?}, {dest}, {src}");
        assert!(store == due, "{change:?} leaves {what} of {slab:?}, {order:?}, {dest}, {src}");
        *met.entry((change.name(), what, zero(&made))).or_default() += 1;
        repeated += u32::from(order.iter().filter(|place| **place == to as u32).count() > 1);
        case += 1;
    }
    met_all(&met, 50);
    assert!(repeated >= 200, "{repeated}");
}

/// A single bit in a single byte, whichever it is, is enough for no; without it the answer is yes.
#[test]
fn every_byte_counts() {
    let mut random = Random::new(53);
    for n in (1..=130).chain([1023, 1024, 1025, 2047, 2048, 2049]) {
        let (pair, src, mut due) = (Slab { count: 2, t: n as u16 }, random.bytes(n), vec![0; n]);
        for change in [Add, Scale(1), Scale(29), Fma(0), Fma(1), Fma(29)] {
            let vanishes = change.before(&due, &src);
            let tried = |dst: &[u8], due: &[u8]| {
                let (mut run, mut behind, mut ahead) = (dst.to_vec(), [&src, dst].concat(), [dst, &src].concat());
                let said = [change.on_run(&mut run, &src), change.on_slab(&mut behind, pair, &[], 1, 0), change.on_slab(&mut ahead, pair, &[], 0, 1)];
                assert!(run == due && behind == [&src, due].concat() && ahead == [due, &src].concat(), "{change:?} of {n}");
                said
            };
            assert_eq!(tried(&vanishes, &due), [Ok(true); 3], "{change:?} of {n}");
            for at in 0..n {
                let (mut dst, bit) = (vanishes.clone(), 1 << random.below(8));
                dst[at] ^= bit;
                due[at] = if let Scale(c) = change { product(c, bit) } else { bit };
                assert_eq!(tried(&dst, &due), [Ok(false); 3], "{change:?} of {n}, at {at}");
                due[at] = 0;
            }
        }
    }
}

#[test]
fn nothing_is_all_zero() {
    for change in (0..=255).flat_map(|c| [Add, Scale(c), Fma(c)]) {
        assert_eq!(change.on_run(&mut [], &[]), Ok(true));
        let mut store = [7; 5];
        for (order, dest, src) in [(&[][..], 0, 1), (&[], 2, 0), (&[2, 2, 0], 1, 2)] {
            assert_eq!(change.on_slab(&mut store, Slab { count: 3, t: 0 }, order, dest, src), Ok(true));
        }
        assert_eq!(change.on_slab(&mut [], Slab { count: 3, t: 0 }, &[], 0, 1), Ok(true));
        assert_eq!(store, [7; 5]);
    }
}

#[test]
fn refused_runs_stay() {
    let mut random = Random::new(54);
    for _ in 0..2000 {
        let [n, m] = [0; 2].map(|_| length(&mut random, "any").min(3000));
        let m = if n == m { n + 1 } else { m };
        let (c, src, mut dst) = (random.below(4) as u8, random.bytes(m), random.bytes(n));
        let before = dst.clone();
        for change in [Add, Fma(c)] {
            assert_eq!(change.on_run(&mut dst, &src), Err(Refusal::WrongLength), "{change:?} of {n} and {m}");
            assert!(dst == before, "{change:?} of {n} and {m}");
        }
    }
}

/// The refusal that is due, the first that applies.
fn refusal(change: Change, room: usize, slab: Slab, order: &[u32], dest: usize, src: usize) -> Option<Refusal> {
    let Slab { count, t } = slab;
    let place = |i: usize| if order.is_empty() { i } else { order.get(i).map_or(usize::MAX, |place| *place as usize) };
    let both = !matches!(change, Scale(_));
    let rules = [
        (count > 131_070, Refusal::OutOfRange),
        (room < count * usize::from(t), Refusal::WrongLength),
        (!order.is_empty() && order.len() != count, Refusal::WrongLength),
        (place(dest) >= count || both && place(src) >= count, Refusal::Outside),
        (both && place(dest) == place(src), Refusal::SamePlace),
    ];
    rules.into_iter().find_map(|(broken, refusal)| broken.then_some(refusal))
}

/// Whatever is wrong, alone and with all else: the first refusal that applies is given, and the store stays.
#[test]
fn refused_symbols_stay() {
    let mut met = BTreeMap::<u32, u32>::new();
    for (count, t) in [0, 1, 2, 3, 131_070, 131_071].into_iter().flat_map(|count| [(count, 0), (count, 1)]) {
        let (slab, whole) = (Slab { count, t }, count * usize::from(t));
        let each: Vec<u32> = (0..=count as u32).collect();
        let outside: Vec<u32> = (0..count).map(|i| [count as u32 - 1, count as u32, u32::MAX][if i < 3 { i } else { 0 }]).collect();
        let orders = [&[][..], &each[..count], &each[..count.saturating_sub(1)], &each[..], &vec![0; count], &outside];
        let symbols = [0, 1, 2, count.saturating_sub(1), count, usize::MAX];
        for room in [whole.saturating_sub(1), whole, whole + 1] {
            let before = Random::new(55).bytes(room);
            let mut store = before.clone();
            for (order, dest, src) in orders.into_iter().flat_map(|order| symbols.map(|dest| symbols.map(|src| (order, dest, src)))).flatten() {
                for change in [Add, Scale(0), Fma(0), Fma(9)] {
                    let (said, due) = (change.on_slab(&mut store, slab, order, dest, src), refusal(change, room, slab, order, dest, src));
                    assert_eq!(said.err(), due, "{change:?} {slab:?} {room} {dest} {src}, an order of {}", order.len());
                    assert!(due.is_none() || store == before, "{change:?} {slab:?} {room} {dest} {src}, an order of {}", order.len());
                    store.copy_from_slice(&before);
                    *met.entry(due.map_or(0, Refusal::number)).or_default() += 1;
                }
            }
        }
    }
    let huge = Slab { count: usize::MAX, t: u16::MAX };
    assert_eq!([Add, Scale(0), Fma(0)].map(|change| change.on_slab(&mut [], huge, &[1], 0, 0)), [Err(Refusal::OutOfRange); 3]);
    assert!([0, 2, 6, 7, 8].iter().all(|number| met[number] >= 300), "{met:?}");
}
