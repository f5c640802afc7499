//! The calls beneath `Block`: what their stores hold afterwards, and what they refuse.
#![forbid(unsafe_code)]
mod common;
use common::{Packet, Random, Sender, fresh, long_walks, walk};
use spoonripple::blocks::{Arrivals, Room, Shown, Stores, display, encode, solve};
use spoonripple::tuples::{isi, tuple};
use spoonripple::{Refusal, Row, Tables, Verdict};
use std::collections::BTreeSet;

const K: u32 = 12;
const T: u16 = 6;

/// A call of `solve`, with three places in each store past those that it asks for.
struct Call {
    row: Row,
    esis: Vec<u32>,
    symbols: Vec<u8>,
    room: Room,
    stores: [Vec<u8>; 3],
}

impl Call {
    fn new(packets: &[Packet]) -> Call {
        let row = Row::published(K).unwrap();
        let (esis, symbols): (Vec<u32>, Vec<Vec<u8>>) = packets.iter().cloned().unzip();
        let symbols = symbols.concat();
        let room = Room::of(row, Arrivals { count: K, t: T, esis: &esis, symbols: &symbols });
        let stores = [room.rows, room.values, room.out].map(|n| vec![0xA5; n + 3]);
        Call { row, esis, symbols, room, stores }
    }

    fn solve(&mut self) -> Result<Verdict, Refusal> {
        let arrivals = Arrivals { count: K, t: T, esis: &self.esis, symbols: &self.symbols };
        let [rows, values, out] = &mut self.stores;
        solve(self.row, Tables::published(), arrivals, Stores { rows, values, out })
    }
}

fn sender() -> Sender {
    Sender::new(&mut Random::new(K.into()), K, T)
}

#[test]
fn the_stores_of_solve_are_as_large_as_told_and_left_as_told() {
    let (sender, contradiction) = (sender(), [(40, vec![7; 6]), (40, vec![8; 6])]);
    let whole = sender.packets(2..15);
    for (packets, verdict) in [
        (whole.clone(), Verdict::Solved),
        (sender.packets(4..15), Verdict::Open { shortfall: 1 }),
        ([whole.clone(), contradiction.to_vec()].concat(), Verdict::Contradiction),
    ] {
        let mut call = Call::new(&packets);
        let l = call.row.l() as usize;
        let m = l - K as usize + packets.len();
        assert_eq!(call.room, Room { rows: m * l, values: m * 6, out: l * 6 });
        assert_eq!(call.solve(), Ok(verdict));
        let [rows, values, out] = &call.stores;
        for (scratch, used) in [(rows, call.room.rows), (values, call.room.values)] {
            assert!(scratch[..used].iter().all(|x| *x == 0) && scratch[used..] == [0xA5; 3]);
        }
        let set = if verdict == Verdict::Solved { fresh(K, T, &sender.packets(0..K)).set } else { vec![0xA5; call.room.out] };
        assert_eq!((&out[..call.room.out], &out[call.room.out..]), (&set[..], &[0xA5; 3][..]));
    }
}

#[test]
fn solve_refuses_and_leaves_the_stores() {
    let sender = sender();
    let call = || Call::new(&sender.packets(0..K + 1));
    type Damage = fn(&mut Call);
    let damages: [(Damage, u32); 6] = [
        (|c| c.stores[0].truncate(c.room.rows - 1), 8),
        (|c| c.stores[1].truncate(c.room.values - 1), 8),
        (|c| c.stores[2].truncate(c.room.out - 1), 8),
        (|c| c.symbols.truncate(5), 10),
        (|c| c.esis[1] = 1 << 24, 9),
        (|c| c.row = Row::published(10).unwrap(), 9),
    ];
    for (damage, number) in damages {
        let mut call = call();
        damage(&mut call);
        assert_eq!(call.solve().map_err(Refusal::code), Err(number));
        assert!(call.stores.iter().flatten().all(|x| *x == 0xA5));
    }
    let [rows, values, out] = &mut call().stores;
    let none = Arrivals { count: K, t: 0, esis: &[], symbols: &[] };
    assert_eq!(solve(call().row, Tables::published(), none, Stores { rows, values, out }), Err(Refusal::BadSize));
}

#[test]
fn encode_refuses_and_leaves_the_store() {
    let (row, tables, set) = (Row::published(K).unwrap(), Tables::published(), fresh(K, T, &sender().packets(0..K)).set);
    let mut symbol = [9; 8];
    assert_eq!(encode(row, tables, K, T, 3, &set, &mut symbol), Ok(()));
    assert_eq!((&symbol[..6], &symbol[6..]), (&sender().data[18..24], &[9, 9][..]));
    let before = symbol;
    let refused = |call: Result<(), Refusal>, number| assert_eq!(call.map_err(Refusal::code), Err(number));
    refused(encode(row, tables, 0, T, 1, &set, &mut symbol), 9);
    refused(encode(row, tables, K, T, 1 << 24, &set, &mut symbol), 9);
    refused(encode(row, tables, K, 0, 1, &set, &mut symbol), 10);
    refused(encode(row, tables, K, T, 1, &set[1..], &mut symbol), 8);
    refused(encode(row, tables, K, T, 1, &set, &mut symbol[3..]), 8);
    assert_eq!(symbol, before);
}

/// The symbol of an ESI is the sum of the intermediate symbols, of any octets, at all the places of its walk, of which it tells how many there are.
fn places_added(row: Row, tables: Tables, count: u32, esi: u32) -> usize {
    let set = Random::new(esi.into()).bytes(row.l() as usize * usize::from(T));
    let places = walk(row, tuple(row, tables, isi(row, count, esi).unwrap()));
    let mut due = [0; T as usize];
    places.iter().for_each(|place| due.iter_mut().zip(&set[*place as usize * usize::from(T)..]).for_each(|(a, b)| *a ^= b));
    let mut symbol = [9; T as usize + 2];
    assert_eq!(encode(row, tables, count, T, esi, &set, &mut symbol), Ok(()), "{row:?} {count} {esi}");
    assert_eq!((&symbol[..due.len()], &symbol[due.len()..]), (&due[..], &[9, 9][..]), "{row:?} {count} {esi}");
    places.len()
}

#[test]
fn encode_adds_up_all_places_of_a_walk() {
    let (tables, long) = (Tables::published(), long_walks());
    // ESIs with d = 30 and d1 = 2: source symbols and repair symbols, in W of 37 and above; in a block of K below K' too.
    for (count, esi) in [(26, 9), (26, 39), (25, 38), (114, 6), (114, 129), (1002, 15)] {
        assert_eq!(places_added(Row::published(count).unwrap(), tables, count, esi), 32);
    }
    // In a short block walks of every length come.
    let row = Row::published(26).unwrap();
    assert_eq!((0..3000).map(|esi| places_added(row, tables, 26, esi)).collect::<BTreeSet<_>>(), (3..=32).collect());
    // Tables of one's own may make each of them as long as it can be.
    for row in [row, Row::new([30, 254, 7, 10, 37]).unwrap(), Row::published(114).unwrap()] {
        assert!((0..300).chain([(1 << 24) - 1]).all(|esi| places_added(row, Tables::new(&long).unwrap(), row.k_prime(), esi) == 32));
    }
}

#[test]
fn display_takes_the_first_arrival_or_what_was_rebuilt() {
    let arrivals = Arrivals { count: 4, t: 2, esis: &[9, 2, 0, 2], symbols: &[1, 2, 3, 4, 5, 6, 7, 8] };
    let rebuilt = [10, 11, 12, 13, 14, 15, 16, 17];
    assert_eq!(display(arrivals, &rebuilt, 0), Ok(Shown::Arrived(&[5, 6])));
    assert_eq!(display(arrivals, &rebuilt, 2), Ok(Shown::Arrived(&[3, 4])));
    assert_eq!(display(arrivals, &rebuilt, 3), Ok(Shown::Rebuilt(&[16, 17])));
    let refused = |arrivals, rebuilt, i, number| assert_eq!(display(arrivals, rebuilt, i).map_err(Refusal::code), Err(number));
    refused(arrivals, &rebuilt, 4, 6);
    refused(arrivals, &rebuilt[1..], 4, 8);
    refused(Arrivals { t: 0, ..arrivals }, &rebuilt, 0, 10);
    refused(Arrivals { t: 1, ..arrivals }, &rebuilt, 0, 10);
    refused(Arrivals { count: 56404, ..arrivals }, &rebuilt, 0, 9);
    refused(Arrivals { esis: &[9, 2, 1 << 24, 2], ..arrivals }, &rebuilt, 0, 9);
}
