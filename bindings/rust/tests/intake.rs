//! The intake: whatever it is begun with, given and asked, it says what one call of the solver says on the packets accepted since it was begun. And the calls
//! beneath it: their memory, what they refuse, and content that is none of theirs.
#![forbid(unsafe_code)]
mod common;
use common::{Fresh, Packet, Random, Sender, fresh};
use spoonripple::intake::{Room, Stores, begin, packet, question};
use spoonripple::{Intake, Refusal, Row, Tables, Verdict};
use std::collections::BTreeMap;

fn begun(k: u32, t: u16) -> Intake {
    Intake::begin(Row::published(k).unwrap(), Tables::published(), k, t).unwrap()
}

/// What an intake says, and that the solver says the same of what it accepted: verdict, set and source block.
fn asked(intake: &mut Intake, k: u32, t: u16, accepted: &[Packet]) -> Verdict {
    let Fresh { verdict, set, source } = fresh(k, t, accepted);
    assert_eq!(intake.question(), verdict, "{k} {t} {accepted:?}");
    assert_eq!((intake.verdict(), intake.accepted()), (Some(verdict), accepted.len() as u64));
    assert_eq!(intake.intermediates(), (verdict == Verdict::Solved).then_some(&set[..]), "{k} {t} {accepted:?}");
    assert_eq!(intake.source(), source);
    verdict
}

/// A packet that is refused, and why: an ESI or a symbol that cannot be.
fn refused(random: &mut Random, intake: &mut Intake, symbol: &[u8]) -> Refusal {
    let before = (intake.accepted(), intake.verdict());
    let (esi, symbol, due) = match random.below(3) {
        0 => ([1 << 24, u32::MAX][random.below(2)], &symbol[..random.below(symbol.len() + 1)], Refusal::BadCount),
        1 => (3, &symbol[1..], Refusal::BadSize),
        _ => (3, &[symbol, &[0]].concat()[..], Refusal::BadSize),
    };
    assert_eq!(intake.packet(esi, symbol), Err(due));
    assert_eq!((intake.accepted(), intake.verdict()), before);
    due
}

/// Begins, packets and questions in any order, some packets twice and some damaged, some calls refused.
#[test]
fn a_night_is_the_solver_on_what_was_accepted() {
    let (mut random, mut met) = (Random::new(1), BTreeMap::<String, u32>::new());
    let mut intake = begun(1, 1);
    for _ in 0..1200 {
        let (k, t) = (1 + random.below(24) as u32, [1, 1, 2, 5][random.below(4)]);
        let sender = Sender::new(&mut random, k, t);
        let (damage, asks) = ([usize::MAX, 40, 8][random.below(3)], [1, 3, 9][random.below(3)]);
        intake.begin_anew(Row::published(k).unwrap(), Tables::published(), k, t).unwrap();
        assert_eq!((intake.count(), intake.t(), intake.accepted(), intake.verdict()), (k, t, 0, None));
        let mut accepted = Vec::<Packet>::new();
        // Some stretches have more packets than places.
        let most = [2 * k as usize + 12, 90][usize::from(random.below(8) == 0)];
        for _ in 0..random.below(most) {
            let mut sent = sender.packet([random.below(2 * k as usize + 9), random.below(1 << 24)][usize::from(random.below(9) == 0)] as u32);
            if random.below(damage) == 0 {
                sent.1 = random.damaged(&sent.1);
            }
            assert_eq!(intake.packet(sent.0, &sent.1), Ok(()));
            accepted.push(sent);
            let why = refused(&mut random, &mut intake, &sender.data[..t.into()]);
            *met.entry(why.number().to_string()).or_default() += 1;
            if random.below(asks) == 0 {
                let said = asked(&mut intake, k, t, &accepted).to_string();
                *met.entry(said.split(',').next().unwrap().to_string()).or_default() += 1;
            }
        }
        asked(&mut intake, k, t, &accepted);
    }
    assert!(["solved", "contradiction", "open", "9", "10"].iter().all(|what| met[*what] >= 400), "{met:?}");
}

#[test]
fn packets_go_on_after_a_question() {
    let mut random = Random::new(2);
    let sender = Sender::new(&mut random, 12, 8);
    let (mut intake, mut accepted) = (begun(12, 8), Vec::new());
    for (n, sent) in sender.packets(0..25).into_iter().enumerate() {
        intake.packet(sent.0, &sent.1).unwrap();
        accepted.push(sent);
        assert_eq!((intake.verdict(), intake.intermediates(), intake.source()), (None, None, None));
        let due = if n < 11 { Verdict::Open { shortfall: 11 - n as u64 } } else { Verdict::Solved };
        assert_eq!((asked(&mut intake, 12, 8, &accepted), intake.question()), (due, due));
    }
    assert_eq!(
        (intake.source().as_ref(), intake.encoded(12), intake.encoded(70_000)),
        (Some(&sender.data), Ok(Some(sender.packet(12).1)), Ok(Some(sender.packet(70_000).1)))
    );
    assert_eq!(intake.encoded(1 << 24), Err(Refusal::BadCount));
    // What does not fit is a contradiction, and whatever comes it stays one.
    let damaged = random.damaged(&sender.packet(30).1);
    for sent in [vec![(30, damaged)], sender.packets(30..40)].concat() {
        intake.packet(sent.0, &sent.1).unwrap();
        accepted.push(sent);
        assert_eq!((asked(&mut intake, 12, 8, &accepted), intake.encoded(0)), (Verdict::Contradiction, Ok(None)));
    }
}

/// It needs neither the tables nor another intake; a copy goes its own way.
#[test]
fn an_intake_stands_alone() {
    let sender = Sender::new(&mut Random::new(3), 10, 4);
    let mut intake = {
        let tables = Tables::published().numbers().to_vec();
        Intake::begin(Row::published(10).unwrap(), Tables::new(&tables).unwrap(), 10, 4).unwrap()
    };
    assert_eq!((intake.tables(), intake.row()), (Tables::published(), Row::published(10).unwrap()));
    let accepted = sender.packets(0..9);
    accepted.iter().for_each(|(esi, symbol)| intake.packet(*esi, symbol).unwrap());
    let mut copy = intake.clone();
    copy.packet(9, &[0; 4]).unwrap();
    assert_eq!((copy.question(), copy.source().unwrap()[36..].to_vec()), (Verdict::Solved, vec![0; 4]));
    assert_eq!(asked(&mut intake, 10, 4, &accepted), Verdict::Open { shortfall: 1 });
}

#[test]
fn a_begin_is_refused_and_forgets_nothing() {
    let (row, tables) = (Row::published(10).unwrap(), Tables::published());
    let refused = [(0, 4), (11, 4), (u32::MAX, 4), (0, 0), (11, 0), (10, 0)];
    let numbers = [9, 9, 9, 9, 9, 10];
    assert_eq!(refused.map(|(count, t)| Intake::begin(row, tables, count, t).err().unwrap().number()), numbers);
    let sender = Sender::new(&mut Random::new(4), 10, 4);
    let (mut intake, accepted) = (begun(10, 4), sender.packets(2..13));
    for (n, (esi, symbol)) in accepted.iter().enumerate() {
        intake.packet(*esi, symbol).unwrap();
        assert_eq!(refused.map(|(count, t)| intake.begin_anew(row, tables, count, t).err().unwrap().number()), numbers);
        asked(&mut intake, 10, 4, &accepted[..=n]);
    }
}

/// Packets past L places and past 65,535, on exactly as much memory as is asked. Of a block that is solved or open each depends on what is held.
#[test]
fn any_number_of_packets_is_taken() {
    let (row, sender) = (Row::published(5).unwrap(), Sender::new(&mut Random::new(9), 5, 2));
    let set = fresh(5, 2, &sender.packets(0..5)).set;
    let packets = sender.packets(0..300);
    for (first, last, due) in [(0, 300, Verdict::Solved), (0, 4, Verdict::Open { shortfall: 1 })] {
        let mut lent = Lent::new(row, 2);
        lent.cut();
        assert_eq!(lent.begin(row, 5, 2), Ok(()));
        for n in 0..70_000 {
            assert_eq!(lent.packet(&packets[first + n % (last - first)]), Ok(()));
            if [10, 500, 65_534, 65_535, 65_536, 69_999].contains(&n) {
                assert_eq!((lent.question(), n), (Ok(due), n));
            }
        }
        assert!(due != Verdict::Solved || lent.bytes[2] == set);
        // What does not fit is told whenever it comes, and stays.
        assert_eq!((lent.packet(&(3, vec![sender.data[6], !sender.data[7]])), lent.packet(&packets[3])), (Ok(()), Ok(())));
        assert_eq!(lent.question(), Ok(Verdict::Contradiction));
    }
}

/// Once L rows are held a packet changes none of the four parts, unless it contradicts: its symbol is compared, and that is all.
#[test]
fn what_is_known_takes_no_place() {
    let (row, sender) = (Row::published(12).unwrap(), Sender::new(&mut Random::new(10), 12, 6));
    let mut lent = Lent::new(row, 6);
    assert_eq!(lent.begin(row, 12, 6), Ok(()));
    sender.packets(4..17).iter().for_each(|sent| assert_eq!(lent.packet(sent), Ok(())));
    assert_eq!((lent.question(), lent.state[11..13].to_vec()), (Ok(Verdict::Solved), vec![row.l(), 2]));
    let solved = lent.clone();
    for sent in sender.packets((0..400).chain((1 << 24) - 9..1 << 24)) {
        assert_eq!((lent.packet(&sent), &lent), (Ok(()), &solved));
    }
    // The first contradiction is a mark, which only a begin takes away.
    assert_eq!((lent.packet(&(4, vec![0x5A; 6])), lent.state[12]), (Ok(()), 3));
    for sent in sender.packets(0..40) {
        assert_eq!((lent.packet(&sent), lent.state[12], lent.question()), (Ok(()), 3, Ok(Verdict::Contradiction)));
    }
    assert_eq!((lent.begin(row, 12, 6), lent.state[11..13].to_vec(), lent.question()), (Ok(()), vec![0, 1], Ok(Verdict::Open { shortfall: 12 })));
    sender.packets(0..12).iter().for_each(|sent| assert_eq!(lent.packet(sent), Ok(())));
    assert_eq!((lent.question(), &lent.bytes[2]), (Ok(Verdict::Solved), &solved.bytes[2]));
}

/// An intake in lent memory, with three places in each part past those that it asks for, and the out store.
#[derive(Clone, Debug, PartialEq)]
struct Lent {
    state: Vec<u32>,
    pivots: Vec<u16>,
    bytes: [Vec<u8>; 3],
}

impl Lent {
    fn new(row: Row, t: u16) -> Lent {
        let Room { state, pivots, rows, values, out } = Room::of(row, t);
        Lent { state: vec![0; state + 3], pivots: vec![0xA5A5; pivots + 3], bytes: [rows, values, out].map(|n| vec![0xA5; n + 3]) }
    }

    fn lend(&mut self) -> (Stores<'_>, &mut [u8]) {
        let [rows, values, out] = &mut self.bytes;
        (Stores { state: &mut self.state, pivots: &mut self.pivots, rows, values }, out)
    }

    fn begin(&mut self, row: Row, count: u32, t: u16) -> Result<(), Refusal> {
        begin(row, Tables::published(), count, t, self.lend().0)
    }

    fn packet(&mut self, sent: &Packet) -> Result<(), Refusal> {
        packet(sent.0, &sent.1, self.lend().0)
    }

    fn question(&mut self) -> Result<Verdict, Refusal> {
        let (stores, out) = self.lend();
        question(stores, out)
    }

    /// Each part without its last three.
    fn cut(&mut self) {
        self.state.truncate(self.state.len() - 3);
        self.pivots.truncate(self.pivots.len() - 3);
        self.bytes.iter_mut().for_each(|store| store.truncate(store.len() - 3));
    }
}

#[test]
fn the_memory_is_as_large_as_told_and_its_rest_stays() {
    let (row, sender) = (Row::published(12).unwrap(), Sender::new(&mut Random::new(5), 12, 6));
    let (l, room) = (row.l() as usize, Room::of(row, 6));
    assert_eq!(room, Room { state: 1037, pivots: l, rows: l * l, values: l * 6, out: l * 6 });
    assert_eq!(room.octets(), 4148 + 2 * l + l * l + 2 * l * 6);
    // What the documentation says of symbols of 1,024 octets.
    let told = [(100, 128, 282_932), (1000, 1071, 3_346_739), (10_000, 10_269, 126_507_959)];
    assert_eq!(told.map(|(k, ..)| Row::published(k).unwrap()).map(|row| (row.l(), Room::of(row, 1024).octets())), told.map(|(_, l, octets)| (l, octets)));
    let mut lent = Lent::new(row, 6);
    let mut least = lent.clone();
    least.cut();
    for lent in [&mut lent, &mut least] {
        assert_eq!(lent.begin(row, 12, 6), Ok(()));
        sender.packets(3..16).iter().for_each(|sent| assert_eq!(lent.packet(sent), Ok(())));
        // The out store is written only where it is solved.
        let mut other = lent.clone();
        assert_eq!((other.packet(&(3, vec![0xA5; 6])), other.question()), (Ok(()), Ok(Verdict::Contradiction)));
        assert_eq!((other.begin(row, 12, 6), other.question()), (Ok(()), Ok(Verdict::Open { shortfall: 12 })));
        assert!(other.bytes[2].iter().all(|octet| *octet == 0xA5));
        assert_eq!(lent.question(), Ok(Verdict::Solved));
        assert_eq!(lent.bytes[2][..l * 6], fresh(12, 6, &sender.packets(0..12)).set);
    }
    // Both came to the same, and past it nothing has changed.
    let rest = ([0; 3], [0xA5A5; 3], [0xA5; 3]);
    assert_eq!((&lent.state[1037..], &lent.pivots[l..]), (&rest.0[..], &rest.1[..]));
    assert!(lent.bytes.iter().all(|store| store[store.len() - 3..] == rest.2));
    lent.cut();
    assert_eq!(lent, least);
}

type Damage = fn(&mut Lent);
type Call = fn(&mut Lent) -> Result<(), Refusal>;

/// One part of the memory is one place too short.
const SHORT: [Damage; 5] = [
    |lent| lent.state.truncate(1036),
    |lent| lent.pivots.truncate(lent.pivots.len() - 4),
    |lent| lent.bytes[0].truncate(lent.bytes[0].len() - 4),
    |lent| lent.bytes[1].truncate(lent.bytes[1].len() - 4),
    |lent| lent.bytes[2].truncate(lent.bytes[2].len() - 4),
];

#[test]
fn short_memory_is_refused_and_stays() {
    let (row, sender) = (Row::published(12).unwrap(), Sender::new(&mut Random::new(6), 12, 6));
    let mut lent = Lent::new(row, 6);
    assert_eq!(lent.begin(row, 12, 6), Ok(()));
    assert_eq!(lent.packet(&sender.packet(3)), Ok(()));
    // What each call refuses for: of a state or pivots that are too short packet and question cannot tell that it was begun.
    for (short, due) in SHORT.into_iter().zip([[8, 14, 14], [8, 14, 14], [8, 8, 8], [8, 8, 8], [0, 0, 8]]) {
        let mut cut = lent.clone();
        short(&mut cut);
        let before = cut.clone();
        let calls: [Call; 3] = [|lent| lent.begin(Row::published(12).unwrap(), 12, 6), |lent| lent.packet(&(3, vec![0; 6])), |lent| lent.question().map(drop)];
        for (call, number) in calls.into_iter().zip(due).filter(|(_, number)| *number != 0) {
            assert_eq!((call(&mut cut).map_err(Refusal::number), &cut), (Err(number), &before));
        }
    }
}

/// The first refusal that applies is told, and all that is lent stays: with memory enough, and where the rows are too short besides.
#[test]
fn what_is_refused_stays() {
    let (row, sender) = (Row::published(12).unwrap(), Sender::new(&mut Random::new(8), 12, 6));
    let mut lent = Lent::new(row, 6);
    assert_eq!(lent.begin(row, 12, 6), Ok(()));
    let calls: [(Call, u32); 8] = [
        (|lent| lent.packet(&(1 << 24, vec![0; 6])), 9),
        (|lent| lent.packet(&(u32::MAX, vec![])), 9),
        (|lent| lent.packet(&(3, vec![0; 5])), 10),
        (|lent| lent.packet(&(3, vec![0; 7])), 10),
        (|lent| lent.begin(Row::published(12).unwrap(), 13, 0), 9),
        (|lent| lent.begin(Row::published(12).unwrap(), 0, 0), 9),
        (|lent| lent.begin(Row::published(12).unwrap(), 12, 0), 10),
        (|lent| lent.begin(Row::published(12).unwrap(), 12, 7), 8),
    ];
    for sent in sender.packets(0..14) {
        assert_eq!(lent.packet(&sent), Ok(()));
        if sent.0 % 4 == 3 {
            lent.question().unwrap();
        }
        for ((call, number), rows) in calls.into_iter().flat_map(|call| [(call, lent.bytes[0].len()), (call, 5)]) {
            let mut given = lent.clone();
            given.bytes[0].truncate(rows);
            let before = given.clone();
            assert_eq!((call(&mut given).map_err(Refusal::number), &given), (Err(number), &before));
        }
    }
    assert_eq!(lent.question(), Ok(Verdict::Solved));
}

#[test]
fn before_the_first_accepted_begin_all_is_refused_by_14() {
    let row = Row::published(12).unwrap();
    let mut lent = Lent::new(row, 6);
    let refused = |lent: &mut Lent| {
        let before = lent.clone();
        for sent in [(3, vec![0; 6]), (u32::MAX, vec![]), (3, vec![0; 7])] {
            assert_eq!(lent.packet(&sent), Err(Refusal::NotBegun));
        }
        assert_eq!((lent.question(), &*lent), (Err(Refusal::NotBegun), &before));
    };
    refused(&mut lent);
    for (row, count, t, number) in [(row, 0, 6, 9), (row, 13, 6, 9), (row, 12, 0, 10), (row, 12, 7, 8), (Row::published(18).unwrap(), 12, 6, 8)] {
        assert_eq!(lent.begin(row, count, t).map_err(Refusal::number), Err(number));
        refused(&mut lent);
    }
    // Whatever else is wrong.
    for short in SHORT {
        let mut cut = lent.clone();
        short(&mut cut);
        refused(&mut cut);
    }
    assert_eq!((lent.begin(row, 12, 6), lent.question()), (Ok(()), Ok(Verdict::Open { shortfall: 12 })));
}

/// State and stores of anything: each call returns and refuses or answers. That it touches nothing else is shown by bindings/c/intake.c.
#[test]
fn other_content_is_refused_or_answered() {
    let (mut random, mut met, row) = (Random::new(7), BTreeMap::<u32, u32>::new(), Row::published(10).unwrap());
    let sender = Sender::new(&mut random, 10, 4);
    for _ in 0..4000 {
        let mut lent = Lent::new(row, 4);
        lent.begin(row, 10, 4).unwrap();
        for sent in sender.packets(0..random.below(14) as u32) {
            lent.packet(&sent).unwrap();
        }
        if random.below(2) == 0 {
            lent.question().unwrap();
        }
        for _ in 0..1 + random.below(3) {
            let (at, value) = (9 + random.below(4), [0, 1, 2, 3, 4, 26, 27, 28, 65536, u32::MAX][random.below(10)]);
            match random.below(5) {
                0 => lent.state[at] = value,
                1 => lent.state[13 + random.below(1024)] = value,
                2 => lent.pivots[random.below(27)] = random.below(29) as u16,
                3 => lent.bytes[0] = random.bytes(27 * 27),
                _ => lent.bytes[1] = random.bytes(27 * 4),
            }
        }
        for _ in 0..3 {
            for said in [lent.packet(&sender.packet(20)).map(|()| Verdict::Solved), lent.question()] {
                let number = match said {
                    Ok(Verdict::Solved) => 0,
                    Ok(Verdict::Contradiction) => 100,
                    Ok(Verdict::Open { .. }) => 101,
                    Err(why) => why.number(),
                };
                *met.entry(number).or_default() += 1;
            }
        }
    }
    assert!(met.keys().all(|number| [0, 8, 9, 10, 14, 100, 101].contains(number)) && [0, 14, 100, 101].iter().all(|number| met[number] >= 300), "{met:?}");
}
