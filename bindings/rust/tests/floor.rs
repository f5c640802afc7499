//! The shortfall as a floor: a packet lowers the number by one or leaves it, asking again cannot help before as many more were accepted as it says, and the
//! row of a packet, not its symbol, decides whether it falls. Each is a theorem of `docs/PROMISES.md`; here the library is held to it, call by call.
#![forbid(unsafe_code)]
mod common;
use common::{Packet, Random, Sender, fresh};
use spoonripple::{Intake, Refusal, Row, Tables, Verdict};
use std::collections::BTreeMap;

fn begun(k: u32, t: u16) -> Intake {
    Intake::begin(Row::published(k).unwrap(), Tables::published(), k, t).unwrap()
}

/// What an answer lacks: the shortfall where it is open, 0 where it is solved, and nothing is said of a contradiction.
fn lacks(verdict: Verdict) -> Option<u64> {
    match verdict {
        Verdict::Solved => Some(0),
        Verdict::Open { shortfall } => Some(shortfall),
        Verdict::Contradiction => None,
    }
}

/// A block that is asked after each packet, with all that it accepted.
struct Chain {
    sender: Sender,
    intake: Intake,
    accepted: Vec<Packet>,
    said: Verdict,
    /// Before so many were accepted it cannot be solved: the largest that an open answer said.
    least: u64,
    met: BTreeMap<&'static str, u32>,
}

impl Chain {
    fn new(random: &mut Random, k: u32, t: u16) -> Chain {
        let (sender, mut intake) = (Sender::new(random, k, t), begun(k, t));
        let said = intake.question();
        assert_eq!(said, Verdict::Open { shortfall: k.into() });
        Chain { sender, intake, accepted: Vec::new(), said, least: k.into(), met: BTreeMap::new() }
    }

    fn count(&mut self, what: &'static str) {
        *self.met.entry(what).or_default() += 1;
    }

    /// Refused packets count for nothing: the number stays, and so does the floor.
    fn refused(&mut self, random: &mut Random) {
        let short = vec![0; usize::from(self.sender.t) - 1];
        for (esi, symbol, due) in [(1 << 24, &self.sender.data[..self.sender.t.into()], Refusal::BadCount), (0, &short[..], Refusal::BadSize)] {
            if random.below(3) == 0 {
                assert_eq!((self.intake.packet(esi, symbol), self.intake.question()), (Err(due), self.said));
                *self.met.entry("refused").or_default() += 1;
            }
        }
    }

    /// With another symbol for the same ESI, where neither is a contradiction, the number is the same.
    fn other_symbol(&mut self, mut before: Intake, esi: u32, symbol: &[u8]) {
        before.packet(esi, symbol).unwrap();
        match (lacks(before.question()), lacks(self.said)) {
            (Some(m), Some(n)) => {
                assert_eq!(m, n, "{esi} {symbol:?} {:?}", self.accepted);
                self.count("two symbols fit");
            }
            _ => self.count("one does not fit"),
        }
    }

    /// One packet more, by the intake and by one call of the solver, which is given them backwards.
    fn grow(&mut self, random: &mut Random, packet: Packet) {
        let (was, before) = (self.said, self.intake.clone());
        self.intake.packet(packet.0, &packet.1).unwrap();
        let (esi, other) = (packet.0, random.damaged(&packet.1));
        self.accepted.push(packet);
        self.said = self.intake.question();
        let backwards: Vec<Packet> = self.accepted.iter().rev().cloned().collect();
        assert_eq!(fresh(self.sender.k, self.sender.t, &backwards).verdict, self.said);
        match (lacks(was), lacks(self.said)) {
            (Some(m), Some(n)) => {
                assert!(m == n || m == n + 1, "{m} {n} {:?}", self.accepted);
                self.count(if m == n { "stayed" } else { "fell" });
            }
            (_, None) => self.count("contradiction"),
            (None, Some(_)) => panic!("a contradiction has gone: {:?}", self.accepted),
        }
        let n = self.accepted.len() as u64;
        match self.said {
            Verdict::Open { shortfall } => self.least = self.least.max(n + shortfall),
            Verdict::Solved => assert!(n >= self.least, "solved by {n} packets, {} at least: {:?}", self.least, self.accepted),
            Verdict::Contradiction => (),
        }
        self.other_symbol(before, esi, &other);
    }
}

#[test]
fn the_shortfall_is_a_floor() {
    let (mut random, mut met) = (Random::new(9), BTreeMap::<&str, u32>::new());
    for _ in 0..400 {
        let (k, t) = (1 + random.below(20) as u32, [1, 1, 2, 5][random.below(4)]);
        let (mut chain, damage) = (Chain::new(&mut random, k, t), [usize::MAX, 40][random.below(2)]);
        for _ in 0..random.below(2 * k as usize + 12) {
            let mut packet = chain.sender.packet([random.below(2 * k as usize + 9), random.below(1 << 24)][usize::from(random.below(3) == 0)] as u32);
            if random.below(damage) == 0 {
                packet.1 = random.damaged(&packet.1);
            }
            chain.grow(&mut random, packet);
            chain.refused(&mut random);
        }
        chain.met.into_iter().for_each(|(what, n)| *met.entry(what).or_default() += n);
    }
    assert!(["stayed", "fell", "contradiction", "two symbols fit", "one does not fit", "refused"].iter().all(|what| met[*what] >= 300), "{met:?}");
}

/// An open 12 and what follows it: packets that were refused or had come lower nothing, eleven new ones leave it open, and the twelfth solves it.
#[test]
fn asking_before_so_many_were_accepted_cannot_help() {
    let sender = Sender::new(&mut Random::new(10), 20, 3);
    let mut intake = begun(20, 3);
    let took = |intake: &mut Intake, packets: Vec<Packet>| packets.iter().for_each(|(esi, symbol)| intake.packet(*esi, symbol).unwrap());
    took(&mut intake, sender.packets(0..8));
    assert_eq!(intake.question(), Verdict::Open { shortfall: 12 });
    took(&mut intake, sender.packets(0..8));
    (0..20).for_each(|_| assert_eq!(intake.packet(1 << 24, &[0; 3]), Err(Refusal::BadCount)));
    assert_eq!((intake.accepted(), intake.question()), (16, Verdict::Open { shortfall: 12 }));
    for esi in 8..20 {
        assert_eq!(intake.question(), Verdict::Open { shortfall: u64::from(20 - esi) });
        took(&mut intake, sender.packets([esi]));
    }
    assert_eq!((intake.question(), intake.source()), (Verdict::Solved, Some(sender.data)));
    // A begin ends the floor: what was open is forgotten, and another block may take fewer packets.
    intake.begin_anew(Row::published(20).unwrap(), Tables::published(), 20, 3).unwrap();
    assert_eq!(intake.question(), Verdict::Open { shortfall: 20 });
    intake.begin_anew(Row::published(1).unwrap(), Tables::published(), 1, 3).unwrap();
    intake.packet(0, &[1, 2, 3]).unwrap();
    assert_eq!((intake.question(), intake.accepted()), (Verdict::Solved, 1));
}

/// For a row that is new every symbol fits and the number falls; for one that is not, one symbol fits and the number stays.
#[test]
fn the_row_alone_decides() {
    let sender = Sender::new(&mut Random::new(11), 10, 1);
    let mut intake = begun(10, 1);
    sender.packets(0..5).iter().for_each(|(esi, symbol)| intake.packet(*esi, symbol).unwrap());
    let said = |esi: u32, octet: u8| {
        let mut copy = intake.clone();
        copy.packet(esi, &[octet]).unwrap();
        copy.question()
    };
    assert!((0..=255).all(|octet| said(7, octet) == Verdict::Open { shortfall: 4 }));
    let fits = sender.packet(3).1[0];
    assert!((0..=255).all(|octet| said(3, octet) == if octet == fits { Verdict::Open { shortfall: 5 } } else { Verdict::Contradiction }));
}
