//! A block that is solved goes on listening, and what it says is what a fresh call of the solver over all that came says.
#![forbid(unsafe_code)]
mod common;
use common::{Packet, Random, Seen, Sender, all_ways, fresh, listen, receiver, take_all};
use spoonripple::blocks::Arrivals;
use spoonripple::{Block, Refusal, Row, Tables, Verdict};

/// What the block knows, and that a fresh call says the same.
fn said(block: &Block, k: u32, t: u16, came: &[Packet]) -> Option<Verdict> {
    let known = block.verdict();
    assert_eq!(known, Some(fresh(k, t, came).verdict));
    known
}

/// A block of 12 symbols of 8 octets, solved by its source packets, and these.
fn solved() -> (Random, Sender, Block<'static>, Vec<Packet>) {
    let mut random = Random::new(12);
    let sender = Sender::new(&mut random, 12, 8);
    let (mut block, came) = (receiver(12, 8), sender.packets(0..12));
    take_all(&mut block, &came);
    assert_eq!((block.verdict(), block.source()), (None, None));
    assert_eq!(block.solve(), Verdict::Solved);
    (random, sender, block, came)
}

#[test]
fn a_later_equal_packet_leaves_it_solved() {
    let (_, sender, mut block, mut came) = solved();
    // Repair packets, one of them with the largest ESI, and one that came before.
    for packet in sender.packets([12, 13, 70_000, (1 << 24) - 1, 3]) {
        block.take(packet.0, &packet.1).unwrap();
        came.push(packet);
        assert_eq!(said(&block, 12, 8, &came), Some(Verdict::Solved));
        assert_eq!((block.solve(), block.source()), (Verdict::Solved, Some(&sender.data[..])));
    }
    // The one that came before is not kept again.
    assert_eq!(block.arrivals().esis[12..], [12, 13, 70_000, (1 << 24) - 1]);
}

#[test]
fn a_later_damaged_packet_is_a_contradiction() {
    // A repair packet, one that came before, and one whose ESI is damaged instead.
    for esi in [20, 5, 21] {
        let (mut random, sender, mut block, mut came) = solved();
        let (esi, symbol) = sender.packet(esi);
        let packet = if esi == 21 { (22, symbol) } else { (esi, random.damaged(&symbol)) };
        block.take(packet.0, &packet.1).unwrap();
        came.push(packet);
        assert_eq!((said(&block, 12, 8, &came), block.source()), (Some(Verdict::Contradiction), None));
        // It stays one with whatever comes, and nothing of it is lost.
        for packet in sender.packets(10..30) {
            block.take(packet.0, &packet.1).unwrap();
            came.push(packet);
            assert_eq!(said(&block, 12, 8, &came), Some(Verdict::Contradiction));
            assert_eq!((block.solve(), block.source()), (Verdict::Contradiction, None));
        }
        let symbols: Vec<u8> = came[..13].iter().chain(&came[15..]).flat_map(|(_, symbol)| symbol.clone()).collect();
        assert_eq!(block.arrivals().symbols, symbols, "all but those of ESI 10 and 11, which came before");
        // The first arrival of an ESI is the one that is shown.
        assert_eq!(block.symbol(5), Ok(Some(&sender.data[40..48])));
    }
}

#[test]
fn a_damaged_packet_before_is_found_by_the_next() {
    let mut random = Random::new(13);
    for k in [1, 5, 10, 30] {
        let sender = Sender::new(&mut random, k, 16);
        let (mut block, mut came) = (receiver(k, 16), sender.packets(0..k));
        let at = random.below(k as usize);
        came[at].1 = random.damaged(&came[at].1);
        take_all(&mut block, &came);
        // Of just as many packets as are needed any octets make a block: this one has an invented symbol.
        assert_eq!(block.solve(), Verdict::Solved);
        assert_ne!(block.source(), Some(&sender.data[..]));
        let mut last = block.verdict();
        for packet in sender.packets(k..k + 5) {
            block.take(packet.0, &packet.1).unwrap();
            came.push(packet);
            last = said(&block, k, 16, &came);
        }
        assert_eq!((last, block.source()), (Some(Verdict::Contradiction), None));
    }
}

#[test]
fn a_damaged_packet_among_more_than_are_needed() {
    let (mut random, sender, _, mut came) = solved();
    came[4].1 = random.damaged(&came[4].1);
    came.extend(sender.packets(40..43));
    let mut block = receiver(12, 8);
    take_all(&mut block, &came);
    assert_eq!((block.solve(), block.source()), (Verdict::Contradiction, None));
    assert_eq!(said(&block, 12, 8, &came), Some(Verdict::Contradiction));
}

#[test]
fn an_open_block_is_solved_later() {
    let mut random = Random::new(14);
    let sender = Sender::new(&mut random, 23, 4);
    let (mut block, mut came) = (receiver(23, 4), sender.packets(3..23));
    assert_eq!((block.solve(), block.verdict()), (Verdict::Open { shortfall: 23 }, Some(Verdict::Open { shortfall: 23 })));
    take_all(&mut block, &came);
    // With something new it has to be asked; with what came before it has not.
    assert_eq!(block.verdict(), None);
    assert_eq!(block.solve(), Verdict::Open { shortfall: 3 });
    take_all(&mut block, &came[7..9]);
    came.extend_from_within(7..9);
    assert_eq!((said(&block, 23, 4, &came), block.source()), (Some(Verdict::Open { shortfall: 3 }), None));
    assert_eq!((block.symbol(2), block.symbol(3)), (Ok(None), Ok(Some(&sender.data[12..16]))));
    for (esi, shortfall) in [(0, 2), (1, 1)] {
        take_all(&mut block, &sender.packets([esi]));
        assert_eq!(block.solve(), Verdict::Open { shortfall });
    }
    take_all(&mut block, &sender.packets([2]));
    assert_eq!((block.solve(), block.source()), (Verdict::Solved, Some(&sender.data[..])));
    assert_eq!(block.symbol(2), Ok(Some(&sender.data[8..12])));
}

#[test]
fn what_it_says_is_what_a_fresh_call_says() {
    let (mut random, mut seen) = (Random::new(6330), Seen::new());
    for _ in 0..1500 {
        // With symbols of one octet a damaged packet can fit by chance.
        let (k, t) = (1 + random.below(24) as u32, [1, 1, 2, 5][random.below(4)]);
        let sender = Sender::new(&mut random, k, t);
        // Of the repair packets some have ESIs up to 2^24.
        listen(&mut random, k, t, |n| sender.packet(if n > 2 * k { n * 299_593 } else { n }), &mut seen);
    }
    all_ways(&seen, 100);
}

/// Its intake has 27 places: whenever it is asked, nothing that came before is lost.
#[test]
fn more_packets_than_it_needs_before_it_is_asked() {
    let mut random = Random::new(16);
    let sender = Sender::new(&mut random, 5, 3);
    for damaged in [None, Some(7), Some(30)] {
        let (mut block, mut came) = (receiver(5, 3), Vec::new());
        for esi in 0..100 {
            let (_, symbol) = sender.packet(esi);
            let packet = (esi, if damaged == Some(esi) { random.damaged(&symbol) } else { symbol });
            block.take(esi, &packet.1).unwrap();
            came.push(packet);
            let (mut asked, due) = (block.clone(), fresh(5, 3, &came));
            assert_eq!((asked.solve(), asked.source()), (due.verdict, due.source.as_deref()));
            assert_eq!((block.verdict(), asked.verdict()), (None, Some(due.verdict)));
        }
        assert_eq!(block.solve(), if damaged.is_some() { Verdict::Contradiction } else { Verdict::Solved });
    }
}

#[test]
fn a_block_refuses_and_changes_nothing() {
    let (row, tables) = (Row::published(10).unwrap(), Tables::published());
    let made = |count, t| Block::new(row, tables, count, t).map_or_else(Refusal::code, |_| 0);
    assert_eq!([made(0, 4), made(11, 4), made(0, 0), made(10, 0), made(10, 4)], [9, 9, 9, 10, 0]);
    let (_, sender, mut block, _) = solved();
    let (esi, symbol) = sender.packet((1 << 24) - 1);
    assert_eq!(block.take(1 << 24, &symbol), Err(Refusal::BadCount));
    assert_eq!((block.take(esi, &symbol[..7]), block.take(3, &[])), (Err(Refusal::BadSize), Err(Refusal::BadSize)));
    assert_eq!(block.symbol(12), Err(Refusal::Outside));
    let Arrivals { count, t, esis, symbols } = block.arrivals();
    assert_eq!((count, t, esis.len(), symbols, block.verdict()), (12, 8, 12, &sender.data[..], Some(Verdict::Solved)));
    assert_eq!(block.take(esi, &symbol), Ok(()));
}

#[test]
fn a_block_keeps_65535_packets() {
    let mut random = Random::new(15);
    let sender = Sender::new(&mut random, 3, 1);
    let mut open = receiver(3, 1);
    for esi in 0..65535 {
        open.take(esi, &sender.packet(esi).1).unwrap();
    }
    let other = sender.packet(70_000);
    let damaged = random.damaged(&other.1);
    // Not solved, it would have to keep what comes. What came before it keeps.
    assert_eq!((open.take(70_000, &other.1), open.take(70_000, &[])), (Err(Refusal::BadCount), Err(Refusal::BadCount)));
    assert_eq!((open.take(7, &sender.packet(7).1), open.arrivals().esis.len(), open.verdict()), (Ok(()), 65535, None));
    // Solved, it compares and needs no room.
    let mut block = open.clone();
    assert_eq!(block.solve(), Verdict::Solved);
    assert_eq!((block.take(70_000, &other.1), block.take(70_000, &[])), (Ok(()), Err(Refusal::BadSize)));
    assert_eq!((block.verdict(), block.source()), (Some(Verdict::Solved), Some(&sender.data[..])));
    assert_eq!((block.take(70_000, &damaged), block.verdict(), block.source()), (Ok(()), Some(Verdict::Contradiction), None));
    // A contradiction would have to keep it again; and it stays one, though what it keeps fits.
    assert_eq!(block.take(70_001, &damaged), Err(Refusal::BadCount));
    assert_eq!((block.solve(), block.arrivals().esis), (Verdict::Contradiction, open.arrivals().esis));
}
