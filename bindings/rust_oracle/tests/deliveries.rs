//! Deliveries of the published crate's encoder, received by `Block` and by the calls beneath it.
#![forbid(unsafe_code)]
#[path = "../../rust/tests/common/mod.rs"]
mod common;
use common::{encoded, fresh, receiver};
use raptorq::EncodingPacket;
use rust_oracle::{Sender, parts};
use spoonripple::{Block, Intake, Refusal, Row, Tables, Verdict};

fn take_all(block: &mut Block, packets: &[EncodingPacket]) {
    common::take_all(block, &packets.iter().map(parts).collect::<Vec<_>>());
}

#[test]
fn blocks_with_losses_are_solved() {
    for (k, t) in [(1, 3), (5, 1), (10, 16), (11, 7), (26, 64), (55, 5), (101, 40), (213, 1024)] {
        let sender = Sender::new(k, t);
        // Every third source packet is lost, and two more repair packets came than were lost.
        let packets = sender.packets(|esi| esi % 3 == 0, k.div_ceil(3) + 2);
        let mut block = receiver(k, t);
        take_all(&mut block, &packets);
        assert_eq!(block.source(), None);
        assert_eq!(block.solve(), Verdict::Solved);
        assert_eq!(block.source(), Some(&sender.data[..]));
        assert_eq!(sender.decoded(packets).as_ref(), Some(&sender.data));
        let symbols: Vec<u8> = (0..k).flat_map(|i| block.symbol(i).unwrap().unwrap().to_vec()).collect();
        assert_eq!(symbols, sender.data);
        assert_eq!(block.symbol(k), Err(Refusal::Outside));
    }
}

#[test]
fn repair_packets_alone_solve() {
    let sender = Sender::new(40, 32);
    let mut block = receiver(40, 32);
    take_all(&mut block, &sender.packets(|_| true, 42));
    assert_eq!((block.solve(), block.source()), (Verdict::Solved, Some(&sender.data[..])));
}

#[test]
fn an_open_block_tells_its_shortfall_and_shows_what_came() {
    for k in [10, 23] {
        let sender = Sender::new(k, 4);
        let mut block = receiver(k, 4);
        assert_eq!(block.solve(), Verdict::Open { shortfall: k.into() });
        let packets = sender.packets(|esi| esi < 3, 0);
        take_all(&mut block, &packets);
        assert_eq!((block.solve(), block.source()), (Verdict::Open { shortfall: 3 }, None));
        assert_eq!(sender.decoded(packets), None);
        assert_eq!((block.symbol(2), block.symbol(3)), (Ok(None), Ok(Some(&sender.data[12..16]))));
        // One that came before brings nothing new; the three that are missing do.
        take_all(&mut block, &sender.packets(|esi| esi != 5, 0));
        assert_eq!(block.solve(), Verdict::Open { shortfall: 3 });
        take_all(&mut block, &sender.packets(|esi| esi >= 3, 0));
        assert_eq!((block.solve(), block.source()), (Verdict::Solved, Some(&sender.data[..])));
    }
}

#[test]
fn a_damaged_packet_is_a_contradiction() {
    let sender = Sender::new(12, 8);
    let mut block = receiver(12, 8);
    take_all(&mut block, &sender.packets(|_| false, 0));
    assert_eq!(block.solve(), Verdict::Solved);
    take_all(&mut block, &sender.encoder.repair_packets(0, 5));
    assert_eq!((block.verdict(), block.source()), (Some(Verdict::Solved), Some(&sender.data[..])));
    let (esi, mut damaged) = parts(&sender.encoder.repair_packets(5, 1)[0]);
    damaged[7] ^= 1;
    block.take(esi, &damaged).unwrap();
    // What was solved before does not stand any longer.
    assert_eq!((block.verdict(), block.source()), (Some(Verdict::Contradiction), None));
}

/// Packet by packet: the block is the crate's as soon as the packets make one, and whatever comes after leaves it so.
#[test]
fn blocks_are_solved_as_packets_land() {
    for (k, t) in [(1, 3), (10, 16), (26, 64), (101, 40)] {
        let sender = Sender::new(k, t);
        let packets = sender.packets(|esi| esi % 3 == 0, k.div_ceil(3) + 9);
        let mut intake = Intake::begin(Row::published(k).unwrap(), Tables::published(), k, t).unwrap();
        for (n, (esi, symbol)) in (1..).zip(packets.iter().map(parts)) {
            intake.packet(esi, &symbol).unwrap();
            match intake.question() {
                Verdict::Solved => assert_eq!((n >= k, intake.source()), (true, Some(sender.data.clone()))),
                said => assert!(n < k + 4 && matches!(said, Verdict::Open { shortfall } if shortfall >= k.saturating_sub(n).into()), "{k} {n} {said}"),
            }
        }
        assert_eq!(intake.question(), Verdict::Solved);
    }
}

/// The set, and what is encoded from it: the intermediate symbols of the crate's encoder, and the packets that it sends.
#[test]
fn sets_and_encodings_are_the_crates() {
    for (k, t) in [(12, 6), (1, 9), (47, 3)] {
        let sender = Sender::new(k, t);
        let came: Vec<_> = sender.packets(|esi| esi % 5 == 1, k.div_ceil(5) + 3).iter().map(parts).collect();
        let ours = fresh(k, t, &came);
        let slab = &sender.encoder.intermediate_symbols;
        let theirs: Vec<u8> = (0..slab.len()).flat_map(|i| slab.get(i).to_vec()).collect();
        assert_eq!((ours.source.as_ref(), &ours.set), (Some(&sender.data), &theirs));
        for (esi, symbol) in sender.packets(|_| false, 60).iter().chain(&sender.encoder.repair_packets(70_000, 9)).map(parts) {
            assert_eq!(encoded(k, t, esi, &ours.set), symbol);
        }
    }
}
