//! The receiver of bindings/rust/examples/receive.rs on objects of the published crate's encoder, with packets lost, twice and damaged.
#![forbid(unsafe_code)]
#[path = "../../rust/tests/common/mod.rs"]
mod common;
#[allow(dead_code)]
#[path = "../../rust/examples/receive.rs"]
mod receive;
use common::{Fresh, Packet, Random, fresh};
use raptorq::{Encoder, ObjectTransmissionInformation};
use receive::Station;
use spoonripple::Verdict;

/// What came of an object: its packets as bytes, in the order in which they came.
fn broadcast(random: &mut Random, encoder: &Encoder, damage: usize) -> Vec<Vec<u8>> {
    let (repair, lost) = (random.below(12) as u32, 2 + random.below(20));
    let mut came = encoder.get_encoded_packets(repair).iter().map(|packet| packet.serialize()).filter(|_| random.below(lost) != 0).collect::<Vec<_>>();
    for at in (1..came.len()).rev() {
        came.swap(at, random.below(at + 1));
    }
    for packet in &mut came {
        if random.below(damage) == 0 {
            *packet = [&packet[..4], &random.damaged(&packet[4..])].concat();
        }
    }
    came
}

#[test]
fn it_says_of_each_block_what_a_fresh_call_says() {
    let mut random = Random::new(2026);
    let (mut loaded, mut contradictions, mut open) = (0, 0, 0);
    for _ in 0..150 {
        let (t, z) = ([4, 8, 20][random.below(3)], 1 + random.below(4) as u8);
        let length = usize::from(t) * (usize::from(z) + random.below(60)) - random.below(3);
        let object = random.bytes(length);
        let encoder = Encoder::new(&object, ObjectTransmissionInformation::new(object.len() as u64, t, z, 1, 1));
        let damage = [usize::MAX, 60, 10][random.below(3)];
        let came = broadcast(&mut random, &encoder, damage);
        let mut station = Station::new(&encoder.get_config().serialize()).unwrap();
        came.iter().for_each(|packet| station.hear(packet));
        let verdicts = station.verdicts();
        let mut sources = Vec::new();
        for (number, block) in encoder.get_block_encoders().iter().enumerate() {
            let mine = came.iter().filter(|packet| usize::from(packet[0]) == number);
            let packets: Vec<Packet> = mine.map(|packet| (u32::from_be_bytes([0, packet[1], packet[2], packet[3]]), packet[4..].to_vec())).collect();
            let Fresh { verdict, source, .. } = fresh(block.source_packets().len() as u32, t, &packets);
            assert_eq!(verdicts[number], verdict);
            contradictions += u32::from(verdict == Verdict::Contradiction);
            open += u32::from(matches!(verdict, Verdict::Open { .. }));
            sources.extend(source);
        }
        let whole = (sources.len() == verdicts.len()).then(|| sources.concat()[..object.len()].to_vec());
        assert_eq!(station.object(), whole);
        assert!(damage != usize::MAX || whole.as_ref().is_none_or(|received| *received == object));
        loaded += u32::from(whole.is_some());
    }
    assert!(loaded >= 20 && contradictions >= 20 && open >= 20, "{loaded} objects, {contradictions} contradictions, {open} open blocks");
}
