//! The receiver of examples/receive.rs, on the recorded stream: what the published crate's encoder sent of an object in three blocks of 22 symbols, six
//! repair packets each, every tenth packet lost (bindings/rust_oracle makes it anew and compares).
#![forbid(unsafe_code)]
#[allow(dead_code)]
#[path = "../examples/receive.rs"]
mod receive;
use receive::Station;
use spoonripple::Refusal;
use spoonripple::Verdict::{self, Contradiction, Open, Solved};
use spoonripple::headers::ObjectTransmissionInformation;

const STREAM: &[u8] = include_bytes!("../data/stream.bin");

fn object() -> Vec<u8> {
    (0..200).flat_map(|n| format!("record {n}\n").into_bytes()).collect()
}

/// The packets as they came, each with its block number.
fn packets() -> Vec<(u8, Vec<u8>)> {
    STREAM[12..].chunks(36).map(|packet| (packet[0], packet.to_vec())).collect()
}

/// What became of the blocks, and the object.
fn received<'a>(packets: impl IntoIterator<Item = &'a (u8, Vec<u8>)>) -> (Vec<Verdict>, Option<Vec<u8>>) {
    let mut station = Station::new(&STREAM[..12]).unwrap();
    packets.into_iter().for_each(|(_, packet)| station.hear(packet));
    (station.verdicts(), station.object())
}

#[test]
fn the_stream_is_the_object() {
    assert_eq!((Station::new(&STREAM[..12]).unwrap().packet_size(), packets().len()), (36, 75));
    assert_eq!(received(&packets()), (vec![Solved; 3], Some(object())));
    assert_eq!(received(packets().iter().rev().chain(&packets())), (vec![Solved; 3], Some(object())));
}

#[test]
fn a_later_packet_takes_a_solved_block_back() {
    let all = packets();
    let last = all.iter().rposition(|(block, _)| *block == 1).unwrap();
    // The last packet of the block 1 is one that it does not need.
    assert_eq!(received(all.iter().take(last)).0[1], Solved);
    let mut damaged = all.clone();
    damaged[last].1[20] ^= 1;
    assert_eq!(received(&damaged), (vec![Solved, Contradiction, Solved], None));
    // It stays one, though the unharmed packet and all others come again.
    assert_eq!(received(damaged.iter().chain(&all)), (vec![Solved, Contradiction, Solved], None));
    // Damaged before, too.
    damaged = all.clone();
    damaged[all.iter().position(|(block, _)| *block == 2).unwrap()].1[35] ^= 0x80;
    assert_eq!(received(&damaged), (vec![Solved, Solved, Contradiction], None));
}

#[test]
fn an_open_block_tells_how_many_are_missing() {
    let all = packets();
    let of = |number: u8| all.iter().filter(move |(block, _)| *block == number);
    assert_eq!(received(&[]), (vec![Open { shortfall: 22 }; 3], None));
    let (verdicts, object_of_two) = received(of(0).chain(of(2)).chain(of(1).take(20)).chain(of(1).take(20)));
    assert_eq!((verdicts, object_of_two), (vec![Solved, Open { shortfall: 2 }, Solved], None));
    // Those that it had not heard come later.
    assert_eq!(received(of(0).chain(of(2)).chain(of(1).take(20)).chain(of(1))), (vec![Solved; 3], Some(object())));
}

#[test]
fn packets_of_another_object_are_dropped() {
    let mut all = packets();
    all.insert(0, (3, [&[3, 0, 0, 0][..], &[1; 32]].concat()));
    all.insert(0, (0, vec![0, 0, 0]));
    all.insert(0, (0, vec![0, 0, 0, 0, 1]));
    assert_eq!(received(&all), (vec![Solved; 3], Some(object())));
}

#[test]
fn headers_that_it_does_not_take() {
    let refused = |at: usize, byte: u8| {
        let mut header = STREAM[..12].to_vec();
        header[at] = byte;
        Station::new(&header).err()
    };
    assert_eq!(Station::new(&STREAM[..11]).err(), Some(Refusal::WrongLength));
    // F of 900 GB, T of 0, Z of 0, two sub-blocks, Al of 0; and F of 0, a block without a symbol.
    let header = [refused(0, 209), refused(7, 0), refused(8, 0), refused(10, 2), refused(11, 0)];
    assert_eq!(header.map(Option::unwrap), [Refusal::BadTransmission; 5]);
    assert_eq!(Station::new(&[0, 0, 0, 0, 0, 0, 0, 32, 1, 0, 1, 1]).err(), Some(Refusal::BadCount));
}

#[test]
fn headers_that_the_check_refuses() {
    // T, Z, N and Al as they are sent; the first are those of the stream.
    let judged = |[t, z, n, al]: [u8; 4]| {
        let header = [&STREAM[..6], &[0, t, z, 0, n, al]].concat();
        let info = ObjectTransmissionInformation::read(&header).unwrap();
        (info.check(), Station::new(&header).err())
    };
    assert_eq!(judged([32, 3, 1, 1]), (Ok(()), None));
    let refused = (Err(Refusal::BadTransmission), Some(Refusal::BadTransmission));
    for header in [[0, 3, 1, 1], [32, 0, 1, 1], [32, 3, 0, 1], [32, 3, 33, 1], [32, 3, 2, 32]] {
        assert_eq!(judged(header), refused, "{header:?}");
    }
    // As many sub-blocks as a symbol has parts of Al bytes pass the check: it is this station that takes one only.
    assert_eq!(judged([32, 3, 1, 32]), (Ok(()), None));
    assert_eq!(judged([32, 3, 32, 1]), (Ok(()), Some(Refusal::BadTransmission)));
}
