//! The data that bindings/rust and bindings/c carry is that of the published crate.
#![forbid(unsafe_code)]
use raptorq::systematic_constants::{calculate_p1, num_intermediate_symbols, num_ldpc_symbols, num_lt_symbols, num_pi_symbols};
use raptorq::{Encoder, ObjectTransmissionInformation, SourceBlockEncoder};
use spoonripple::parameters::{PUBLISHED_ROWS, PUBLISHED_TABLES};
use spoonripple::{Refusal, Row, Tables};

#[test]
fn all_477_rows() {
    let theirs = raptorq::systematic_constants::SYSTEMATIC_INDICES_AND_PARAMETERS.map(|(k, j, s, h, w)| [k, j, s, h, w]);
    assert_eq!(PUBLISHED_ROWS, theirs);
}

/// L, P and P1 as the crate looks them up. For B it has no call: with the S LDPC symbols they are the W LT symbols.
#[test]
fn the_records_of_all_477_rows() {
    for five in PUBLISHED_ROWS {
        let (k, row) = (five[0], Row::published(five[0]).unwrap());
        assert_eq!((&row.numbers()[..5], Ok(row)), (&five[..], Row::new(five)));
        assert_eq!([row.l(), row.p(), row.p1()], [num_intermediate_symbols(k), num_pi_symbols(k), calculate_p1(k)]);
        assert_eq!(row.b() + num_ldpc_symbols(k), num_lt_symbols(k));
        assert_eq!(row.numbers()[5..], [row.l(), row.p(), row.b(), row.p1()]);
    }
}

#[test]
fn all_1024_numbers() {
    assert_eq!(PUBLISHED_TABLES.to_vec(), raptorq_lent::rng::lent::published());
    assert_eq!(Tables::published().numbers(), &PUBLISHED_TABLES);
}

#[test]
fn the_row_of_every_source_count() {
    for count in 1..=56403 {
        let row = Row::published(count).unwrap();
        assert_eq!(row.k_prime(), raptorq::extended_source_block_symbols(count));
    }
    assert_eq!((Row::published(0), Row::published(56404)), (Err(Refusal::BadCount), Err(Refusal::BadCount)));
}

/// bindings/data/delivery.txt is what the published encoder sends of bindings/data/object.txt in symbols of 4 bytes: the transmission information, and then
/// the packets, of which source symbols 2, 5 and 6 were lost and four repair packets came.
#[test]
fn the_delivery_of_the_c_example() {
    let mut data = include_bytes!("../../data/object.txt").to_vec();
    let config = ObjectTransmissionInformation::new(data.len() as u64, 4, 1, 1, 1);
    data.resize(data.len().next_multiple_of(4), 0);
    let encoder = SourceBlockEncoder::new(0, &config, &data);
    let mut packets = encoder.source_packets();
    packets.retain(|p| ![2, 5, 6].contains(&p.payload_id().encoding_symbol_id()));
    packets.extend(encoder.repair_packets(0, 4));
    let lines = std::iter::once(config.serialize().to_vec()).chain(packets.iter().map(|p| p.serialize()));
    let made: String = lines.map(|line| line.iter().map(|byte| format!("{byte},")).collect::<Vec<_>>().join(" ") + "\n").collect();
    assert_eq!(made, include_str!("../../data/delivery.txt"), "delivery.txt should be:\n{made}");
}

/// bindings/data/stream.bin is what the published encoder sends of 200 records in three blocks with symbols of 32 bytes: the transmission information, and then
/// the packets of the three in turns, six repair packets each, of which every tenth was lost.
#[test]
fn the_stream_of_the_rust_example() {
    let object: Vec<u8> = (0..200).flat_map(|n| format!("record {n}\n").into_bytes()).collect();
    let config = ObjectTransmissionInformation::new(object.len() as u64, 32, 3, 1, 1);
    let encoder = Encoder::new(&object, config);
    let blocks = encoder.get_block_encoders().iter().map(|block| [block.source_packets(), block.repair_packets(0, 6)].concat());
    let blocks: Vec<Vec<_>> = blocks.collect();
    let sent = (0..28).flat_map(|n| blocks.iter().map(move |block| block[n].serialize()));
    let came = sent.enumerate().filter(|(n, _)| n % 10 != 0).flat_map(|(_, packet)| packet);
    let made: Vec<u8> = config.serialize().into_iter().chain(came).collect();
    let place = concat!(env!("CARGO_TARGET_TMPDIR"), "/stream.bin");
    std::fs::write(place, &made).unwrap();
    assert!(made == include_bytes!("../../data/stream.bin"), "stream.bin should be {place}");
}
