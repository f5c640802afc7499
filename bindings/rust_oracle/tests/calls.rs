//! The published crate's answer to each call that it has too, beside that of the safe crate. What is refused stands in bindings/rust.
#![forbid(unsafe_code)]
#[path = "../../rust/tests/common/mod.rs"]
mod common;
use common::Random;
use raptorq::matrix::{BinaryMatrix, DenseBinaryMatrix};
use raptorq::octet::Octet;
use spoonripple::headers::{ObjectTransmissionInformation, Parts, PayloadId, partition, read_packet, write_packet};
use spoonripple::matrix::Shape;
use spoonripple::tuples::{Isi, Tuple, deg, rand, tuple};
use spoonripple::{Refusal, Row, Tables, constraints, matrix, octets};

/// Bytes that look like no pattern.
fn bytes(n: usize) -> Vec<u8> {
    (0..n as u32).map(|i| (i.wrapping_mul(2_654_435_761) >> 24) as u8).collect()
}

fn row() -> Row {
    Row::new([10, 254, 7, 10, 17]).unwrap()
}

#[test]
fn octets_are_the_crates() {
    for pair in (0..=u16::MAX).step_by(7) {
        let [a, b] = pair.to_be_bytes();
        let (x, y) = (Octet::new(a), Octet::new(b));
        assert_eq!(octets::add(a, b), (x.clone() + y.clone()).byte());
        assert_eq!(octets::sub(a, b), (x.clone() - y.clone()).byte());
        assert_eq!(octets::mul(a, b), (x.clone() * y.clone()).byte());
        assert_eq!(octets::fma(a, b, 29), (x.clone() + y.clone() * Octet::new(29)).byte());
        let quotient = if b == 0 { Err(Refusal::DivisorZero) } else { Ok((x / y).byte()) };
        assert_eq!(octets::div(a, b), quotient);
    }
    for i in 0..300 {
        let power = if i > 255 { Err(Refusal::OutOfRange) } else { Ok(Octet::alpha(i).byte()) };
        assert_eq!(octets::alpha(i), power);
    }
}

#[test]
fn runs_are_the_crates() {
    let (dst, src) = (bytes(100), bytes(200)[100..].to_vec());
    let each = |call: &dyn Fn(u8, u8) -> u8| dst.iter().zip(&src).map(|(a, b)| call(*a, *b)).collect::<Vec<u8>>();
    let mut run = dst.clone();
    assert_eq!(octets::run_add(&mut run, &src), Ok(false));
    assert_eq!(run, each(&|a, b| a ^ b));
    run = dst.clone();
    assert!(!octets::run_scale(&mut run, 77));
    assert_eq!(run, each(&|a, _| (Octet::new(a) * Octet::new(77)).byte()));
    run = dst.clone();
    assert_eq!(octets::run_fma(&mut run, &src, 77), Ok(false));
    assert_eq!(run, each(&|a, b| a ^ (Octet::new(b) * Octet::new(77)).byte()));
}

/// The crate does not tell whether a run is zero, so its bytes are looked through. Of the scalars 0 and 1 its `fused_addassign_mul_scalar` takes neither.
#[test]
fn a_run_is_zero_where_the_crates_is() {
    let (mut random, mut met) = (Random::new(5), [[0; 2]; 3]);
    for case in 0..9000 {
        let (kind, c) = (case % 3, (random.below(256) >> random.below(8)) as u8);
        let (n, scalar) = ([0, 1, 15, 16, 17, 64, 1023, 1024, 1025, 2048, random.below(300)][random.below(11)], Octet::new(c));
        let src = random.bytes(n);
        let theirs = |run: &mut [u8]| match (kind, c) {
            (1, _) => raptorq::octets::mulassign_scalar(run, &scalar),
            (2, 0) => (),
            (0, _) | (2, 1) => raptorq::octets::add_assign(run, &src),
            _ => raptorq::octets::fused_addassign_mul_scalar(run, &src, &scalar),
        };
        // All zero, or all but a byte. What the crate adds to that is gone when it is added once more.
        let mut ours = vec![0; n];
        if n > 0 && random.below(2) == 0 {
            ours[[0, n - 1, random.below(n)][random.below(3)]] = 1 + random.below(255) as u8;
        }
        if kind != 1 {
            theirs(&mut ours);
        }
        let mut due = ours.clone();
        theirs(&mut due);
        let zero = due.iter().all(|x| *x == 0);
        let said = match kind {
            0 => octets::run_add(&mut ours, &src),
            1 => Ok(octets::run_scale(&mut ours, c)),
            _ => octets::run_fma(&mut ours, &src, c),
        };
        assert_eq!(said, Ok(zero), "kind {kind}, scalar {c}, {n} bytes");
        assert_eq!(ours, due);
        met[kind][usize::from(zero)] += 1;
    }
    assert!(met.iter().flatten().all(|n| *n >= 500), "{met:?}");
}

#[test]
fn headers_are_the_crates() {
    let mut store = [9; 14];
    let id = PayloadId { source_block_number: 3, encoding_symbol_id: 0x01_02_03 };
    let theirs = raptorq::PayloadId::new(3, 0x01_02_03).serialize();
    assert_eq!((PayloadId::read(&theirs), id.write(&mut store)), (Ok(id), Ok(())));
    assert_eq!(store[..4], theirs);
    let info = ObjectTransmissionInformation { transfer_length: 10000, symbol_size: 1024, num_source_blocks: 2, num_sub_blocks: 3, symbol_alignment: 8 };
    let theirs = raptorq::ObjectTransmissionInformation::new(10000, 1024, 2, 3, 8).serialize();
    assert_eq!((ObjectTransmissionInformation::read(&theirs), info.write(&mut store), info.check()), (Ok(info), Ok(()), Ok(())));
    assert_eq!(store[..12], theirs);
    let theirs = raptorq::EncodingPacket::new(raptorq::PayloadId::new(3, 0x01_02_03), bytes(10)).serialize();
    assert_eq!((read_packet(&theirs), write_packet(id, &bytes(10), &mut store)), (Ok((id, &bytes(10)[..])), Ok(())));
    assert_eq!(store[..], theirs);
}

/// T, Z or N of 0 and N above T/Al: the crate makes such information, and reads and writes it as we do; the check refuses it (D36 to D39).
#[test]
fn zero_sizes_are_the_crates_alone() {
    for (t, z, n) in [(0, 1, 1), (1024, 0, 1), (1024, 1, 0), (1024, 1, 129)] {
        let info = ObjectTransmissionInformation { transfer_length: 10000, symbol_size: t, num_source_blocks: z, num_sub_blocks: n, symbol_alignment: 8 };
        let (theirs, mut store) = (raptorq::ObjectTransmissionInformation::new(10000, t, z, n, 8).serialize(), [9; 12]);
        assert_eq!((ObjectTransmissionInformation::read(&theirs), info.write(&mut store), store), (Ok(info), Ok(()), theirs));
        assert_eq!(info.check(), Err(Refusal::BadTransmission), "{info:?}");
    }
}

#[test]
fn partitions_are_the_crates() {
    for (i, j) in [(10, 3), (0, 5), (9766, 2), (7, 7), (5, 12), (1 << 24, 255)] {
        let (long_size, short_size, long, short) = raptorq::partition(i, j);
        assert_eq!(partition(i, j), Ok(Parts { long_size, short_size, long, short }));
    }
}

#[test]
fn generators_are_the_crates() {
    let tables = Tables::published();
    for (y, i, m) in [(1, 0, 1 << 20), (70000, 3, 2), (0xFFFF_FF00, 5, 11), (12345, 1, 1)] {
        assert_eq!(rand(tables, y, i, m), Ok(raptorq::rng::rand(y, i, m)));
    }
    for v in [0, 5242, 5243, 500_000, 1_017_661, 1_048_575] {
        assert_eq!((deg(v, 100), deg(v, 17)), (Ok(raptorq::base::deg(v, 100)), Ok(raptorq::base::deg(v, 17))));
    }
    for x in 0..500 {
        let (d, a, b, d1, a1, b1) = raptorq::base::intermediate_tuple(x, 17, 254, 11);
        assert_eq!(tuple(row(), tables, Isi::of_row(x)), Tuple { d, a, b, d1, a1, b1 });
    }
}

/// The crate's matrix of 6 by 70, and its words.
fn filled() -> (DenseBinaryMatrix, Vec<u64>) {
    let mut theirs = DenseBinaryMatrix::new(6, 70, 0);
    for (at, byte) in bytes(420).into_iter().enumerate() {
        theirs.set(at / 70, at % 70, if byte > 127 { Octet::one() } else { Octet::zero() });
    }
    let words = theirs.elements.clone();
    (theirs, words)
}

const M: Shape = Shape { height: 6, width: 70 };

#[test]
fn matrix_entries_are_the_crates() {
    let (theirs, words) = filled();
    let mut ours = vec![u64::MAX; 12];
    assert_eq!(matrix::new(&mut ours, M), Ok(()));
    for (i, j) in (0..6).flat_map(|i| (0..70).map(move |j| (i, j))) {
        let one = theirs.get(i, j) == Octet::one();
        assert_eq!(matrix::get(&words, M, i, j), Ok(one));
        assert_eq!(matrix::set(&mut ours, M, i, j, one), Ok(()));
    }
    assert_eq!(ours, words);
    let mut list = [9; 70];
    for i in 0..6 {
        assert_eq!(matrix::count_ones(&words, M, i, 3..66), Ok(theirs.count_ones(i, 3, 66)));
        let columns: Vec<u32> = (2..70).filter(|j| theirs.get(i, *j as usize) == Octet::one()).collect();
        assert_eq!(matrix::query_non_zero_columns(&words, M, i, 2, &mut list), Ok(&columns[..]));
    }
    for j in 0..70 {
        let rows: Vec<u32> = (1..5).filter(|i| theirs.get(*i as usize, j) == Octet::one()).collect();
        assert_eq!(matrix::get_ones_in_column(&words, M, j, 1..5, &mut list[..4]), Ok(&rows[..]));
    }
}

#[test]
fn matrix_changes_are_the_crates() {
    let (mut theirs, mut ours) = filled();
    theirs.swap_rows(1, 4);
    assert_eq!(matrix::swap_rows(&mut ours, M, 1, 4), Ok(()));
    assert_eq!(ours, theirs.elements);
    theirs.swap_columns(3, 67, 2);
    assert_eq!(matrix::swap_columns(&mut ours, M, 3, 67, 2), Ok(()));
    assert_eq!(ours, theirs.elements);
    theirs.add_assign_rows(0, 5, 0);
    assert_eq!(matrix::add_assign_rows(&mut ours, M, 0, 5), Ok(()));
    assert_eq!(ours, theirs.elements);
    theirs.resize(5, 64);
    let rest = ours[5..].to_vec();
    assert_eq!(matrix::resize(&mut ours, M, Shape { height: 5, width: 64 }), Ok(()));
    assert_eq!((&ours[..5], &ours[5..]), (&theirs.elements[..5], &rest[..]));
}

#[test]
fn builders_are_the_crates() {
    let tables = Tables::published();
    let numbers: Vec<u32> = (0..25).collect();
    let ids: Vec<Isi> = numbers.iter().map(|n| Isi::of_row(*n)).collect();
    let (theirs, hdpc) = raptorq::constraint_matrix::generate_constraint_matrix::<DenseBinaryMatrix>(10, &numbers);
    let mut words = vec![u64::MAX; 43];
    assert_eq!(constraints::constraint_matrix(row(), tables, &ids, &mut words), Ok(Shape { height: 42, width: 27 }));
    assert_eq!((&words[..42], words[42]), (&theirs.elements[..42], u64::MAX));
    let mut octets = vec![9; 271];
    assert_eq!(constraints::hdpc_rows(row(), tables, &mut octets), Ok(()));
    assert!((0..270).all(|at| octets[at] == hdpc.get(at / 27, at % 27).byte()) && octets[270] == 9);
    let theirs = raptorq::constraint_matrix::generate_constraint_matrix_no_hdpc::<DenseBinaryMatrix>(10, &numbers);
    words.fill(u64::MAX);
    assert_eq!(constraints::constraint_matrix_no_hdpc(row(), tables, &ids, &mut words), Ok(Shape { height: 32, width: 27 }));
    assert_eq!((&words[..32], words[32]), (&theirs.elements[..32], u64::MAX));
}
