//! Every call that needs no delivery: an answer that document 01 or plain Rust has too, and its refusals, which leave the lent memory alone. The published
//! crate's answers are in recorded.rs and in bindings/rust_oracle.
#![forbid(unsafe_code)]
mod common;
use common::{long_walks, product, walk};
use spoonripple::headers::{ObjectTransmissionInformation, Parts, PayloadId, partition, read_packet, write_packet};
use spoonripple::matrix::Shape;
use spoonripple::slab::Slab;
use spoonripple::tuples::{Isi, Tuple, deg, isi, rand, tuple};
use spoonripple::{BadRow, Part, Refusal, Row, Tables, Verdict, constraints, matrix, octets, slab};
use std::collections::BTreeSet;

/// Bytes that look like no pattern.
fn bytes(n: usize) -> Vec<u8> {
    (0..n as u32).map(|i| (i.wrapping_mul(2_654_435_761) >> 24) as u8).collect()
}

fn row() -> Row {
    Row::new([10, 254, 7, 10, 17]).unwrap()
}

#[test]
fn refusals_are_those_of_documents_01_and_02() {
    let (_, table) = include_str!("../../../docs/01-scope.md").split_once("| No. |").unwrap();
    let rows = table.lines().skip(2).take_while(|line| line.starts_with('|'));
    let mut numbers: Vec<u32> = rows.map(|row| row.split('|').nth(1).unwrap().trim().parse().unwrap()).collect();
    // Of document 02 those whose request is built.
    assert!(include_str!("../../../docs/02-change-requests.md").contains("before the first accepted begin gives 14, before all others"));
    numbers.push(14);
    // Each number is a code, but 4, which has its ten parts above it.
    let plain = numbers.iter().copied().filter(|n| *n != 4);
    let codes: BTreeSet<u32> = plain.chain((1..=10).map(|part| 4 + 256 * part)).collect();
    let named: BTreeSet<u32> = (0..=u16::MAX.into()).filter(|code| Refusal::of(*code, [7; 9]).is_some()).collect();
    assert_eq!((&named, codes.len()), (&codes, numbers.len() + 9));
    // No bit above is left aside.
    assert!(codes.iter().all(|code| (16..32).all(|bit| Refusal::of(code | 1 << bit, [7; 9]).is_none())));
    for code in codes {
        let refusal = Refusal::of(code, [7; 9]).unwrap();
        assert_eq!((refusal.code(), refusal.number(), refusal.part()), (code, code % 256, Part::of(code / 256)));
        assert!(!refusal.meaning().is_empty());
    }
    assert_eq!(Refusal::BadSize.to_string(), "refused 10: the symbol size is 0, or a symbol is not of that size");
    assert_eq!(Refusal::NotBegun.to_string(), "refused 14: nothing was begun");
}

#[test]
fn parts_are_those_of_document_02() {
    use Part::*;
    let parts = [Wide, Kp, S, H, W, B, P, Ldpc, L, Derived];
    assert_eq!(parts.map(Part::number), [1, 2, 3, 4, 5, 6, 7, 8, 9, 10]);
    assert_eq!((0..=256).chain([1 << 16, u32::MAX]).filter_map(Part::of).collect::<Vec<_>>(), parts);
    assert_eq!(parts.map(Part::meaning).into_iter().collect::<BTreeSet<_>>().len(), 10);
}

/// More refusals can come: without that the last arm could not be reached, and this would not compile.
#[test]
#[deny(unreachable_patterns)]
fn refusals_are_not_exhaustive() {
    use Refusal::*;
    let number = |refusal| match refusal {
        DivisorZero | OutOfRange | BadTransmission | BadRow(_) | BadTables | Outside | SamePlace | WrongLength | BadCount | BadSize | NotBegun => 1,
        _ => 0,
    };
    assert_eq!(number(BadSize), 1);
}

#[test]
fn verdicts_are_told_in_words() {
    assert_eq!([Verdict::Solved, Verdict::Contradiction].map(|verdict| verdict.to_string()), ["solved", "contradiction"]);
    assert_eq!(Verdict::Open { shortfall: 3 }.to_string(), "open, 3 more independent packets at least");
}

#[test]
fn octets_are_those_of_the_rfc() {
    for [a, b] in (0..=u16::MAX).map(u16::to_be_bytes) {
        assert_eq!((octets::add(a, b), octets::sub(a, b)), (a ^ b, a ^ b));
        assert_eq!((octets::mul(a, b), octets::fma(29, a, b)), (product(a, b), 29 ^ product(a, b)));
        match octets::div(a, b) {
            Ok(quotient) => assert_eq!(product(quotient, b), a),
            Err(refusal) => assert_eq!((refusal, b), (Refusal::DivisorZero, 0)),
        }
    }
    assert_eq!([octets::mul(128, 2), octets::mul(142, 2), octets::mul(3, 7), octets::mul(0, 255)], [29, 1, 9, 0]);
    assert_eq!((octets::div(9, 7), octets::div(5, 0)), (Ok(3), Err(Refusal::DivisorZero)));
    for i in 0..300 {
        let power = if i > 255 { Err(Refusal::OutOfRange) } else { Ok((0..i).fold(1, |x, _| product(2, x))) };
        assert_eq!(octets::alpha(i), power);
    }
}

#[test]
fn runs_are_octets_one_by_one() {
    let (dst, src) = (bytes(100), bytes(200)[100..].to_vec());
    let each = |call: &dyn Fn(u8, u8) -> u8| dst.iter().zip(&src).map(|(a, b)| call(*a, *b)).collect::<Vec<u8>>();
    let mut run = dst.clone();
    assert_eq!(octets::run_add(&mut run, &src), Ok(false));
    assert_eq!(run, each(&|a, b| a ^ b));
    run = dst.clone();
    assert!(!octets::run_scale(&mut run, 77));
    assert_eq!(run, each(&|a, _| product(a, 77)));
    run = dst.clone();
    assert_eq!(octets::run_fma(&mut run, &src, 77), Ok(false));
    assert_eq!(run, each(&|a, b| a ^ product(b, 77)));
    run = dst.clone();
    assert_eq!(octets::run_add(&mut run, &src[1..]), Err(Refusal::WrongLength));
    assert_eq!(octets::run_fma(&mut run, &src[1..], 77), Err(Refusal::WrongLength));
    assert_eq!(run, dst);
    assert!(octets::run_scale(&mut [], 77));
}

#[test]
fn payload_ids_are_read_and_written() {
    let id = PayloadId { source_block_number: 3, encoding_symbol_id: 0x01_02_03 };
    let sent = [3, 1, 2, 3];
    assert_eq!(PayloadId::read(&sent), Ok(id));
    assert_eq!(PayloadId::read(&[0; 5]), Err(Refusal::WrongLength));
    let mut store = [9; 6];
    assert_eq!(id.write(&mut store), Ok(()));
    assert_eq!((&store[..PayloadId::SIZE], &store[4..]), (&sent[..], &[9, 9][..]));
    assert_eq!(id.write(&mut store[..3]), Err(Refusal::WrongLength));
    let large = PayloadId { encoding_symbol_id: 1 << 24, ..id };
    assert_eq!(large.write(&mut []), Err(Refusal::BadCount));
}

#[test]
fn transmission_information_is_read_written_and_checked() {
    let info = ObjectTransmissionInformation { transfer_length: 10000, symbol_size: 1024, num_source_blocks: 2, num_sub_blocks: 3, symbol_alignment: 8 };
    let sent = [0, 0, 0, 0x27, 0x10, 0, 4, 0, 2, 0, 3, 8];
    assert_eq!(ObjectTransmissionInformation::read(&sent), Ok(info));
    assert_eq!(ObjectTransmissionInformation::read(&sent[1..]), Err(Refusal::WrongLength));
    let mut store = [9; 14];
    assert_eq!(info.write(&mut store), Ok(()));
    assert_eq!((&store[..ObjectTransmissionInformation::SIZE], &store[12..]), (&sent[..], &[9, 9][..]));
    assert_eq!(info.write(&mut store[..11]), Err(Refusal::WrongLength));
    let long = ObjectTransmissionInformation { transfer_length: 1 << 40, ..info };
    assert_eq!(long.write(&mut []), Err(Refusal::OutOfRange));
    assert_eq!(info.check(), Ok(()));
    let unaligned = ObjectTransmissionInformation { symbol_alignment: 3, ..info };
    let crowded = ObjectTransmissionInformation { transfer_length: 56404 * 1024, num_source_blocks: 1, ..info };
    for bad in [long, unaligned, crowded, ObjectTransmissionInformation { symbol_alignment: 0, ..info }] {
        assert_eq!(bad.check(), Err(Refusal::BadTransmission), "{bad:?}");
    }
    assert_eq!(ObjectTransmissionInformation { transfer_length: 56403 * 1024, ..crowded }.check(), Ok(()));
    // T, Z and N of 0, and N above T/Al: the check alone refuses them, reading and writing do not.
    let of = |symbol_size, num_source_blocks, num_sub_blocks| ObjectTransmissionInformation { symbol_size, num_source_blocks, num_sub_blocks, ..info };
    for (bad, rest) in [
        (of(0, 1, 1), [0, 0, 1, 0, 1, 8]),
        (of(1024, 0, 1), [4, 0, 0, 0, 1, 8]),
        (of(1024, 1, 0), [4, 0, 1, 0, 0, 8]),
        (of(1024, 1, 129), [4, 0, 1, 0, 129, 8]),
        // All three at once, and the largest N.
        (of(0, 0, 0), [0, 0, 0, 0, 0, 8]),
        (of(1024, 1, u16::MAX), [4, 0, 1, 255, 255, 8]),
    ] {
        assert_eq!(bad.check(), Err(Refusal::BadTransmission), "{bad:?}");
        let sent = [&sent[..6], &rest].concat();
        assert_eq!((ObjectTransmissionInformation::read(&sent), bad.write(&mut store)), (Ok(bad), Ok(())));
        assert_eq!((&store[..12], &store[12..]), (&sent[..], &[9, 9][..]));
    }
    for taken in [of(1024, 1, 128), of(1024, 1, 1), of(8, 1, 1), of(1024, u8::MAX, 128)] {
        assert_eq!(taken.check(), Ok(()), "{taken:?}");
    }
}

#[test]
fn packets_are_taken_apart_and_put_together() {
    let id = PayloadId { source_block_number: 1, encoding_symbol_id: 70000 };
    let sent = [&[1, 1, 0x11, 0x70][..], &bytes(10)].concat();
    assert_eq!(read_packet(&sent), Ok((id, &bytes(10)[..])));
    assert_eq!(read_packet(&sent[..4]), Ok((id, &[][..])));
    assert_eq!(read_packet(&sent[..3]), Err(Refusal::WrongLength));
    let mut store = [9; 15];
    assert_eq!(write_packet(id, &bytes(10), &mut store), Ok(()));
    assert_eq!((&store[..14], store[14]), (&sent[..], 9));
    let before = store;
    assert_eq!(write_packet(id, &bytes(12), &mut store), Err(Refusal::WrongLength));
    assert_eq!(write_packet(PayloadId { encoding_symbol_id: u32::MAX, ..id }, &[], &mut store), Err(Refusal::BadCount));
    assert_eq!(store, before);
}

#[test]
fn partitions_are_those_of_document_01() {
    assert_eq!(partition(10, 3), Ok(Parts { long_size: 4, short_size: 3, long: 1, short: 2 }));
    assert_eq!(partition(0, 5), Ok(Parts { long_size: 0, short_size: 0, long: 0, short: 5 }));
    assert_eq!(partition(5, 0), Err(Refusal::OutOfRange));
}

#[test]
fn rows_and_tables_are_checked() {
    assert_eq!(row().numbers(), [10, 254, 7, 10, 17, 27, 10, 10, 11]);
    // Of this row no two numbers are equal, so that none can stand for another.
    let other = Row::published(114).unwrap();
    assert_eq!(other.numbers(), [114, 5, 19, 10, 127, 143, 16, 108, 17]);
    assert_eq!([other.k_prime(), other.l(), other.p(), other.b(), other.p1()], [114, 143, 16, 108, 17]);
    assert_eq!(Row::from_numbers(other.numbers()), Ok(other));
    for (bad, part) in [
        ([10, 65536, 7, 10, 17], Part::Wide),
        ([0, 254, 7, 10, 17], Part::Kp),
        ([10, 254, 8, 10, 17], Part::S),
        ([10, 254, 7, 1, 17], Part::H),
        ([10, 254, 7, 10, 18], Part::W),
        ([10, 254, 7, 10, 29], Part::P),
    ] {
        let [k, j, s, h, w] = bad;
        assert_eq!(Row::new(bad), Err(Refusal::BadRow(BadRow { part, numbers: [k, j, s, h, w, 0, 0, 0, 0] })));
        let numbers = [k, j, s, h, w, 27, 10, 10, 11];
        assert_eq!(Row::from_numbers(numbers), Err(Refusal::BadRow(BadRow { part, numbers })));
    }
    let own: Vec<u32> = (0..1024).collect();
    assert_eq!(Tables::new(&own).map(|t| t.numbers()[1023]), Ok(1023));
    assert_eq!((Tables::new(&own[1..]), Tables::new(&[])), (Err(Refusal::BadTables), Err(Refusal::BadTables)));
}

#[test]
fn generators_are_those_of_document_01() {
    let (tables, plain) = (Tables::published(), Tables::published().numbers());
    for (y, i, m) in [(1, 0, 1 << 20), (70000, 3, 2), (u32::MAX, 255, 11), (12345, 1, 1)] {
        let entries = y.to_le_bytes().into_iter().zip(plain.chunks(256)).map(|(byte, table)| table[usize::from(byte.wrapping_add(i))]);
        assert_eq!(rand(tables, y, i, m), Ok(entries.fold(0, |sum, entry| sum ^ entry) % m));
    }
    assert_eq!(rand(tables, 1, 1, 0), Err(Refusal::OutOfRange));
    assert_eq!([5242, 5243, 1_017_661, 1_048_575].map(|v| deg(v, 100)), [Ok(1), Ok(2), Ok(29), Ok(30)]);
    assert_eq!((deg(1_048_575, 17), deg(1_048_575, 2)), (Ok(15), Ok(0)));
    assert_eq!((deg(1 << 20, 100), deg(5, 1)), (Err(Refusal::OutOfRange), Err(Refusal::OutOfRange)));
    // Of ISI 1 y is 2924914.
    let (of_y, of_x) = (|i, m| rand(tables, 2_924_914, i, m).unwrap(), |i, m| rand(tables, 1, i, m).unwrap());
    let (d, a, b) = (deg(of_y(0, 1 << 20), 17).unwrap(), 1 + of_y(1, 16), of_y(2, 17));
    let (d1, a1, b1) = (if d < 4 { 2 + of_x(3, 2) } else { 2 }, 1 + of_x(4, 10), of_x(5, 11));
    assert_eq!(tuple(row(), tables, Isi::of_row(1)), Tuple { d, a, b, d1, a1, b1 });
}

#[test]
fn an_esi_is_shifted_from_k_on() {
    let shifted = |count, esi| isi(row(), count, esi).map(Isi::number);
    assert_eq!((shifted(7, 6), shifted(7, 7), shifted(10, 10)), (Ok(6), Ok(10), Ok(10)));
    assert_eq!(isi(row(), 7, 8), Ok(Isi::of_row(11)));
    for (count, esi) in [(0, 1), (11, 1), (7, 1 << 24)] {
        assert_eq!(isi(row(), count, esi), Err(Refusal::BadCount));
    }
}

#[test]
fn slab_calls_work_on_one_symbol() {
    let (three, order) = (Slab { count: 3, t: 5 }, [2, 0, 1]);
    let before = bytes(17);
    let symbol = |i: usize| &before[5 * i..][..5];
    let times = |c: u8, run: &[u8]| run.iter().map(|x| octets::mul(c, *x)).collect::<Vec<u8>>();
    let sum = |a: &[u8], b: &[u8]| a.iter().zip(b).map(|(a, b)| a ^ b).collect::<Vec<u8>>();
    let changed = |i: usize, to: Vec<u8>| [&before[..5 * i], &to[..], &before[5 * (i + 1)..]].concat();
    let mut store = before.clone();
    assert_eq!(slab::add_assign(&mut store, three, &[], 1, 2), Ok(false));
    assert_eq!(store, changed(1, sum(symbol(1), symbol(2))));
    store = before.clone();
    assert_eq!(slab::mulassign_scalar(&mut store, three, &order, 1, 9), Ok(false));
    assert_eq!(store, changed(0, times(9, symbol(0))));
    store = before.clone();
    assert_eq!(slab::fma(&mut store, three, &order, 0, 1, 9), Ok(false));
    assert_eq!(store, changed(2, sum(symbol(2), &times(9, symbol(0)))));
    assert_eq!((slab::locate(17, three, &order, 2), slab::locate(17, three, &[], 2)), (Ok(5..10), Ok(10..15)));
    assert_eq!(slab::with_zeros(&mut store, three), Ok(()));
    assert_eq!((&store[..15], &store[15..]), (&[0; 15][..], &before[15..]));
}

#[test]
fn slab_calls_refuse() {
    let three = Slab { count: 3, t: 5 };
    let (before, mut store) = (bytes(15), bytes(15));
    assert_eq!(slab::with_zeros(&mut store, Slab { count: 131_071, t: 0 }), Err(Refusal::OutOfRange));
    assert_eq!(slab::with_zeros(&mut store[..14], three), Err(Refusal::WrongLength));
    assert_eq!(slab::locate(15, three, &[0, 1], 0), Err(Refusal::WrongLength));
    assert_eq!(slab::locate(15, three, &[], 3), Err(Refusal::Outside));
    assert_eq!(slab::add_assign(&mut store, three, &[0, 0, 1], 0, 1), Err(Refusal::SamePlace));
    assert_eq!(slab::mulassign_scalar(&mut store, three, &[0, 3, 1], 1, 2), Err(Refusal::Outside));
    assert_eq!(slab::fma(&mut store, three, &[], 2, 2, 7), Err(Refusal::SamePlace));
    assert_eq!(store, before);
}

const M: Shape = Shape { height: 6, width: 70 };

/// The words of a matrix of 6 by 70, stray bits 0.
fn filled() -> Vec<u64> {
    let words = bytes(96).chunks(8).map(|word| u64::from_le_bytes(word.try_into().unwrap())).collect::<Vec<_>>();
    (0..12).map(|at| if at % 2 == 1 { words[at] & 63 } else { words[at] }).collect()
}

/// Row i, column j.
fn one(words: &[u64], i: usize, j: usize) -> bool {
    words[2 * i + j / 64] >> (j % 64) & 1 == 1
}

#[test]
fn matrix_entries_are_bits() {
    let words = filled();
    let mut ours = vec![u64::MAX; 13];
    assert_eq!((M.words(), Shape { width: 64, ..M }.words(), Shape { width: 65, ..M }.words()), (12, 6, 12));
    assert_eq!(matrix::new(&mut ours, M), Ok(()));
    assert_eq!((&ours[..12], ours[12]), (&[0; 12][..], u64::MAX));
    for (i, j) in (0..6).flat_map(|i| (0..70).map(move |j| (i, j))) {
        assert_eq!(matrix::get(&words, M, i, j), Ok(one(&words, i, j)));
        assert_eq!(matrix::set(&mut ours, M, i, j, true), Ok(()));
        assert_eq!(matrix::get(&ours, M, i, j), Ok(true));
        assert_eq!(matrix::set(&mut ours, M, i, j, one(&words, i, j)), Ok(()));
    }
    assert_eq!(ours[..12], words);
    let mut list = [9; 71];
    for i in 0..6 {
        assert_eq!(matrix::count_ones(&words, M, i, 3..66), Ok((3..66).filter(|j| one(&words, i, *j)).count()));
        let columns: Vec<u32> = (2..70).filter(|j| one(&words, i, *j as usize)).collect();
        assert_eq!(matrix::query_non_zero_columns(&words, M, i, 2, &mut list), Ok(&columns[..]));
        assert_eq!(list[68..], [9; 3]);
    }
    for j in 0..70 {
        let rows: Vec<u32> = (1..5).filter(|i| one(&words, *i as usize, j)).collect();
        assert_eq!(matrix::get_ones_in_column(&words, M, j, 1..5, &mut list[..4]), Ok(&rows[..]));
    }
}

#[test]
fn matrix_changes_are_those_of_plain_rust() {
    let mut ours = filled();
    let mut plain = ours.clone();
    (plain[2], plain[3], plain[8], plain[9]) = (plain[8], plain[9], plain[2], plain[3]);
    assert_eq!(matrix::swap_rows(&mut ours, M, 1, 4), Ok(()));
    assert_eq!(ours, plain);
    assert_eq!(matrix::swap_columns(&mut ours, M, 3, 67, 2), Ok(()));
    for (i, j) in (0..6).flat_map(|i| (0..70).map(move |j| (i, j))) {
        let from = [j, 67, 3][if i < 2 { 0 } else { usize::from(j == 3) + 2 * usize::from(j == 67) }];
        assert_eq!(one(&ours, i, j), one(&plain, i, from));
    }
    plain = ours.clone();
    (plain[0], plain[1]) = (plain[0] ^ plain[10], plain[1] ^ plain[11]);
    assert_eq!(matrix::add_assign_rows(&mut ours, M, 0, 5), Ok(()));
    assert_eq!(ours, plain);
    assert_eq!(matrix::resize(&mut ours, M, Shape { height: 5, width: 64 }), Ok(()));
    assert_eq!(ours, [[0, 2, 4, 6, 8].map(|at| plain[at]).to_vec(), plain[5..].to_vec()].concat());
}

#[test]
fn matrix_calls_refuse() {
    let words = filled();
    let mut ours = words.clone();
    let mut list = [9; 70];
    assert_eq!(matrix::new(&mut ours, Shape { height: 131_071, width: 0 }), Err(Refusal::OutOfRange));
    assert_eq!(matrix::new(&mut ours[..11], M), Err(Refusal::WrongLength));
    assert_eq!(matrix::set(&mut ours, M, 6, 0, true), Err(Refusal::Outside));
    assert_eq!(matrix::get(&words, M, 0, 70), Err(Refusal::Outside));
    #[allow(clippy::reversed_empty_ranges)]
    let backwards = 5..4;
    assert_eq!(matrix::count_ones(&words, M, 0, backwards), Err(Refusal::Outside));
    assert_eq!(matrix::get_ones_in_column(&words, M, 70, 0..6, &mut list), Err(Refusal::Outside));
    assert_eq!(matrix::get_ones_in_column(&words, M, 1, 0..6, &mut list[..5]), Err(Refusal::WrongLength));
    assert_eq!(matrix::query_non_zero_columns(&words, M, 0, 0, &mut list[..69]), Err(Refusal::WrongLength));
    assert_eq!(matrix::query_non_zero_columns(&words, M, 0, 71, &mut list), Err(Refusal::Outside));
    assert_eq!(matrix::swap_rows(&mut ours, M, 0, 6), Err(Refusal::Outside));
    assert_eq!(matrix::swap_columns(&mut ours, M, 70, 0, 9), Err(Refusal::Outside));
    assert_eq!(matrix::add_assign_rows(&mut ours, M, 2, 2), Err(Refusal::SamePlace));
    assert_eq!(matrix::resize(&mut ours, M, Shape { height: 7, width: 70 }), Err(Refusal::Outside));
    assert_eq!((ours, list), (words, [9; 70]));
}

#[test]
fn walks_are_those_of_document_01() {
    let mut list = [99; 6];
    let first = Tuple { d: 2, a: 3, b: 16, d1: 2, a1: 4, b1: 10 };
    assert_eq!(constraints::enc_indices(row(), first, &mut list), Ok(&[16, 2, 20, 24][..]));
    assert_eq!(list[4..], [99, 99]);
    assert_eq!(constraints::enc_indices(row(), Tuple { d: 1, a: 1, b: 0, d1: 3, a1: 1, b1: 9 }, &mut list), Ok(&[0, 26, 17, 18][..]));
    let before = list;
    assert_eq!(constraints::enc_indices(row(), first, &mut list[..3]), Err(Refusal::WrongLength));
    assert_eq!(constraints::enc_indices(row(), Tuple { d1: 4, ..first }, &mut []), Err(Refusal::OutOfRange));
    assert_eq!(list, before);
}

/// A tuple of one's own with d = 30 and d1 = 3, which no ISI has: 33 places, in the row of the least W that takes it and in published ones.
#[test]
fn a_walk_of_ones_own_may_have_33_places() {
    let least = Row::new([30, 254, 7, 10, 37]).unwrap();
    let first = Tuple { d: 30, a: 1, b: 0, d1: 3, a1: 1, b1: 9 };
    assert_eq!(walk(least, first), (0..30).chain([46, 37, 38]).collect::<Vec<_>>());
    for row in [least, Row::published(26).unwrap(), Row::published(1002).unwrap(), Row::published(56403).unwrap()] {
        let [_, _, _, _, w, _, _, _, p1] = row.numbers();
        for [a, b, a1, b1] in [[1, 0, 1, 9], [w - 1, 3, p1 - 1, 1], [w / 2, w - 1, p1 / 2, p1 - 1]] {
            let tuple = Tuple { a, b, a1, b1, ..first };
            let due = walk(row, tuple);
            assert_eq!(due.iter().collect::<BTreeSet<_>>().len(), 33);
            for room in [33, 34, 50] {
                let mut list = vec![u32::MAX; room];
                assert_eq!(constraints::enc_indices(row, tuple, &mut list), Ok(&due[..]), "{row:?} {tuple:?}");
                assert_eq!(list, [&due[..], &vec![u32::MAX; room - 33]].concat());
            }
            let mut list = [u32::MAX; 33];
            for room in [0, 1, 31, 32] {
                assert_eq!(constraints::enc_indices(row, tuple, &mut list[..room]), Err(Refusal::WrongLength), "{row:?} {tuple:?}");
            }
            assert_eq!(constraints::enc_indices(row, Tuple { d: 31, ..tuple }, &mut list), Err(Refusal::OutOfRange));
            assert_eq!(list, [u32::MAX; 33]);
        }
    }
}

/// W - 2 bounds d too: with W of 31 there are walks of 32 places, and none of 33.
#[test]
fn a_walk_of_ones_own_has_at_most_w_less_2_and_3_places() {
    let row = Row::published(20).unwrap();
    assert_eq!(row.numbers()[4], 31);
    let tuple = Tuple { d: 30, a: 30, b: 30, d1: 3, a1: 10, b1: 10 };
    let mut list = [u32::MAX; 34];
    for (d1, room) in [(3, 34), (3, 33), (3, 32), (2, 34), (2, 32), (2, 0)] {
        assert_eq!(constraints::enc_indices(row, Tuple { d1, ..tuple }, &mut list[..room]), Err(Refusal::OutOfRange));
    }
    assert_eq!(list, [u32::MAX; 34]);
    let longest = Tuple { d: 29, ..tuple };
    assert_eq!(constraints::enc_indices(row, longest, &mut list), Ok(&walk(row, longest)[..]));
    assert_eq!(list[32..], [u32::MAX; 2]);
}

/// Of the first 20,000 ESIs of three blocks d and d1 are all that they can be and nothing else: d1 is 3 with d of 1, 2 and 3 alone, so that 32 places are the
/// most. Tables that draw a 3 for d1 each time make no more of them.
#[test]
fn no_walk_of_an_esi_has_33_places() {
    let long = long_walks();
    for count in [25, 114, 56403] {
        let row = Row::published(count).unwrap();
        let met = |tables| (0..20_000).map(|esi| tuple(row, tables, isi(row, count, esi).unwrap())).map(|t| (t.d, t.d1)).collect::<BTreeSet<_>>();
        assert_eq!(met(Tables::published()), (1..=30).map(|d| (d, 2)).chain((1..4).map(|d| (d, 3))).collect());
        assert_eq!(met(Tables::new(&long).unwrap()), BTreeSet::from([(30, 2)]));
    }
}

#[test]
fn builders_place_the_rows() {
    let tables = Tables::published();
    let ids: Vec<Isi> = (0..25).map(Isi::of_row).collect();
    let mut words = vec![u64::MAX; 43];
    let built = Shape { height: 42, width: 27 };
    assert_eq!(constraints::constraint_matrix(row(), tables, &ids, &mut words), Ok(built));
    let ones = |words: &[u64], shape, i| matrix::query_non_zero_columns(words, shape, i, 0, &mut [0; 27]).map(<[u32]>::to_vec).unwrap();
    assert_eq!(ones(&words, built, 0), [0, 5, 6, 7, 10, 17, 18]);
    assert!((7..17).all(|i| ones(&words, built, i).is_empty()) && words[42] == u64::MAX);
    for (i, id) in ids.iter().enumerate() {
        let mut walk = [0; 33];
        let mut places = constraints::enc_indices(row(), tuple(row(), tables, *id), &mut walk).unwrap().to_vec();
        places.sort();
        assert_eq!(ones(&words, built, 17 + i), places);
    }
    let (mut short, without) = (vec![u64::MAX; 33], Shape { height: 32, width: 27 });
    assert_eq!(constraints::constraint_matrix_no_hdpc(row(), tables, &ids, &mut short), Ok(without));
    assert_eq!((&short[..7], &short[7..32], short[32]), (&words[..7], &words[17..42], u64::MAX));
    let mut octets = vec![9; 271];
    assert_eq!(constraints::hdpc_rows(row(), tables, &mut octets), Ok(()));
    assert!((0..10).all(|i| (0..10).all(|j| octets[27 * i + 17 + j] == u8::from(i == j))) && octets[270] == 9);
}

#[test]
fn builders_refuse() {
    let tables = Tables::published();
    let ids = [Isi::of_row(0); 20];
    let mut words = vec![7; 37];
    assert_eq!(constraints::constraint_matrix(row(), tables, &ids[..9], &mut words), Err(Refusal::BadCount));
    assert_eq!(constraints::constraint_matrix(row(), tables, &ids, &mut words[..36]), Err(Refusal::WrongLength));
    assert_eq!(constraints::constraint_matrix_no_hdpc(row(), tables, &ids[..19], &mut words), Err(Refusal::BadCount));
    assert_eq!(constraints::constraint_matrix_no_hdpc(row(), tables, &ids, &mut words[..26]), Err(Refusal::WrongLength));
    assert_eq!(words, [7; 37]);
    let mut octets = vec![7; 269];
    assert_eq!(constraints::hdpc_rows(row(), tables, &mut octets), Err(Refusal::WrongLength));
    assert_eq!(octets, [7; 269]);
}
