//! Every call of the archive that takes a row's record verifies it: where the five numbers break a rule, or L, P, B or P1 is not what the check makes of them,
//! it is refused 4 with the part of the first rule that breaks, before all else. A `Row` comes from the check alone and cannot try that, so the declarations
//! beneath are called. That what is lent stays is shown by bindings/c/records.c.
mod common;
use common::{Random, part_due};
use spoonripple::parameters::PUBLISHED_ROWS;
use spoonripple::sys::*;
use spoonripple::{BadRow, Part, Refusal, Row};
use std::ptr::{null, null_mut};

/// What the nine calls answer to a record with nothing lent: no tables, no list, no place for a value. A slice of length 0 may be null.
fn answers([k, j, s, h, w, l, p, b, p1]: [u32; 9]) -> [u32; 9] {
    macro_rules! ask {
        ($call:ident, $($rest:expr),*) => {
            unsafe { $call(k, j, s, h, w, l, p, b, p1, $($rest),*) }
        };
    }
    [
        ask!(spoonripple_isi, 1, 0, null_mut(), 0),
        ask!(spoonripple_tuple, null(), 0, 1, null_mut(), 0),
        ask!(spoonripple_enc_indices, 1, 1, 0, 2, 1, 0, null_mut(), 0),
        ask!(spoonripple_hdpc_rows, null(), 0, null_mut(), 0),
        ask!(spoonripple_constraint_matrix, null(), 0, null(), 0, null_mut(), 0),
        ask!(spoonripple_constraint_matrix_no_hdpc, null(), 0, null(), 0, null_mut(), 0),
        ask!(spoonripple_encode, null(), 0, 1, 1, 0, null(), 0, null_mut(), 0),
        ask!(spoonripple_solve, null(), 0, 1, 1, null(), 0, null(), 0, null_mut(), 0, null_mut(), 0, null_mut(), 0, null_mut(), 0),
        ask!(spoonripple_intake_begin, null(), 0, 1, 1, null_mut(), 0, null(), 0, null(), 0, null(), 0),
    ]
}

/// What they answer to one that is not refused.
const NOTHING_LENT: [u32; 9] = [8, 5, 8, 5, 5, 5, 5, 5, 5];

/// 4 with its part 10.
const DERIVED: [u32; 9] = [2564; 9];

#[test]
fn a_record_that_the_check_does_not_make_is_refused() {
    for five in PUBLISHED_ROWS {
        let record = Row::new(five).unwrap().numbers();
        assert_eq!(answers(record), NOTHING_LENT, "{record:?}");
        for at in 5..9 {
            let right = record[at];
            // Another number of the record, P for P1 say; one beside it, the same in 16 bits, and the ends.
            let others = record.into_iter().chain([right - 1, right + 1, right + 65536, 0, u32::MAX]);
            for wrong in others.filter(|other| *other != right) {
                let mut record = record;
                record[at] = wrong;
                assert_eq!(answers(record), DERIVED, "{record:?}");
            }
        }
    }
}

/// Four numbers that fit one another, but belong to the next row.
#[test]
fn the_derived_numbers_of_another_row_are_refused() {
    let records = PUBLISHED_ROWS.map(|five| Row::new(five).unwrap().numbers());
    for pair in records.windows(2) {
        let mixed = [&pair[0][..5], &pair[1][5..]].concat();
        assert_eq!(answers(mixed.try_into().unwrap()), DERIVED);
    }
}

/// The check, the nine calls and the binding's two ways to a `Row` agree with the rules in plain Rust, whatever breaks.
fn tried(numbers: [u32; 9]) -> u32 {
    let [k, j, s, h, w, l, p, b, p1] = numbers;
    let (of_five, of_all) = (part_due([k, j, s, h, w], None), part_due([k, j, s, h, w], Some([l, p, b, p1])));
    let refused = |part, numbers| Refusal::BadRow(BadRow { part: Part::of(part).unwrap(), numbers });
    let made = Row::new([k, j, s, h, w]);
    match of_five {
        0 => assert_eq!(made.map(|row| part_due([k, j, s, h, w], Some(row.numbers()[5..].try_into().unwrap()))), Ok(0), "{numbers:?}"),
        part => assert_eq!(made, Err(refused(part, [k, j, s, h, w, 0, 0, 0, 0]))),
    }
    assert_eq!(answers(numbers), if of_all == 0 { NOTHING_LENT } else { [4 + 256 * of_all; 9] }, "{numbers:?}");
    assert_eq!(Row::from_numbers(numbers), if of_all == 0 { made } else { Err(refused(of_all, numbers)) });
    of_all
}

/// The last row that keeps a rule and the first that breaks it; part 0 is accepted.
#[test]
fn the_rules_end_where_document_01_says() {
    for (five, part) in [
        ([10, 65535, 7, 10, 17], 0),
        ([10, 65536, 7, 10, 17], 1),
        ([1, 254, 7, 12, 17], 0),
        ([0, 254, 7, 13, 17], 2),
        ([56403, 254, 7, 10, 17], 0),
        ([56404, 254, 7, 10, 17], 2),
        ([10, 254, 3, 10, 7], 0),
        ([10, 254, 2, 10, 5], 3),
        ([10, 254, 1, 10, 3], 3),
        ([20, 254, 7, 2, 17], 0),
        ([20, 254, 7, 1, 17], 4),
        ([10, 254, 7, 255, 17], 0),
        ([10, 254, 7, 256, 17], 4),
        ([10, 254, 7, 10, 11], 0),
        ([10, 254, 7, 10, 9], 5),
        // B is 1 only of an even W.
        ([10, 254, 5, 10, 7], 0),
        ([10, 254, 7, 10, 7], 6),
        ([10, 254, 7, 10, 5], 6),
        ([10, 254, 7, 9, 23], 0),
        ([10, 254, 7, 8, 23], 7),
        ([10, 254, 5, 20, 23], 0),
        ([10, 254, 5, 20, 29], 8),
        ([56403, 254, 8877, 255, 56951], 0),
        ([56403, 254, 8879, 254, 56951], 9),
    ] {
        let [k, j, s, h, w] = five;
        let record = Row::new(five).map_or([k, j, s, h, w, 0, 0, 0, 0], Row::numbers);
        assert_eq!(tried(record), part, "{five:?}");
    }
}

#[test]
fn the_first_rule_that_breaks_is_the_part() {
    let (mut random, mut met) = (Random::new(7), [0; 11]);
    // At the ends of the rules, with two or three numbers of a published record taken from there.
    let small = [0, 1, 2, 3, 4, 7, 9, 17, 254, 255, 256, 907, 8877, 9011, 20001, 30001, 40001];
    let ends = [&small[..], &[56403, 56404, 56951, 65521, 65535, 65536, 65537, 1 << 31, u32::MAX]].concat();
    for _ in 0..200_000 {
        let mut numbers = Row::new(PUBLISHED_ROWS[random.below(477)]).unwrap().numbers();
        for _ in 0..random.below(4) {
            numbers[random.below(9)] = ends[random.below(ends.len())];
        }
        // The derived numbers as they follow, if they do: of a row whose five were changed part 10 would hide that it is accepted.
        if let (Ok(row), 0) = (Row::new(numbers[..5].try_into().unwrap()), random.below(2)) {
            numbers = row.numbers();
        }
        met[tried(numbers) as usize] += 1;
    }
    assert!(met.iter().all(|n| *n >= 100), "{met:?}");
}
