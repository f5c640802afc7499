//! Why a call refuses, and how its result becomes a `Result`.
use crate::bad_row::{BadRow, Part};
use std::fmt;

/// Why a call was refused. A call that refuses has changed no byte that it was lent.
///
/// The numbers and what they mean are those of the table 'Refusal numbers' in `docs/01-scope.md`, and 14 that of `docs/02-change-requests.md`, E1. Where
/// several apply, the one that comes first in 14, 4, 5, 2, 9, 10, 8, 6, 7, 3, 1 is given. More numbers can come with more calls, so a `match` has an arm for
/// the rest.
///
/// Refusal 4 has a part besides: which rule of the row breaks first.
#[derive(Clone, Copy, Debug, PartialEq, Eq, Hash)]
#[non_exhaustive]
pub enum Refusal {
    /// 1: an octet is divided by 0.
    DivisorZero,
    /// 2: a number is outside its range.
    OutOfRange,
    /// 3: transmission information breaks its rules, which [`check`](crate::headers::ObjectTransmissionInformation::check) lists.
    BadTransmission,
    /// 4: the parameter row breaks its rules, or L, P, B or P1 is not that of the row; with the first rule that breaks, and the numbers.
    BadRow(BadRow),
    /// 5: the random tables are not 1,024 numbers.
    BadTables,
    /// 6: a row, column, range or symbol lies outside, or a resize would grow.
    Outside,
    /// 7: destination and source are one row, or one physical symbol.
    SamePlace,
    /// 8: a lent part is too short, or not of its exact length where one is named.
    WrongLength,
    /// 9: an ESI of 2^24 or more, a source count K not in 1..K', more than 65,535 ids, arrivals or packets of a block that is not solved, or too few ids for a
    /// builder.
    BadCount,
    /// 10: symbol size 0, or symbols that are not T octets each.
    BadSize,
    /// 14: a packet or question before the first accepted begin, or with a state that no accepted begin and no call after it left. An
    /// [`Intake`](crate::Intake) is begun when it is made, so that only the calls beneath it ([`intake`](crate::intake)) come to this.
    NotBegun,
}

impl Refusal {
    /// The number in `docs/01-scope.md`, or in `docs/02-change-requests.md`.
    pub fn number(self) -> u32 {
        match self {
            Refusal::DivisorZero => 1,
            Refusal::OutOfRange => 2,
            Refusal::BadTransmission => 3,
            Refusal::BadRow(_) => 4,
            Refusal::BadTables => 5,
            Refusal::Outside => 6,
            Refusal::SamePlace => 7,
            Refusal::WrongLength => 8,
            Refusal::BadCount => 9,
            Refusal::BadSize => 10,
            Refusal::NotBegun => 14,
        }
    }

    /// Of a refused row, which rule breaks first.
    pub fn part(self) -> Option<Part> {
        match self {
            Refusal::BadRow(row) => Some(row.part),
            _ => None,
        }
    }

    /// The result of the call in C: the number, and 256 times that of the part.
    pub fn code(self) -> u32 {
        self.number() + 256 * self.part().map_or(0, Part::number)
    }

    /// The refusal with this code, of a call that was given this row; all but 4 leave the row aside. `None` of a code that no call answers: 4 without its
    /// part, any other number with one.
    pub fn of(code: u32, row: [u32; 9]) -> Option<Refusal> {
        Some(match (code % 256, code / 256) {
            (1, 0) => Refusal::DivisorZero,
            (2, 0) => Refusal::OutOfRange,
            (3, 0) => Refusal::BadTransmission,
            (4, part) => Refusal::BadRow(BadRow { part: Part::of(part)?, numbers: row }),
            (5, 0) => Refusal::BadTables,
            (6, 0) => Refusal::Outside,
            (7, 0) => Refusal::SamePlace,
            (8, 0) => Refusal::WrongLength,
            (9, 0) => Refusal::BadCount,
            (10, 0) => Refusal::BadSize,
            (14, 0) => Refusal::NotBegun,
            _ => return None,
        })
    }

    /// What it means, in words that can stand in a log. Of a refused row `Display` has the numbers too.
    pub fn meaning(self) -> &'static str {
        match self {
            Refusal::DivisorZero => "an octet is divided by 0",
            Refusal::OutOfRange => "a number is outside its range",
            Refusal::BadTransmission => "the transmission information breaks its rules",
            Refusal::BadRow(row) => row.part.meaning(),
            Refusal::BadTables => "the random tables are not 1,024 numbers",
            Refusal::Outside => "a row, column, range or symbol lies outside, or a resize would grow",
            Refusal::SamePlace => "destination and source are one row, or one physical symbol",
            Refusal::WrongLength => "a lent part is too short, or not of its exact length",
            Refusal::BadCount => "an ESI is too large, the source count is not in 1..K', or there are too many or too few ids, arrivals or packets",
            Refusal::BadSize => "the symbol size is 0, or a symbol is not of that size",
            Refusal::NotBegun => "nothing was begun",
        }
    }
}

impl fmt::Display for Refusal {
    fn fmt(&self, f: &mut fmt::Formatter) -> fmt::Result {
        match self {
            Refusal::BadRow(row) => write!(f, "refused {}, part {}: {row}", self.number(), row.part.number()),
            _ => write!(f, "refused {}: {}", self.number(), self.meaning()),
        }
    }
}

impl std::error::Error for Refusal {}

/// What the result of a call stands for that was given a row. The archive gives no other: that is proved of it.
pub(crate) fn judged(code: u32, row: [u32; 9]) -> Result<(), Refusal> {
    match code {
        0 => Ok(()),
        _ => Err(Refusal::of(code, row).unwrap_or_else(|| panic!("the archive answered {code}, which spoonripple.h does not name: it is of another version"))),
    }
}

/// What the result of any other call stands for. A row is not refused here: a [`Row`](crate::Row) comes from the check, so that 4 is a fault of how the
/// archive was linked.
#[inline]
pub(crate) fn done(code: u32) -> Result<(), Refusal> {
    match code {
        0 => Ok(()),
        _ if code % 256 == 4 => panic!("the archive answered {code}: it refuses a row that its own check made, so more than one version of it is linked"),
        _ => judged(code, [0; 9]),
    }
}

/// The N values of a call that is lent room for just these.
#[inline]
pub(crate) fn values<const N: usize>(call: impl FnOnce(*mut u64, usize) -> u32) -> Result<[u64; N], Refusal> {
    let mut out = [0; N];
    done(call(out.as_mut_ptr(), N)).map(|()| out)
}

/// The yes or no of a call that is lent room for it. What stands there before is neither, so that an archive in which the call gives no answer is told.
#[inline]
pub(crate) fn yes(call: impl FnOnce(*mut u64, usize) -> u32) -> Result<bool, Refusal> {
    let mut out = [u64::MAX];
    done(call(out.as_mut_ptr(), 1)).map(|()| match out {
        [0] => false,
        [1] => true,
        [x] => panic!("the archive answered {x} where spoonripple.h has 0 or 1: it is of another version"),
    })
}

#[cfg(test)]
mod tests {
    use super::*;

    /// No call of the right archive comes to these.
    #[test]
    fn an_archive_that_is_not_the_right_one_is_told() {
        let told = |call: fn() -> Result<(), Refusal>| *std::panic::catch_unwind(call).unwrap_err().downcast::<String>().unwrap();
        for call in [|| done(260), || done(2564), || done(4)] {
            assert!(told(call).contains("it refuses a row that its own check made"));
        }
        // 4 without a part, as before parts were; a part that is none; another number with a part.
        for call in [|| judged(4, [0; 9]), || judged(2820, [0; 9]), || judged(264, [0; 9]), || done(264), || done(11)] {
            assert!(told(call).contains("which spoonripple.h does not name"));
        }
        assert_eq!((done(0), judged(0, [0; 9]), done(8)), (Ok(()), Ok(()), Err(Refusal::WrongLength)));
        // A call that is done and has left the place of its answer as it was.
        assert!(told(|| yes(|_, _| 0).map(drop)).contains("where spoonripple.h has 0 or 1"));
        assert_eq!(yes(|_, _| 8), Err(Refusal::WrongLength));
    }
}
