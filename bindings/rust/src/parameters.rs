//! What sender and receiver have to agree on: the parameter row of a block's size and the random tables (RFC 6330, sections 5.5 and 5.6).
//!
//! The proved calls carry neither; they hold for every row that keeps its rules and for any tables. This crate carries the published ones as
//! data: [`Row::published`], [`Tables::published`].
use crate::refusal::{Refusal, judged};
use crate::sys;

/// The 477 rows of RFC 6330, Table 2, by rising K': K', J, S, H, W.
pub static PUBLISHED_ROWS: [[u32; 5]; 477] = rows(numbers(include_str!("../data/parameter_rows.txt")));

/// The tables V0, V1, V2, V3 of RFC 6330, section 5.5, one after the other.
pub static PUBLISHED_TABLES: [u32; 1024] = numbers(include_str!("../data/random_tables.txt"));

/// The N numbers of a text in which a comma ends each; another count does not compile.
const fn numbers<const N: usize>(text: &str) -> [u32; N] {
    let bytes = text.as_bytes();
    let (mut all, mut n, mut number, mut at) = ([0; N], 0, 0, 0);
    while at < bytes.len() {
        match bytes[at] {
            digit @ b'0'..=b'9' => number = 10 * number + (digit - b'0') as u32,
            b',' => {
                all[n] = number;
                n += 1;
                number = 0;
            }
            _ => {}
        }
        at += 1;
    }
    assert!(n == N);
    all
}

const fn rows(numbers: [u32; 5 * 477]) -> [[u32; 5]; 477] {
    let (mut all, mut at) = ([[0; 5]; 477], 0);
    while at < numbers.len() {
        all[at / 5][at % 5] = numbers[at];
        at += 1;
    }
    all
}

/// The record of a parameter row: K', J, S, H, W, which keep the rules of `docs/01-scope.md`, and L, P, B, P1, which follow from them.
///
/// The proved check makes it, and nothing else does: what is read off here, on a status page too, is what the solver uses.
///
/// ```compile_fail,E0451
/// let row = spoonripple::Row { numbers: [10, 254, 7, 10, 17, 27, 10, 10, 11] };
/// ```
#[derive(Clone, Copy, Debug, PartialEq, Eq)]
pub struct Row {
    /// As the check gave them.
    numbers: [u32; 9],
}

impl Row {
    /// The record of the row K', J, S, H, W. Refused: 4 where it breaks a rule, with the first that it breaks.
    ///
    /// ```
    /// let refusal = spoonripple::Row::new([10, 254, 7, 10, 16]).unwrap_err();
    /// assert_eq!((refusal.number(), refusal.part()), (4, Some(spoonripple::Part::W)));
    /// assert_eq!(refusal.to_string(), "refused 4, part 5: W is 16, and must be a prime");
    /// ```
    pub fn new([k, j, s, h, w]: [u32; 5]) -> Result<Row, Refusal> {
        let mut record = [0; 9];
        judged(unsafe { sys::spoonripple_row_check(k, j, s, h, w, record.as_mut_ptr(), record.len()) }, [k, j, s, h, w, 0, 0, 0, 0])?;
        Ok(Row { numbers: record.map(|x| x as u32) })
    }

    /// The record whose nine numbers are given, K', J, S, H, W, L, P, B, P1, as in a parameter file. Refused: 4 where the five break a rule, with the first
    /// that they break, or where one of the other four is not what the check makes of them. So a typing error is found in each of the nine; in J only from
    /// 65,536 on, since nothing follows from it.
    ///
    /// ```
    /// let refusal = spoonripple::Row::from_numbers([10, 254, 7, 11, 17, 27, 10, 10, 11]).unwrap_err();
    /// assert_eq!(refusal.to_string(), "refused 4, part 10: L is 27, and must be K' + S + H = 28");
    /// ```
    pub fn from_numbers(numbers: [u32; 9]) -> Result<Row, Refusal> {
        let ([k, j, s, h, w, l, p, b, p1], mut out) = (numbers, [0]);
        // A call that takes a record verifies it, and this one then refuses nothing: count 1 and ESI 0 are in every block.
        judged(unsafe { sys::spoonripple_isi(k, j, s, h, w, l, p, b, p1, 1, 0, out.as_mut_ptr(), out.len()) }, numbers)?;
        Row::new([k, j, s, h, w])
    }

    /// The published row for a block of `count` source symbols: the one with the smallest K' that is not below. Refused: 9 where count is not
    /// in 1..56,403.
    pub fn published(count: u32) -> Result<Row, Refusal> {
        let row = PUBLISHED_ROWS.iter().find(|r| count >= 1 && r[0] >= count);
        Row::new(*row.ok_or(Refusal::BadCount)?)
    }

    /// K', J, S, H, W, L, P, B, P1.
    pub fn numbers(self) -> [u32; 9] {
        self.numbers
    }

    /// K': how many source symbols a block has with its padding.
    pub fn k_prime(self) -> u32 {
        self.numbers[0]
    }

    /// L = K' + S + H: how many intermediate symbols.
    pub fn l(self) -> u32 {
        self.numbers[5]
    }

    /// P = L - W: how many of them are PI symbols.
    pub fn p(self) -> u32 {
        self.numbers[6]
    }

    /// B = W - S: how many LT symbols are not LDPC symbols.
    pub fn b(self) -> u32 {
        self.numbers[7]
    }

    /// P1: the smallest prime not below P.
    pub fn p1(self) -> u32 {
        self.numbers[8]
    }
}

/// Lent random tables V0, V1, V2, V3: 1,024 numbers.
#[derive(Clone, Copy, Debug, PartialEq, Eq)]
pub struct Tables<'a>(&'a [u32; 1024]);

impl<'a> Tables<'a> {
    /// Tables of one's own. Refused: 5 where they are not 1,024 numbers.
    pub fn new(numbers: &'a [u32]) -> Result<Tables<'a>, Refusal> {
        numbers.try_into().map(Tables).map_err(|_| Refusal::BadTables)
    }

    /// The numbers, 256 of each table.
    pub fn numbers(self) -> &'a [u32; 1024] {
        self.0
    }
}

impl Tables<'static> {
    /// The tables of RFC 6330.
    pub fn published() -> Tables<'static> {
        Tables(&PUBLISHED_TABLES)
    }
}
