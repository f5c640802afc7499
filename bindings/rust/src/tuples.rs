//! The generators behind a row of the linear system: rand, degrees, the shift of ids, tuples (RFC 6330, section 5.3.5).
use crate::parameters::{Row, Tables};
use crate::refusal::{Refusal, values};
use crate::sys;

/// An internal symbol id: it counts rows of the matrix, where an ESI counts what was sent. The two agree below K and differ by K' - K from there on,
/// so that an ESI becomes one by [`isi`] alone.
#[derive(Clone, Copy, Debug, PartialEq, Eq, Hash)]
#[repr(transparent)]
pub struct Isi(u32);

impl Isi {
    /// A number that counts matrix rows already: a padding row, or an id of one's own. Not for an ESI.
    pub fn of_row(number: u32) -> Isi {
        Isi(number)
    }

    /// As a number.
    pub fn number(self) -> u32 {
        self.0
    }
}

/// The ISI of an ESI in a block of `count` source symbols. Refused: 9 where the ESI is 2^24 or more, or count is not in 1..K'.
pub fn isi(row: Row, count: u32, esi: u32) -> Result<Isi, Refusal> {
    let [k, j, s, h, w, l, p, b, p1] = row.numbers();
    values(|out, room| unsafe { sys::spoonripple_isi(k, j, s, h, w, l, p, b, p1, count, esi, out, room) }).map(|[x]| Isi(x as u32))
}

/// Rand\[y, i, m\], a number below m. Refused: 2 where m is 0.
pub fn rand(tables: Tables, y: u32, i: u8, m: u32) -> Result<u32, Refusal> {
    let tables = tables.numbers();
    values(|out, room| unsafe { sys::spoonripple_rand(tables.as_ptr(), tables.len(), y, i, m, out, room) }).map(|[x]| x as u32)
}

/// Deg\[v\] for w LT symbols. Refused: 2 where v is 2^20 or more, or w is below 2.
pub fn deg(v: u32, w: u32) -> Result<u32, Refusal> {
    values(|out, room| unsafe { sys::spoonripple_deg(v, w, out, room) }).map(|[x]| x as u32)
}

/// Where the walk of an encoding symbol starts, and how long its two parts are.
#[derive(Clone, Copy, Debug, PartialEq, Eq, Hash)]
pub struct Tuple {
    /// How many LT symbols: 1..30, and at most W - 2.
    pub d: u32,
    /// The step among them: 1..W - 1.
    pub a: u32,
    /// The first of them: below W.
    pub b: u32,
    /// How many PI symbols: 2 or 3.
    pub d1: u32,
    /// The step among them: 1..P1 - 1.
    pub a1: u32,
    /// The first of them: below P1.
    pub b1: u32,
}

/// The tuple of an ISI. Nothing is refused: the row and the tables were checked when they were made.
pub fn tuple(row: Row, tables: Tables, isi: Isi) -> Tuple {
    let ([k, j, s, h, w, l, p, b, p1], tables) = (row.numbers(), tables.numbers());
    let numbers = values(|out, room| unsafe { sys::spoonripple_tuple(k, j, s, h, w, l, p, b, p1, tables.as_ptr(), tables.len(), isi.0, out, room) });
    let [d, a, b, d1, a1, b1] = numbers.expect("row and tables are checked").map(|x| x as u32);
    Tuple { d, a, b, d1, a1, b1 }
}
