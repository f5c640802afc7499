//! The calls over a block with lent stores: solving all that arrived at once, the encoding of one symbol, and where a source symbol is displayed from.
//!
//! [`Block`](crate::Block) takes packets one by one ([`intake`](crate::intake)); these stand here for callers with memory of their own.
use crate::parameters::{Row, Tables};
use crate::refusal::{Refusal, done, values};
use crate::sys;
use std::fmt;

/// What a solved, open or contradictory system is called. The three are exact: they are proved of every call that is not refused.
#[derive(Clone, Copy, Debug, PartialEq, Eq)]
pub enum Verdict {
    /// A single set of intermediate symbols fits all that arrived, and it stands in the out store. Whether what arrived is what was sent no solver can
    /// tell from just as many packets as it needs: drop damaged packets by the link's checksum first, and go on listening ([`Block`](crate::Block)).
    Solved,
    /// No set fits: something that arrived is not what the sender sent. The out store is as it was.
    Contradiction,
    /// More than one set fits. The out store is as it was.
    Open {
        /// How many independent rows are missing: at least so many more packets are needed, whatever they bring. **Asking again cannot help before so many more
        /// were accepted:** until then it is not solved, as the theorem `not-before` of `docs/PROMISES.md` says. A packet lowers the number by one or leaves it
        /// (`falls-by-one`), and its row, not its symbol, decides which (`row-alone`), unless it makes a contradiction, which can come at any time.
        shortfall: u64,
    },
}

impl Verdict {
    /// What the result of a call that solves stands for, with its shortfall.
    pub(crate) fn of(code: u32, shortfall: u64) -> Result<Verdict, Refusal> {
        match code {
            100 => Ok(Verdict::Contradiction),
            101 => Ok(Verdict::Open { shortfall }),
            _ => done(code).map(|()| Verdict::Solved),
        }
    }
}

/// In the words of the receiving program, with `solved` where it writes the block. 'At least' is a promise: the theorem `not-before` of `docs/PROMISES.md`.
impl fmt::Display for Verdict {
    fn fmt(&self, f: &mut fmt::Formatter) -> fmt::Result {
        match self {
            Verdict::Solved => write!(f, "solved"),
            Verdict::Contradiction => write!(f, "contradiction"),
            Verdict::Open { shortfall } => write!(f, "open, {shortfall} more independent packets at least"),
        }
    }
}

/// What arrived of a block.
#[derive(Clone, Copy, Debug)]
pub struct Arrivals<'a> {
    /// K: how many source symbols the block has.
    pub count: u32,
    /// T: the octets of a symbol.
    pub t: u16,
    /// The ESIs of what arrived, in any order. One may come twice.
    pub esis: &'a [u32],
    /// Their symbols in the same order, T octets each.
    pub symbols: &'a [u8],
}

/// How many octets [`solve`] asks of its three stores. A longer store is taken, and what lies past stays.
#[derive(Clone, Copy, Debug, PartialEq, Eq)]
pub struct Room {
    /// M · L octets, where M = L - K + n.
    pub rows: usize,
    /// M · T octets.
    pub values: usize,
    /// L · T octets.
    pub out: usize,
}

impl Room {
    /// What a call with these arrivals asks.
    pub fn of(row: Row, arrivals: Arrivals) -> Room {
        let (l, t) = (row.l() as usize, usize::from(arrivals.t));
        let m = l.saturating_sub(arrivals.count as usize) + arrivals.esis.len();
        Room { rows: m * l, values: m * t, out: l * t }
    }
}

/// The memory that [`solve`] is lent. `rows` and `values` are scratch: of any content before, and the used part 0 after each answer.
#[derive(Debug)]
pub struct Stores<'a> {
    /// Scratch for the system's coefficients.
    pub rows: &'a mut [u8],
    /// Scratch for its symbols.
    pub values: &'a mut [u8],
    /// For the L intermediate symbols, T octets each. Written only where the answer is [`Verdict::Solved`].
    pub out: &'a mut [u8],
}

/// The intermediate symbols of a block, out of what arrived. Refused: 9 where K is not in 1..K', an ESI is 2^24 or more, or more than 65,535 arrived;
/// 10 where T is 0 or the symbols are not T octets for each ESI; 8 where a store is too short. No arrivals are taken, and open.
pub fn solve(row: Row, tables: Tables, arrivals: Arrivals, stores: Stores) -> Result<Verdict, Refusal> {
    let ([k, j, s, h, w, l, p, b, p1], tables) = (row.numbers(), tables.numbers());
    let Arrivals { count, t, esis, symbols } = arrivals;
    let Stores { rows, values, out } = stores;
    let mut shortfall = [0];
    #[rustfmt::skip]
    let code = unsafe {
        sys::spoonripple_solve(
            k, j, s, h, w, l, p, b, p1, tables.as_ptr(), tables.len(), count, t, esis.as_ptr(), esis.len(), symbols.as_ptr(), symbols.len(),
            rows.as_mut_ptr(), rows.len(), values.as_mut_ptr(), values.len(), out.as_mut_ptr(), out.len(), shortfall.as_mut_ptr(), shortfall.len(),
        )
    };
    Verdict::of(code, shortfall[0])
}

/// The symbol of an ESI of a block of `count` source symbols of t octets, from its L · t octets of intermediate symbols: t octets at the front of `out`, of
/// which the rest stays. Refused: 9 where count is not in 1..K' or the ESI is 2^24 or more; 10 where t is 0; 8 where `intermediates` or `out` is too short.
pub fn encode(row: Row, tables: Tables, count: u32, t: u16, esi: u32, intermediates: &[u8], out: &mut [u8]) -> Result<(), Refusal> {
    let ([k, j, s, h, w, l, p, b, p1], tables) = (row.numbers(), tables.numbers());
    let (from, len) = (intermediates.as_ptr(), intermediates.len());
    done(unsafe { sys::spoonripple_encode(k, j, s, h, w, l, p, b, p1, tables.as_ptr(), tables.len(), count, t, esi, from, len, out.as_mut_ptr(), out.len()) })
}

/// The T octets of a source symbol, and where they were found.
#[derive(Clone, Copy, Debug, PartialEq, Eq)]
pub enum Shown<'a> {
    /// It arrived: these are the octets of the first arrival with its ESI.
    Arrived(&'a [u8]),
    /// It did not arrive: these are its octets in the rebuilt store.
    Rebuilt(&'a [u8]),
}

/// Source symbol i, out of the arrivals if it came, else out of the rebuilt store of K · T octets. Refused: 9 where K is not in 1..56,403, more than 65,535
/// arrived or an ESI is 2^24 or more; 10 where T is 0 or the symbols are not T octets for each ESI; 8 where `rebuilt` is too short; 6 where i is K or more.
pub fn display<'a>(arrivals: Arrivals<'a>, rebuilt: &'a [u8], i: u32) -> Result<Shown<'a>, Refusal> {
    let Arrivals { count, t, esis, symbols } = arrivals;
    let (place, len) = (rebuilt.as_ptr(), rebuilt.len());
    let [store, at] = values(|out, room| unsafe {
        sys::spoonripple_display(count, t, esis.as_ptr(), esis.len(), symbols.as_ptr(), symbols.len(), place, len, i, out, room)
    })?;
    let part = |all: &'a [u8]| &all[at as usize..][..usize::from(t)];
    Ok(if store == 0 { Shown::Arrived(part(symbols)) } else { Shown::Rebuilt(part(rebuilt)) })
}
