//! The intake of a block: it takes each packet when it lands, and tells at any moment what the solver says of all that came, in memory that does not grow
//! with it.
//!
//! [`Intake`] owns its memory; the three calls that it makes stand here for callers with memory of their own.
use crate::blocks::{Verdict, encode};
use crate::parameters::{Row, Tables};
use crate::refusal::{Refusal, done};
use crate::sys;
use crate::tuples::isi;

/// How much memory an intake is lent, however many packets come. Longer slices are taken, and what lies past stays.
#[derive(Clone, Copy, Debug, PartialEq, Eq)]
pub struct Room {
    /// 1,037 words.
    pub state: usize,
    /// L places.
    pub pivots: usize,
    /// L · L octets.
    pub rows: usize,
    /// L · T octets.
    pub values: usize,
    /// L · T octets, at a question.
    pub out: usize,
}

impl Room {
    /// What the intake of a block with this row and symbols of t octets asks: places for L rows and L symbols.
    pub fn of(row: Row, t: u16) -> Room {
        let (l, t) = (row.l() as usize, usize::from(t));
        Room { state: at::TABLES.end, pivots: l, rows: l * l, values: l * t, out: l * t }
    }

    /// All of it in octets: 4,148 + 2 · L + L · L + 2 · L · T.
    pub fn octets(self) -> usize {
        4 * self.state + 2 * self.pivots + self.rows + self.values + self.out
    }
}

/// The memory of an intake, which is lent to each of its calls as the last one left it. It is no scratch. With other content in it a call still does nothing
/// undefined: it refuses or answers, but what it answers is not promised.
#[derive(Debug)]
pub struct Stores<'a> {
    /// What was begun and how far it is: all 0 is an intake that was not begun. `include/spoonripple.h` says what each word is.
    pub state: &'a mut [u32],
    /// The columns of the rows that are held.
    pub pivots: &'a mut [u16],
    /// Their coefficients.
    pub rows: &'a mut [u8],
    /// Their symbols.
    pub values: &'a mut [u8],
}

/// Begins the intake of a block of `count` source symbols of t octets, and forgets all that came before. Row and tables are copied. Refused, with nothing
/// forgotten: 9 where count is not in 1..K'; 10 where t is 0; 8 where a part of the memory is too short, of which only the state is written.
pub fn begin(row: Row, tables: Tables, count: u32, t: u16, stores: Stores) -> Result<(), Refusal> {
    let ([k, j, s, h, w, l, p, b, p1], tables) = (row.numbers(), tables.numbers());
    let Stores { state, pivots, rows, values } = stores;
    #[rustfmt::skip]
    let code = unsafe {
        sys::spoonripple_intake_begin(
            k, j, s, h, w, l, p, b, p1, tables.as_ptr(), tables.len(), count, t, state.as_mut_ptr(), state.len(),
            pivots.as_ptr(), pivots.len(), rows.as_ptr(), rows.len(), values.as_ptr(), values.len(),
        )
    };
    done(code)
}

/// Takes one packet: an ESI with its symbol. Refused, with nothing changed: 14 where nothing was begun; 9 where the ESI is 2^24 or more; 10 where the symbol
/// is not t octets; 8 where a store is too short. No packet is one too many.
pub fn packet(esi: u32, symbol: &[u8], stores: Stores) -> Result<(), Refusal> {
    let Stores { state, pivots, rows, values } = stores;
    #[rustfmt::skip]
    let code = unsafe {
        sys::spoonripple_intake_packet(
            esi, symbol.as_ptr(), symbol.len(), state.as_mut_ptr(), state.len(), pivots.as_mut_ptr(), pivots.len(),
            rows.as_mut_ptr(), rows.len(), values.as_mut_ptr(), values.len(),
        )
    };
    done(code)
}

/// What the solver says of the packets accepted since the last accepted begin. `out` is written only where they are solved: L symbols of T octets. Refused,
/// with nothing changed: 14 where nothing was begun; 8 where a store is too short.
pub fn question(stores: Stores, out: &mut [u8]) -> Result<Verdict, Refusal> {
    let Stores { state, pivots, rows, values } = stores;
    let mut shortfall = [0];
    #[rustfmt::skip]
    let code = unsafe {
        sys::spoonripple_intake_question(
            state.as_mut_ptr(), state.len(), pivots.as_mut_ptr(), pivots.len(), rows.as_mut_ptr(), rows.len(), values.as_mut_ptr(), values.len(),
            out.as_mut_ptr(), out.len(), shortfall.as_mut_ptr(), shortfall.len(),
        )
    };
    Verdict::of(code, shortfall[0])
}

/// The intake of one source block of K symbols of T octets, with all the memory that it takes.
///
/// It is begun with row, tables, K and T, given packets as they land, in any order and as many as come, and asked at any moment. Its answer and the solved
/// octets are those of [`solve`](crate::blocks::solve) on the packets accepted since it was begun: that is proved of the archive, of every sequence of calls.
/// Past 65,535 packets, where `solve` refuses, the answer is still the one that its definition gives on all of them. Packets may go on after a question, and
/// the first contradiction stays until it is begun anew.
///
/// It keeps the rows that it holds, not the packets: which of them a contradiction came of cannot be looked up here. [`Block`](crate::Block) keeps them, and
/// leaves out what came before; it rests on this.
///
/// # Memory
///
/// 4,148 + 2 · L + L · L + 2 · L · T octets ([`Room::octets`]), taken when it is begun and fixed by K and T alone, L being that of the row: 4,148 of state,
/// 2 · L of pivots, L · L of rows, L · T of symbols, and L · T for the solved ones. A packet whose row depends on those that are held takes no place: its
/// symbol is compared, and that is all. So a night of any length is taken in the same memory, and no packet is refused for room. Begun anew for another block
/// it keeps, of each part, the most that one of its blocks asked. In the published rows of Table 2, with symbols of 1,024 octets:
///
/// | K | L | octets |
/// |---|---|---|
/// | 100 | 128 | 282,932 |
/// | 1,000 | 1,071 | 3,346,739 |
/// | 10,000 | 10,269 | 126,507,959 |
///
/// # Time
///
/// A packet before L rows are held costs up to about r · (L + T) steps, where r rows are held. The packet or question with which L are held takes as long as
/// going back over all of them, once; each packet after it costs the sums of its walk, at most 32.
///
/// ```
/// use spoonripple::{Intake, Row, Tables, Verdict};
///
/// // A block of 10 symbols of 4 octets.
/// let mut intake = Intake::begin(Row::published(10)?, Tables::published(), 10, 4)?;
/// for esi in 0..9 {
///     intake.packet(esi, &[esi as u8; 4])?;
/// }
/// assert_eq!(intake.question(), Verdict::Open { shortfall: 1 });
/// intake.packet(9, &[9; 4])?;
/// assert_eq!(intake.question(), Verdict::Solved);
/// assert_eq!(intake.source().unwrap()[36..], [9, 9, 9, 9]);
///
/// // The carousel goes round: what is known already takes no room, and is still compared.
/// for round in 0..1000 {
///     intake.packet(round % 10, &[(round % 10) as u8; 4])?;
/// }
/// assert_eq!(intake.question(), Verdict::Solved);
/// intake.packet(3, &[3, 3, 3, 0])?;
/// assert_eq!(intake.question(), Verdict::Contradiction);
/// # Ok::<(), spoonripple::Refusal>(())
/// ```
#[derive(Clone, Debug)]
pub struct Intake {
    row: Row,
    state: Vec<u32>,
    pivots: Vec<u16>,
    rows: Vec<u8>,
    values: Vec<u8>,
    out: Vec<u8>,
    /// The archive does not count them.
    accepted: u64,
    /// What the last question said, unless a packet was accepted since.
    verdict: Option<Verdict>,
}

/// Where the words of a state stand.
mod at {
    pub const COUNT: usize = 9;
    pub const T: usize = 10;
    pub const TABLES: std::ops::Range<usize> = 13..1037;
}

impl Intake {
    /// Begins an intake of a block of `count` source symbols of t octets. Refused: 9 where count is not in 1..K', then 10 where t is 0. Nothing is allocated
    /// for one that is refused.
    pub fn begin(row: Row, tables: Tables, count: u32, t: u16) -> Result<Intake, Refusal> {
        let (state, pivots, [rows, values, out]) = (Vec::new(), Vec::new(), [const { Vec::new() }; 3]);
        let mut intake = Intake { row, state, pivots, rows, values, out, accepted: 0, verdict: None };
        intake.begin_anew(row, tables, count, t)?;
        Ok(intake)
    }

    /// Forgets all that came and begins anew, with the same numbers or others, in the memory that it has where that is enough. Refused as
    /// [`begin`](Intake::begin), and then nothing is forgotten.
    pub fn begin_anew(&mut self, row: Row, tables: Tables, count: u32, t: u16) -> Result<(), Refusal> {
        // Memory is measured last: with none lent, what is refused for another reason is told by that.
        let none = Stores { state: &mut [], pivots: &mut [], rows: &mut [], values: &mut [] };
        begin(row, tables, count, t, none).or_else(|why| if why == Refusal::WrongLength { Ok(()) } else { Err(why) })?;
        let room = Room::of(row, t);
        enlarge(&mut self.state, room.state);
        enlarge(&mut self.pivots, room.pivots);
        for (store, need) in [(&mut self.rows, room.rows), (&mut self.values, room.values), (&mut self.out, room.out)] {
            enlarge(store, need);
        }
        begin(row, tables, count, t, self.lend().0).expect("what could be refused was");
        (self.row, self.accepted, self.verdict) = (row, 0, None);
        Ok(())
    }

    /// What the calls are lent, and the out store.
    fn lend(&mut self) -> (Stores<'_>, &mut [u8]) {
        let Intake { state, pivots, rows, values, out, .. } = self;
        (Stores { state, pivots, rows, values }, out)
    }

    /// Takes the symbol of an ESI. One that contradicts those before is taken too: the next question tells. Refused, with nothing changed: 9 where the ESI is
    /// 2^24 or more, then 10 where the symbol is not t octets.
    pub fn packet(&mut self, esi: u32, symbol: &[u8]) -> Result<(), Refusal> {
        packet(esi, symbol, self.lend().0)?;
        (self.accepted, self.verdict) = (self.accepted + 1, None);
        Ok(())
    }

    /// Decides over all packets that were accepted. The first question works the LDPC, HDPC and padding rows in, and each packet after it costs more until L
    /// rows are held: it is worth asking once K packets were accepted (`fewer-never-solved`). After [`Verdict::Open`] asking again cannot help before as many
    /// more were accepted as its shortfall says, unless it was begun anew (`not-before-later`): until then it is open or a contradiction, never solved. Packets
    /// that were refused do not count. What [`verdict`](Intake::verdict) knows costs nothing.
    pub fn question(&mut self) -> Verdict {
        if let Some(known) = self.verdict {
            return known;
        }
        let (stores, out) = self.lend();
        let verdict = question(stores, out).expect("it was begun, and its memory is its own");
        *self.verdict.insert(verdict)
    }

    /// What the last question said, if no packet was accepted since.
    pub fn verdict(&self) -> Option<Verdict> {
        self.verdict
    }

    /// How many packets were accepted since it was begun, those that told nothing too.
    pub fn accepted(&self) -> u64 {
        self.accepted
    }

    /// Its row.
    pub fn row(&self) -> Row {
        self.row
    }

    /// Its copy of the tables.
    pub fn tables(&self) -> Tables<'_> {
        Tables::new(&self.state[at::TABLES]).expect("they are 1,024 numbers")
    }

    /// K: how many source symbols the block has.
    pub fn count(&self) -> u32 {
        self.state[at::COUNT]
    }

    /// T: the octets of a symbol.
    pub fn t(&self) -> u16 {
        self.state[at::T] as u16
    }

    /// The L · T octets of the intermediate symbols, as long as [`verdict`](Intake::verdict) is [`Verdict::Solved`]: after a packet it has to be asked again.
    pub fn intermediates(&self) -> Option<&[u8]> {
        (self.verdict == Some(Verdict::Solved)).then(|| &self.out[..self.row.l() as usize * usize::from(self.t())])
    }

    /// The symbol of an ESI, where there are [`intermediates`](Intake::intermediates): below K a source symbol. Refused: 9 where the ESI is 2^24 or more.
    pub fn encoded(&self, esi: u32) -> Result<Option<Vec<u8>>, Refusal> {
        isi(self.row, self.count(), esi)?;
        let mut symbol = vec![0; self.t().into()];
        let Some(set) = self.intermediates() else { return Ok(None) };
        encode(self.row, self.tables(), self.count(), self.t(), esi, set, &mut symbol).map(|()| Some(symbol))
    }

    /// The K · T octets of the source block, where there are [`intermediates`](Intake::intermediates): the symbols of ESI 0 to K - 1, as
    /// [`Block::source`](crate::Block::source) has them. Of a symbol that arrived they are proved to be what arrived.
    pub fn source(&self) -> Option<Vec<u8>> {
        let symbols: Option<Vec<Vec<u8>>> = (0..self.count()).map(|esi| self.encoded(esi).expect("K is below 2^24")).collect();
        symbols.map(|all| all.concat())
    }
}

/// Room for `need`. What stood there is not moved: a begin forgets it.
fn enlarge<N: Clone + Default>(store: &mut Vec<N>, need: usize) {
    if store.len() < need {
        *store = vec![N::default(); need];
    }
}
