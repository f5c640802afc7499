//! A source block as a receiver holds it: packets go in as they come, the block comes out once it is solved, and a solved block goes on listening.
use crate::blocks::{Arrivals, Shown, Verdict, display, encode};
use crate::intake::Intake;
use crate::parameters::{Row, Tables};
use crate::refusal::Refusal;
use crate::tuples::isi;
use std::collections::BTreeSet;

/// How many packets a block keeps: the solver and display take no more (9).
const MOST_KEPT: usize = 65535;

/// One source block of K symbols of T octets, with all the memory that decoding it takes.
///
/// # A solved block goes on listening
///
/// Of just as many packets as are needed, damaged ones make a block too: only a later packet can tell. So [`take`](Block::take) compares what comes to a
/// solved block with the encoding of its ESI. If the two are equal the block stays solved, else it is a contradiction; and a contradiction stays one,
/// whatever comes. Solving anew over all that came would answer the same, as theorems of `docs/PROMISES.md` say:
///
/// - With more packets, solved stays solved with the same octets or becomes a contradiction (`solved-then`).
/// - Where one of them is not the encoding of its ESI it is a contradiction (`unequal-contradicts`), since a solved set re-encodes all that came (`reencodes`).
/// - Where all of them are it is solved, with the same octets (`equal-stays`), since where a set fits there is no contradiction (`never-contradiction`).
/// - A contradiction stays one (`contradiction-then`).
///
/// # What is kept
///
/// Every packet, in the order in which they came, those of a contradiction too: which of them is damaged no solver can tell, but whoever looks for it needs
/// them all. Only what came before with the same octets is not kept again, since it changes nothing (`repeat-changes-nothing`): a carousel that goes round
/// does not fill a block. At most 65,535 packets are kept.
///
/// Until the block is solved or a contradiction each of them goes to an [`Intake`] as it comes, so that a second [`solve`](Block::solve), after one that was
/// open, does not begin anew; the first takes about as long as one call of the solver, most of it for the LDPC and HDPC rows. The intake is begun with the
/// first packet or question and owns about L · (L + 2 · T) octets, where L is a little above K, however many packets come. It is given back once the block is
/// solved or a contradiction, since nothing is solved after that.
#[derive(Clone, Debug)]
pub struct Block<'a> {
    row: Row,
    tables: Tables<'a>,
    count: u32,
    t: u16,
    esis: Vec<u32>,
    symbols: Vec<u8>,
    /// The places of `esis` by ESI.
    places: BTreeSet<(u32, usize)>,
    /// Until it is solved or a contradiction: with all that is kept.
    intake: Option<Intake>,
    intermediates: Vec<u8>,
    source: Vec<u8>,
    verdict: Option<Verdict>,
}

impl<'a> Block<'a> {
    /// A block of `count` source symbols of t octets, of which nothing has arrived. Refused: 9 where count is not in 1..K', then 10 where t is 0.
    pub fn new(row: Row, tables: Tables<'a>, count: u32, t: u16) -> Result<Block<'a>, Refusal> {
        isi(row, count, 0)?;
        if t == 0 {
            return Err(Refusal::BadSize);
        }
        let source = vec![0; count as usize * usize::from(t)];
        let (esis, symbols, intermediates) = (Vec::new(), Vec::new(), Vec::new());
        Ok(Block { row, tables, count, t, esis, symbols, places: BTreeSet::new(), intake: None, intermediates, source, verdict: None })
    }

    /// Takes the symbol of an ESI. A solved block compares it (see [`Block`]), and [`verdict`](Block::verdict) tells what it is then; any other works it in,
    /// which takes up to about L · (L + T) steps, once as long as going back over L rows, and the next [`solve`](Block::solve) tells. Refused, with nothing
    /// changed: 9 where the ESI is 2^24 or more, or 65,535 other packets are kept and the block is not solved; then 10 where the symbol is not t octets.
    ///
    /// A comparison needs no room: a solved block with 65,535 packets, more than which the solver would refuse, still takes any number. It does not keep
    /// them, not even the one that makes it a contradiction.
    pub fn take(&mut self, esi: u32, symbol: &[u8]) -> Result<(), Refusal> {
        isi(self.row, self.count, esi)?;
        let (again, full) = (self.keeps(esi, symbol), self.esis.len() == MOST_KEPT);
        if full && !again && self.verdict != Some(Verdict::Solved) {
            return Err(Refusal::BadCount);
        }
        if symbol.len() != usize::from(self.t) {
            return Err(Refusal::BadSize);
        }
        if again {
            return Ok(());
        }
        self.verdict = match self.verdict {
            Some(Verdict::Solved) if self.encodes(esi, symbol) => Some(Verdict::Solved),
            Some(Verdict::Solved | Verdict::Contradiction) => Some(Verdict::Contradiction),
            Some(Verdict::Open { .. }) | None => None,
        };
        if !full {
            self.places.insert((esi, self.esis.len()));
            self.esis.push(esi);
            self.symbols.extend(symbol);
        }
        if self.verdict.is_none() {
            self.intake().packet(esi, symbol).expect("what could be refused was");
        }
        Ok(())
    }

    /// The intake, with all that is kept: it is begun with the first packet or question.
    fn intake(&mut self) -> &mut Intake {
        let begin = || Intake::begin(self.row, self.tables, self.count, self.t).expect("what could be refused was, when the block was made");
        self.intake.get_or_insert_with(begin)
    }

    /// Whether this symbol came for this ESI before, and was kept.
    fn keeps(&self, esi: u32, symbol: &[u8]) -> bool {
        let t = usize::from(self.t);
        self.places.range((esi, 0)..=(esi, usize::MAX)).any(|(_, at)| self.symbols[at * t..][..t] == *symbol)
    }

    /// Whether the solved set gives this symbol for this ESI.
    fn encodes(&self, esi: u32, symbol: &[u8]) -> bool {
        let mut encoded = vec![0; symbol.len()];
        encode(self.row, self.tables, self.count, self.t, esi, &self.intermediates, &mut encoded).expect("what could be refused was");
        encoded == symbol
    }

    /// The packets that are kept, in the order in which they came.
    pub fn arrivals(&self) -> Arrivals<'_> {
        Arrivals { count: self.count, t: self.t, esis: &self.esis, symbols: &self.symbols }
    }

    /// What is known of all that came without solving: solved or a contradiction, once [`solve`](Block::solve) said so and as later packets left it; open, if
    /// it said so and nothing new came since. `None` where it has to be asked.
    pub fn verdict(&self) -> Option<Verdict> {
        self.verdict
    }

    /// Decides over all that came. What [`verdict`](Block::verdict) knows it gives at once. Else the packets are worked in already, and the first call works
    /// the LDPC, HDPC and padding rows in too, after which each packet costs more; so it is not worth a call before K packets are kept (`fewer-never-solved`).
    /// After [`Verdict::Open`] asking again cannot help before as many more are kept as its shortfall says (`not-before`, of the solver on what is kept): until
    /// then it is open or a contradiction, never solved. What came before with the same octets is not kept again, and does not count.
    pub fn solve(&mut self) -> Verdict {
        if let Some(known) = self.verdict {
            return known;
        }
        let intake = self.intake();
        let verdict = intake.question();
        if let Some(set) = intake.intermediates().map(<[u8]>::to_vec) {
            self.intermediates = set;
            self.rebuild();
        }
        if !matches!(verdict, Verdict::Open { .. }) {
            self.intake = None;
        }
        *self.verdict.insert(verdict)
    }

    /// The source symbols are the encodings of ESI 0 to K - 1; of one that arrived that is proved to be what arrived.
    fn rebuild(&mut self) {
        for (esi, symbol) in (0..).zip(self.source.chunks_exact_mut(self.t.into())) {
            encode(self.row, self.tables, self.count, self.t, esi, &self.intermediates, symbol).expect("what could be refused was, when the block was made");
        }
    }

    /// The K · T octets of the source block, as long as [`verdict`](Block::verdict) is [`Verdict::Solved`]: a later packet can still make it a contradiction.
    ///
    /// These are the symbols one after the other. Where the sender uses more than one sub-block (N above 1), the object's octets stand in them in the order
    /// of RFC 6330, section 4.4.1.2, and the last block of an object ends in padding past F.
    pub fn source(&self) -> Option<&[u8]> {
        (self.verdict == Some(Verdict::Solved)).then_some(&self.source[..])
    }

    /// Source symbol i: as it first arrived, or rebuilt if [`source`](Block::source) is there. `None` if neither. Refused: 6 where i is K or more.
    pub fn symbol(&self, i: u32) -> Result<Option<&[u8]>, Refusal> {
        Ok(match display(self.arrivals(), &self.source, i)? {
            Shown::Arrived(octets) => Some(octets),
            Shown::Rebuilt(octets) => self.source().and(Some(octets)),
        })
    }
}
