//! What came since the last accepted begin, in the harness's own words: the equations of document 01, and the packets that a sender would send.
use super::memory::{Begun, Memory, WRITTEN};
use crate::solver;
use differential::archive::{self, Arrived, Row};
use differential::system::{self, Verdict};
use differential::{Random, caught, rows, telling};
use raptorq::{EncodingPacket, ObjectTransmissionInformation, PayloadId, SourceBlockDecoder, SourceBlockEncoder};
use raptorq_lent::rng::lent::published;

pub struct Stretch {
    row: Row,
    tables: Vec<u32>,
    count: u32,
    pub begun: Begun,
    /// Of the rows whose symbols are 0, then of the packets.
    equations: Vec<Vec<u8>>,
    esis: Vec<u32>,
    symbols: Vec<u8>,
    /// The intermediate symbols that packets are made of: the crate's, or some that fit.
    set: Vec<u8>,
    sender: Option<Crate>,
    /// One symbol in so many is damaged: 0 none, 1 each, by any bytes.
    damage: u64,
}

/// The crate beside a stretch whose row and tables are its own: it has encoded the block, and its decoder takes the packets too.
struct Crate {
    decoder: SourceBlockDecoder,
    /// Those that it has not yet been given.
    packets: Vec<EncodingPacket>,
    /// Nothing that came was damaged, so that the symbols have to be the crate's.
    honest: bool,
}

impl Crate {
    /// Any block, and its intermediate symbols.
    fn new(random: &mut Random, count: u32, t: u16) -> (Crate, Vec<u8>) {
        let data = random.bytes(count as usize * usize::from(t));
        let config = ObjectTransmissionInformation::new(data.len() as u64, t, 1, 1, 1);
        let set = solver::set_of(&SourceBlockEncoder::new(0, &config, &data));
        (Crate { decoder: SourceBlockDecoder::new(0, &config, data.len() as u64), packets: vec![], honest: true }, set)
    }
}

impl Stretch {
    pub fn new(random: &mut Random, row: Row, tables: &[u32], count: u32, begun: Begun) -> Stretch {
        let Begun { l, t, .. } = begun;
        let fixed = system::fixed(row, tables, count);
        let (sender, set) = if row == solver::row_for(count) && tables == published() {
            let (sender, set) = Crate::new(random, count, t as u16);
            (Some(sender), set)
        } else {
            (None, system::fitting(fixed.clone(), l, t, random))
        };
        let damage = match random.below(8) {
            0 => 1,
            1 | 2 => 5 + random.below(100),
            _ => 0,
        };
        let equations = fixed.iter().map(|r| [&r[..], &vec![0; t]].concat()).collect();
        let (esis, symbols) = (vec![], vec![]);
        Stretch { row, tables: tables.to_vec(), count, begun, equations, esis, symbols, set, sender, damage }
    }

    /// Source or repair, of any size, some twice.
    fn any_esi(&self, random: &mut Random) -> u32 {
        let count = u64::from(self.count);
        match random.below(10) {
            0 if !self.esis.is_empty() => self.esis[random.below(self.esis.len() as u64) as usize],
            0 | 1 => random.below(1 << 24) as u32,
            2..5 => random.below(count) as u32,
            _ => random.below(2 * count + 60) as u32,
        }
    }

    pub fn coefficients(&self, esi: u32) -> Vec<u8> {
        system::sent(self.row, &self.tables, self.count, esi)
    }

    /// The symbol that the sender has for an ESI.
    pub fn own(&self, esi: u32) -> Vec<u8> {
        system::made(&self.coefficients(esi), &self.set, self.begun.t)
    }

    /// An ESI and its symbol, which may be damaged.
    pub fn packet(&self, random: &mut Random) -> (u32, Vec<u8>) {
        let esi = self.any_esi(random);
        let (mut symbol, t) = (self.own(esi), self.begun.t);
        match self.damage {
            0 => (),
            1 => symbol = random.bytes(t),
            odds if random.below(odds) == 0 => symbol[telling::place(random, t)] ^= telling::other(random),
            _ => (),
        }
        (esi, symbol)
    }

    pub fn accept(&mut self, esi: u32, symbol: &[u8]) {
        let coefficients = self.coefficients(esi);
        if let Some(sender) = &mut self.sender {
            sender.honest &= system::made(&coefficients, &self.set, self.begun.t) == symbol;
            sender.packets.push(EncodingPacket::new(PayloadId::new(0, esi), symbol.to_vec()));
        }
        self.equations.push([&coefficients[..], symbol].concat());
        self.esis.push(esi);
        self.symbols.extend_from_slice(symbol);
        self.begun.came += 1;
    }

    /// That the two words of a state that a packet writes are some that a begin and what followed can leave.
    pub fn counted(&self, state: &[u32]) -> bool {
        let [held, mark] = [0, 1].map(|at| state[WRITTEN.start + at]);
        held as usize <= if mark == 1 { self.begun.came.min(self.begun.l) } else { self.begun.l } && (1..=3).contains(&mark)
    }

    /// The packets, as `solve` takes them.
    pub fn came(&self) -> Arrived<'_> {
        Arrived { count: self.count, t: self.begun.t as u16, esis: &self.esis, symbols: &self.symbols }
    }

    /// What the harness makes of the equations, and whether `solve` says the same of the packets.
    pub fn verdict(&self, random: &mut Random) -> (Verdict, bool) {
        let verdict = system::verdict(self.equations.clone(), self.begun.l);
        let (same, _) = solver::beside(random, self.row, &self.tables, self.came(), &verdict);
        (verdict, same)
    }

    /// That a question gave and wrote what the verdict says.
    pub fn answers(&self, verdict: &Verdict, code: u32, after: &Memory) -> bool {
        match verdict {
            Verdict::Solved(set) => code == 0 && after.out.starts_with(set),
            Verdict::Contradiction => code == 100,
            Verdict::Open(lack) => code == 101 && after.shortfall[0] == *lack,
        }
    }

    /// Whether the crate says the same as a verdict, if it can be asked: of a contradiction it gives no sign. Its decoder takes the packets as they came, and
    /// gives the source symbols.
    pub fn asked(&mut self, verdict: &Verdict) -> Option<bool> {
        let sender = self.sender.as_mut().filter(|_| *verdict != Verdict::Contradiction)?;
        let packets = std::mem::take(&mut sender.packets);
        let decoded = caught(|| sender.decoder.decode(packets));
        let Verdict::Solved(set) = verdict else { return Some(decoded == Some(None)) };
        let rebuilt = archive::rebuilt(rows::record(self.row), &self.tables, self.count, self.begun.t as u16, set).ok();
        Some(rebuilt.is_some() && decoded == Some(rebuilt) && (!sender.honest || *set == self.set))
    }
}
