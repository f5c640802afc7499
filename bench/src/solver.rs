//! Solving a block of which K + 2 repair packets came and no source packet: against the same elimination in plain Rust, which takes the rows in the same order, and against the crate's
//! block decoder, which also rebuilds the source symbols. The same block with two packets too few, K - 2, is open: that is timed against the solved one.
use crate::plain;
use crate::{line, timed};
use differential::archive::{self, Arrived, Record, Row, Stores};
use differential::{Random, rows};
use raptorq::{EncodingPacket, ObjectTransmissionInformation, SourceBlockDecoder, SourceBlockEncoder};
use raptorq_lent::rng::lent::published;
use std::hint::black_box;

const T: u16 = 1024;

/// A block with its packets, and room for a call.
pub struct Block {
    row: Row,
    pub record: Record,
    pub k: u32,
    pub t: u16,
    data: Vec<u8>,
    packets: Vec<EncodingPacket>,
    pub esis: Vec<u32>,
    pub symbols: Vec<u8>,
    pub lent: Stores,
}

impl Block {
    pub fn new(random: &mut Random, k: u32, t: u16) -> Block {
        Block::of(random, k, t, |encoder| encoder.repair_packets(0, k + 2))
    }

    /// A block of which these packets came.
    pub fn of(random: &mut Random, k: u32, t: u16, packets: impl FnOnce(&SourceBlockEncoder) -> Vec<EncodingPacket>) -> Block {
        let data = random.bytes(k as usize * usize::from(t));
        let row = *rows::published().iter().find(|r| r[0] >= k).expect("a row of Table 2");
        let packets = packets(&SourceBlockEncoder::new(0, &config(k, t), &data));
        let esis: Vec<u32> = packets.iter().map(|p| p.payload_id().encoding_symbol_id()).collect();
        let symbols = packets.iter().flat_map(|p| p.data().to_vec()).collect();
        let mut block = Block { row, record: rows::record(row), k, t, data, packets, esis, symbols, lent: Stores::default() };
        let [l, m, t] = block.measures();
        block.lent = Stores { rows: vec![0; m * l], values: vec![0; m * t], out: vec![0; l * t], shortfall: vec![0] };
        block
    }

    pub fn came(&self) -> Arrived<'_> {
        Arrived { count: self.k, t: self.t, esis: &self.esis, symbols: &self.symbols }
    }

    /// Two packets too few: the first K - 2.
    fn short(&self) -> Arrived<'_> {
        let n = self.k as usize - 2;
        Arrived { esis: &self.esis[..n], symbols: &self.symbols[..n * usize::from(self.t)], ..self.came() }
    }

    /// The crate's time; its packets are made before.
    fn decoded(&self) -> f64 {
        let mut packets = self.packets.clone();
        timed(1, &mut || {
            let mut decoder = SourceBlockDecoder::new(0, &config(self.k, self.t), self.data.len() as u64);
            assert!(black_box(decoder.decode(std::mem::take(&mut packets))).is_some());
        })
    }

    fn rebuilt(&self, tables: &[u32], set: &[u8]) -> Vec<u8> {
        archive::rebuilt(self.record, tables, self.k, self.t, set).expect("nothing is refused")
    }

    /// L, M and T.
    pub fn measures(&self) -> [usize; 3] {
        let [l, m] = rows::measures(self.row, self.k, self.esis.len());
        [l, m, self.t.into()]
    }
}

fn config(k: u32, t: u16) -> ObjectTransmissionInformation {
    ObjectTransmissionInformation::new(u64::from(k) * u64::from(t), t, 1, 1, 8)
}

/// All three give the same symbols, and with two packets too few both of ours are open, else no time means anything. Returns what the plain elimination
/// did on symbols: sums, sums with products, products.
fn agree(block: &Block, tables: &[u32]) -> [u64; 3] {
    let (mut ours, mut theirs) = (block.lent.clone(), block.lent.clone());
    let code = archive::solve(block.record, tables, block.short(), &mut ours);
    let (plain, _) = plain::solve(block.row, tables, block.short(), &mut theirs);
    assert!(code == 101 && plain == 101 && ours == theirs, "both are open, with the same shortfall");
    let code = archive::solve(block.record, tables, block.came(), &mut ours);
    let (plain, operations) = plain::solve(block.row, tables, block.came(), &mut theirs);
    assert!(code == 0 && plain == 0 && ours == theirs, "both solve, and leave the same");
    let decoded = SourceBlockDecoder::new(0, &config(block.k, block.t), block.data.len() as u64).decode(block.packets.clone());
    assert!(decoded.as_ref() == Some(&block.data), "the crate decodes the block");
    assert!(block.rebuilt(tables, &ours.out) == block.data, "the source symbols are encodings of ours");
    operations
}

pub fn median(mut numbers: Vec<f64>) -> f64 {
    numbers.sort_by(f64::total_cmp);
    numbers[numbers.len() / 2]
}

/// Ours over plain Rust, ours over the crate's decoder, ours with the encodings that rebuild the source symbols over the decoder, and ours with two
/// packets too few over ours. In each turn all are timed one after the other, each on stores of its own, so that they see the same machine; the median
/// of the turns counts. Of the solved and the open block the one is first in one turn and the other in the next.
fn ratios(block: &Block, tables: &[u32]) -> [f64; 4] {
    let [mut ours, mut theirs, mut short] = [(); 3].map(|()| block.lent.clone());
    let mut turns = [vec![], vec![], vec![], vec![]];
    for turn in 0..(40_000 / block.k).clamp(150, 800) {
        let mut few = || timed(1, &mut || assert!(archive::solve(block.record, tables, black_box(block.short()), black_box(&mut short)) == 101));
        let before = (turn % 2 == 1).then(&mut few);
        let solve = timed(1, &mut || assert!(archive::solve(block.record, tables, black_box(block.came()), black_box(&mut ours)) == 0));
        let open = before.unwrap_or_else(few);
        let plain = timed(1, &mut || assert!(plain::solve(block.row, tables, black_box(block.came()), black_box(&mut theirs)).0 == 0));
        let decoder = block.decoded();
        let rebuild = timed(1, &mut || drop(black_box(block.rebuilt(tables, black_box(&block.lent.out)))));
        let ratios = [solve / plain, solve / decoder, (solve + rebuild) / decoder, open / solve];
        turns.iter_mut().zip(ratios).for_each(|(all, ratio)| all.push(ratio));
    }
    turns.map(median)
}

/// What the plain elimination did, held to the bars of the count, and the memory that a call of ours takes.
fn told(block: &Block, [sums, fused, scaled]: [u64; 3]) {
    let all = sums + fused + scaled;
    let bar = match block.k {
        100 => Some(3_150),
        500 => Some(19_398),
        _ => None,
    };
    let bar = bar.map_or(String::new(), |b| format!(" (at most {b}){}", if all <= b { "" } else { ": MISSED" }));
    println!("{:<34} {all} operations on symbols{bar}: {sums} sums, {fused} with products, {scaled} products", "");
    let [l, m, t] = block.measures();
    let kib = |bytes: usize| bytes.div_ceil(1024);
    // In the frame: a pivot of two octets for each column, a row and a symbol, in one of two sizes.
    let most = if l <= 2_048 && t <= 2_048 { 2_048 } else { 65_535 };
    let (rows, values, out, frame) = (kib(m * l), kib(m * t), kib(l * t), kib(4 * most));
    println!("{:<34} {} KiB of memory: rows {rows}, values {values}, out {out}, frame {frame}", "", rows + values + out + frame);
}

pub fn run() {
    let tables = published();
    let mut random = Random::new(3);
    let mut growth = vec![];
    for k in [10, 50, 100, 250, 500, 1000] {
        let block = Block::new(&mut random, k, T);
        let operations = agree(&block, &tables);
        let [plain, decoder, rebuilt, open] = ratios(&block, &tables);
        let work = format!("solve, K = {k}, T = {T}");
        line(&work, "plain Rust", plain, Some(1.05));
        line(&work, "the crate's decoder", decoder, (k >= 100).then_some(4.0));
        line("with the source symbols rebuilt", "the crate's decoder", rebuilt, None);
        line("two packets too few, open", "the solved block", open, (k == 500).then_some(0.85));
        told(&block, operations);
        growth.push(format!("{decoder:.2} at K = {k}"));
    }
    println!("solve over the crate's decoder: {}", growth.join(", "));
}
