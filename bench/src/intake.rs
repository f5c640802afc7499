//! The intake: a begin, each packet as it lands and a question at the end, against `solve` on the same packets: K + 2 repair packets and no source packet, or
//! a mix of both. What a packet or a question takes is told as a part of `solve`'s time; and what a packet takes once L rows are held, against the packets
//! before, and against packets that come after a question, which LDPC and HDPC rows make dear.
use crate::solver::{Block, median};
use crate::{line, part, timed};
use differential::Random;
use differential::archive::{self, Held, INTAKE_STATE};
use raptorq::{EncodingPacket, SourceBlockEncoder};
use raptorq_lent::rng::lent::published;
use std::hint::black_box;

/// What is the intake's between calls, in memory of its own.
struct Memory {
    state: Vec<u32>,
    pivots: Vec<u16>,
    rows: Vec<u8>,
    values: Vec<u8>,
}

impl Memory {
    fn new(block: &Block) -> Memory {
        let [l, _, t] = block.measures();
        Memory { state: vec![0; INTAKE_STATE], pivots: vec![0; l], rows: vec![0; l * l], values: vec![0; l * t] }
    }

    fn held(&mut self) -> Held<'_> {
        Held { state: &mut self.state, pivots: &mut self.pivots, rows: &mut self.rows, values: &mut self.values }
    }
}

fn begin(block: &Block, tables: &[u32], held: &mut Held) {
    archive::intake_begin(block.record, tables, block.k, block.t, black_box(held)).expect("nothing is refused");
}

fn packet(esi: u32, symbol: &[u8], held: &mut Held) {
    archive::intake_packet(black_box(esi), black_box(symbol), black_box(held)).expect("nothing is refused");
}

/// A question that is solved.
fn question(held: &mut Held, out: &mut [u8]) {
    assert!(answer(held, out) == 0);
}

fn answer(held: &mut Held, out: &mut [u8]) -> u32 {
    archive::intake_question(black_box(held), black_box(out), &mut [0])
}

/// The packets of a block, in the order in which they land.
fn packets(block: &Block) -> impl Iterator<Item = (u32, &[u8])> {
    block.esis.iter().copied().zip(block.symbols.chunks(block.t.into()))
}

/// How many packets solve the block, and not one less.
fn needed(block: &Block, tables: &[u32]) -> usize {
    let (mut memory, mut out) = (Memory::new(block), block.lent.out.clone());
    let mut held = memory.held();
    begin(block, tables, &mut held);
    let mut solves = |(esi, symbol)| {
        packet(esi, symbol, &mut held);
        answer(&mut held, &mut out) == 0
    };
    1 + packets(block).position(&mut solves).expect("they solve it")
}

/// Both give the same symbols, the second question too, else no time means anything.
fn agree(block: &Block, tables: &[u32]) {
    let (mut lent, mut memory) = (block.lent.clone(), Memory::new(block));
    let mut held = memory.held();
    begin(block, tables, &mut held);
    packets(block).for_each(|(esi, symbol)| packet(esi, symbol, &mut held));
    assert!(archive::solve(block.record, tables, block.came(), &mut lent) == 0, "the block is solved");
    for _ in 0..2 {
        let mut out = vec![7; lent.out.len()];
        question(&mut held, &mut out);
        assert!(out == lent.out, "both give the same symbols");
    }
}

/// What is timed, each over `solve`.
#[derive(Default)]
struct Times {
    /// Begin, packets and question as one.
    whole: Vec<f64>,
    /// Each packet, by its place.
    each: Vec<Vec<f64>>,
    question: Vec<f64>,
    again: Vec<f64>,
    /// A packet where L rows are held, the mean of those that are needed but one.
    known: Vec<f64>,
    /// One of these where it was asked before all of them.
    asked: Vec<f64>,
    /// The packet with which L rows are held, where it was asked before.
    last: Vec<f64>,
}

/// In each turn all are timed one after the other, so that they see the same machine.
fn times(block: &Block, tables: &[u32], needed: usize) -> Times {
    let (mut lent, mut memory, mut out) = (block.lent.clone(), Memory::new(block), block.lent.out.clone());
    let mut held = memory.held();
    let mut times = Times { each: vec![vec![]; block.esis.len()], ..Times::default() };
    for turn in 0..(40_000 / block.k).clamp(150, 800) {
        let solve = timed(1, &mut || assert!(archive::solve(block.record, tables, black_box(block.came()), black_box(&mut lent)) == 0));
        let all = timed(1, &mut || {
            begin(block, tables, &mut held);
            packets(block).for_each(|(esi, symbol)| packet(esi, symbol, &mut held));
            question(&mut held, &mut out);
        });
        times.whole.push(all / solve);
        begin(block, tables, &mut held);
        for ((esi, symbol), each) in packets(block).zip(&mut times.each) {
            each.push(timed(1, &mut || packet(esi, symbol, &mut held)) / solve);
        }
        times.question.push(timed(1, &mut || question(&mut held, &mut out)) / solve);
        times.again.push(timed(1, &mut || question(&mut held, &mut out)) / solve);
        let some = |held: &mut Held| timed(1, &mut || packets(block).take(needed - 1).for_each(|(esi, symbol)| packet(esi, symbol, held)));
        times.known.push(some(&mut held) / (needed - 1) as f64 / solve);
        begin(block, tables, &mut held);
        some(&mut held);
        assert!(answer(&mut held, &mut out) == 101);
        let (esi, symbol) = packets(block).nth(needed - 1).expect("they solve it");
        times.last.push(timed(1, &mut || packet(esi, symbol, &mut held)) / solve);
        // A few turns: it takes several times as long as all the rest.
        if turn < 15 {
            begin(block, tables, &mut held);
            assert!(answer(&mut held, &mut out) == 101);
            times.asked.push(some(&mut held) / (needed - 1) as f64 / solve);
        }
    }
    times
}

/// The median of the turns counts, of each packet its own.
fn told(work: &str, block: &Block, tables: &[u32]) {
    agree(block, tables);
    let Times { whole, each, question, again, known, asked, last } = times(block, tables, needed(block, tables));
    let each: Vec<f64> = each.into_iter().map(median).collect();
    let n = each.len();
    let (at, dearest) = each.iter().enumerate().max_by(|a, b| a.1.total_cmp(b.1)).expect("packets came");
    let (mean, known, asked) = (each.iter().sum::<f64>() / n as f64, median(known), median(asked));
    line(&format!("{work}, K = {}, T = {}", block.k, block.t), "solve on the same packets", median(whole), Some(2.0));
    part(&format!("the dearest packet, {} of {n}", at + 1), "solve", *dearest);
    part("a packet, the mean", "solve", mean);
    part("the question", "solve", median(question));
    part("the question again", "solve", median(again));
    part("the packet that solves", "solve", median(last));
    part("a packet, asked before all", "solve", asked);
    part("a packet, L rows held", "solve", known);
    part("a packet, L rows held", "a packet, the mean", known / mean);
    part("a packet, L rows held", "a packet, asked before all", known / asked);
}

/// Of the source packets one in ten is lost, and two more repair packets come than that.
fn mix(encoder: &SourceBlockEncoder) -> Vec<EncodingPacket> {
    let mut packets = encoder.source_packets();
    let all = packets.len();
    packets.retain(|p| p.payload_id().encoding_symbol_id() % 10 != 3);
    packets.extend(encoder.repair_packets(0, (all - packets.len()) as u32 + 2));
    packets
}

pub fn run() {
    let tables = published();
    let mut random = Random::new(4);
    for (k, t) in [100, 500].into_iter().flat_map(|k| [16, 256, 1024].map(|t| (k, t))) {
        told("intake", &Block::new(&mut random, k, t), &tables);
        told("intake, a mix", &Block::of(&mut random, k, t, mix), &tables);
    }
}
