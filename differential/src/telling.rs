//! Has a run of bytes become all zero? The answer in plain Rust, and runs that tell a call which looks at all bytes from one that does not: zero, or zero but
//! for little.
use crate::archive::Answer;
use crate::report::Report;
use crate::{Random, system};

/// The archive copies the source of a slab's call by chunks of so many bytes.
const CHUNK: usize = 1024;

/// Lengths around those of words, of vectors and of chunks.
pub const LENGTHS: [usize; 14] = [0, 1, 15, 16, 17, 63, 64, 65, 1023, 1024, 1025, 2047, 2048, 2049];

/// Whether all bytes are 0; of none the answer is yes.
pub fn all_zero(run: &[u8]) -> bool {
    run.iter().all(|byte| *byte == 0)
}

/// Where the last chunk of a run of n bytes begins.
fn last_chunk(n: usize) -> usize {
    n.saturating_sub(1) / CHUNK * CHUNK
}

/// A place in a run of n bytes, which has one: the first and the last often.
pub fn place(random: &mut Random, n: usize) -> usize {
    [0, n - 1, random.below(n as u64) as usize][random.below(3) as usize]
}

/// A byte other than 0, often of a single bit.
pub fn other(random: &mut Random) -> u8 {
    if random.below(2) == 0 { 1 << random.below(8) } else { 1 + random.below(255) as u8 }
}

/// What a call is to leave in its destination of n bytes: zeros; zeros but for one byte, or for a part at the front or at the end, which may be all chunks
/// but the last, or the last; or any bytes.
pub fn left(random: &mut Random, n: usize) -> Vec<u8> {
    let mut run = vec![0; n];
    let edge = if random.below(2) == 0 { last_chunk(n) } else { random.below(n as u64 + 1) as usize };
    let part = match random.below(10) {
        0..4 => 0..0,
        4..7 if n > 0 => {
            run[place(random, n)] = other(random);
            0..0
        }
        7 => 0..edge,
        8 => edge..n,
        _ => 0..n,
    };
    run[part].iter_mut().for_each(|byte| *byte = random.byte());
    run
}

/// The calls on runs and symbols.
#[derive(Clone, Copy, Debug, PartialEq)]
pub enum Call {
    Add,
    Scale,
    Fma,
}

impl Call {
    pub fn any(random: &mut Random) -> Call {
        [Call::Add, Call::Scale, Call::Fma][random.below(3) as usize]
    }

    /// The destination of which the call, with this source and scalar, leaves `left`. A product by 0 leaves zeros of whatever stood there.
    pub fn before(self, left: Vec<u8>, src: &[u8], c: u8) -> Vec<u8> {
        let mut dst = left;
        match self {
            Call::Add => system::add(&mut dst, 1, src),
            Call::Scale if c == 0 => (),
            Call::Scale => system::scale(&mut dst, system::inverse(c)),
            Call::Fma => system::add(&mut dst, c, src),
        }
        dst
    }

    /// The kinds of a case of this call on some bytes, by its answer.
    fn kinds(self) -> [&'static str; 2] {
        match self {
            Call::Add => ["no of a sum", "yes of a sum"],
            Call::Scale => ["no of a product", "yes of a product"],
            Call::Fma => ["no of a multiply-add", "yes of a multiply-add"],
        }
    }
}

/// Whether the byte at this place is the only one that is not 0.
fn alone(run: &[u8], at: usize) -> bool {
    run[at] != 0 && all_zero(&run[..at]) && all_zero(&run[at + 1..])
}

const EMPTY: &str = "yes of no bytes";

/// What makes a run telling; some are so in two ways. One byte is its first and its last, and tells nothing.
const SHAPES: [(&str, fn(&[u8]) -> bool); 4] = [
    ("no for the first byte alone", |run| run.len() > 1 && alone(run, 0)),
    ("no for the last byte alone", |run| run.len() > 1 && alone(run, run.len() - 1)),
    ("no for one byte between", |run| run.iter().position(|byte| *byte != 0).is_some_and(|at| at > 0 && at + 1 < run.len() && alone(run, at))),
    ("no with zeros in the last chunk", |run| !all_zero(run) && all_zero(&run[last_chunk(run.len())..])),
];

/// A case: what a call answers whose destination holds this run now.
pub fn held(report: &mut Report, call: Call, run: &[u8], answer: &Answer<Vec<u64>>, input: impl FnOnce() -> String) {
    let zero = all_zero(run);
    SHAPES.iter().filter(|(_, is)| is(run)).for_each(|(shape, _)| report.kind(shape));
    let kind = if run.is_empty() { EMPTY } else { call.kinds()[usize::from(zero)] };
    report.of(kind, *answer == Ok(vec![zero.into()]), input);
}

/// That a run of the default size had enough cases of each call with each answer, and of each telling kind.
pub fn met(report: &mut Report, count: u64) {
    let answers = [Call::Add, Call::Scale, Call::Fma].into_iter().flat_map(Call::kinds);
    report.met_kinds(answers.chain([EMPTY]).chain(SHAPES.map(|(shape, _)| shape)), 1000, count);
}
