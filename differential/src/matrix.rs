//! The binary matrix: random sequences of operations on both sides, the whole memory compared after each, stray bits too.
use differential::archive::{self, Answer, Shape};
use differential::report::{Found, Report, area};
use differential::{Lent, Random, caught, places, refusal, values};
use raptorq::matrix::{BinaryMatrix, DenseBinaryMatrix};
use raptorq::octet::Octet;

const WIDTHS: [u64; 12] = [0, 1, 2, 10, 62, 63, 64, 65, 127, 128, 129, 200];
const HEIGHTS: [u64; 8] = [0, 1, 2, 3, 5, 9, 64, 65];
const KINDS: [&str; 9] = ["set", "get", "count_ones", "get_ones_in_column", "query_non_zero_columns", "swap_rows", "swap_columns", "add_assign_rows", "resize"];
const ABOVE_LIMITS: &str = "D27 (stores above the limits)";

fn row_words(width: usize) -> usize {
    width.div_ceil(64)
}

fn above_limits(m: Shape) -> bool {
    m.height > 131_070 || m.width > 65_535
}

/// One operation with its numbers; `room` is that of the list, `out` that of the value.
#[derive(Debug)]
struct Step {
    kind: &'static str,
    a: usize,
    b: usize,
    c: usize,
    value: u8,
    room: usize,
    out: usize,
}

impl Step {
    fn lists(&self) -> bool {
        matches!(self.kind, "get_ones_in_column" | "query_non_zero_columns")
    }
    fn answers(&self) -> bool {
        matches!(self.kind, "get" | "count_ones") || self.lists()
    }
}

/// What document 01 says of a step on a store of len words: the refusal, if there is one.
fn refused(len: usize, m: Shape, s: &Step) -> Option<u32> {
    let (start, end, size) = match s.kind {
        "get_ones_in_column" => (s.b, s.c, m.height),
        "query_non_zero_columns" => (s.b, m.width, m.width),
        "count_ones" => (s.b, s.c, m.width),
        _ => (0, 0, 0),
    };
    let outside = match s.kind {
        "set" | "get" => s.a >= m.height || s.b >= m.width,
        "count_ones" | "query_non_zero_columns" => s.a >= m.height,
        "get_ones_in_column" => s.a >= m.width,
        "swap_columns" => s.a >= m.width || s.b >= m.width,
        "resize" => s.a > m.height || s.b > m.width,
        _ => s.a >= m.height || s.b >= m.height,
    };
    refusal(&[
        (2, above_limits(m) || (s.kind == "resize" && above_limits(Shape { height: s.a, width: s.b }))),
        (8, len < m.height * row_words(m.width)),
        (8, s.lists() && start <= end && s.room < end - start),
        (8, s.answers() && s.out < 1),
        (6, outside || start > end || end > size),
        (7, s.kind == "add_assign_rows" && s.a == s.b),
    ])
}

/// Whether the crate takes a step on a matrix of just the words of its rows: each word that it goes to is one of them, and no assertion fails, of which
/// that two rows begin at two words is one of a debug build.
fn takes(m: Shape, s: &Step) -> bool {
    let wide = row_words(m.width);
    let len = m.height * wide;
    let word = |row: usize, column: usize| row * wide + column / 64;
    match s.kind {
        "set" | "get" => word(s.a, s.b) < len,
        "count_ones" => {
            let (first, last) = (word(s.a, s.b), word(s.a, s.c));
            let reads_last = first == last || s.c % 64 > 0;
            first < len && (last <= first || last <= len) && (last < len || !reads_last)
        }
        "get_ones_in_column" => s.b >= s.c || word(s.c - 1, s.a) < len,
        "query_non_zero_columns" => s.b >= m.width || word(s.a, m.width - 1) < len,
        "swap_rows" => s.a.max(s.b) * wide + wide <= len,
        "swap_columns" => s.c >= m.height || word(m.height - 1, s.a.max(s.b)) < len,
        "add_assign_rows" => s.a != s.b && s.a.max(s.b) * wide + wide <= len && !(cfg!(debug_assertions) && wide == 0),
        _ => s.a <= m.height && s.b <= m.width && (s.b > 0 || s.a == 0 || m.width == 0),
    }
}

/// A call that lists: the places that it wrote.
fn listed(s: &Step, call: impl FnOnce(&mut [u32], &mut [u64]) -> Answer<()>) -> Answer<Vec<u64>> {
    let list = places(s.room, |list| values(s.out, 1, |out| call(list, out)).map(|v| v[0] as usize))?;
    Ok(list.into_iter().map(u64::from).collect())
}

fn ours(words: &mut [u64], m: Shape, s: &Step) -> Answer<Vec<u64>> {
    let none = |()| vec![];
    match s.kind {
        "set" => archive::matrix_set(words, m, s.a, s.b, s.value).map(none),
        "get" => values(s.out, 1, |out| archive::matrix_get(words, m, s.a, s.b, out)),
        "count_ones" => values(s.out, 1, |out| archive::matrix_count_ones(words, m, s.a, s.b, s.c, out)),
        "get_ones_in_column" => listed(s, |list, out| archive::matrix_get_ones_in_column(words, m, s.a, s.b, s.c, list, out)),
        "query_non_zero_columns" => listed(s, |list, out| archive::matrix_query_non_zero_columns(words, m, s.a, s.b, list, out)),
        "swap_rows" => archive::matrix_swap_rows(words, m, s.a, s.b).map(none),
        "swap_columns" => archive::matrix_swap_columns(words, m, s.a, s.b, s.c).map(none),
        "add_assign_rows" => archive::matrix_add_assign_rows(words, m, s.a, s.b).map(none),
        _ => archive::matrix_resize(words, m, Shape { height: s.a, width: s.b }).map(none),
    }
}

fn theirs(m: &mut DenseBinaryMatrix, s: &Step) -> Vec<u64> {
    match s.kind {
        "set" => m.set(s.a, s.b, Octet::new(s.value)),
        "get" => return vec![m.get(s.a, s.b).byte().into()],
        "count_ones" => return vec![m.count_ones(s.a, s.b, s.c) as u64],
        "get_ones_in_column" => return m.get_ones_in_column(s.a, s.b, s.c).iter().map(|x| u64::from(*x)).collect(),
        "query_non_zero_columns" => return m.query_non_zero_columns(s.a, s.b).iter().map(|x| *x as u64).collect(),
        "swap_rows" => m.swap_rows(s.a, s.b),
        "swap_columns" => m.swap_columns(s.a, s.b, s.c),
        "add_assign_rows" => m.add_assign_rows(s.a, s.b, 0),
        _ => m.resize(s.a, s.b),
    }
    vec![]
}

/// The crate's matrix with these words, or 0 past their end. Just the words of the rows: `new` makes more (D16).
fn crates_matrix(m: Shape, words: &[u64]) -> DenseBinaryMatrix {
    let mut crates = DenseBinaryMatrix::new(m.height, m.width, 0);
    crates.elements = words.to_vec();
    crates.elements.resize(m.height * row_words(m.width), 0);
    crates
}

fn step(random: &mut Random, m: Shape) -> Step {
    let kind = KINDS[random.below(9) as usize];
    let (a, b, c) = match kind {
        "set" | "get" => (random.near(m.height), random.near(m.width), 0),
        "count_ones" => (random.near(m.height), random.near(m.width + 1), random.near(m.width + 1)),
        "get_ones_in_column" => (random.near(m.width), random.near(m.height + 1), random.near(m.height + 1)),
        "query_non_zero_columns" => (random.near(m.height), random.near(m.width + 1), 0),
        "swap_columns" => (random.near(m.width), random.near(m.width), random.near(m.height + 2)),
        "resize" => (random.near(m.height + 1), random.near(m.width + 1), 0),
        _ => (random.near(m.height), random.near(m.height), 0),
    };
    // Ranges the right way round, but for some.
    let ranges = matches!(kind, "count_ones" | "get_ones_in_column");
    let (b, c) = if ranges && c < b && random.below(6) != 0 { (c, b) } else { (b, c) };
    let value = if random.below(3) == 0 { 0 } else { random.byte() };
    let room = if random.below(6) == 0 { random.below(40) as usize } else { m.height.max(m.width) + random.below(3) as usize };
    Step { kind, a, b, c, value, room, out: random.room(1) }
}

/// Where the crate panics on what document 01 takes.
fn panics_on_valid(s: &Step) -> &'static str {
    match s.kind {
        "resize" => "D17 (resize to width 0)",
        "count_ones" => "D18 (empty count at the end)",
        _ => "D29 (row sum at width 0)",
    }
}

/// One step on both sides; whether the matrix now has the shape of a resize.
fn one_step(report: &mut Report, words: &mut [u64], crates: &mut DenseBinaryMatrix, m: Shape, s: &Step) -> bool {
    let before = words.to_vec();
    let said = || format!("{m:?}, {s:?} on {before:x?}");
    let answer = ours(words, m, s);
    let refused = refused(words.len(), m, s);
    if refused == Some(8) {
        report.refusal(answer == Err(8) && words == before, said);
        return false;
    }
    let kept = crates.clone();
    let given = caught(|| theirs(crates, s));
    let as_computed = given.is_some() == takes(m, s);
    if let Some(n) = refused {
        *crates = kept;
        let rule = match n {
            2 => ABOVE_LIMITS,
            _ if given.is_some() => "D16 (the matrix takes a place outside)",
            _ => "D14 (the matrix panics)",
        };
        report.listed(rule, answer == Err(n) && words == before && as_computed, said);
        return false;
    }
    if given.is_none() {
        // An empty count is 0; width 0 leaves every word.
        *crates = kept;
        let right = if s.answers() { vec![0] } else { vec![] };
        report.listed(panics_on_valid(s), answer == Ok(right) && words == before && as_computed, said);
        return false;
    }
    let now = crates.elements.len();
    report.equal(answer.ok() == given && words[..now] == crates.elements && words[now..] == before[now..], said);
    s.kind == "resize"
}

fn sequence(report: &mut Report, random: &mut Random) {
    let mut m = Shape { height: HEIGHTS[random.below(8) as usize] as usize, width: WIDTHS[random.below(12) as usize] as usize };
    let more = random.below(3) as usize;
    let mut words = random.words(m.height * row_words(m.width) + more);
    let mut crates = crates_matrix(m, &words);
    for _ in 0..=random.below(4) {
        let s = step(random, m);
        if one_step(report, &mut words, &mut crates, m, &s) {
            m = Shape { height: s.a, width: s.b };
        }
    }
}

/// A new matrix in a store of these words; what the store then holds.
fn make(report: &mut Report, m: Shape, before: Vec<u64>) -> Vec<u64> {
    let (len, used) = (before.len(), m.height * row_words(m.width));
    let lent = Lent::to(before, |words| archive::matrix_new(words, m));
    let given = caught(|| DenseBinaryMatrix::new(m.height, m.width, 0).elements);
    let said = || format!("new {m:?} in {len}");
    match refusal(&[(2, above_limits(m)), (8, len < used)]) {
        Some(2) => report.listed(ABOVE_LIMITS, lent.refused(2) && given.is_some(), said),
        Some(n) => report.refusal(lent.refused(n), said),
        None => report.equal(given.is_some_and(|words| lent.holds(&words[..used])), said),
    }
    lent.after
}

/// New matrices, a step on a store that may be too short, and now and then a matrix above the limits.
fn stores(report: &mut Report, random: &mut Random) {
    let m = Shape { height: random.below(12) as usize, width: random.below(200) as usize };
    let len = (m.height * row_words(m.width) + random.below(4) as usize).saturating_sub(2);
    make(report, m, random.words(len));
    let mut words = random.words(len);
    let mut crates = crates_matrix(m, &words);
    one_step(report, &mut words, &mut crates, m, &step(random, m));
    if random.below(64) == 0 {
        large(report, random);
    }
}

/// A matrix with more rows or columns than document 01 allows, and a small one that is to become so large.
fn large(report: &mut Report, random: &mut Random) {
    let m = match random.below(4) {
        0 => Shape { height: 131_071 + random.below(2) as usize, width: random.below(130) as usize },
        _ => Shape { height: random.below(12) as usize, width: 65_536 + (random.below(2) * random.below(130)) as usize },
    };
    let mut words = make(report, m, vec![7; m.height * row_words(m.width)]);
    let mut crates = crates_matrix(m, &words);
    one_step(report, &mut words, &mut crates, m, &step(random, m));
    let small = Shape { height: random.below(3) as usize, width: random.below(130) as usize };
    let grown = Step { kind: "resize", a: m.height, b: m.width, c: 0, value: 0, room: 0, out: 0 };
    let mut words = random.words(small.height * row_words(small.width));
    let mut crates = crates_matrix(small, &words);
    one_step(report, &mut words, &mut crates, small, &grown);
}

pub fn run(count: u64, seed: u64) -> Found {
    area("matrix", count, seed, sequence, stores).close()
}
