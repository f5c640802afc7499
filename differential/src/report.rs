//! What an area found: how many cases, how each was held, and where the input of each difference is.
use crate::Random;
use crate::archive::Answer;
use std::collections::BTreeMap;
use std::io::Write;
use std::ops::RangeInclusive;

/// How many random cases a run has that names no count.
pub const DEFAULT_COUNT: u64 = 1_000_000;

/// What an area, or all of them, came to: each case is a difference, or was held in one of the four ways that follow.
#[derive(Default)]
pub struct Found {
    pub cases: u64,
    pub differences: u64,
    /// The crate was asked, and gives the same.
    equal: u64,
    /// The two differ as docs/DIFFERENCES.md says, by its number.
    listed: BTreeMap<u32, u64>,
    /// Refused here, and the crate cannot be asked.
    refusals: u64,
    /// Answered here, and the crate cannot be asked.
    computed: u64,
    /// How many cases were of which kind, where an area tells.
    kinds: BTreeMap<&'static str, u64>,
    /// In how many cases refusal 4 was due with which part.
    parts: BTreeMap<u32, u64>,
}

pub struct Report {
    area: &'static str,
    seed: u64,
    found: Found,
}

impl Report {
    pub fn new(area: &'static str, seed: u64) -> Report {
        Report { area, seed, found: Found::default() }
    }

    /// One case: as it should be, and then counted where `held` says, or a difference, of which the first twenty are told.
    fn case(&mut self, same: bool, input: impl FnOnce() -> String, held: impl FnOnce(&mut Found)) {
        self.found.cases += 1;
        if same {
            return held(&mut self.found);
        }
        self.found.differences += 1;
        if self.found.differences <= 20 {
            self.tell(input());
        }
    }

    /// One line: where the difference can be met again, and its input, or the file that has it.
    fn tell(&self, input: String) {
        let number = self.found.cases;
        let shown = if input.len() <= 160 { input } else { format!("input in {}", keep(self.area, self.seed, number, input.as_bytes())) };
        line(&format!("{}: differs, seed {}, number {number}: {shown}", self.area, self.seed));
    }

    /// The crate was asked, and has to give the same.
    pub fn equal(&mut self, same: bool, input: impl FnOnce() -> String) {
        self.case(same, input, |found| found.equal += 1);
    }

    /// A difference that docs/DIFFERENCES.md lists under this name: `as_listed` says that both sides did what is written there.
    pub fn listed(&mut self, rule: &'static str, as_listed: bool, input: impl FnOnce() -> String) {
        let number = rule[1..].split(' ').next().and_then(|n| n.parse().ok()).expect("D and a number");
        self.case(as_listed, input, |found| *found.listed.entry(number).or_insert(0) += 1);
    }

    /// A refusal where the crate cannot be asked, since it has no such call or no such argument: documents 01 and 02 alone say the code.
    pub fn refusal(&mut self, as_told: bool, input: impl FnOnce() -> String) {
        self.case(as_told, input, |found| found.refusals += 1);
    }

    /// An answer where the crate cannot be asked: the harness has computed it by itself.
    pub fn computed(&mut self, same: bool, input: impl FnOnce() -> String) {
        self.case(same, input, |found| found.computed += 1);
    }

    /// The refusal that is due in the case that follows, or none: where it has a part, that is counted.
    pub fn due(&mut self, refused: Option<u32>) -> Option<u32> {
        if let Some(part) = refused.map(|code| code / 256).filter(|part| *part > 0) {
            *self.found.parts.entry(part).or_insert(0) += 1;
        }
        refused
    }

    /// That something was met at least so often: a run that met it less often shows less than it says, which is a difference. Only a run of the default size
    /// or more is held to it; in a shorter one it may be chance.
    fn often(&mut self, times: u64, least: u64, count: u64, what: impl FnOnce() -> String) {
        if times < least && count >= DEFAULT_COUNT {
            self.case(false, || format!("{} {times} times, and has to be {least} times", what()), |_| ());
        }
    }

    /// That each of these parts was due at least so often.
    pub fn met(&mut self, parts: RangeInclusive<u32>, least: u64, count: u64) {
        for part in parts {
            let times = self.found.parts.get(&part).copied().unwrap_or(0);
            self.often(times, least, count, || format!("part {part} of refusal 4 was due"));
        }
    }

    /// That each of these numbers of docs/DIFFERENCES.md was met at least so often.
    pub fn met_listed(&mut self, numbers: impl IntoIterator<Item = u32>, least: u64, count: u64) {
        for number in numbers {
            let times = self.found.listed.get(&number).copied().unwrap_or(0);
            self.often(times, least, count, || format!("D{number} was met"));
        }
    }

    /// That there were at least so many cases of each of these kinds.
    pub fn met_kinds(&mut self, kinds: impl IntoIterator<Item = &'static str>, least: u64, count: u64) {
        for kind in kinds {
            let times = self.found.kinds.get(kind).copied().unwrap_or(0);
            self.often(times, least, count, || format!("the kind '{kind}' was met"));
        }
    }

    /// A call that one number refuses where the crate panics as listed, another where the crate cannot be asked, and that else gives what the crate gives.
    pub fn asked<V: PartialEq>(
        &mut self,
        refused: Option<u32>,
        (number, rule): (u32, &'static str),
        ours: Answer<V>,
        given: Option<V>,
        input: impl FnOnce() -> String,
    ) {
        match refused {
            Some(n) if n == number => self.listed(rule, ours == Err(n) && given.is_none(), input),
            Some(n) => self.refusal(ours == Err(n), input),
            None => self.equal(given.is_some() && ours.ok() == given, input),
        }
    }

    /// The case that follows, or went before, is of a kind that the area's row counts.
    pub fn kind(&mut self, kind: &'static str) {
        *self.found.kinds.entry(kind).or_insert(0) += 1;
    }

    /// A computed case of a kind.
    pub fn of(&mut self, kind: &'static str, same: bool, input: impl FnOnce() -> String) {
        self.kind(kind);
        self.computed(same, input);
    }

    /// Prints the area's row of the table. A number that the paper does not have is a fault of the area.
    pub fn close(self) -> Found {
        let paper = include_str!("../../docs/DIFFERENCES.md");
        self.found.listed.keys().for_each(|number| assert!(paper.contains(&format!("- **D{number}, ")), "D{number} is not in docs/DIFFERENCES.md"));
        self.found.row(self.area);
        self.found
    }
}

impl Found {
    pub fn head() {
        line("equal     the crate gives the same");
        line("listed    the two differ as docs/DIFFERENCES.md says, by its numbers below");
        line("refusals  refused here, and the crate cannot be asked: held to documents 01 and 02 alone");
        line("computed  answered here, and the crate cannot be asked: held to the harness's own computation");
        line("part      of refusal 4, below: in how many cases it was due");
        line("yes, no   whether the destination of a call is all zero now, below: in how many cases the answer had to be which");
        line(&format!("\n{:<12} {:>10} {:>11} {:>10} {:>10} {:>10} {:>10}", "area", "cases", "differences", "equal", "listed", "refusals", "computed"));
    }

    pub fn row(&self, area: &str) {
        let Found { cases, differences, equal, listed, refusals, computed, kinds, parts } = self;
        let all_listed: u64 = listed.values().sum();
        line(&format!("{area:<12} {cases:>10} {differences:>11} {equal:>10} {all_listed:>10} {refusals:>10} {computed:>10}"));
        let numbers = listed.iter().map(|(number, count)| format!("D{number} {count}"));
        let parts = parts.iter().map(|(part, count)| format!("{count} part {part}"));
        let told: Vec<String> = numbers.chain(parts).chain(kinds.iter().map(|(kind, count)| format!("{count} {kind}"))).collect();
        if !told.is_empty() {
            line(&format!("{:<12} {}", "", told.join(", ")));
        }
    }

    pub fn with(mut self, other: Found) -> Found {
        self.cases += other.cases;
        self.differences += other.differences;
        self.equal += other.equal;
        self.refusals += other.refusals;
        self.computed += other.computed;
        other.listed.into_iter().for_each(|(number, count)| *self.listed.entry(number).or_insert(0) += count);
        other.kinds.into_iter().for_each(|(kind, count)| *self.kinds.entry(kind).or_insert(0) += count);
        other.parts.into_iter().for_each(|(part, count)| *self.parts.entry(part).or_insert(0) += count);
        self
    }
}

/// A line of what a run has to say; a reader who has gone away is no fault.
pub fn line(words: &str) {
    let _ = writeln!(std::io::stdout(), "{words}");
}

/// Keeps the input of a difference in a file under target/ and gives its path.
pub fn keep(area: &str, seed: u64, number: u64, bytes: &[u8]) -> String {
    let folder = concat!(env!("CARGO_MANIFEST_DIR"), "/target/differences");
    let path = format!("{folder}/{area}-{seed}-{number}");
    match std::fs::create_dir_all(folder).and_then(|()| std::fs::write(&path, bytes)) {
        Ok(()) => path,
        Err(fault) => format!("{path}, which could not be written ({fault})"),
    }
}

/// An area of two kinds of cases: `count` of the first, a twentieth as many of the second. It is not closed yet.
pub fn area(name: &'static str, count: u64, seed: u64, first: fn(&mut Report, &mut Random), second: fn(&mut Report, &mut Random)) -> Report {
    let mut report = Report::new(name, seed);
    let mut random = Random::new(seed);
    for _ in 0..count {
        first(&mut report, &mut random);
    }
    for _ in 0..count / 20 {
        second(&mut report, &mut random);
    }
    report
}
