//! What ours says of some arrivals, what may be said after one arrival more, and the kinds that are counted.
use crate::intake::memory::{Call, Step};
use differential::report::Report;

pub const STEPS: &str = "steps of one arrival";
const FELL: &str = "numbers that fell by one";
const STAYED: &str = "numbers that stayed";
const SOLVED: &str = "arrivals that solved";
const CONTRADICTED: &str = "arrivals that contradicted";
const REMAINED: &str = "contradictions that remained";
const DEPENDENT: &str = "arrivals of a dependent row";
const UNHEARD: &str = "arrivals of a dependent row and a new ESI";
const LARGER: &str = "steps in the larger frame";
pub const CHAINS: &str = "chains of arrivals";
pub const AGAIN: &str = "questions asked again";
pub const REORDERED: &str = "arrivals solved in another order";
const FITTED: &str = "second symbols that fitted";
const UNFIT: &str = "second symbols that did not fit";
const INSTEAD: &str = "second symbols that fitted where the first did not";
const OVER: &str = "packets between refused for their ESI";
const LENGTH: &str = "packets between refused for their length";
const ROOM: &str = "packets between refused for their stores";
const BEGINS: &str = "begins between refused";

/// That a run of the default size met each kind often enough.
pub fn met(report: &mut Report, count: u64) {
    report.met_kinds([STEPS], 100_000, count);
    report.met_kinds([FELL, STAYED, DEPENDENT, AGAIN, REORDERED, FITTED, UNFIT], 10_000, count);
    report.met_kinds([SOLVED, CONTRADICTED, REMAINED, UNHEARD, CHAINS, INSTEAD, OVER, LENGTH, ROOM, BEGINS], 1000, count);
    report.met_kinds([LARGER], 100, count);
}

/// What is said.
#[derive(Clone, Copy, Debug, PartialEq)]
pub enum Said {
    /// The shortfall, or 0 of solved.
    Number(u64),
    Contradiction,
    /// A code and a number that no answer has.
    Else(u32, u64),
}

impl Said {
    pub fn new(code: u32, shortfall: u64) -> Said {
        match (code, shortfall) {
            (0, _) => Said::Number(0),
            (100, _) => Said::Contradiction,
            (101, 1..) => Said::Number(shortfall),
            _ => Said::Else(code, shortfall),
        }
    }

    pub fn is_open(self) -> bool {
        matches!(self, Said::Number(1..))
    }

    /// Whether this may be said after one arrival more, whose row is independent of those before or not.
    pub fn follows(self, before: Said, independent: bool) -> bool {
        match (before, self) {
            (Said::Number(m), Said::Number(n)) => m == n + u64::from(independent),
            (Said::Number(_), Said::Contradiction) => !independent,
            (Said::Contradiction, _) => self == Said::Contradiction,
            _ => false,
        }
    }

    /// Whether this may be said of a second symbol for the arrival of which `first` is said: the same where its row is independent, else one of them at most
    /// fits.
    pub fn beside(self, first: Said, independent: bool) -> bool {
        if independent { self == first } else { [self, first].contains(&Said::Contradiction) }
    }
}

/// Counts the kinds of a step.
pub fn count(report: &mut Report, [before, after]: [Said; 2], independent: bool, new: bool, larger: bool) {
    report.kind(match (before, after) {
        (Said::Number(m), Said::Number(n)) if n < m => FELL,
        (Said::Number(_), Said::Number(_)) => STAYED,
        (Said::Number(_), _) => CONTRADICTED,
        _ => REMAINED,
    });
    let solved = before != after && after == Said::Number(0);
    let others = [(SOLVED, solved), (DEPENDENT, !independent), (UNHEARD, !independent && new), (LARGER, larger)];
    others.iter().filter(|(_, is)| *is).for_each(|(kind, _)| report.kind(kind));
}

/// The kind of a second symbol, by what is said of both.
pub fn kind_of_second([first, second]: [Said; 2]) -> &'static str {
    match [first, second] {
        [_, Said::Contradiction] => UNFIT,
        [Said::Contradiction, _] => INSTEAD,
        _ => FITTED,
    }
}

/// The kind of a refused call.
pub fn kind_of_refused(step: &Step, code: u32) -> &'static str {
    match (&step.call, code) {
        (Call::Packet { .. }, 9) => OVER,
        (Call::Packet { .. }, 10) => LENGTH,
        (Call::Packet { .. }, _) => ROOM,
        _ => BEGINS,
    }
}
