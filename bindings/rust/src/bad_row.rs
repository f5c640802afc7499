//! What is wrong with a refused row: the first rule that breaks, and the words for it.
use crate::parameters::Row;
use std::fmt;

/// Which rule of a parameter row breaks first. They stand in the order in which they are tested: `docs/01-scope.md`, 'Parameter row', and last the numbers
/// that follow. B, P and L are differences and sums of what was handed over, and B and P can be below 0.
#[derive(Clone, Copy, Debug, PartialEq, Eq, Hash)]
pub enum Part {
    /// 1: one of K', J, S, H, W is 65,536 or more.
    Wide = 1,
    /// 2: K' is not in 1..56,403.
    Kp = 2,
    /// 3: S is even or below 3.
    S = 3,
    /// 4: H is not in 2..255.
    H = 4,
    /// 5: W is no prime.
    W = 5,
    /// 6: B = W - S is below 1.
    B = 6,
    /// 7: P = K' + S + H - W is below 3.
    P = 7,
    /// 8: ceil(B/S) is not below S.
    Ldpc = 8,
    /// 9: L = K' + S + H is above 65,535.
    L = 9,
    /// 10: L, P, B or P1 is not what the check makes of K', J, S, H, W. Only [`Row::from_numbers`] is handed these four.
    Derived = 10,
}

impl Part {
    const ALL: [Part; 10] = [Part::Wide, Part::Kp, Part::S, Part::H, Part::W, Part::B, Part::P, Part::Ldpc, Part::L, Part::Derived];

    /// Its place in the order of the rules, 1 to 10.
    pub fn number(self) -> u32 {
        self as u32
    }

    /// The part with this number.
    pub fn of(number: u32) -> Option<Part> {
        Part::ALL.into_iter().find(|part| part.number() == number)
    }

    /// What it means, where the numbers are not at hand: with them a [`BadRow`] says more.
    pub fn meaning(self) -> &'static str {
        match self {
            Part::Wide => "one of K', J, S, H, W is not below 65,536",
            Part::Kp => "K' is not from 1 to 56,403",
            Part::S => "S is not odd and at least 3",
            Part::H => "H is not from 2 to 255",
            Part::W => "W is not a prime",
            Part::B => "B = W - S is not at least 1",
            Part::P => "P = K' + S + H - W is not at least 3",
            Part::Ldpc => "ceil(B/S) is not below S",
            Part::L => "L = K' + S + H is not at most 65,535",
            Part::Derived => "L, P, B or P1 is not that of K', J, S, H, W",
        }
    }
}

/// A refused row. In words: which number is wrong, what it was and what the rule asks, say `W is 16, and must be a prime`; a [`Refusal`](crate::Refusal)
/// puts `refused 4, part 5: ` before it.
#[derive(Clone, Copy, Debug, PartialEq, Eq, Hash)]
pub struct BadRow {
    /// The first rule that breaks.
    pub part: Part,
    /// What was handed over: K', J, S, H, W, L, P, B, P1, of which [`Row::new`] is handed five and the others are 0.
    pub numbers: [u32; 9],
}

/// The names of the nine numbers.
const NAMES: [&str; 9] = ["K'", "J", "S", "H", "W", "L", "P", "B", "P1"];

/// What L, P, B, P1 have to be.
const DUE: [&str; 4] = ["K' + S + H =", "L - W =", "W - S =", "the smallest prime not below P, which is"];

impl BadRow {
    /// The first of K', J, S, H, W that is too large.
    fn wide(&self) -> usize {
        (0..4).find(|at| self.numbers[*at] >= 65536).unwrap_or(4)
    }

    /// The first of L, P, B, P1 that is wrong, and what it has to be: the check is asked, which alone makes these.
    fn derived(&self) -> Option<(usize, u32)> {
        let [k, j, s, h, w, ..] = self.numbers;
        let right = Row::new([k, j, s, h, w]).ok()?.numbers();
        (5..9).find(|at| self.numbers[*at] != right[*at]).map(|at| (at, right[at]))
    }
}

impl fmt::Display for BadRow {
    fn fmt(&self, f: &mut fmt::Formatter) -> fmt::Result {
        let [k, _, s, h, w, ..] = self.numbers.map(i64::from);
        match self.part {
            Part::Wide => write!(f, "{} is {}, and must be below 65,536", NAMES[self.wide()], self.numbers[self.wide()]),
            Part::Kp => write!(f, "K' is {k}, and must be from 1 to 56,403"),
            Part::S => write!(f, "S is {s}, and must be odd and at least 3"),
            Part::H => write!(f, "H is {h}, and must be from 2 to 255"),
            Part::W => write!(f, "W is {w}, and must be a prime"),
            Part::B => write!(f, "B = W - S is {w} - {s} = {}, and must be at least 1", w - s),
            Part::P => write!(f, "P = K' + S + H - W is {k} + {s} + {h} - {w} = {}, and must be at least 3", k + s + h - w),
            // Rounded up, (W - S + S - 1)/S. S is not 0 in a row that the archive refuses so.
            Part::Ldpc => write!(f, "ceil(B/S) = ceil((W - S)/S) is ceil(({w} - {s})/{s}) = {}, and must be below S", (w - 1) / s.max(1)),
            Part::L => write!(f, "L = K' + S + H is {k} + {s} + {h} = {}, and must be at most 65,535", k + s + h),
            Part::Derived => match self.derived() {
                Some((at, right)) => write!(f, "{} is {}, and must be {} {right}", NAMES[at], self.numbers[at], DUE[at - 5]),
                // Not of a row that the archive refuses so.
                None => f.write_str(self.part.meaning()),
            },
        }
    }
}
