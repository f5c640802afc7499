//! The row of a delivery: the line of words for one that is refused, and rows with a typing error.
use differential::Random;
use differential::archive::Row;
use differential::rows;

/// Each number's name, and the kind under which an error in it is counted.
pub const NUMBERS: [(&str, &str); 5] =
    [("K'", "errors typed in K'"), ("J", "errors typed in J"), ("S", "errors typed in S"), ("H", "errors typed in H"), ("W", "errors typed in W")];

/// The line for a row that breaks a rule: the first rule that breaks, which number that is, what it was, and what the rule asks.
pub fn line(row: Row) -> Option<String> {
    let part = rows::part(row)?;
    let [k, _, s, h, w] = row.map(i64::from);
    let why = match part {
        1 => {
            let ((name, _), n) = NUMBERS.iter().zip(row).find(|(_, n)| *n >= 65536)?;
            format!("{name} is {n}, and must be below 65,536")
        }
        2 => format!("K' is {k}, and must be from 1 to 56,403"),
        3 => format!("S is {s}, and must be odd and at least 3"),
        4 => format!("H is {h}, and must be from 2 to 255"),
        5 => format!("W is {w}, and must be a prime"),
        6 => format!("B = W - S is {w} - {s} = {}, and must be at least 1", w - s),
        7 => format!("P = K' + S + H - W is {k} + {s} + {h} - {w} = {}, and must be at least 3", k + s + h - w),
        8 => format!("ceil(B/S) = ceil((W - S)/S) is ceil(({w} - {s})/{s}) = {}, and must be below S", (row[4] - row[2]).div_ceil(row[2])),
        _ => format!("L = K' + S + H is {k} + {s} + {h} = {}, and must be at most 65,535", k + s + h),
    };
    Some(format!("refused 4, part {part}: {why}"))
}

/// The part that a line tells.
pub fn part_in(line: &str) -> Option<u32> {
    line.strip_prefix("refused 4, part ")?.split(':').next()?.parse().ok()
}

/// Whether a line has this name as a word.
pub fn names(line: &str, name: &str) -> bool {
    line.split(|c: char| !c.is_ascii_alphanumeric() && c != '\'').any(|word| word == name)
}

/// What a hand does to the digits of a number, at this one.
type Slip = fn(&mut Random, &mut Vec<u8>, usize);

/// Each with the kind under which it is counted.
const SLIPS: [(&str, Slip); 5] = [
    ("digits mistyped", |random, digits, at| digits[at] = b'0' + random.below(10) as u8),
    ("digits doubled", |_, digits, at| digits.insert(at, digits[at])),
    ("digits held down", |_, digits, at| (0..3).for_each(|_| digits.insert(at, digits[at]))),
    ("digits dropped", |_, digits, at| _ = digits.remove(at)),
    ("digits exchanged", |_, digits, at| digits.swap(at, at.saturating_sub(1))),
];

/// The row with one such error: in which number, and of which kind.
pub fn mistyped(random: &mut Random, right: Row) -> (Row, usize, &'static str) {
    loop {
        let (at, (kind, slip)) = (random.below(5) as usize, SLIPS[random.below(5) as usize]);
        let mut digits = right[at].to_string().into_bytes();
        let place = random.below(digits.len() as u64) as usize;
        slip(random, &mut digits, place);
        let typed = String::from_utf8(digits).expect("digits").parse();
        if let Some(n) = typed.ok().filter(|n| *n != right[at]) {
            let mut row = right;
            row[at] = n;
            return (row, at, kind);
        }
    }
}
