//! A station with a typing error in its parameter file: the line that it gets names the number that was mistyped, tells what it was and what the rule asks.
#![forbid(unsafe_code)]
mod common;
use common::part_due;
use spoonripple::parameters::PUBLISHED_ROWS;
use spoonripple::{BadRow, Part, Refusal, Row};
use std::collections::BTreeSet;

const NAMES: [&str; 9] = ["K'", "J", "S", "H", "W", "L", "P", "B", "P1"];

/// The rows of a parameter file as a station reads them: a line each, of nine numbers. Else what is wrong, and in which line.
fn read(file: &str) -> Result<Vec<Row>, String> {
    let row = |line: &str| {
        let numbers: Vec<u32> = line.split(',').map(|x| x.trim().parse::<u32>().map_err(|why| why.to_string())).collect::<Result<_, _>>()?;
        let nine = numbers.try_into().map_err(|numbers: Vec<u32>| format!("{} numbers", numbers.len()))?;
        Row::from_numbers(nine).map_err(|refusal| refusal.to_string())
    };
    (1..).zip(file.lines()).map(|(number, line)| row(line).map_err(|why| format!("line {number}: {why}"))).collect()
}

/// A line of the file.
fn line(numbers: [impl ToString; 9]) -> String {
    numbers.map(|x| x.to_string()).join(", ")
}

/// All sentences, letter by letter. Where no more than the five are wrong, the five alone get the same.
#[test]
fn each_part_is_a_sentence() {
    let said = [
        ([10, 70000, 7, 10, 17, 27, 10, 10, 11], "refused 4, part 1: J is 70000, and must be below 65,536"),
        ([65536, 70000, 7, 10, 17, 27, 10, 10, 11], "refused 4, part 1: K' is 65536, and must be below 65,536"),
        ([10, 254, 7, 10, u32::MAX, 27, 10, 10, 11], "refused 4, part 1: W is 4294967295, and must be below 65,536"),
        ([0, 254, 7, 10, 17, 27, 10, 10, 11], "refused 4, part 2: K' is 0, and must be from 1 to 56,403"),
        ([10, 254, 8, 10, 17, 27, 10, 10, 11], "refused 4, part 3: S is 8, and must be odd and at least 3"),
        ([10, 254, 7, 300, 17, 27, 10, 10, 11], "refused 4, part 4: H is 300, and must be from 2 to 255"),
        ([10, 254, 7, 10, 16, 27, 10, 10, 11], "refused 4, part 5: W is 16, and must be a prime"),
        ([10, 254, 7, 10, 5, 27, 10, 10, 11], "refused 4, part 6: B = W - S is 5 - 7 = -2, and must be at least 1"),
        ([10, 254, 7, 10, 29, 27, 10, 10, 11], "refused 4, part 7: P = K' + S + H - W is 10 + 7 + 10 - 29 = -2, and must be at least 3"),
        ([10, 254, 3, 10, 17, 27, 10, 10, 11], "refused 4, part 8: ceil(B/S) = ceil((W - S)/S) is ceil((17 - 3)/3) = 5, and must be below S"),
        // Rounded up from 8/3 and from 10/3; no B of a prime W is a multiple of S.
        ([10, 254, 3, 10, 11, 23, 12, 8, 13], "refused 4, part 8: ceil(B/S) = ceil((W - S)/S) is ceil((11 - 3)/3) = 3, and must be below S"),
        ([10, 254, 3, 10, 13, 27, 10, 10, 11], "refused 4, part 8: ceil(B/S) = ceil((W - S)/S) is ceil((13 - 3)/3) = 4, and must be below S"),
        ([56403, 471, 9011, 255, 56951, 0, 0, 0, 0], "refused 4, part 9: L = K' + S + H is 56403 + 9011 + 255 = 65669, and must be at most 65,535"),
        ([10, 254, 7, 10, 17, 28, 10, 10, 11], "refused 4, part 10: L is 28, and must be K' + S + H = 27"),
        ([10, 254, 7, 10, 17, 27, 11, 10, 11], "refused 4, part 10: P is 11, and must be L - W = 10"),
        ([10, 254, 7, 10, 17, 27, 10, 9, 11], "refused 4, part 10: B is 9, and must be W - S = 10"),
        ([10, 254, 7, 10, 17, 27, 10, 10, 13], "refused 4, part 10: P1 is 13, and must be the smallest prime not below P, which is 11"),
        // The first that is wrong.
        ([10, 254, 7, 10, 17, 26, 9, 9, 13], "refused 4, part 10: L is 26, and must be K' + S + H = 27"),
        ([10, 254, 7, 10, 17, 27, 10, u32::MAX, 0], "refused 4, part 10: B is 4294967295, and must be W - S = 10"),
    ];
    let mut met = BTreeSet::new();
    for (numbers, words) in said {
        let [k, j, s, h, w, ..] = numbers;
        let refusal = Row::from_numbers(numbers).unwrap_err();
        met.extend(refusal.part().map(Part::number));
        assert_eq!(refusal.to_string(), words);
        assert_eq!(Refusal::of(refusal.code(), numbers), Some(refusal));
        match refusal.part() {
            Some(Part::Derived) => assert!(Row::new([k, j, s, h, w]).is_ok()),
            part => assert_eq!(Row::new([k, j, s, h, w]).map_err(|refusal| (refusal.part(), refusal.to_string())), Err((part, words.to_string()))),
        }
    }
    assert_eq!(met, (1..=10).collect());
}

/// A number with one digit mistyped, doubled or dropped, or typed twice as a whole.
fn mistyped(number: u32) -> Vec<String> {
    let text = number.to_string();
    let digit = |at: usize| {
        let (before, here, after) = (&text[..at], &text[at..=at], &text[at + 1..]);
        let others = ('0'..='9').filter(move |other| !here.starts_with(*other)).map(move |other| format!("{before}{other}{after}"));
        others.chain([format!("{before}{here}{here}{after}"), format!("{before}{after}")])
    };
    (0..text.len()).flat_map(digit).chain([text.repeat(2)]).collect()
}

/// Whether a line has this name as a word: P1 is not P.
fn names(said: &str, name: &str) -> bool {
    said.split(|c: char| !c.is_alphanumeric() && c != '\'').any(|word| word == name)
}

/// What a station gets for a line in which the number at this place was typed so: the part, 0 where the row is taken.
fn typed(record: [u32; 9], at: usize, text: &str) -> u32 {
    let mut words = record.map(|x| x.to_string());
    words[at] = text.to_string();
    let Ok(number) = text.parse::<u32>() else {
        // Nothing is left of a single digit, or it is past 32 bits: no number for any call.
        assert!(read(&line(words)).is_err_and(|why| why.starts_with("line 1: ") && !why.contains("refused")));
        return 0;
    };
    let mut numbers = record;
    numbers[at] = number;
    let [k, j, s, h, w, l, p, b, p1] = numbers;
    let part = part_due([k, j, s, h, w], Some([l, p, b, p1]));
    match read(&line(words)) {
        // Nothing follows from J: any other below 65,536 is a row too.
        Ok(rows) => assert_eq!((rows, at, part), (vec![Row::new([k, j, s, h, w]).unwrap()], 1, 0)),
        Err(why) => {
            assert!(why.starts_with(&format!("line 1: refused 4, part {part}: ")) && names(&why, NAMES[at]), "{} typed {text}: {why}", NAMES[at]);
            // Of the number itself: what it was.
            assert!(at < 5 || why.contains(&format!("part 10: {} is {number}, and must be ", NAMES[at])), "{why}");
            assert!(at < 5 || why.ends_with(&format!(" {}", record[at])), "{why}");
            assert_eq!(Row::from_numbers(numbers).unwrap_err().part().map(Part::number), Some(part));
        }
    }
    part
}

#[test]
fn a_typing_error_in_any_number_is_named() {
    let mut met = [[0; 11]; 9];
    for five in PUBLISHED_ROWS {
        let record = Row::new(five).unwrap().numbers();
        for at in 0..9 {
            mistyped(record[at]).iter().for_each(|text| met[at][typed(record, at, text) as usize] += 1);
        }
    }
    // Each number is refused in some line, and each part is met.
    assert!(met.iter().all(|parts| parts[1..].iter().sum::<u32>() > 100), "{met:?}");
    assert!((1..=10).all(|part| met.iter().any(|parts| parts[part] > 0)), "{met:?}");
}

#[test]
fn a_file_is_read_to_the_line_that_is_wrong() {
    let records = PUBLISHED_ROWS.map(|five| Row::new(five).unwrap());
    let lines = records.map(|row| line(row.numbers()));
    assert_eq!(read(&lines.join("\n")), Ok(records.to_vec()));
    assert_eq!(lines[38], "200, 491, 23, 10, 211, 233, 22, 188, 23");
    for (wrong, why) in [
        ("2000, 491, 23, 10, 211, 233, 22, 188, 23", "L is 233, and must be K' + S + H = 2033"),
        ("200, 491491, 23, 10, 211, 233, 22, 188, 23", "J is 491491, and must be below 65,536"),
        ("200, 491, 2, 10, 211, 233, 22, 188, 23", "S is 2, and must be odd and at least 3"),
        ("200, 491, 23, 1, 211, 233, 22, 188, 23", "H is 1, and must be from 2 to 255"),
        ("200, 491, 23, 10, 221, 233, 22, 188, 23", "W is 221, and must be a prime"),
        ("200, 491, 23, 10, 211, 2333, 22, 188, 23", "L is 2333, and must be K' + S + H = 233"),
        ("200, 491, 23, 10, 211, 233, 2, 188, 23", "P is 2, and must be L - W = 22"),
        ("200, 491, 23, 10, 211, 233, 22, 88, 23", "B is 88, and must be W - S = 188"),
        ("200, 491, 23, 10, 211, 233, 22, 188, 29", "P1 is 29, and must be the smallest prime not below P, which is 23"),
    ] {
        let mut lines = lines.clone();
        lines[38] = wrong.to_string();
        let said = read(&lines.join("\n")).unwrap_err();
        assert!(said.starts_with("line 39: refused 4, part ") && said.ends_with(&format!(": {why}")), "{said}");
    }
}

/// A refusal that a caller puts together himself is told too, whatever its numbers are.
#[test]
fn no_row_is_without_words() {
    for part in (1..=10).filter_map(Part::of) {
        for numbers in [[0; 9], [7; 9], [u32::MAX; 9], Row::published(10).unwrap().numbers()] {
            let said = Refusal::BadRow(BadRow { part, numbers }).to_string();
            let (head, words) = said.split_once(": ").unwrap();
            assert!(head == format!("refused 4, part {}", part.number()) && !words.is_empty(), "{said}");
        }
    }
}
