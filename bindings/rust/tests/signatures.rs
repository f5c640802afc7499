//! The signatures stand three times: in the Rattle source, in include/spoonripple.h and in src/sys.rs. They are the same, names and types. So do the numbers
//! of the refusals and their parts, which are those of src/refusal.rs and src/bad_row.rs.
#![forbid(unsafe_code)]
use spoonripple::intake::Room;
use spoonripple::{Part, Refusal, Row};
use std::collections::BTreeSet;
use std::fs;
use std::path::Path;

/// A name and its parameters, as `name: type` in the words of Rust.
type Signature = (String, Vec<String>);

/// Every `head NAME(PARAMETERS)` of a text, each parameter put into words by `parameter`.
fn signatures(text: &str, head: &str, parameter: fn(&str) -> Vec<String>) -> BTreeSet<Signature> {
    let calls = text.split(head).skip(1).filter(|rest| rest.starts_with("spoonripple_"));
    calls
        .map(|rest| {
            let (name, rest) = rest.split_once('(').unwrap();
            let (parameters, after) = rest.split_once(')').unwrap();
            // In C the result stands in `head`.
            assert!(after.starts_with(" -> u32") || after.starts_with(';'), "{name}");
            let parameters = parameters.split(',').map(str::trim).filter(|p| !p.is_empty());
            (name.to_string(), parameters.flat_map(parameter).collect())
        })
        .collect()
}

/// `tables: &[u32]` passes as pointer and length.
fn of_rattle(parameter: &str) -> Vec<String> {
    let (name, kind) = parameter.split_once(": ").unwrap();
    let slice = |pointer: &str, of: &str| vec![format!("{name}: {pointer} {}", of.trim_end_matches(']')), format!("{name}_len: usize")];
    match (kind.strip_prefix("&["), kind.strip_prefix("&mut [")) {
        (Some(of), _) => slice("*const", of),
        (_, Some(of)) => slice("*mut", of),
        _ => vec![parameter.to_string()],
    }
}

/// `const uint32_t *tables`.
fn of_c(parameter: &str) -> Vec<String> {
    let rust = |kind: &str| match kind {
        "size_t" => "usize".to_string(),
        _ => kind.replace("uint", "u").replace("_t", ""),
    };
    let words: Vec<&str> = parameter.split_whitespace().collect();
    let last = words[words.len() - 1];
    vec![match (words.as_slice(), last.strip_prefix('*')) {
        (["const", kind, _], Some(name)) => format!("{name}: *const {}", rust(kind)),
        ([kind, _], Some(name)) => format!("{name}: *mut {}", rust(kind)),
        ([kind, name], None) => format!("{name}: {}", rust(kind)),
        _ => panic!("what is {parameter}?"),
    }]
}

#[test]
fn header_and_declarations_are_those_of_the_source() {
    let root = Path::new(env!("CARGO_MANIFEST_DIR")).join("../..");
    let read = |path: &str| fs::read_to_string(root.join(path)).unwrap();
    let files = fs::read_dir(root.join("crates/exports/src")).unwrap().map(|entry| fs::read_to_string(entry.unwrap().path()).unwrap());
    let source = signatures(&files.collect::<String>(), "pub extern \"C\" fn ", of_rattle);
    assert!(source.len() >= 47, "the source has {} calls", source.len());
    assert_eq!(signatures(&read("include/spoonripple.h"), "\nuint32_t ", of_c), source);
    assert_eq!(signatures(&read("bindings/rust/src/sys.rs"), "    pub fn ", |p| vec![p.to_string()]), source);
}

/// Names with their numbers, by rising number.
type Numbered = Vec<(u32, String)>;

/// The arms `KIND::Name => number,` of a method in a Rattle source, what the name holds left out.
fn arms(source: &str, function: &str, kind: &str) -> Numbered {
    let (_, rest) = source.split_once(&format!("\n    pub fn {function}(self)")).unwrap();
    let arms = rest.split("\n    }\n").next().unwrap().lines().filter_map(|line| line.trim().strip_prefix(kind)?.split_once(" => "));
    let mut all: Numbered = arms.map(|(name, n)| (n.trim_end_matches(',').parse().unwrap(), name.split('(').next().unwrap().to_string())).collect();
    all.sort();
    all
}

/// `#define SPOONRIPPLE_BAD_ROW 4` is BadRow.
fn defines(header: &str, head: &str) -> Numbered {
    let lines = header.lines().filter_map(|line| line.strip_prefix("#define SPOONRIPPLE_")?.strip_prefix(head)?.split_once(' '));
    let camel = |word: &str| format!("{}{}", &word[..1], word[1..].to_lowercase());
    let mut all: Numbered = lines.filter_map(|(name, n)| Some((n.parse().ok()?, name.split('_').map(camel).collect()))).collect();
    all.sort();
    all
}

#[test]
fn numbers_and_parts_have_one_name() {
    let root = Path::new(env!("CARGO_MANIFEST_DIR")).join("../..");
    let [source, header] = ["crates/field/src/refusal.rt", "include/spoonripple.h"].map(|path| fs::read_to_string(root.join(path)).unwrap());
    let named = |name: &dyn Fn(u32) -> Option<String>| (0..256).filter_map(|n| Some((n, name(n)?))).collect::<Numbered>();
    let parts = named(&|n| Part::of(n).map(|part| format!("{part:?}")));
    assert_eq!((&arms(&source, "place", "Part::"), &defines(&header, "PART_")), (&parts, &parts));
    // What a variant holds is no part of its name. A refused row has the first part here.
    let variant = |refusal: Refusal| format!("{refusal:?}").split('(').next().unwrap().to_string();
    let numbers = named(&|n| Refusal::of(if n == 4 { 260 } else { n }, [0; 9]).map(variant));
    assert_eq!(arms(&source, "number", "Refusal::"), numbers);
    let besides = [(0, "Done"), (100, "Contradiction"), (101, "Open")].map(|(n, name)| (n, name.to_string()));
    let refusals = defines(&header, "").into_iter().filter(|(_, name)| !name.starts_with("Part") && !name.starts_with("Intake"));
    let (answers, refusals): (Numbered, Numbered) = refusals.partition(|answer| besides.contains(answer));
    assert_eq!((answers, refusals), (besides.to_vec(), numbers));
}

/// How much an intake is lent: the header's macros are tried by bindings/c/intake.c.
#[test]
fn the_words_of_a_state_are_as_many() {
    let header = fs::read_to_string(Path::new(env!("CARGO_MANIFEST_DIR")).join("../../include/spoonripple.h")).unwrap();
    let words = Room::of(Row::published(10).unwrap(), 4).state;
    assert_eq!(defines(&header, "INTAKE_"), [(words as u32, "State".to_string())]);
}
