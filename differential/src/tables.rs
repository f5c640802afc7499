//! That neither table of octets stands in what a reader loads (document 02, E10): the archive, and the programs receive and header. And that one would be
//! found: in bytes of the harness's own. Nothing that is built rests on the crate octet_tables.
use differential::Random;
use differential::report::{DEFAULT_COUNT, Found, Report};
use raptorq::octet::Octet;
use std::collections::{BTreeMap, BTreeSet};
use std::path::Path;
use std::{env, fs, mem, process};

mod scan;
use scan::{Stretch, Table, tables};

const CRATES: &str = include_str!("../../crates.txt");

/// A file that the script run has built, or the end of the run: of what is not there, or is no such file (a thin archive has no code), nothing can be said.
fn built(folder: &str, name: &str) -> Vec<u8> {
    let path = Path::new(&env::var_os(folder).unwrap_or_default()).join(name);
    let begins: &[u8] = if name.ends_with(".a") { b"!<arch>\n" } else { b"\x7fELF" };
    fs::read(&path).ok().filter(|bytes| bytes.starts_with(begins)).unwrap_or_else(|| {
        eprintln!("tables: {} is no archive or program that can be read; start this by the script run", path.display());
        process::exit(2)
    })
}

/// Whether the tables that are looked for are the crate's: of OCT_EXP its quotients read what is above 255.
fn held(report: &mut Report, [powers, logarithms]: &[Table; 2]) -> bool {
    let theirs = |i: usize| if i < 256 { Octet::alpha(i) } else { Octet::alpha(i - 255) / Octet::one() };
    let powers = powers.entries.iter().enumerate().map(|(i, power)| (theirs(i).byte() == *power, format!("OCT_EXP[{i}] is not {power}")));
    let logarithms = logarithms.entries.iter().zip(0..=u8::MAX).skip(1);
    let logarithms = logarithms.map(|(i, x)| (theirs(usize::from(*i)).byte() == x, format!("OCT_LOG[{x}] is not {i}")));
    powers.chain(logarithms).fold(true, |all, (same, said)| {
        report.equal(same, || said);
        all && same
    })
}

/// How many entries are laid; at which byte the first of them, with room for all on either side; and among how many.
const LAID: usize = 16;
const MIDDLE: usize = 400;
const ROOM: usize = 2 * MIDDLE;

/// Where entries are laid: one, two, four or eight side by side, and the next ones so many bytes on, or back; or two by two, at any distances.
fn layouts(random: &mut Random) -> Vec<Vec<usize>> {
    let at = |wide: usize, step: isize, k: usize| MIDDLE.checked_add_signed((k / wide) as isize * step).expect("there is room") + k % wide;
    let steps = |wide: usize| (wide as isize..=24).flat_map(move |step| [(wide, step), (wide, -step)]);
    let even = [1, 2, 4, 8].into_iter().flat_map(steps).map(|(wide, step)| (0..LAID).map(|k| at(wide, step, k)).collect());
    let uneven = (0..20).map(|_| {
        let twos = (0..LAID / 2).scan(MIDDLE, |at, _| Some(mem::replace(at, *at + 2 + random.below(23) as usize)));
        twos.flat_map(|at| [at, at + 1]).collect()
    });
    even.chain(uneven).collect()
}

/// These bytes with entries laid among them.
fn laid(among: &[u8], layout: &[usize], entries: &[u8]) -> Vec<u8> {
    let mut bytes = among.to_vec();
    layout.iter().zip(entries).for_each(|(at, x)| bytes[*at] = *x);
    bytes
}

/// Sixteen entries of each table, from any place on, are found, where they are and as what they are. Nothing is found without them, nor with what code that
/// doubles may have: the masks, and the eight copies of a factor.
fn control(report: &mut Report, random: &mut Random, tables: &[Table; 2], layout: &[usize], among: &[u8]) {
    let nothing = |bytes: &[u8]| tables.iter().all(|table| table.stretches(bytes).is_empty());
    report.of("bytes with nothing laid", nothing(among), || format!("something is found in {among:?}"));
    let powers = &tables[0].entries;
    for few in [&powers[..9], &powers[random.below(255) as usize..][..8]] {
        let bytes = laid(among, layout, few);
        report.of("bytes with a few powers laid", nothing(&bytes), || format!("{few:?} at {layout:?} is found in {bytes:?}"));
    }
    for (table, other) in [(&tables[0], &tables[1]), (&tables[1], &tables[0])] {
        let from = random.below((table.entries.len() - LAID + 1) as u64) as usize;
        let bytes = laid(among, layout, &table.entries[from..][..LAID]);
        let right = |found: &Stretch| (0..LAID).any(|k| (from + k) % table.different == found.place && found.at == layout[k]);
        let found = table.stretches(&bytes).iter().any(right) && other.stretches(&bytes).is_empty();
        report.of("bytes with entries laid", found, || format!("{} from {from} on at {layout:?} is not found in {bytes:?}", table.name));
    }
}

/// What of a table stands in a file, in words.
fn told(file: &str, table: &Table, found: &[Stretch]) -> String {
    let first = found.iter().map(|stretch| format!(", the first from place {} on at byte {:#x}", stretch.place, stretch.at)).next();
    format!("{file} has {} of the {} entries of {}{}", table.covered(found), table.different, table.name, first.unwrap_or_default())
}

/// All that a crate rests on, by the lines of crates.txt; none if it has no line there.
fn beneath(name: &str) -> Option<BTreeSet<&'static str>> {
    // What stands behind the name, as `staticlib`, is the kind of the crate.
    let rows = CRATES.lines().filter(|line| !line.starts_with('#')).filter_map(|line| line.split_once(':'));
    let lines: BTreeMap<&str, &str> = rows.filter_map(|(name, uses)| Some((name.split_whitespace().next()?, uses))).collect();
    let (mut all, mut next) = (BTreeSet::new(), vec![*lines.get(name)?]);
    while let Some(names) = next.pop() {
        next.extend(names.split_whitespace().filter(|name| all.insert(*name)).filter_map(|name| lines.get(name)));
    }
    Some(all)
}

pub fn run(count: u64, seed: u64) -> Found {
    let mut report = Report::new("tables", seed);
    let (mut random, tables) = (Random::new(seed), tables());
    if !held(&mut report, &tables) {
        return report.close(); // what follows would look for something else
    }
    let programs = "SPOONRIPPLE_PROGRAMS";
    for (folder, name) in [("SPOONRIPPLE_ARCHIVE", "libexports.a"), (programs, "receive"), (programs, "header")] {
        for table in &tables {
            let found = table.stretches(&built(folder, name));
            report.of("files without a table", found.is_empty(), || told(name, table, &found));
        }
    }
    for name in ["exports", "receive", "header", "field_vectors"] {
        let apart = beneath(name).is_some_and(|all| !all.contains("octet_tables"));
        report.of("crates and what they rest on", apart, || format!("crates.txt: {name} has to be there, and not to rest on octet_tables"));
    }
    let code = built(programs, "header");
    for _ in 0..count.div_ceil(DEFAULT_COUNT).max(1) {
        for layout in layouts(&mut random) {
            let from = random.below((code.len() - ROOM) as u64) as usize;
            for among in [random.bytes(ROOM), code[from..][..ROOM].to_vec()] {
                control(&mut report, &mut random, &tables, &layout, &among);
            }
        }
    }
    report.close()
}
