//! Finds the tables OCT_EXP and OCT_LOG of RFC 6330, 5.7.3 and 5.7.4, in a string of bytes: as data, or as constants of the instructions that would lay them.
use std::collections::BTreeSet;

/// So many successive entries are a stretch. Code that doubles may have eight or nine: 1, 2, 4 .. 128 as masks and 29 beside them, 16 bytes apart where vectors
/// are doubled, and of a constant factor the eight copies. Chance adds what is missing to fewer than one in 10^7 of these.
pub const STRETCH: usize = 14;

/// A constant is no further from the one before it: movabs with its store takes 18 bytes, and the constants may stand in falling order.
const FAR: usize = 32;

pub struct Table {
    pub name: &'static str,
    pub entries: Vec<u8>,
    /// How many are different: OCT_EXP has each power twice.
    pub different: usize,
    /// The places of each octet, of those at which a stretch can begin.
    places: Vec<Vec<usize>>,
}

impl Table {
    fn new(name: &'static str, entries: Vec<u8>, different: usize) -> Table {
        let mut places = vec![vec![]; 256];
        (0..different.min(entries.len() - STRETCH + 1)).for_each(|place| places[usize::from(entries[place])].push(place));
        Table { name, entries, different, places }
    }

    /// How many of the different entries are in these stretches.
    pub fn covered(&self, found: &[Stretch]) -> usize {
        let places = found.iter().flat_map(|stretch| (stretch.place..).take(STRETCH));
        places.map(|place| place % self.different).collect::<BTreeSet<_>>().len()
    }

    pub fn stretches(&self, bytes: &[u8]) -> Vec<Stretch> {
        let steps: Vec<isize> = (1..=FAR as isize).flat_map(|step| [step, -step]).collect();
        let stands = |stretch: &Stretch| {
            let (entries, at) = (&self.entries[stretch.place..][..STRETCH], stretch.at);
            steps.iter().any(|step| singly(bytes, entries, at, *step)) || by_twos(bytes, entries, at)
        };
        let begun = bytes.iter().enumerate().flat_map(|(at, x)| self.places[usize::from(*x)].iter().map(move |place| Stretch { place: *place, at }));
        begun.filter(stands).collect()
    }
}

/// Both tables, by doubling. OCT_LOG[0] is a placeholder.
pub fn tables() -> [Table; 2] {
    let mut powers = vec![1u8];
    while let Some(x) = powers.last().filter(|_| powers.len() < 510) {
        powers.push(x << 1 ^ if x >> 7 == 1 { 29 } else { 0 });
    }
    let mut logarithms = vec![0; 256];
    (0..255).for_each(|i| logarithms[usize::from(powers[i])] = i as u8);
    [Table::new("OCT_EXP", powers, 255), Table::new("OCT_LOG", logarithms, 256)]
}

/// Successive entries of a table: the place of the first, and the byte at which it stands.
pub struct Stretch {
    pub place: usize,
    pub at: usize,
}

/// Whether these entries stand there, each as many bytes on as the one before it, or back: data, wider numbers, and octets that are stored one by one.
fn singly(bytes: &[u8], entries: &[u8], at: usize, step: isize) -> bool {
    (1..entries.len()).all(|k| bytes.get(at.wrapping_add_signed(step * k as isize)) == Some(&entries[k]))
}

/// Whether these entries stand there two by two, each two near those before: what instructions of any length store by two, four or eight.
fn by_twos(bytes: &[u8], entries: &[u8], at: usize) -> bool {
    let stands = |at: &usize, two: &[u8]| bytes.get(*at..).is_some_and(|rest| rest.starts_with(two));
    let near = |at: usize| (2..=FAR).flat_map(move |gap| [at + gap, at.wrapping_sub(gap)]);
    if !stands(&at, &entries[..2]) {
        return false;
    }
    let mut last = BTreeSet::from([at]);
    for two in entries.chunks(2).skip(1) {
        last = last.into_iter().flat_map(near).filter(|at| stands(at, two)).collect();
    }
    !last.is_empty()
}
