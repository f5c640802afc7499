//! Questions and the crate's answers, for the program crates/headers_vectors: its `stdin` and `stdout`.
use differential::rows;
use differential::{Random, caught};
use raptorq::base::{self, ObjectTransmissionInformation};
use raptorq::rng;
use raptorq_lent::rng::lent::published;

struct Vectors {
    questions: String,
    answers: String,
}

impl Vectors {
    /// A question, answered by the numbers that the crate gives, or by the refusal that stands for its panic.
    fn ask(&mut self, kind: char, numbers: &[u64], given: Option<Vec<u32>>, refusal: u32) {
        match given {
            Some(values) => self.answer(kind, numbers, &values),
            None => self.put(kind, numbers, &format!("refused {refusal} ")),
        }
    }

    /// A question that is answered by these numbers.
    fn answer(&mut self, kind: char, numbers: &[u64], values: &[u32]) {
        let answer: String = values.iter().map(|v| format!("{v} ")).collect();
        self.put(kind, numbers, &answer);
    }

    fn put(&mut self, kind: char, numbers: &[u64], answer: &str) {
        let mut all = numbers.to_vec();
        all.resize(7, 0);
        self.questions += &format!("{kind} {}\n", all.iter().map(u64::to_string).collect::<Vec<_>>().join(" "));
        self.answers += &format!("{answer}\n");
    }
}

fn numbers(v: &mut Vectors, random: &mut Random) {
    for _ in 0..400 {
        let (x, w) = (random.below(1_100_000) as u32, random.below(120) as u32);
        v.ask('d', &[x.into(), w.into()], caught(|| vec![base::deg(x, w)]), 2);
        let (i, j) = (random.word() as u32 >> random.below(32), random.word() as u32 >> random.below(33).min(31));
        let parts = caught(|| base::partition(i, j)).map(|(a, b, c, d)| vec![a, b, c, d]);
        v.ask('p', &[i.into(), j.into()], parts, 2);
        // Below 2^32 - 255, where the crate's sums do not overflow.
        let (y, i, m) = (random.below(u64::from(u32::MAX) - 255) as u32, random.byte(), random.word() as u32 >> random.below(32));
        v.ask('r', &[y.into(), i.into(), m.into()], caught(|| vec![rng::rand(y, i, m)]), 2);
        let (t, z, al) = (8 * random.below(300) as u16, random.byte(), 1 << random.below(5));
        let f = (u64::from(t) * u64::from(z) * 56403).saturating_sub(random.below(2_000_000)) + 1_000_000;
        // But for D7, D36 and D37 of docs/DIFFERENCES.md, where the crate's answer is not ours; with N = 1 there are no others.
        if t != 0 && z != 0 && f.div_ceil(t.into()) <= u32::MAX.into() {
            let taken = caught(|| ObjectTransmissionInformation::new(f, t, z, 1, al)).is_some();
            v.put('c', &[f, t.into(), z.into(), 1, al.into()], if taken { "accepted " } else { "refused 3 " });
        }
    }
}

fn rows_and_tuples(v: &mut Vectors, random: &mut Random) {
    for row in rows::published() {
        let wide = row.map(u64::from);
        let sizes = rows::published_sizes(row);
        v.answer('w', &wide, &sizes.map(|n| n as u32));
        let (k, esi) = (1 + random.below(wide[0]) as u32, random.below(2 * wide[0]) as u32);
        v.answer('i', &[&wide[..], &[k.into(), esi.into()]].concat(), &[rows::shifted(row, k, esi)]);
        for x in [random.below(wide[0]), random.below(1 << 24)] {
            let tuple = caught(|| base::intermediate_tuple(x as u32, row[4], row[1], sizes[3] as u32));
            // A panic here is the overflow of rand that docs/DIFFERENCES.md lists: no answer of the crate's to replay.
            if let Some((d, a, b, d1, a1, b1)) = tuple {
                v.answer('t', &[&wide[..], &[x]].concat(), &[d, a, b, d1, a1, b1]);
            }
        }
    }
}

/// Writes both files into the crate's folder.
pub fn write(folder: &str) -> std::io::Result<()> {
    let mut v = Vectors { questions: published().iter().map(|n| format!("{n}\n")).collect(), answers: String::new() };
    let mut random = Random::new(6330);
    numbers(&mut v, &mut random);
    rows_and_tuples(&mut v, &mut random);
    println!("headers_vectors: {} answers", v.answers.lines().count());
    std::fs::write(format!("{folder}/stdin"), v.questions)?;
    std::fs::write(format!("{folder}/stdout"), v.answers)
}
