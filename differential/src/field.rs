//! Octets: every pair, every exponent to 1,024, random multiply-adds, and runs of bytes with the answer whether they are all zero now.
use differential::archive::{self, Answer};
use differential::report::{Found, Report};
use differential::telling::{self, Call, LENGTHS, left};
use differential::{Random, caught, refusal, values};
use raptorq::octet::Octet;
use raptorq::octets;

fn octet(x: u8) -> Octet {
    Octet::new(x)
}

/// Why a call refuses besides the room for its value: the number, whether it applies, and the rule under which the crate panics there.
type Own = (u32, bool, &'static str);
const NEVER: Own = (1, false, "");

/// A call for one octet, given this room.
fn single(report: &mut Report, room: usize, own: Own, ours: impl FnOnce(&mut [u64]) -> Answer<()>, theirs: impl FnOnce() -> Octet, said: impl Fn() -> String) {
    let (number, applies, rule) = own;
    let refused = refusal(&[(number, applies), (8, room < 1)]);
    let given = caught(theirs).map(|octet| vec![octet.byte().into()]);
    report.asked(refused, (number, rule), values(room, 1, ours), given, || format!("{}, room {room}", said()));
}

fn pairs(report: &mut Report, random: &mut Random) {
    for pair in 0..=u16::MAX {
        let [a, b] = pair.to_be_bytes();
        let mut room = || random.room(1);
        single(report, room(), NEVER, |out| archive::octet_add(a, b, out), || octet(a) + octet(b), || format!("{a} + {b}"));
        single(report, room(), NEVER, |out| archive::octet_sub(a, b, out), || octet(a) - octet(b), || format!("{a} - {b}"));
        single(report, room(), NEVER, |out| archive::octet_mul(a, b, out), || octet(a) * octet(b), || format!("{a} * {b}"));
        let by_zero = (1, b == 0, "D1 (division by 0)");
        single(report, room(), by_zero, |out| archive::octet_div(a, b, out), || octet(a) / octet(b), || format!("{a} / {b}"));
    }
}

fn exponents(report: &mut Report) {
    for i in (0..=1024).chain([1 << 32, usize::MAX]) {
        for room in 0..3 {
            let above = (2, i > 255, "D2 (exponent above 255)");
            single(report, room, above, |out| archive::octet_alpha(i, out), || Octet::alpha(i), || format!("alpha ^ {i}"));
        }
    }
}

fn triple(report: &mut Report, random: &mut Random) {
    let [a, b, c] = [random.byte(), random.byte(), random.byte()];
    let theirs = || {
        let mut sum = octet(a);
        sum.fma(&octet(b), &octet(c));
        sum
    };
    single(report, random.room(1), NEVER, |out| archive::octet_fma(a, b, c, out), theirs, || format!("{a} + {b} * {c}"));
}

/// The length of a run: a telling one, one of a short run, or now and then a longer one.
fn any_length(random: &mut Random) -> usize {
    match random.below(100) {
        0 => 65535,
        1..5 => random.below(5000) as usize,
        5..55 => LENGTHS[random.below(14) as usize],
        _ => random.below(200) as usize,
    }
}

/// A call on runs. The bytes are held to the crate; whether they are all zero now it does not say.
fn run_of_octets(report: &mut Report, random: &mut Random) {
    // Scalars 0 and 1 are often among them.
    let (call, n, c) = (Call::any(random), any_length(random), random.byte() >> random.below(8));
    let m = match random.below(16) {
        0 | 1 => random.near(n),
        2 => n + 1,
        _ => n,
    };
    let src = if random.below(8) == 0 { vec![0; m] } else { random.bytes(m) };
    let dst = call.before(left(random, n), &src, c);
    let (mut ours, mut theirs) = (dst.clone(), dst.clone());
    let room = random.room(1);
    let answer = values(room, 1, |out| match call {
        Call::Add => archive::run_add(&mut ours, &src, out),
        Call::Scale => archive::run_scale(&mut ours, c, out),
        Call::Fma => archive::run_fma(&mut ours, &src, c, out),
    });
    let given = caught(|| match call {
        Call::Add => octets::add_assign(&mut theirs, &src),
        Call::Scale => octets::mulassign_scalar(&mut theirs, &octet(c)),
        Call::Fma => octets::fused_addassign_mul_scalar(&mut theirs, &src, &octet(c)),
    });
    let said = || format!("{call:?}, scalar {c}, room {room}, {dst:?}, {src:?}");
    let unequal = call != Call::Scale && n != m;
    if let Some(n) = refusal(&[(8, room < 1), (8, unequal)]) {
        let kept = answer == Err(n) && ours == dst;
        return if unequal { report.listed("D3 (runs of two lengths)", kept && given.is_none(), said) } else { report.refusal(kept, said) };
    }
    if cfg!(debug_assertions) && call == Call::Fma && c < 2 {
        (0..c).for_each(|_| octets::add_assign(&mut theirs, &src));
        report.listed("D4 (scalars 0 and 1)", answer.is_ok() && given.is_none() && ours == theirs, said);
    } else {
        report.equal(answer.is_ok() && given.is_some() && ours == theirs, said);
    }
    telling::held(report, call, &theirs, &answer, said);
}

/// The digests that crates/field_vectors must print are those of the crate.
fn digests(report: &mut Report) {
    const PRINTED: &str = include_str!("../../crates/field_vectors/stdout");
    let digest = |entry: fn(u8, u8) -> u8| (0..=u16::MAX).fold(0, |h: u64, i| (h * 257 + u64::from(entry((i >> 8) as u8, i as u8))) % 4_294_967_291);
    let products = format!("all products: {}\n", digest(|a, b| (octet(a) * octet(b)).byte()));
    let quotients = format!("all quotients: {}\n", digest(|a, b| if b == 0 { 0 } else { (octet(a) / octet(b)).byte() }));
    report.equal(PRINTED.contains(&products), || products.clone());
    report.equal(PRINTED.contains(&quotients), || quotients.clone());
}

pub fn run(count: u64, seed: u64) -> Found {
    let mut report = Report::new("field", seed);
    let mut random = Random::new(seed);
    pairs(&mut report, &mut random);
    exponents(&mut report);
    digests(&mut report);
    for _ in 0..count {
        triple(&mut report, &mut random);
    }
    for _ in 0..count / 10 {
        run_of_octets(&mut report, &mut random);
    }
    telling::met(&mut report, count);
    report.close()
}
