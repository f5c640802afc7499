//! The two sides: our archive (`archive`) and the published crate (`raptorq`), and what a comparison of them needs.
use archive::Answer;
use std::cell::Cell;
use std::sync::Once;

// The arguments of a call stand together.
#[rustfmt::skip]
pub mod archive;
pub mod near;
pub mod report;
pub mod rows;
pub mod system;
pub mod telling;

/// A small generator of its own (xorshift64*), so that a seed gives the same cases on every machine.
pub struct Random(u64);

impl Random {
    pub fn new(seed: u64) -> Random {
        Random(seed.wrapping_mul(0x9E37_79B9_7F4A_7C15) | 1)
    }
    pub fn word(&mut self) -> u64 {
        self.0 ^= self.0 >> 12;
        self.0 ^= self.0 << 25;
        self.0 ^= self.0 >> 27;
        self.0.wrapping_mul(0x2545_F491_4F6C_DD1D)
    }
    /// A number below n.
    pub fn below(&mut self, n: u64) -> u64 {
        self.word() % n
    }
    /// A place below n most times, sometimes n or one more.
    pub fn near(&mut self, n: usize) -> usize {
        let past = if self.below(6) == 0 { 2 } else { u64::from(n == 0) };
        self.below(n as u64 + past) as usize
    }
    /// Room for n and up to two more most times, sometimes for less.
    pub fn room(&mut self, n: usize) -> usize {
        if n > 0 && self.below(16) == 0 { self.below(n as u64) as usize } else { n + self.below(3) as usize }
    }
    pub fn byte(&mut self) -> u8 {
        (self.word() >> 56) as u8
    }
    pub fn bytes(&mut self, n: usize) -> Vec<u8> {
        (0..n).map(|_| self.byte()).collect()
    }
    pub fn words(&mut self, n: usize) -> Vec<u64> {
        (0..n).map(|_| self.word()).collect()
    }
}

/// Document 01's order where several refusals apply; document 02 puts 14 before all others.
const ORDER: [u32; 11] = [14, 4, 5, 2, 9, 10, 8, 6, 7, 3, 1];

/// What a call gives for a refusal: its number, and above that byte its part, which only 4 has.
pub fn code(number: u32, part: u32) -> u32 {
    number + 256 * part
}

/// The number in a code.
pub fn number(code: u32) -> u32 {
    code % 256
}

/// The refusal that document 01 gives, as a code: each reason is a code, and whether it applies. That of a row is `rows::reason`.
pub fn refusal(reasons: &[(u32, bool)]) -> Option<u32> {
    let due = |of| reasons.iter().find(|(code, applies)| *applies && number(*code) == of);
    ORDER.into_iter().find_map(due).map(|(code, _)| *code)
}

/// What stands in a store where a call should leave it alone.
const UNTOUCHED: u64 = 0xA5A5_A5A5_A5A5_A5A5;

/// In the place of an answer: the call wrote past it, or refused and had written. No refusal has this code.
const WROTE: u32 = u32::MAX;

/// The first `used` places of a store, if the call left the rest alone.
fn front<T: PartialEq + Clone>(store: &[T], used: usize, mark: T) -> Answer<Vec<T>> {
    let alone = store.get(used..).is_some_and(|rest| !rest.is_empty() && rest.iter().all(|x| *x == mark));
    if alone { Ok(store[..used].to_vec()) } else { Err(WROTE) }
}

/// The n values that a call answers, given this room.
pub fn values(room: usize, n: usize, call: impl FnOnce(&mut [u64]) -> Answer<()>) -> Answer<Vec<u64>> {
    let mut store = vec![UNTOUCHED; room + 1];
    let answer = call(&mut store[..room]);
    let written = front(&store, if answer.is_ok() { n } else { 0 }, UNTOUCHED)?;
    answer.map(|()| written)
}

/// The places that a call puts at the front of a list with this room, of which it answers how many.
pub fn places(room: usize, call: impl FnOnce(&mut [u32]) -> Answer<usize>) -> Answer<Vec<u32>> {
    let mut list = vec![UNTOUCHED as u32; room + 1];
    let answer = call(&mut list[..room]);
    let written = front(&list, answer.unwrap_or(0), UNTOUCHED as u32)?;
    answer.map(|_| written)
}

/// A call on a lent store: its answer, and the store before and after.
pub struct Lent<T> {
    pub answer: Answer<()>,
    pub before: Vec<T>,
    pub after: Vec<T>,
}

impl<T: Clone + PartialEq> Lent<T> {
    pub fn to(before: Vec<T>, call: impl FnOnce(&mut [T]) -> Answer<()>) -> Lent<T> {
        let mut after = before.clone();
        let answer = call(&mut after);
        Lent { answer, before, after }
    }
    /// Refused by this code, and nothing has changed.
    pub fn refused(&self, code: u32) -> bool {
        self.answer == Err(code) && self.after == self.before
    }
    /// Done: these are at the front, and all else is as it was.
    pub fn holds(&self, front: &[T]) -> bool {
        self.answer == Ok(()) && self.after.starts_with(front) && self.after[front.len()..] == self.before[front.len()..]
    }
}

std::thread_local! { static CAUGHT: Cell<bool> = const { Cell::new(false) }; }

/// What the crate gives, or None where it panics. A panic of the harness itself still says what it is.
pub fn caught<T>(call: impl FnOnce() -> T) -> Option<T> {
    static QUIET: Once = Once::new();
    QUIET.call_once(|| {
        let loud = std::panic::take_hook();
        std::panic::set_hook(Box::new(move |said| {
            if !CAUGHT.get() {
                loud(said)
            }
        }));
    });
    CAUGHT.set(true);
    let given = std::panic::catch_unwind(std::panic::AssertUnwindSafe(call)).ok();
    CAUGHT.set(false);
    given
}
