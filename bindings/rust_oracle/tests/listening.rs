//! A block that listens to packets of the published crate's encoder: what it says is what a fresh call over all of them says, and without damage it comes to
//! what was sent.
#![forbid(unsafe_code)]
#[path = "../../rust/tests/common/mod.rs"]
mod common;
use common::{Random, Seen, all_ways, listen, receiver};
use rust_oracle::{Sender, parts};
use spoonripple::Verdict;

#[test]
fn what_it_says_is_what_a_fresh_call_says() {
    let (mut random, mut seen) = (Random::new(2001), Seen::new());
    for _ in 0..600 {
        let (k, t) = (1 + random.below(40) as u32, 1 + random.below(3) as u16);
        let sender = Sender::new(k, t);
        let sent: Vec<_> = sender.packets(|_| false, k + 9).iter().map(parts).collect();
        listen(&mut random, k, t, |esi| sent[esi as usize].clone(), &mut seen);
    }
    all_ways(&seen, 50);
}

#[test]
fn whatever_the_sender_sends_leaves_it_solved() {
    for (k, t) in [(1, 2), (10, 16), (33, 5), (101, 40)] {
        let sender = Sender::new(k, t);
        let mut block = receiver(k, t);
        for (esi, symbol) in sender.packets(|esi| esi % 4 == 0, 3 * k + 40).iter().map(parts) {
            block.take(esi, &symbol).unwrap();
            if esi > k + k / 4 {
                block.solve();
            }
        }
        assert_eq!((block.verdict(), block.source()), (Some(Verdict::Solved), Some(&sender.data[..])));
    }
}
