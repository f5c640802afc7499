#![doc = include_str!("../README.md")]
//! # What it adds to the archive
//!
//! Types, not algorithms. `include/spoonripple.h` says what each call of the archive does, `docs/PROMISES.md` which theorem says so.
//!
//! - **No `unsafe` for its users.** A slice passes as its pointer and length, so that no length can be wrong.
//! - **No overlap.** C cannot test that what is lent for writing overlaps nothing else; here a `&mut` slice cannot.
//! - **No numbers for answers.** Refusals are a [`Refusal`], what the solver says is a [`Verdict`].
//! - **Row and tables are checked once,** when a [`Row`] and [`Tables`] are made, so that refusals 4 and 5 come from there alone.
//! - **A refused row says what is wrong.** Refusal 4 has its [`Part`], the first rule that breaks, and with the numbers that were handed over ([`BadRow`]) it
//!   is a sentence: which number, what it was, what the rule asks.
//! - **One place for the row's numbers.** L, P, B and P1 are read off a [`Row`], as the archive's check made them; nothing here works them out.
//!
//! A refusal changes nothing that was lent.
//!
//! Two parts of one buffer can be lent, one part twice cannot:
//!
//! ```
//! let mut run = [1, 2, 3, 4];
//! let (dst, src) = run.split_at_mut(2);
//! spoonripple::octets::run_add(dst, src)?;
//! assert_eq!(run, [1 ^ 3, 2 ^ 4, 3, 4]);
//! # Ok::<(), spoonripple::Refusal>(())
//! ```
//!
//! ```compile_fail,E0502
//! let mut run = [1, 2, 3, 4];
//! spoonripple::octets::run_add(&mut run[..2], &run[1..3])?;
//! # Ok::<(), spoonripple::Refusal>(())
//! ```
//!
//! # Modules
//!
//! [`Block`] is what a receiver needs, with [`headers`] before it and [`parameters`] beside it; it rests on an [`Intake`], which is for those who keep no
//! packets. The other modules wrap every further call of the archive: [`octets`], [`tuples`], [`slab`], [`matrix`], [`constraints`], [`blocks`], and
//! [`intake`] with the calls over lent memory.
#![deny(missing_docs, unsafe_op_in_unsafe_fn)]

#[cfg(not(all(target_arch = "x86_64", target_os = "linux")))]
compile_error!("the archive is for x86-64 Linux");

mod bad_row;
mod block;
pub mod blocks;
pub mod constraints;
pub mod headers;
pub mod intake;
pub mod matrix;
pub mod octets;
pub mod parameters;
mod refusal;
pub mod slab;
// A line a call.
#[rustfmt::skip]
#[doc(hidden)]
#[allow(missing_docs)]
pub mod sys;
pub mod tuples;

pub use bad_row::{BadRow, Part};
pub use block::Block;
pub use blocks::Verdict;
pub use intake::Intake;
pub use parameters::{Row, Tables};
pub use refusal::Refusal;
