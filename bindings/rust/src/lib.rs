//! Session-typed scripts, checked and carried out step by step, by an interpreter that is proved.
//!
//! A script describes small processes that talk over typed channels. [`Script::check`] checks its types; [`Run::start`] begins a
//! run of one of its `exec` lines; [`Run::step`] carries out the step of the process at a place that the caller chooses, and
//! [`Run::run_on`] many steps, each at the first place where one can be carried out. What comes over a channel that the outside
//! uses is [`Seen`].
//!
//! ```
//! use epass::{Run, Script, RUN_WORDS, SCRATCH_WORDS};
//!
//! let text = b"proc m (x : 1) [] = c : 1 <- (send c ()); recv c (() => send x ())\nexec m\n";
//! let mut script = Script::check(text, [0; SCRATCH_WORDS])?;
//! let mut run = Run::start(&mut script, 0, [0; RUN_WORDS])?;
//! assert_eq!(run.step(&mut script, 0)?.to_string(), "carried out");
//! assert_eq!(run.run_on(&mut script, 10)?.to_string(), "2 steps, seen, #0 ()");
//! assert_eq!(run.run_on(&mut script, 10)?.to_string(), "2 steps, done");
//! # Ok::<(), epass::Refusal>(())
//! ```
//!
//! # What may go wrong
//!
//! Nothing but a [`Refusal`]: whatever the text, the words and the numbers, a call answers or is refused by a number, and a
//! refused call leaves the run as it was. An open step is refused only where a run is out of room
//! ([`Reason::Lacking`]): it has 128 process places, 512 channel places and 32 outside numbers.
//!
//! A raise that finds no handler is answered, not refused: the step is [`Step::Uncaught`], and the run has halted until it is begun anew.
//!
//! A recv may leave out labels of its type: [`Script::warnings`] tells which. Where one comes, its process acts as by a raise and folds up.
//!
//! # Memory
//!
//! There is no heap. Scratch and run are slices of words that are owned (an array) or lent (a `&mut [u32]`): everything that is
//! `AsMut<[u32]>` serves. Only the first [`RUN_WORDS`] words of a run need be kept between calls; [`Run::resume`] takes them up again.
#![no_std]
#![forbid(unsafe_op_in_unsafe_fn)]
#![deny(missing_docs)]

#[cfg(test)]
extern crate std;

mod answers;
mod ffi;
mod refusal;
mod run;
mod script;
mod text;

pub use answers::{End, Place, Places, RanOn, Report, Seen, Step, Warning};
pub use refusal::{Reason, Refusal};
pub use run::Run;
pub use script::Script;
pub use text::{position, tables, token, Position, Token, TokenKind};

/// How many words of scratch a script needs.
pub const SCRATCH_WORDS: usize = 6144;

/// How many words a run has.
pub const RUN_WORDS: usize = 6144;

/// How many bytes a text may have.
pub const TEXT_BYTES: usize = 8192;

/// How many processes a run may have at once.
pub const PROCESS_PLACES: usize = 128;

/// How many channels a run may have at once.
pub const CHANNEL_PLACES: usize = 512;

/// How many numbers are given to outside channels in one run.
pub const OUTSIDE_NUMBERS: usize = 32;
