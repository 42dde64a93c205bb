//! # The desk of the deck lock, second implementation
//!
//! This package was written from document 01 ("The build and its exact rules") alone, and then
//! from R-1 and R-2 of document 02 ("Requests after the base"), to be held against the first
//! implementation. It favours likeness to the papers over speed, and it is deliberately of another
//! shape than a program that matches on the stage and edits bytes:
//!
//! 1. [`Sheet::read`] takes a whole buffer apart into columns: one column of numbers for each
//!    field of a record, the log bytes, and the trailer's fields. Where each field lies is a
//!    table ([`RECORD`] and [`TRAILER`]).
//! 2. [`RULES`] lists the rules of a sound image, each by name with a predicate of its own, so
//!    that a checker can say *which* rule an image breaks ([`broken_rules`]).
//! 3. [`STAGE_TABLE`] is the stage table as data, in the papers' order: for each row when it
//!    applies, what it does, the next stage and the answer. A small evaluator finds the first
//!    row of the module's stage that applies and carries out its assignments.
//! 4. [`Sheet::write`] puts the whole table back into the buffer.
//!
//! The five calls are [`set_up`], [`begin_acquisition`], [`begin_release`], [`step`] and
//! [`take_log`]; a [`turn`] is a step of the module whose turn it is. Each takes every buffer of every length and content and every number; it either
//! refuses by the paper's number and changes no byte, or answers and leaves exactly the bytes
//! that the paper says.
//!
//! ```
//! use reference::{begin_acquisition, set_up, step, Reply};
//!
//! let mut image = vec![0; 1292];
//! assert_eq!(set_up(&mut image, 3), Reply::answered(0));
//! assert_eq!(begin_acquisition(&mut image, 1, 10), Reply::answered(0));
//! assert_eq!(step(&mut image, 1), Reply::answered(0)); // stage 1
//! assert_eq!(step(&mut image, 1), Reply::answered(3)); // stage 2, joined
//! assert_eq!(step(&mut image, 1), Reply::answered(0)); // stage 19
//! assert_eq!(step(&mut image, 1), Reply::admitted(1)); // stage 3
//! assert_eq!(step(&mut image, 1), Reply::Refused(4)); // inside, no step
//! ```

mod calls;
mod link;
mod reply;
mod rules;
mod sheet;
mod stages;

pub use calls::{
    begin_acquisition, begin_release, set_up, step, take_log, turn, Rulebook, RULEBOOK,
};
pub use link::Link;
pub use reply::Reply;
pub use rules::{broken_rules, is_sound, Rule, RULES, STAGE_RULE};
pub use sheet::{
    table_length, Field, Sheet, Spot, TrailerField, TrailerSpot, LOG_BYTES, MOST_MODULES, RECORD,
    RECORD_BYTES, TRAILER, TRAILER_BYTES,
};
pub use stages::{row_for, Act, Place, Row, Value, When, Whose, LAST_STAGE, STAGE_TABLE};
