//! # Holding two desks against each other
//!
//! A [`Desk`] is anything that takes the five calls of document 01 and R-2's turn. [`drive`] puts
//! the same cases through two of them and compares, after every call, what they said and **every
//! byte**: the image, the owner's bytes in front of it, the buffer for the log, and the turn marker.
//! At the first difference it stops with a [`Difference`], whose text is a short account: the image
//! before as fields, the call, both replies and the bytes that differ.
//!
//! [`run`] makes a whole program of it for any two desks; the program `compare` is that for the
//! reference and the plain desk. To bring another implementation in, implement [`Desk`] for it and
//! write the same three lines with it on the right.
//!
//! What the cases met is kept in a [`cases::Coverage`], so that a run that never met some class can
//! be told from one that did.
//!
//! ```
//! use compare::{drive, PlainDesk, ReferenceDesk};
//!
//! let coverage = drive(&mut ReferenceDesk, &mut PlainDesk, 1, 10_000).unwrap();
//! assert!(coverage.calls() >= 10_000);
//! ```

mod account;
mod desk;
mod drive;
mod run;

pub use account::Difference;
pub use desk::{Desk, Lent, PlainDesk, ReferenceDesk, Said};
pub use drive::{drive, sweep};
pub use run::run;
