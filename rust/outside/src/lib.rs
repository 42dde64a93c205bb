//! # The proved calls, seen from outside
//!
//! [`ArchiveDesk`] puts the archive behind `compare`'s trait, through the interface of `mokroshel`,
//! and lends it only buffers and markers whose both ends are guarded ([`Fence`]). The program `outside` holds it
//! against the reference; the program `measure` says what the calls cost: [`stack`] and time. The
//! program `frames` says how much stack they can take: [`frames`].

mod desk;
mod fence;
pub mod frames;
pub mod stack;

pub use desk::ArchiveDesk;
pub use fence::Fence;
