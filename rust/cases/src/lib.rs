//! # Cases for the desk of the deck lock
//!
//! A [`Case`] is a buffer and a list of calls on it. [`Stream`] makes an endless, seeded mix of
//! them:
//!
//! * [histories](Kind::History): long lists of calls from a fresh table, refused ones included;
//! * [strange images](Kind::Strange): sound images that no history need reach, every field random
//!   within the rules, with the odd coincidences sought out;
//! * [damaged images](Kind::Damaged): a sound image with exactly one named rule broken, each rule
//!   and each side of it in turn ([`DAMAGES`]), and besides [cut](Kind::Cut) buffers of every
//!   length, [noise](Kind::Noise) and images with [one bit turned](Kind::Flipped).
//!
//! [`Coverage`] keeps count of what the cases met: every outcome of every stage, every refusal of
//! every call, turns of every row and every size of table, every soundness rule, every damage and
//! every odd class. All classes are listed from the start, so that one never hit can be reported.
//!
//! Everything is determined by the seed and, in histories, by the image and the turn marker that
//! the calls so far have left; nothing depends on time, addresses or threads.

mod call;
mod coverage;
mod damage;
mod draft;
mod history;
mod rng;
mod script;
mod strange;
mod stream;

pub use call::Call;
pub use coverage::{Class, Coverage, Odd};
pub use damage::{Damage, DAMAGES};
pub use draft::Draft;
pub use history::History;
pub use rng::Rng;
pub use script::random_script;
pub use strange::{damaging_draft, small_drafts, strange_draft};
pub use stream::{Case, Kind, Stream};
