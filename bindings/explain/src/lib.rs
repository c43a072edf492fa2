//! What a session file has in it, what a verdict on it means, what a replay does and what an expression gives: in words, by field, and
//! as JSON. And a session as lines of text that can be edited, there and back.
//!
//! Replies and tables come from the proved library. The words are plain Rust, tested and not proved.

#![deny(missing_docs)]
#![forbid(unsafe_code)]

pub mod command;
mod expression;
mod fields;
mod json;
mod lines;
mod listing;
mod order;
mod refused;
mod replace;
mod steps;
mod trace;
mod typed;
mod words;

pub use expression::{described, field_4, state_lines, undrawn};
pub use fields::{Fields, Limit, Stop};
pub use json::object;
pub use lines::lines;
pub use listing::listing;
pub use order::{Disorder, Owner};
pub use refused::Refused;
pub use replace::replace;
pub use steps::stepped;
pub use trace::{Mistyped, Trace};
pub use typed::{Fault, Typed, Wrong};
pub use words::explained;
