//! Swarmbanner judges a proposal about machines that talk through queues of any length: is it *closed*?
//!
//! The judging is done by a library that is proved, in Rattle, to give every byte string its defined reply. This crate
//! calls it, without dependencies, and gives its replies types.
//!
//! ```
//! // One machine sends message 0, another receives it, and any number may wait.
//! let r = [2, 1, 1, 0, 0, 1, 1, 2, 0, 0, 0, 1, 0, 1, 0, 1, 0, 0, 2, 0, 1, 0, 1, 1, 1, 0, 0, 1, 0];
//! let reply = swarmbanner::check(&r);
//! assert_eq!(reply, swarmbanner::Reply::Closed { pairs: 4 });
//! assert_eq!(reply.to_string(), "closed 4");
//!
//! // Three messages may wait, in the only control state.
//! assert_eq!(swarmbanner::member(&r, 0, &[0, 0, 0]), Ok(true));
//!
//! // A file that ends early is refused, with the place.
//! assert_eq!(swarmbanner::check(&r[..28]).to_string(), "refused 3 at 28");
//! ```
//!
//! | to | use |
//! |---|---|
//! | check one file | [`check`] |
//! | check many files in the same memory | [`Checker`] |
//! | ask whether contents lie in a set | [`member`]; [`membership`] says how far they are followed, too |
//! | see what a file has in it | [`read`] and [`Session`] |
//! | see what waits in the queues at the start, or say it | [`Session::starting`], [`Session::set_starting`] |
//! | make a session, or change one | [`Session::new`] and the methods after it |
//! | make a file of a session | [`Session::write`] |
//! | draw the diagram of an expression | [`expression`] and [`Diagram`] |
//! | put a diagram into a session | [`Session::add_diagram`], [`Session::set_pool`] |
//! | follow the contents that a reply shows | [`Failure`] and [`Way`] |
//! | replay a trace, or many in the same memory | [`Replayer`], which gives the last [`Configuration`] |
//! | replay a trace in memory of one's own | [`replay`] and [`Record`] |
//! | lend memory of one's own | [`lent`] |
//!
//! The library must have the layout that this crate is written for, [`lent::LAYOUT`]; with any other, [`check`], [`Checker::new`],
//! [`member`], [`membership`], [`read`], [`Session::write`], [`Session::write_into`], [`replay`], [`Replayer::new`] and [`expression`] panic.
//!
//! Replies, contents shown, tables, files written, records, queues and diagrams come from the proved library. What this crate does with them,
//! the methods of [`Session`] among it, is plain Rust that was tested and not proved.

#![deny(missing_docs)]
#![deny(unsafe_code)]

mod checker;
mod fits;
#[allow(unsafe_code)]
pub mod lent;
mod membership;
mod refusal;
mod replay;
mod reply;
mod session;
mod way;

pub use checker::{check, Checker};
pub use membership::{member, membership, Membership};
pub use refusal::Refusal;
pub use replay::{replay, Configuration, Record, Replayed, Replayer};
pub use reply::Reply;
pub use session::{
    expression, read, Arc, BadEntry, Diagram, DiagramState, Kind, Machine, PoolState, Queue, Session, SessionError,
    Transition,
};
pub use way::{End, Failure, Way};
