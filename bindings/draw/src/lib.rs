//! Pictures of session files as Graphviz DOT: machines, diagrams, where a verdict fails, and where a replay ends. And of expressions.

#![deny(missing_docs)]
#![forbid(unsafe_code)]

mod diagram;
mod dot;
mod machines;
mod picture;
mod save;
mod text;
mod tone;

pub use picture::{expression_picture, pictures, replay_pictures, Picture};
pub use save::{save, Complaint};
