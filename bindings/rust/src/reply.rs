use std::fmt;

use crate::Refusal;

/// What checking says of a file. Its `Display` is the line that the program prints, without the newline.
///
/// Contents shown are the shortest that fail and the lowest of those, queue after queue; [`Session::split`] takes them
/// apart.
///
/// [`Session::split`]: crate::Session::split
#[derive(Clone, Debug, PartialEq, Eq, Hash)]
pub enum Reply {
    /// The start is inside, no step leads out and nothing inside is bad, for queues of any length.
    Closed {
        /// The defined count of pairs visited.
        pairs: usize,
    },
    /// What waits at the start is not in the set of the starting control state; mostly that is nothing. [`Session::starting`] has it.
    ///
    /// [`Session::starting`]: crate::Session::starting
    Outside,
    /// Contents inside allow a step that leads outside.
    Leaves {
        /// The control state before the step.
        control: usize,
        /// The number of the transition taken.
        transition: usize,
        /// The contents before the step.
        contents: Vec<u8>,
        /// How far the set that the step leads to follows the contents **after** the step: how many messages it takes before it has
        /// no arc for the next one; all of them where it ends in a state that is not final, 0 where it has no root.
        followed: usize,
    },
    /// Contents inside are listed as bad.
    Bad {
        /// The number of the bad entry.
        entry: usize,
        /// The contents that its diagram and the set of its control state both hold.
        contents: Vec<u8>,
    },
    /// The file is turned away.
    Refused(Refusal),
}

impl Reply {
    /// Whether the proposal holds.
    pub fn is_closed(&self) -> bool {
        matches!(self, Reply::Closed { .. })
    }
}

impl fmt::Display for Reply {
    fn fmt(&self, f: &mut fmt::Formatter<'_>) -> fmt::Result {
        match self {
            Reply::Closed { pairs } => write!(f, "closed {pairs}"),
            Reply::Outside => write!(f, "outside"),
            Reply::Leaves { control, transition, contents, followed } => {
                write!(f, "leaves {control} {transition} {} {followed}:", contents.len())?;
                shown(f, contents)
            }
            Reply::Bad { entry, contents } => {
                write!(f, "bad {entry} {}:", contents.len())?;
                shown(f, contents)
            }
            Reply::Refused(refusal) => refusal.fmt(f),
        }
    }
}

fn shown(f: &mut fmt::Formatter<'_>, contents: &[u8]) -> fmt::Result {
    contents.iter().try_for_each(|message| write!(f, " {message}"))
}
