//! The verdict on a file and the line that is printed for it.

use std::fmt;

use crate::read::Refusal;

#[derive(Clone, Debug, PartialEq, Eq)]
pub enum Verdict {
    Closed {
        pairs: u64,
    },
    Outside,
    /// The contents before the step, and how far those after it are followed.
    Leaves {
        control_state: usize,
        transition: usize,
        contents: Vec<u8>,
        far: usize,
    },
    Bad {
        entry: usize,
        contents: Vec<u8>,
    },
}

pub type Reply = Result<Verdict, Refusal>;

impl Verdict {
    /// The verdict with 0 for how far the contents after the step are followed, to compare all else.
    pub fn without_far(&self) -> Verdict {
        let mut without = self.clone();
        if let Verdict::Leaves { far, .. } = &mut without {
            *far = 0;
        }
        without
    }
}

impl fmt::Display for Verdict {
    fn fmt(&self, f: &mut fmt::Formatter) -> fmt::Result {
        let contents = match self {
            Verdict::Closed { pairs } => return write!(f, "closed {pairs}"),
            Verdict::Outside => return write!(f, "outside"),
            Verdict::Leaves { control_state, transition, contents, far } => {
                write!(f, "leaves {control_state} {transition} {} {far}:", contents.len())?;
                contents
            }
            Verdict::Bad { entry, contents } => {
                write!(f, "bad {entry} {}:", contents.len())?;
                contents
            }
        };
        contents.iter().try_for_each(|message| write!(f, " {message}"))
    }
}

pub fn line(reply: &Reply) -> String {
    match reply {
        Ok(verdict) => verdict.to_string(),
        Err(refusal) => refusal.to_string(),
    }
}
