//! What is wrong with a text that is to be a session.

use std::error::Error;
use std::fmt;

use swarmbanner::lent::{STARTING_MOST, WORD_MOST};
use swarmbanner::{Queue, Refusal};

use crate::lines::messages_of;
use crate::order::Disorder;

/// A line that is wrong.
#[derive(Clone, Debug, PartialEq, Eq)]
pub struct Fault {
    /// Its number, counted from 1.
    pub line: usize,
    /// What is wrong with it.
    pub wrong: Wrong,
}

/// What is wrong with a line. Words are shown with bytes that are not plain letters written out.
#[derive(Clone, Debug, PartialEq, Eq)]
pub enum Wrong {
    /// No item begins with its first word.
    NoItem {
        /// The word.
        word: String,
    },
    /// A certain word has to stand somewhere, and another does, or none.
    Wanted {
        /// The word that has to.
        wanted: &'static str,
        /// The word that does.
        found: Option<String>,
    },
    /// A transition is not local, and neither sends nor receives.
    NoKind {
        /// The word that stands there.
        found: Option<String>,
    },
    /// The line ends where a number is wanted.
    NumberMissing {
        /// What it would say.
        what: &'static str,
    },
    /// A word is not a number, and one is wanted.
    NoNumber {
        /// What it would say.
        what: &'static str,
        /// The word.
        found: String,
    },
    /// The item is whole, and a word follows.
    More {
        /// The word.
        word: String,
    },
    /// A number is outside its range.
    Range {
        /// What it says.
        what: &'static str,
        /// The number as it was typed.
        number: String,
        /// The least and the most that it can be; none where nothing is possible.
        allowed: Option<(usize, usize)>,
        /// Why it can be no other.
        why: Option<String>,
    },
    /// A session cannot have one more of these.
    TooMany {
        /// What it is.
        item: &'static str,
        /// The least that a session has.
        least: usize,
        /// The most.
        most: usize,
    },
    /// The text ends, and a session has more of these.
    TooFew {
        /// What it is.
        item: &'static str,
        /// The least that a session has.
        least: usize,
        /// The most.
        most: usize,
    },
    /// A word has more than sixteen messages.
    WordLength {
        /// How many it has.
        length: usize,
    },
    /// A queue is to start with more than eight messages.
    StartingLength {
        /// How many it would start with.
        length: usize,
    },
    /// A message of a word, or one that a queue is to start with, is one of another queue.
    OtherQueue {
        /// The message.
        message: u8,
        /// Its queue.
        of: usize,
        /// The queue of the transition, or the one that is to start with it.
        queue: usize,
        /// The messages of that.
        own: Queue,
    },
    /// A state has two arcs for one message.
    ArcTwice {
        /// The message.
        message: u8,
    },
    /// A control state has two roots.
    RootTwice {
        /// The control state.
        control: usize,
        /// The line that gives it the first.
        before: usize,
    },
    /// The root of the line accepts a word that is out of queue order.
    OutOfOrder(Disorder),
    /// The library refuses the tables, and no word is out of order.
    Refused(Refusal),
}

impl fmt::Display for Wrong {
    fn fmt(&self, f: &mut fmt::Formatter<'_>) -> fmt::Result {
        use Wrong::*;

        match self {
            NoItem { word } => {
                write!(f, "no line begins with {word}, but with machine, queue, transition, state, control or bad")
            }
            Wanted { wanted, found } => write!(f, "{} where \"{wanted}\" is wanted", Found(found)),
            NoKind { found } => write!(f, "{} where \"local\", \"send\" or \"receive\" is wanted", Found(found)),
            NumberMissing { what } => write!(f, "the line ends where a number is wanted: {what}"),
            NoNumber { what, found } => write!(f, "{found} stands where a number is wanted: {what}"),
            More { word } => write!(f, "{word} stands where the line is to end"),
            Range { what, number, allowed, why } => {
                write!(f, "{what} is {number}; it can be {}", Allowed(allowed))?;
                why.as_ref().map_or(Ok(()), |why| write!(f, ": {why}"))
            }
            TooMany { item, least, most } => write!(f, "one {item} too many: a session has {}", count(*least, *most)),
            TooFew { item, least, most } => {
                write!(f, "the text ends without a {item}: a session has {}", count(*least, *most))
            }
            WordLength { length } => write!(f, "the word has {length} messages; it can have 0 to {WORD_MOST}"),
            StartingLength { length } => {
                write!(f, "the queue starts with {length} messages; it can start with 0 to {STARTING_MOST}")
            }
            OtherQueue { message, of, queue, own } => {
                write!(f, "message {message} is one of queue {of}; queue {queue} has {}", messages_of(own))
            }
            ArcTwice { message } => {
                write!(f, "a second arc for message {message}; a state has at most one for each message")
            }
            RootTwice { control, before } => write!(f, "control state {control} has a root already, by line {before}"),
            OutOfOrder(disorder) => disorder.fmt(f),
            Refused(refusal) => write!(f, "{refusal}: {}", refusal.explain()),
        }
    }
}

/// How many of a kind a session has.
fn count(least: usize, most: usize) -> String {
    match least {
        0 => format!("up to {most}"),
        _ => format!("{least} to {most}"),
    }
}

/// What stands where something else is wanted.
struct Found<'a>(&'a Option<String>);

impl fmt::Display for Found<'_> {
    fn fmt(&self, f: &mut fmt::Formatter<'_>) -> fmt::Result {
        match self.0 {
            Some(word) => write!(f, "{word} stands"),
            None => write!(f, "the line ends"),
        }
    }
}

/// A range in words.
struct Allowed<'a>(&'a Option<(usize, usize)>);

impl fmt::Display for Allowed<'_> {
    fn fmt(&self, f: &mut fmt::Formatter<'_>) -> fmt::Result {
        match self.0 {
            Some((least, most)) if least == most => write!(f, "{least}"),
            Some((least, most)) => write!(f, "{least} to {most}"),
            None => write!(f, "nothing"),
        }
    }
}

/// The number of the line, and what is wrong; the name of the text goes before it.
impl fmt::Display for Fault {
    fn fmt(&self, f: &mut fmt::Formatter<'_>) -> fmt::Result {
        write!(f, "{}: {}", self.line, self.wrong)
    }
}

impl Error for Fault {}
