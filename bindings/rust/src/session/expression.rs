use std::fmt;

use super::flat::pool_of;
use super::{DiagramState, PoolState};
use crate::fits::must_fit;
use crate::lent::{self, POOL_LEAST, REPLY_LEAST};
use crate::Refusal;

/// The diagram of an expression, as [`expression`] draws it. [`Session::add_diagram`] and [`Session::set_pool`] put it into a
/// session. Its `Display` is the first line that `bin/swarmbanner-expression` prints.
///
/// State 0 is the root. The others are the different sets of numbers of the text that some word can end on; a state comes before
/// another if the shortest and lowest word that leads to it does. The arcs name states of this diagram.
///
/// [`Session::add_diagram`]: crate::Session::add_diagram
/// [`Session::set_pool`]: crate::Session::set_pool
#[derive(Clone, Debug, PartialEq, Eq, Hash)]
pub struct Diagram {
    states: Vec<PoolState>,
}

impl Diagram {
    /// Its states, by their numbers. There are 1 to 127.
    pub fn states(&self) -> &[PoolState] {
        &self.states
    }

    /// The state that words are read from, which is 0.
    pub fn root(&self) -> DiagramState {
        DiagramState(0)
    }

    /// Whether a word is one of the expression's.
    ///
    /// ```
    /// let diagram = swarmbanner::expression(b"(0|1)* 2")?;
    /// assert!(diagram.accepts(&[0, 1, 1, 2]));
    /// assert!(!diagram.accepts(&[0, 1, 1]));
    /// # Ok::<(), swarmbanner::Refusal>(())
    /// ```
    pub fn accepts(&self, word: &[u8]) -> bool {
        let last = word.iter().try_fold(self.root(), |state, &message| {
            let arcs = &self.states[state.index()].arcs;
            arcs.iter().find(|arc| arc.message == message).map(|arc| arc.target)
        });
        last.is_some_and(|last| self.states[last.index()].is_final)
    }
}

impl fmt::Display for Diagram {
    fn fmt(&self, f: &mut fmt::Formatter<'_>) -> fmt::Result {
        write!(f, "drawn {}", self.states.len())
    }
}

/// Draws the diagram of an expression: from its root just the words of the expression are accepted.
///
/// The text is made of message numbers in decimal without leading zeros, where a whole run of digits is one number; groups in
/// round brackets; a star after a number or a group, once at most; and `|` between alternatives, of which any may be empty.
/// Spaces may stand anywhere but inside a number.
///
/// # Errors
///
/// Fails by 18 where the text has more than 256 bytes, by 19 where it is no expression, then at the leftmost of them by 5 for a
/// number of 32 or more, by 20 for a ninth group in one another and by 21 for a thirty-third number, and last by 22 where there
/// are more than 127 states. [`Refusal::explain_in_text`] has the cause in words.
///
/// # Panics
///
/// Panics where the library has another layout than this crate ([`lent::LAYOUT`]).
///
/// ```
/// let diagram = swarmbanner::expression(b"(0|1)* 2")?;
/// assert_eq!(diagram.to_string(), "drawn 4");
/// assert!(diagram.states()[3].is_final);
///
/// let refusal = swarmbanner::expression(b"(0|1)** 2").unwrap_err();
/// assert_eq!(refusal.to_string(), "refused 19 at 6");
/// assert_eq!(refusal.explain_in_text(), "the text is no expression (at byte 6 of the text)");
/// # Ok::<(), swarmbanner::Refusal>(())
/// ```
pub fn expression(text: &[u8]) -> Result<Diagram, Refusal> {
    must_fit();
    let (mut pool, mut reply) = ([0; POOL_LEAST], [0; REPLY_LEAST]);
    let kind = lent::expression(text, &mut pool, &mut reply);
    match kind {
        lent::DRAWN => Ok(Diagram { states: pool_of(&pool, reply[1]) }),
        lent::REFUSED => Err(Refusal::told(&reply)),
        _ => unreachable!("drawing with room for a pool and a reply answers no kind {kind}"),
    }
}
