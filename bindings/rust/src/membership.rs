use std::fmt;

use crate::fits::must_fit;
use crate::lent::{self, REPLY_LEAST};
use crate::Refusal;

/// What membership says of contents: whether they belong to the set of a control state, and how far its diagram follows them.
///
/// Its `Display` is `yes` or `no`, and the number.
#[derive(Clone, Copy, Debug, PartialEq, Eq, Hash)]
pub struct Membership {
    /// Whether they belong to the set.
    pub is_inside: bool,
    /// How many messages the diagram takes before it has no arc for the next one. Of contents that are inside it is their length.
    /// Of others it is so where they end in a state that is not final; it is 0 where the control state has no root.
    pub followed: usize,
}

impl fmt::Display for Membership {
    fn fmt(&self, f: &mut fmt::Formatter<'_>) -> fmt::Result {
        write!(f, "{} {}", if self.is_inside { "yes" } else { "no" }, self.followed)
    }
}

/// Says whether contents, one byte for each message and queue after queue, belong to the set of a control state, and how far its
/// diagram follows them. [`member`] is the same where yes or no will do.
///
/// # Errors
///
/// Fails where the file is not a session file, and where it has no such control state (11) or message (12), or the
/// messages are not queue after queue (13).
///
/// # Panics
///
/// Panics where the library has another layout than this crate ([`lent::LAYOUT`]).
///
/// ```
/// use swarmbanner::{membership, Membership};
///
/// // One message 0 may wait.
/// let c = [2, 1, 1, 0, 0, 1, 1, 2, 0, 0, 0, 1, 0, 1, 0, 1, 0, 0, 2, 0, 1, 0, 2, 1, 1, 0, 1, 1, 0, 1, 0];
/// assert_eq!(membership(&c, 0, &[0])?, Membership { is_inside: true, followed: 1 });
/// // Of three the first is taken, and there is no arc for the second.
/// assert_eq!(membership(&c, 0, &[0, 0, 0])?.to_string(), "no 1");
/// # Ok::<(), swarmbanner::Refusal>(())
/// ```
pub fn membership(file: &[u8], control: usize, contents: &[u8]) -> Result<Membership, Refusal> {
    must_fit();
    let mut reply = [0; REPLY_LEAST];
    let kind = lent::member(file, control, contents, &mut reply);
    match kind {
        lent::YES => Ok(Membership { is_inside: true, followed: reply[0] }),
        lent::NO => Ok(Membership { is_inside: false, followed: reply[0] }),
        lent::REFUSED => Err(Refusal::told(&reply)),
        _ => unreachable!("membership with room for a reply answers no kind {kind}"),
    }
}

/// Says whether contents, one byte for each message and queue after queue, belong to the set of a control state. [`membership`] says
/// how far they are followed, too.
///
/// # Errors
///
/// Fails as [`membership`] does.
///
/// # Panics
///
/// Panics where the library has another layout than this crate ([`lent::LAYOUT`]).
///
/// ```
/// // Queue 0 has message 0, queue 1 has message 1; inside are any 0s, then any 1s.
/// let s = [1, 1, 0, 2, 1, 1, 1, 0, 0, 0, 1, 0, 1, 0, 2, 1, 2, 0, 0, 1, 1, 1, 1, 1, 1, 1, 0];
/// assert_eq!(swarmbanner::member(&s, 0, &[0, 1]), Ok(true));
/// assert_eq!(swarmbanner::member(&s, 0, &[1, 0]).unwrap_err().to_string(), "refused 13 at 1");
/// ```
pub fn member(file: &[u8], control: usize, contents: &[u8]) -> Result<bool, Refusal> {
    membership(file, control, contents).map(|membership| membership.is_inside)
}
