use crate::fits::must_fit;
use crate::lent::{self, CONTENTS_LEAST, REPLY_LEAST, TABLE_LEAST};
use crate::{Refusal, Reply};

/// Checks files, one after the other, in memory of its own: two tables of 64 KB each and a buffer of 32 KB.
///
/// A call allocates nothing but the contents shown.
///
/// ```
/// let mut checker = swarmbanner::Checker::new();
/// // Only empty queues are inside, so the first send leads out.
/// let b = [2, 1, 1, 0, 0, 1, 1, 2, 0, 0, 0, 1, 0, 1, 0, 1, 0, 0, 2, 0, 1, 0, 1, 1, 0, 1, 0];
/// assert_eq!(checker.check(&b).to_string(), "leaves 0 0 0 0:");
/// assert_eq!(checker.check(&[]).to_string(), "refused 3 at 0");
/// ```
#[derive(Clone)]
pub struct Checker {
    seen: Box<[u16]>,
    queue: Box<[u16]>,
    contents: Box<[u8]>,
}

impl Checker {
    /// Allocates the memory of a check.
    ///
    /// # Panics
    ///
    /// Panics where the library has another layout than this crate ([`lent::LAYOUT`]).
    pub fn new() -> Self {
        must_fit();
        Checker {
            seen: vec![0; TABLE_LEAST].into(),
            queue: vec![0; TABLE_LEAST].into(),
            contents: vec![0; CONTENTS_LEAST].into(),
        }
    }

    /// Checks a file.
    pub fn check(&mut self, file: &[u8]) -> Reply {
        let mut reply = [0; REPLY_LEAST];
        let kind = lent::check(file, &mut self.seen, &mut self.queue, &mut self.contents, &mut reply);
        match kind {
            lent::CLOSED => Reply::Closed { pairs: reply[0] },
            lent::OUTSIDE => Reply::Outside,
            lent::LEAVES => Reply::Leaves {
                control: reply[0],
                transition: reply[1],
                contents: self.contents[..reply[2]].to_vec(),
                followed: reply[3],
            },
            lent::BAD => Reply::Bad { entry: reply[0], contents: self.contents[..reply[1]].to_vec() },
            lent::REFUSED => Reply::Refused(Refusal::told(&reply)),
            _ => unreachable!("checking with room for a reply answers no kind {kind}"),
        }
    }
}

impl Default for Checker {
    fn default() -> Self {
        Checker::new()
    }
}

impl std::fmt::Debug for Checker {
    fn fmt(&self, f: &mut std::fmt::Formatter<'_>) -> std::fmt::Result {
        f.debug_struct("Checker").finish_non_exhaustive()
    }
}

/// Checks a file, with memory that is given back afterwards. For many files, keep a [`Checker`].
///
/// # Panics
///
/// Panics where the library has another layout than this crate ([`lent::LAYOUT`]).
///
/// ```
/// let r = [2, 1, 1, 0, 0, 1, 1, 2, 0, 0, 0, 1, 0, 1, 0, 1, 0, 0, 2, 0, 1, 0, 1, 1, 1, 0, 0, 1, 0];
/// assert!(swarmbanner::check(&r).is_closed());
/// ```
pub fn check(file: &[u8]) -> Reply {
    Checker::new().check(file)
}
