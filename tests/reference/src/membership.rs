//! Whether given contents lie in the set of a control state, and how far they are followed.

use crate::diagram::{accepts, far, root};
use crate::read::{read, Refusal, Tables};

#[derive(Clone, Copy, Debug, PartialEq, Eq)]
pub struct Member {
    pub belongs: bool,
    pub far: usize,
}

pub fn membership(file: &[u8], control_state: usize, contents: &[u8]) -> Result<Member, Refusal> {
    member_of(&read(file)?, control_state, contents)
}

/// The same for a file that was read.
pub fn member_of(tables: &Tables, control_state: usize, contents: &[u8]) -> Result<Member, Refusal> {
    if control_state >= tables.control_state_count {
        return Err(Refusal { number: 11, place: 0 });
    }
    refuse_contents(tables, contents)?;
    let root = root(tables, control_state);
    Ok(Member { belongs: accepts(tables, root, contents), far: far(tables, root, contents) })
}

/// 12 before 13 at each message, whether or not the diagram still has somewhere to go.
fn refuse_contents(tables: &Tables, contents: &[u8]) -> Result<(), Refusal> {
    let mut queue_before = 0;
    for (place, &message) in contents.iter().enumerate() {
        if usize::from(message) >= tables.message_sum {
            return Err(Refusal { number: 12, place });
        }
        let queue = tables.queue_of(message);
        if queue < queue_before {
            return Err(Refusal { number: 13, place });
        }
        queue_before = queue;
    }
    Ok(())
}

pub fn membership_line(reply: &Result<Member, Refusal>) -> String {
    match reply {
        Ok(Member { belongs: true, far }) => format!("yes {far}"),
        Ok(Member { belongs: false, far }) => format!("no {far}"),
        Err(refusal) => refusal.to_string(),
    }
}
