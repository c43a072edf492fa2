//! Where the tables lie in the space of [`read`](super::read), one byte an entry. Each begins where the one before it ends,
//! and entries beyond the counts are 0.

use super::{
    CONTROL_STATES_MOST, MACHINES_MOST, MESSAGES_MOST, POOL_STATES_MOST, QUEUES_MOST, STARTING_MOST, TRANSITIONS_MOST,
    WORD_MOST,
};

/// Machines, queues, messages of all queues, transitions, pool states, bad entries.
pub const COUNTS: usize = 0;
/// The states of each machine.
pub const STATES: usize = COUNTS + 6;
/// The starting state of each machine.
pub const STARTS: usize = STATES + MACHINES_MOST;
/// The messages of each queue.
pub const MESSAGES: usize = STARTS + MACHINES_MOST;
/// How many messages each queue starts with.
pub const LENGTHS: usize = MESSAGES + QUEUES_MOST;
/// A row for each queue: the messages that it starts with, oldest first.
pub const CONTENTS: usize = LENGTHS + QUEUES_MOST;
/// A row for each transition: machine, from, to, kind (0 local, 1 send, 2 receive), queue, word length, the word's messages.
pub const TRANSITIONS: usize = CONTENTS + QUEUES_MOST * CONTENTS_ROW;
/// 1 for a final pool state.
pub const FINALS: usize = TRANSITIONS + TRANSITIONS_MOST * TRANSITION_ROW;
/// A row for each pool state, with an entry for each message: 0 for no arc, else 1 plus the target.
pub const ARCS: usize = FINALS + POOL_STATES_MOST;
/// For each control state 0 for no root, else 1 plus the root.
pub const ROOTS: usize = ARCS + POOL_STATES_MOST * ARC_ROW;
/// A row for each bad entry: control state, root (as it is, without the 1 added).
pub const BAD: usize = ROOTS + CONTROL_STATES_MOST;

/// Entries of what a queue starts with.
pub const CONTENTS_ROW: usize = STARTING_MOST;
/// Where in its row a transition's word begins.
pub const TRANSITION_WORD: usize = 6;
/// Entries of a transition.
pub const TRANSITION_ROW: usize = TRANSITION_WORD + WORD_MOST;
/// Entries of a pool state's arcs.
pub const ARC_ROW: usize = MESSAGES_MOST;
/// Entries of a bad entry.
pub const BAD_ROW: usize = 2;
