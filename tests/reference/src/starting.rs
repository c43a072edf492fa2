//! What waits in the queues at the start (request 8), and the mistakes that are made about it once it is read: by the start item, a
//! replay, the tables that are kept, and membership. Mistakes about how it stands in a file are in `form_traps`.

use crate::diagram::{accepts, far, root};
use crate::membership::Member;
use crate::read::{Tables, QUEUES, STARTING};

/// What is taken for the messages that wait at the start.
#[derive(Clone, Copy, Debug, PartialEq, Eq, PartialOrd, Ord)]
pub enum Mistaken {
    /// Nothing waits.
    Empty,
    /// What waits in each queue is taken from its end.
    Backwards,
    /// What waits in the first queue is taken for the last one's, and so on.
    QueuesExchanged,
    FirstQueueAlone,
    LastQueueAlone,
    /// The first message of each queue is missing.
    FirstLeftOut,
    /// The last message of each queue is missing.
    LastLeftOut,
    /// Every queue has eight messages, whatever its length says.
    WholeRooms,
}

impl Mistaken {
    pub const ALL: [Mistaken; 8] = [
        Mistaken::Empty,
        Mistaken::Backwards,
        Mistaken::QueuesExchanged,
        Mistaken::FirstQueueAlone,
        Mistaken::LastQueueAlone,
        Mistaken::FirstLeftOut,
        Mistaken::LastLeftOut,
        Mistaken::WholeRooms,
    ];
}

/// What waits in each queue at the start, with a mistake or without one.
pub fn starting_with(tables: &Tables, mistaken: Option<Mistaken>) -> Vec<Vec<u8>> {
    let room = |queue: usize| &tables.starting_messages[queue * STARTING..][..STARTING];
    let length = |queue: usize| match mistaken {
        Some(Mistaken::Empty) => 0,
        Some(Mistaken::FirstQueueAlone) if queue > 0 => 0,
        Some(Mistaken::LastQueueAlone) if queue + 1 < tables.queue_count => 0,
        Some(Mistaken::LastLeftOut) => usize::from(tables.starting_lengths[queue]).saturating_sub(1),
        Some(Mistaken::WholeRooms) => STARTING,
        _ => usize::from(tables.starting_lengths[queue]),
    };
    let mut queues: Vec<Vec<u8>> = (0..tables.queue_count).map(|queue| room(queue)[..length(queue)].to_vec()).collect();
    match mistaken {
        Some(Mistaken::Backwards) => queues.iter_mut().for_each(|queue| queue.reverse()),
        Some(Mistaken::QueuesExchanged) => queues.reverse(),
        Some(Mistaken::FirstLeftOut) => queues.iter_mut().for_each(|queue| drop(queue.drain(..queue.len().min(1)))),
        _ => {}
    }
    queues
}

/// The tables with other messages at the start, as many of each queue as there is room for.
pub fn keep_starting(tables: &mut Tables, queues: &[Vec<u8>]) {
    tables.starting_lengths = [0; QUEUES];
    tables.starting_messages = [0; QUEUES * STARTING];
    for (queue, messages) in queues.iter().enumerate().take(QUEUES) {
        let kept = &messages[..messages.len().min(STARTING)];
        tables.starting_lengths[queue] = kept.len() as u8;
        tables.starting_messages[queue * STARTING..][..kept.len()].copy_from_slice(kept);
    }
}

/// Mistakes of membership, which asks of no start.
#[derive(Clone, Copy, Debug, PartialEq, Eq, PartialOrd, Ord)]
pub enum MemberTrap {
    /// Contents are followed from behind what waits at the start.
    BehindTheStart,
    /// Asked of no contents, it takes what waits at the start.
    EmptyIsTheStart,
    /// What is asked goes before what waits at the start.
    BeforeTheStart,
}

impl MemberTrap {
    pub const ALL: [MemberTrap; 3] =
        [MemberTrap::BehindTheStart, MemberTrap::EmptyIsTheStart, MemberTrap::BeforeTheStart];
}

/// The answer to a question that is not refused, with a mistake or without one.
pub fn member_with(tables: &Tables, control_state: usize, contents: &[u8], trap: Option<MemberTrap>) -> Member {
    let starting = starting_with(tables, None).concat();
    let asked = match trap {
        Some(MemberTrap::BehindTheStart) => [&starting, contents].concat(),
        Some(MemberTrap::EmptyIsTheStart) if contents.is_empty() => starting,
        Some(MemberTrap::BeforeTheStart) => [contents, &starting].concat(),
        _ => contents.to_vec(),
    };
    let root = root(tables, control_state);
    Member { belongs: accepts(tables, root, &asked), far: far(tables, root, &asked) }
}
