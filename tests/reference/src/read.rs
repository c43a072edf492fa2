//! Reading a session file: bytes become tables, or a refusal with a number and a place.
//!
//! The functions stand in the order of the document's fields 1 to 6, so the two can be read side by side; what waits at the start
//! (document 02, request 8) stands between fields 2 and 3.

use std::fmt;

use crate::order::in_queue_order;

pub const LONGEST_FILE: usize = 16_384;

pub const MACHINES: usize = 4;
pub const MACHINE_STATES: usize = 16;
pub const CONTROL_STATES: usize = 256;
pub const QUEUES: usize = 4;
pub const MESSAGES: usize = 32;
/// Messages that a queue can start with.
pub const STARTING: usize = 8;
pub const TRANSITIONS: usize = 128;
pub const WORD_LENGTH: usize = 16;
pub const POOL_STATES: usize = 127;
pub const BAD_ENTRIES: usize = 64;

/// Why a file or a question is turned away: the table's number and the place it returns.
#[derive(Clone, Copy, Debug, PartialEq, Eq)]
pub struct Refusal {
    pub number: u8,
    pub place: usize,
}

impl fmt::Display for Refusal {
    fn fmt(&self, f: &mut fmt::Formatter) -> fmt::Result {
        write!(f, "refused {} at {}", self.number, self.place)
    }
}

pub(crate) const fn refuse<T>(number: u8, place: usize) -> Result<T, Refusal> {
    Err(Refusal { number, place })
}

#[derive(Clone, Copy, Debug, Default, PartialEq, Eq)]
pub enum Kind {
    #[default]
    Local,
    Send,
    Receive,
}

/// A local transition keeps queue, length and word at 0.
#[derive(Clone, Copy, Debug, Default, PartialEq, Eq)]
pub struct Transition {
    pub machine: u8,
    pub from: u8,
    pub to: u8,
    pub kind: Kind,
    pub queue: u8,
    pub length: u8,
    pub messages: [u8; WORD_LENGTH],
}

impl Transition {
    pub fn word(&self) -> &[u8] {
        &self.messages[..usize::from(self.length)]
    }
}

#[derive(Clone, Copy, Debug, Default, PartialEq, Eq)]
pub struct BadEntry {
    pub control_state: u8,
    pub root: u8,
}

/// What a file says. Entries beyond the counts are 0.
#[derive(Clone, Debug, PartialEq, Eq)]
pub struct Tables {
    pub machine_count: usize,
    pub states: [u8; MACHINES],
    pub starts: [u8; MACHINES],
    /// K, the product of the states.
    pub control_state_count: usize,
    pub queue_count: usize,
    pub messages: [u8; QUEUES],
    pub message_sum: usize,
    /// How many messages wait in each queue at the start, and these: those of a queue from `queue * 8` on.
    pub starting_lengths: [u8; QUEUES],
    pub starting_messages: [u8; QUEUES * STARTING],
    pub transition_count: usize,
    pub transitions: [Transition; TRANSITIONS],
    pub pool_state_count: usize,
    pub finals: [bool; POOL_STATES],
    /// At `state * 32 + message`: 0 for no arc, else 1 plus the target.
    pub arcs: [u8; POOL_STATES * MESSAGES],
    /// At a control state: 0 for no root, else 1 plus the root.
    pub roots: [u8; CONTROL_STATES],
    pub bad_count: usize,
    pub bad: [BadEntry; BAD_ENTRIES],
}

impl Tables {
    /// All entries 0, as after a refusal.
    pub fn empty() -> Self {
        Tables {
            machine_count: 0,
            states: [0; MACHINES],
            starts: [0; MACHINES],
            control_state_count: 0,
            queue_count: 0,
            messages: [0; QUEUES],
            message_sum: 0,
            starting_lengths: [0; QUEUES],
            starting_messages: [0; QUEUES * STARTING],
            transition_count: 0,
            transitions: [Transition::default(); TRANSITIONS],
            pool_state_count: 0,
            finals: [false; POOL_STATES],
            arcs: [0; POOL_STATES * MESSAGES],
            roots: [0; CONTROL_STATES],
            bad_count: 0,
            bad: [BadEntry::default(); BAD_ENTRIES],
        }
    }

    /// The lowest message of a queue; for the queue past the last one, the sum.
    pub fn first_message(&self, queue: usize) -> usize {
        self.messages[..queue].iter().map(|&m| usize::from(m)).sum()
    }

    /// The queue that a message (below the sum) belongs to.
    pub fn queue_of(&self, message: u8) -> usize {
        (0..self.queue_count)
            .find(|&queue| usize::from(message) < self.first_message(queue + 1))
            .expect("a message below the sum is in some queue")
    }

    /// What waits in a queue at the start, oldest first.
    pub fn starting(&self, queue: usize) -> &[u8] {
        &self.starting_messages[queue * STARTING..][..usize::from(self.starting_lengths[queue])]
    }

    /// Whether something waits at the start.
    pub fn resumes(&self) -> bool {
        self.starting_lengths.iter().any(|&length| length > 0)
    }

    pub fn used_transitions(&self) -> &[Transition] {
        &self.transitions[..self.transition_count]
    }

    pub fn used_bad_entries(&self) -> &[BadEntry] {
        &self.bad[..self.bad_count]
    }
}

/// The bytes and how far they are read.
pub(crate) struct Reader<'a> {
    pub(crate) bytes: &'a [u8],
    pub(crate) place: usize,
}

impl Reader<'_> {
    /// One number in groups of seven bits: refusals 3 and 4.
    #[inline]
    pub(crate) fn number(&mut self) -> Result<usize, Refusal> {
        let Some(&first) = self.bytes.get(self.place) else {
            return refuse(3, self.bytes.len());
        };
        if first < 128 {
            self.place += 1;
            return Ok(usize::from(first));
        }
        let Some(&second) = self.bytes.get(self.place + 1) else {
            return refuse(3, self.bytes.len());
        };
        if second == 0 || second >= 128 {
            return refuse(4, self.place);
        }
        self.place += 2;
        Ok(usize::from(first - 128) + 128 * usize::from(second))
    }

    /// A number of a field with a range, both ends included: refusals 3, 4, 5.
    #[inline]
    fn between(&mut self, least: usize, most: usize) -> Result<usize, Refusal> {
        let place = self.place;
        let value = self.number()?;
        if value < least || value > most {
            return refuse(5, place);
        }
        Ok(value)
    }

    /// An index, which counts from 0 and lies below the count of its kind.
    #[inline]
    fn below(&mut self, count: usize) -> Result<u8, Refusal> {
        let index = self.between(0, count - 1)?;
        Ok(small(index))
    }
}

/// Every number kept in a table is below 256 once its range has been tested.
fn small(value: usize) -> u8 {
    u8::try_from(value).expect("ranges of table entries end below 256")
}

pub fn read(bytes: &[u8]) -> Result<Tables, Refusal> {
    read_asking(bytes, in_queue_order)
}

/// Reads with this test of queue order in row 9: `tests/bench` times another form of it.
pub fn read_asking(bytes: &[u8], is_in_queue_order: impl Fn(&Tables) -> bool) -> Result<Tables, Refusal> {
    if bytes.len() > LONGEST_FILE {
        return refuse(1, LONGEST_FILE);
    }
    let mut reader = Reader { bytes, place: 0 };
    let mut tables = Tables::empty();
    read_up_to_pool(&mut reader, &mut tables)?;
    read_roots(&mut reader, &mut tables)?;
    read_bad_entries(&mut reader, &mut tables)?;
    if !is_in_queue_order(&tables) {
        return refuse(9, reader.place);
    }
    if reader.place < bytes.len() {
        return refuse(10, reader.place);
    }
    Ok(tables)
}

/// Fields 1 to 4.
pub(crate) fn read_up_to_pool(reader: &mut Reader, tables: &mut Tables) -> Result<(), Refusal> {
    let resumes = read_machines(reader, tables)?;
    read_queues(reader, tables)?;
    if resumes {
        read_starting(reader, tables)?;
    }
    read_transitions(reader, tables)?;
    read_pool(reader, tables)
}

/// Field 1, and whether the file resumes: a first number of 5 to 8 is that many machines less 4. The product is tested at each
/// number of states, before any starting state is read.
fn read_machines(reader: &mut Reader, tables: &mut Tables) -> Result<bool, Refusal> {
    let first = reader.between(1, MACHINES + MACHINES)?;
    let resumes = first > MACHINES;
    tables.machine_count = if resumes { first - MACHINES } else { first };
    tables.control_state_count = 1;
    for machine in 0..tables.machine_count {
        let place = reader.place;
        let states = reader.between(1, MACHINE_STATES)?;
        tables.control_state_count *= states;
        if tables.control_state_count > CONTROL_STATES {
            return refuse(6, place);
        }
        tables.states[machine] = small(states);
    }
    for machine in 0..tables.machine_count {
        tables.starts[machine] = reader.below(usize::from(tables.states[machine]))?;
    }
    Ok(resumes)
}

/// Field 2.
fn read_queues(reader: &mut Reader, tables: &mut Tables) -> Result<(), Refusal> {
    tables.queue_count = reader.between(1, QUEUES)?;
    for queue in 0..tables.queue_count {
        let place = reader.place;
        let messages = reader.between(1, MESSAGES)?;
        tables.message_sum += messages;
        if tables.message_sum > MESSAGES {
            return refuse(6, place);
        }
        tables.messages[queue] = small(messages);
    }
    Ok(())
}

/// What waits at the start, queue by queue, a length and so many messages. Once all are read, something does.
fn read_starting(reader: &mut Reader, tables: &mut Tables) -> Result<(), Refusal> {
    for queue in 0..tables.queue_count {
        let length = reader.between(0, STARTING)?;
        let mut messages = [0; STARTING];
        read_word(reader, tables, queue, &mut messages[..length])?;
        tables.starting_lengths[queue] = small(length);
        tables.starting_messages[queue * STARTING..][..STARTING].copy_from_slice(&messages);
    }
    if tables.resumes() {
        Ok(())
    } else {
        refuse(23, 0)
    }
}

/// The messages of a word, all of one queue.
#[inline]
fn read_word(reader: &mut Reader, tables: &Tables, queue: usize, word: &mut [u8]) -> Result<(), Refusal> {
    let of_the_queue = tables.first_message(queue)..tables.first_message(queue + 1);
    for entry in word {
        let place = reader.place;
        let message = reader.below(tables.message_sum)?;
        if !of_the_queue.contains(&usize::from(message)) {
            return refuse(7, place);
        }
        *entry = message;
    }
    Ok(())
}

/// Field 3.
fn read_transitions(reader: &mut Reader, tables: &mut Tables) -> Result<(), Refusal> {
    tables.transition_count = reader.between(0, TRANSITIONS)?;
    for number in 0..tables.transition_count {
        tables.transitions[number] = read_transition(reader, tables)?;
    }
    Ok(())
}

fn read_transition(reader: &mut Reader, tables: &Tables) -> Result<Transition, Refusal> {
    let machine = reader.below(tables.machine_count)?;
    let states = usize::from(tables.states[usize::from(machine)]);
    let mut transition =
        Transition { machine, from: reader.below(states)?, to: reader.below(states)?, ..Transition::default() };
    transition.kind = match reader.between(0, 2)? {
        0 => return Ok(transition),
        1 => Kind::Send,
        _ => Kind::Receive,
    };
    transition.queue = reader.below(tables.queue_count)?;
    transition.length = small(reader.between(0, WORD_LENGTH)?);
    let (queue, length) = (usize::from(transition.queue), usize::from(transition.length));
    read_word(reader, tables, queue, &mut transition.messages[..length])?;
    Ok(transition)
}

/// Field 4. A message that does not ascend is refused before its target is read.
fn read_pool(reader: &mut Reader, tables: &mut Tables) -> Result<(), Refusal> {
    tables.pool_state_count = reader.between(1, POOL_STATES)?;
    for state in 0..tables.pool_state_count {
        tables.finals[state] = reader.between(0, 1)? == 1;
        let arcs = reader.between(0, tables.message_sum)?;
        let mut least = 0;
        for _ in 0..arcs {
            let place = reader.place;
            let message = usize::from(reader.below(tables.message_sum)?);
            if message < least {
                return refuse(8, place);
            }
            least = message + 1;
            let target = reader.below(tables.pool_state_count)?;
            tables.arcs[state * MESSAGES + message] = 1 + target;
        }
    }
    Ok(())
}

/// Field 5. The number read is kept: 0 for no root, or 1 plus the root.
pub(crate) fn read_roots(reader: &mut Reader, tables: &mut Tables) -> Result<(), Refusal> {
    for control_state in 0..tables.control_state_count {
        tables.roots[control_state] = small(reader.between(0, tables.pool_state_count)?);
    }
    Ok(())
}

/// Field 6. Here the root stands as it is.
pub(crate) fn read_bad_entries(reader: &mut Reader, tables: &mut Tables) -> Result<(), Refusal> {
    tables.bad_count = reader.between(0, BAD_ENTRIES)?;
    for entry in 0..tables.bad_count {
        tables.bad[entry] = BadEntry {
            control_state: reader.below(tables.control_state_count)?,
            root: reader.below(tables.pool_state_count)?,
        };
    }
    Ok(())
}
