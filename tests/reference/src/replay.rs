//! Replaying a trace, from the texts of documents 01 and 02. A configuration is the machines' states and the messages
//! waiting in each queue; each number of the trace is asked of the configuration that the one before it left.

use std::fmt;

use crate::diagram::{accepts, far, root};
use crate::read::{read, Kind, Reader, Refusal, Tables, Transition, MACHINES, QUEUES};

pub const LONGEST_TRACE: usize = 16_384;
/// Messages that a queue may hold, and the bytes that it is kept in.
pub const QUEUE_ROOM: usize = 1_024;

/// The run's record, twelve numbers.
#[derive(Clone, Copy, Debug, Default, PartialEq, Eq)]
pub struct Record {
    pub states: [u8; MACHINES],
    pub heads: [usize; QUEUES],
    pub lengths: [usize; QUEUES],
}

impl Record {
    pub fn numbers(&self) -> impl Iterator<Item = usize> {
        self.states.into_iter().map(usize::from).chain(self.heads).chain(self.lengths)
    }
}

/// What the caller lends.
#[derive(Clone, Debug, PartialEq, Eq)]
pub struct Lent {
    pub record: Record,
    pub memory: Vec<u8>,
}

/// Why a replay ended, or what was turned away before it began.
#[derive(Clone, Copy, Debug, PartialEq, Eq)]
pub enum Reply {
    FileRefused(Refusal),
    TraceRefused(Refusal),
    MemoryRefused(Refusal),
    End {
        steps: usize,
    },
    /// How far the contents of all queues are followed there.
    Outside {
        steps: usize,
        far: usize,
    },
    StepRefused {
        refusal: Refusal,
        steps: usize,
    },
}

impl fmt::Display for Reply {
    fn fmt(&self, f: &mut fmt::Formatter) -> fmt::Result {
        match self {
            Reply::FileRefused(refusal) => write!(f, "file {refusal}"),
            Reply::TraceRefused(refusal) => write!(f, "trace {refusal}"),
            Reply::MemoryRefused(refusal) => write!(f, "memory {refusal}"),
            Reply::End { steps } => write!(f, "end {steps}"),
            Reply::Outside { steps, far } => write!(f, "outside {steps} {far}"),
            Reply::StepRefused { refusal, steps } => write!(f, "{refusal} after {steps}"),
        }
    }
}

/// The reply, and what was lent as it is then.
#[derive(Clone, Debug, PartialEq, Eq)]
pub struct Answer {
    pub reply: Reply,
    pub lent: Lent,
}

impl Answer {
    /// The answer with 0 for how far the contents outside are followed, to compare all else.
    pub fn without_far(&self) -> Answer {
        let mut without = self.clone();
        if let Reply::Outside { far, .. } = &mut without.reply {
            *far = 0;
        }
        without
    }
}

pub fn replay(file: &[u8], trace: &[u8], lent: &Lent) -> Answer {
    match admit(file, trace, lent.memory.len()) {
        Err(reply) => Answer { reply, lent: lent.clone() },
        Ok(tables) => {
            let (reply, last) = run(&tables, trace);
            Answer { reply, lent: Lent { record: last.record(), memory: last.memory(&lent.memory) } }
        }
    }
}

/// The file's refusals, then the trace's, then the memory's.
fn admit(file: &[u8], trace: &[u8], memory_length: usize) -> Result<Tables, Reply> {
    let tables = read(file).map_err(Reply::FileRefused)?;
    if trace.len() > LONGEST_TRACE {
        return Err(Reply::TraceRefused(Refusal { number: 1, place: LONGEST_TRACE }));
    }
    if memory_length < tables.queue_count * QUEUE_ROOM {
        return Err(Reply::MemoryRefused(Refusal { number: 2, place: 0 }));
    }
    Ok(tables)
}

/// The reply, and the last configuration.
fn run(tables: &Tables, trace: &[u8]) -> (Reply, Configuration) {
    let mut configuration = Configuration::start(tables);
    let mut reader = Reader { bytes: trace, place: 0 };
    let mut steps = 0;
    loop {
        if !configuration.is_inside(tables) {
            return (Reply::Outside { steps, far: configuration.far(tables) }, configuration);
        }
        if reader.place == trace.len() {
            return (Reply::End { steps }, configuration);
        }
        match configuration.after_next(tables, &mut reader) {
            Err(refusal) => return (Reply::StepRefused { refusal, steps }, configuration),
            Ok(next) => configuration = next,
        }
        steps += 1;
    }
}

/// The state of each machine, and the messages waiting in each queue, oldest first.
#[derive(Clone, Debug, PartialEq, Eq)]
pub struct Configuration {
    pub states: Vec<u8>,
    pub queues: Vec<Vec<u8>>,
}

impl Configuration {
    pub fn start(tables: &Tables) -> Self {
        Configuration {
            states: tables.starts[..tables.machine_count].to_vec(),
            queues: (0..tables.queue_count).map(|queue| tables.starting(queue).to_vec()).collect(),
        }
    }

    /// Its place among all tuples of machine states, machine 0 being most significant.
    pub fn control_state(&self, tables: &Tables) -> usize {
        let tuples_after = |machine: usize| -> usize {
            tables.states[machine + 1..tables.machine_count].iter().map(|&states| usize::from(states)).product()
        };
        self.states.iter().enumerate().map(|(machine, &state)| usize::from(state) * tuples_after(machine)).sum()
    }

    /// Whether the contents of all queues, written as one word, belong to the control state.
    pub fn is_inside(&self, tables: &Tables) -> bool {
        accepts(tables, root(tables, self.control_state(tables)), &self.queues.concat())
    }

    /// How far these contents are followed from the control state's root.
    pub fn far(&self, tables: &Tables) -> usize {
        far(tables, root(tables, self.control_state(tables)), &self.queues.concat())
    }

    /// Reads the next number, and takes its transition. The place is that of the number's first byte, but for 3.
    fn after_next(&self, tables: &Tables, reader: &mut Reader) -> Result<Self, Refusal> {
        let place = reader.place;
        let number = reader.number()?;
        let Some(transition) = tables.used_transitions().get(number) else {
            return Err(Refusal { number: 5, place });
        };
        self.after(transition).map_err(|number| Refusal { number, place })
    }

    /// The configuration after a transition, or the number that it is refused by.
    pub fn after(&self, transition: &Transition) -> Result<Self, u8> {
        let mut after = self.clone();
        let state = &mut after.states[usize::from(transition.machine)];
        if *state != transition.from {
            return Err(14);
        }
        *state = transition.to;
        if transition.kind == Kind::Local {
            return Ok(after);
        }
        let queue = &mut after.queues[usize::from(transition.queue)];
        if transition.kind == Kind::Send {
            queue.extend(transition.word());
        } else {
            // The old contents are the word followed by the new ones.
            let Some(rest) = queue.strip_prefix(transition.word()) else { return Err(14) };
            *queue = rest.to_vec();
        }
        if queue.len() > QUEUE_ROOM {
            return Err(15);
        }
        Ok(after)
    }

    fn record(&self) -> Record {
        let mut record = Record::default();
        record.states[..self.states.len()].copy_from_slice(&self.states);
        for (length, queue) in record.lengths.iter_mut().zip(&self.queues) {
            *length = queue.len();
        }
        record
    }

    /// The memory that was lent, with each queue's messages and then 0 in its own bytes.
    fn memory(&self, lent: &[u8]) -> Vec<u8> {
        let mut memory = lent.to_vec();
        for (room, queue) in memory.chunks_mut(QUEUE_ROOM).zip(&self.queues) {
            room.fill(0);
            room[..queue.len()].copy_from_slice(queue);
        }
        memory
    }
}
