use std::fmt;

use crate::fits::must_fit;
use crate::lent::{self, at, MACHINES_MOST, QUEUES_MOST, QUEUE_LEAST, RECORD_LEAST, REPLY_LEAST, SPACE_LEAST};
use crate::Refusal;

/// How a replay ended. Its `Display` is the first line that `bin/swarmbanner-replay` prints.
#[derive(Clone, Copy, Debug, PartialEq, Eq, Hash)]
pub enum Replayed {
    /// At the end of the trace.
    End {
        /// How many steps were taken.
        steps: usize,
    },
    /// At the first configuration outside the map. After 0 steps it is the start.
    Outside {
        /// How many steps were taken.
        steps: usize,
        /// How far the set of the last control state follows what waits, queue after queue: how many messages it takes before it
        /// has no arc for the next one; all of them where it ends in a state that is not final, 0 where it has no root.
        followed: usize,
    },
    /// At a step that is turned away, by 3, 4, 5, 14 or 15 and with a place in the trace.
    Refused {
        /// Why and where.
        refusal: Refusal,
        /// How many steps were taken before it.
        steps: usize,
    },
    /// The file is turned away, and nothing was replayed.
    FileRefused(Refusal),
    /// The trace is too long, and nothing was replayed.
    TraceRefused(Refusal),
    /// The memory is too short for the queues of the file, and nothing was replayed.
    MemoryRefused(Refusal),
}

impl Replayed {
    /// From a kind and the numbers that go with it.
    fn told(kind: usize, reply: &[usize; REPLY_LEAST]) -> Self {
        match kind {
            lent::END => Replayed::End { steps: reply[0] },
            lent::LEFT => Replayed::Outside { steps: reply[0], followed: reply[1] },
            lent::STEP_REFUSED => Replayed::Refused { refusal: Refusal::told(reply), steps: reply[2] },
            lent::REFUSED => Replayed::FileRefused(Refusal::told(reply)),
            lent::TRACE_REFUSED => Replayed::TraceRefused(Refusal::told(reply)),
            lent::MEMORY_REFUSED => Replayed::MemoryRefused(Refusal::told(reply)),
            _ => unreachable!("replaying with room for record and reply answers no kind {kind}"),
        }
    }

    /// How many steps were taken; none where nothing was replayed, so that record and memory are as they were.
    pub fn steps(&self) -> Option<usize> {
        match self {
            Replayed::End { steps } | Replayed::Outside { steps, .. } | Replayed::Refused { steps, .. } => Some(*steps),
            _ => None,
        }
    }

    /// Why it ended, in words.
    pub fn explain(&self) -> String {
        match self {
            Replayed::End { .. } => "the trace is at its end, and every configuration is inside the map".to_string(),
            Replayed::Outside { followed, .. } => {
                let messages = if *followed == 1 { "message" } else { "messages" };
                format!(
                    "the last configuration is outside the map; its set follows {followed} {messages} of what waits"
                )
            }
            Replayed::Refused { refusal, .. } => {
                let cause = match refusal.number {
                    3 => "the bytes end inside a number",
                    5 => "a number is no transition of the file",
                    _ => refusal.cause(),
                };
                format!("{cause} (at byte {} of the trace)", refusal.place)
            }
            Replayed::FileRefused(refusal) => refusal.explain(),
            Replayed::TraceRefused(_) => "the trace has more than 16,384 bytes".to_string(),
            Replayed::MemoryRefused(_) => "the queues of the file want 1,024 bytes of memory each".to_string(),
        }
    }
}

impl fmt::Display for Replayed {
    fn fmt(&self, f: &mut fmt::Formatter<'_>) -> fmt::Result {
        match self {
            Replayed::End { steps } => write!(f, "end {steps}"),
            Replayed::Outside { steps, followed } => write!(f, "outside {steps} {followed}"),
            Replayed::Refused { refusal, steps } => write!(f, "{refusal} after {steps}"),
            Replayed::FileRefused(refusal) => write!(f, "file {refusal}"),
            Replayed::TraceRefused(refusal) => write!(f, "trace {refusal}"),
            Replayed::MemoryRefused(refusal) => write!(f, "memory {refusal}"),
        }
    }
}

/// What a replay says of a run beside the messages: those are in the memory that is lent with it. All is 0 beyond the
/// machines and queues of the file.
#[derive(Clone, Copy, Debug, Default, PartialEq, Eq, Hash)]
pub struct Record {
    /// The state of each machine.
    pub states: [usize; MACHINES_MOST],
    /// Where in its bytes each queue begins, which is 0 when a replay has ended.
    pub heads: [usize; QUEUES_MOST],
    /// How many messages wait in each queue.
    pub lengths: [usize; QUEUES_MOST],
}

impl Record {
    fn numbers(&self) -> [usize; RECORD_LEAST] {
        let mut numbers = [0; RECORD_LEAST];
        numbers[lent::RECORD_STATES..][..MACHINES_MOST].copy_from_slice(&self.states);
        numbers[lent::RECORD_HEADS..][..QUEUES_MOST].copy_from_slice(&self.heads);
        numbers[lent::RECORD_LENGTHS..][..QUEUES_MOST].copy_from_slice(&self.lengths);
        numbers
    }

    fn of(numbers: &[usize; RECORD_LEAST]) -> Self {
        Record {
            states: std::array::from_fn(|machine| numbers[lent::RECORD_STATES + machine]),
            heads: std::array::from_fn(|queue| numbers[lent::RECORD_HEADS + queue]),
            lengths: std::array::from_fn(|queue| numbers[lent::RECORD_LENGTHS + queue]),
        }
    }
}

/// Replays a trace in lent memory, of which each queue of the file needs [`QUEUE_LEAST`] bytes, and in a lent record. What
/// the two hold before does not matter.
///
/// Where something was replayed, the record has the last configuration, and queue q its messages, oldest first, and then 0 in
/// its bytes from [`QUEUE_LEAST`] times q on; memory after the last queue of the file is as it was. Else record and memory are.
///
/// # Panics
///
/// Panics where the library has another layout than this crate ([`lent::LAYOUT`]).
///
/// ```
/// use swarmbanner::{lent, replay, Record, Replayed};
///
/// // Transition 0 sends message 0, transition 1 receives it.
/// let r = [2, 1, 1, 0, 0, 1, 1, 2, 0, 0, 0, 1, 0, 1, 0, 1, 0, 0, 2, 0, 1, 0, 1, 1, 1, 0, 0, 1, 0];
/// let (mut memory, mut record) = ([9; lent::QUEUE_LEAST], Record::default());
/// assert_eq!(replay(&r, &[0, 0, 1], &mut memory, &mut record), Replayed::End { steps: 3 });
/// assert_eq!((record.lengths[0], &memory[..3]), (1, &[0, 0, 0][..]));
/// assert_eq!(replay(&r, &[1], &mut memory, &mut record).to_string(), "refused 14 at 0 after 0");
/// ```
pub fn replay(file: &[u8], trace: &[u8], memory: &mut [u8], record: &mut Record) -> Replayed {
    must_fit();
    let (mut numbers, mut reply) = (record.numbers(), [0; REPLY_LEAST]);
    let kind = lent::replay(file, trace, memory, &mut numbers, &mut reply);
    *record = Record::of(&numbers);
    Replayed::told(kind, &reply)
}

/// Where a replay is when it ends. Its `Display` has the further lines of `bin/swarmbanner-replay`: the states, and each
/// queue with its number, its length and its messages.
#[derive(Clone, Debug, PartialEq, Eq, Hash)]
pub struct Configuration<'r> {
    /// The state of each machine of the file.
    pub states: &'r [usize],
    /// What waits in each queue of the file, oldest first.
    pub queues: Vec<&'r [u8]>,
}

impl Configuration<'_> {
    /// The contents as one word, queue after queue, as [`member`](crate::member) takes them.
    pub fn contents(&self) -> Vec<u8> {
        self.queues.concat()
    }
}

impl fmt::Display for Configuration<'_> {
    fn fmt(&self, f: &mut fmt::Formatter<'_>) -> fmt::Result {
        write!(f, "states:")?;
        self.states.iter().try_for_each(|state| write!(f, " {state}"))?;
        self.queues.iter().zip(0..).try_for_each(|(messages, queue)| {
            write!(f, "\nqueue {queue} {}:", messages.len())?;
            messages.iter().try_for_each(|message| write!(f, " {message}"))
        })
    }
}

/// Replays traces, one after the other, in memory of its own: four queues of 1,024 bytes.
///
/// ```
/// let r = [2, 1, 1, 0, 0, 1, 1, 2, 0, 0, 0, 1, 0, 1, 0, 1, 0, 0, 2, 0, 1, 0, 1, 1, 1, 0, 0, 1, 0];
/// let mut replayer = swarmbanner::Replayer::new();
/// assert_eq!(replayer.replay(&r, &[0, 0]).to_string(), "end 2");
/// let last = replayer.last().expect("something was replayed");
/// assert_eq!((last.states, &last.queues[..]), (&[0, 0][..], &[&[0, 0][..]][..]));
/// assert_eq!(last.to_string(), "states: 0 0\nqueue 0 2: 0 0");
/// assert_eq!(swarmbanner::member(&r, 0, &last.contents()), Ok(true));
/// ```
#[derive(Clone)]
pub struct Replayer {
    memory: Box<[u8]>,
    record: Record,
    /// Machines and queues of the file that was replayed last; none where nothing was.
    counts: Option<(usize, usize)>,
}

impl Replayer {
    /// Allocates the memory of a replay.
    ///
    /// # Panics
    ///
    /// Panics where the library has another layout than this crate ([`lent::LAYOUT`]).
    pub fn new() -> Self {
        must_fit();
        Replayer { memory: vec![0; QUEUES_MOST * QUEUE_LEAST].into(), record: Record::default(), counts: None }
    }

    /// Replays a trace. The memory suffices for every file, so it is not refused.
    pub fn replay(&mut self, file: &[u8], trace: &[u8]) -> Replayed {
        let replayed = replay(file, trace, &mut self.memory, &mut self.record);
        self.counts = replayed.steps().map(|_| counts_of(file));
        replayed
    }

    /// The configuration that the last replay ended at; none where nothing was replayed.
    pub fn last(&self) -> Option<Configuration<'_>> {
        let (machines, queues) = self.counts?;
        let queues = self.memory.chunks(QUEUE_LEAST).zip(self.record.lengths).take(queues);
        Some(Configuration {
            states: &self.record.states[..machines],
            queues: queues.map(|(bytes, length)| &bytes[..length]).collect(),
        })
    }
}

/// The numbers of machines and queues of a file that is read.
fn counts_of(file: &[u8]) -> (usize, usize) {
    let (mut space, mut reply) = ([0; SPACE_LEAST], [0; REPLY_LEAST]);
    match lent::read(file, &mut space, &mut reply) {
        lent::READ => (space[at::COUNTS].into(), space[at::COUNTS + 1].into()),
        kind => unreachable!("reading a file that was replayed answers no kind {kind}"),
    }
}

impl Default for Replayer {
    fn default() -> Self {
        Replayer::new()
    }
}

impl fmt::Debug for Replayer {
    fn fmt(&self, f: &mut fmt::Formatter<'_>) -> fmt::Result {
        f.debug_struct("Replayer").field("last", &self.last()).finish_non_exhaustive()
    }
}
