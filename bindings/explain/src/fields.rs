//! The fields of a session file with their places, by a plain walk over the bytes (docs/FORMAT.md has the table).
//!
//! The walk judges nothing: the library has said whether the file is read, or at which number it is refused. So every number
//! before that one is good, and the walk only has to know which one is next.

use swarmbanner::lent::{
    BAD_ENTRIES_MOST, MACHINES_MOST, MESSAGES_MOST, POOL_STATES_MOST, QUEUES_MOST, STARTING_MOST, TRANSITIONS_MOST,
    WORD_MOST,
};

use crate::order::Diagrams;

/// States that a machine can have.
pub(crate) const STATES_MOST: usize = 16;

/// What else than its range limits a number.
#[derive(Clone, Copy, Debug, PartialEq, Eq)]
pub enum Limit {
    /// Its range alone.
    Range,
    /// The product of the states before it, which may be 256 with it.
    Product(usize),
    /// The sum of the messages before it, which may be 32 with it.
    Sum(usize),
    /// The queue of its transition, which has messages from the first to before the second.
    Queue(usize, (usize, usize)),
    /// The queue that it waits in at the start, in the same way.
    Waiting(usize, (usize, usize)),
    /// The message of the arc before it.
    Above(usize),
}

/// The number that reading stood before when it ended.
#[derive(Clone, Debug, PartialEq, Eq)]
pub struct Stop {
    /// The field, 1 to 6.
    pub field: u8,
    /// What the number says.
    pub what: String,
    /// The byte it begins at.
    pub place: usize,
    /// The least and the most that it may be.
    pub range: (usize, usize),
    /// What limits it further.
    pub limit: Limit,
}

/// Where the parts of a file begin, and what a walk needs to know of them.
#[derive(Clone, Debug, Default, PartialEq, Eq)]
pub struct Fields {
    /// The places of the fields 1 to 6, as far as they were met.
    pub fields: Vec<usize>,
    /// The place of what each queue starts with, as far as there is any in the file; it is counted to field 2.
    pub starting: Vec<usize>,
    /// The place of each transition.
    pub transitions: Vec<usize>,
    /// The place of each diagram state.
    pub pool: Vec<usize>,
    /// The place of each bad entry.
    pub bad: Vec<usize>,
    /// The states of each machine.
    states: Vec<usize>,
    /// The queues, the pool and its roots. After the first message of each queue stands one after the last of all.
    pub(crate) diagrams: Diagrams,
}

impl Fields {
    /// Walks a file that is read.
    pub fn of(file: &[u8]) -> Self {
        Walk::over(file, None).0
    }

    /// Walks a file up to a number that is not accepted, or to its end. None where all numbers were met.
    pub fn up_to(file: &[u8], place: Option<usize>) -> (Self, Option<Stop>) {
        Walk::over(file, place)
    }

    /// The queue of a message.
    pub fn queue_of(&self, message: usize) -> usize {
        self.diagrams.queue_of(message)
    }
}

/// The number at a place, and the bytes that it takes: one, or two where the first announces another.
pub fn number_at(file: &[u8], place: usize) -> Option<(usize, usize)> {
    let &low = file.get(place)?;
    if low < 128 {
        return Some((low.into(), 1));
    }
    let &high = file.get(place + 1)?;
    Some((usize::from(low - 128) + 128 * usize::from(high), 2))
}

/// The machines of a file with this first number, which has 4 added where messages wait at the start.
pub(crate) fn machines_of(first: usize) -> usize {
    if first > MACHINES_MOST {
        first - MACHINES_MOST
    } else {
        first
    }
}

struct Walk<'f> {
    file: &'f [u8],
    at: usize,
    refused: Option<usize>,
    met: Fields,
}

type Step<T> = Result<T, Stop>;

impl Walk<'_> {
    fn over(file: &[u8], refused: Option<usize>) -> (Fields, Option<Stop>) {
        let mut walk = Walk { file, at: 0, refused, met: Fields::default() };
        let stop = walk.all().err();
        (walk.met, stop)
    }

    fn all(&mut self) -> Step<()> {
        let resumes = self.machines()?;
        self.queues()?;
        // where nothing waits it is refused by 23, and what follows was not looked at
        if resumes && !self.starting()? {
            return Ok(());
        }
        self.transitions()?;
        let states = self.pool()?;
        self.roots(states)?;
        self.bad(states)
    }

    fn begin(&mut self) {
        self.met.fields.push(self.at);
    }

    /// The field that was begun last.
    fn field(&self) -> u8 {
        u8::try_from(self.met.fields.len()).expect("there are six fields")
    }

    fn number(&mut self, what: String, range: (usize, usize)) -> Step<usize> {
        self.limited(what, range, Limit::Range)
    }

    fn limited(&mut self, what: String, range: (usize, usize), limit: Limit) -> Step<usize> {
        let found = number_at(self.file, self.at).filter(|_| self.refused != Some(self.at));
        let Some((number, bytes)) = found else {
            return Err(Stop { field: self.field(), what, place: self.at, range, limit });
        };
        self.at += bytes;
        Ok(number)
    }

    /// A number below a count.
    fn index(&mut self, what: String, count: usize) -> Step<usize> {
        self.number(what, (0, count.saturating_sub(1)))
    }

    /// Whether the file says what the queues start with.
    fn machines(&mut self) -> Step<bool> {
        self.begin();
        let what = format!("the number of machines, or {MACHINES_MOST} more where messages wait at the start");
        let first = self.number(what, (1, 2 * MACHINES_MOST))?;
        let (resumes, machines) = (first > MACHINES_MOST, machines_of(first));
        let mut product = 1;
        for machine in 0..machines {
            let what = format!("the number of states of machine {machine}");
            let states = self.limited(what, (1, STATES_MOST), Limit::Product(product))?;
            product *= states;
            self.met.states.push(states);
        }
        for machine in 0..machines {
            self.index(format!("the starting state of machine {machine}"), self.met.states[machine])?;
        }
        Ok(resumes)
    }

    fn queues(&mut self) -> Step<()> {
        self.begin();
        let queues = self.number("the number of queues".into(), (1, QUEUES_MOST))?;
        let mut sum = 0;
        self.met.diagrams.queues.push(sum);
        for queue in 0..queues {
            let what = format!("the number of messages of queue {queue}");
            sum += self.limited(what, (1, MESSAGES_MOST), Limit::Sum(sum))?;
            self.met.diagrams.queues.push(sum);
        }
        Ok(())
    }

    /// Whether some queue starts with a message.
    fn starting(&mut self) -> Step<bool> {
        let mut waits = false;
        for queue in 0..self.met.diagrams.queues.len() - 1 {
            self.met.starting.push(self.at);
            let length =
                self.number(format!("the number of messages that queue {queue} starts with"), (0, STARTING_MOST))?;
            let limit = Limit::Waiting(queue, self.messages_of(queue));
            for place in 1..=length {
                let what = format!("message {place} of {length} that queue {queue} starts with");
                self.limited(what, (0, self.messages() - 1), limit)?;
            }
            waits |= length > 0;
        }
        Ok(waits)
    }

    /// The first message of a queue, and the one after its last; of no queue, nothing.
    fn messages_of(&self, queue: usize) -> (usize, usize) {
        let firsts = &self.met.diagrams.queues;
        firsts.get(queue).copied().zip(firsts.get(queue + 1).copied()).unwrap_or_default()
    }

    fn messages(&self) -> usize {
        self.met.diagrams.queues.last().copied().unwrap_or(0)
    }

    fn transitions(&mut self) -> Step<()> {
        self.begin();
        for number in 0..self.number("the number of transitions".into(), (0, TRANSITIONS_MOST))? {
            self.met.transitions.push(self.at);
            self.transition(number)?;
        }
        Ok(())
    }

    fn transition(&mut self, number: usize) -> Step<()> {
        let machine = self.index(format!("the machine of transition {number}"), self.met.states.len())?;
        let states = self.met.states.get(machine).copied().unwrap_or(0);
        self.index(format!("the state that transition {number} leads from"), states)?;
        self.index(format!("the state that transition {number} leads to"), states)?;
        let kind = format!("the kind of transition {number} (0 local, 1 send, 2 receive)");
        if self.number(kind, (0, 2))? == 0 {
            return Ok(());
        }
        let queue = self.index(format!("the queue of transition {number}"), self.met.diagrams.queues.len() - 1)?;
        let limit = Limit::Queue(queue, self.messages_of(queue));
        let length = self.number(format!("the length of the word of transition {number}"), (0, WORD_MOST))?;
        for place in 1..=length {
            let what = format!("message {place} of {length} in the word of transition {number}");
            self.limited(what, (0, self.messages() - 1), limit)?;
        }
        Ok(())
    }

    /// How many diagram states there are.
    fn pool(&mut self) -> Step<usize> {
        self.begin();
        let states = self.number("the number of diagram states".into(), (1, POOL_STATES_MOST))?;
        for state in 0..states {
            self.met.pool.push(self.at);
            self.met.diagrams.arcs.push(vec![]);
            let is_final = self.number(format!("whether diagram state {state} is final (0 no, 1 yes)"), (0, 1))?;
            self.met.diagrams.finals.push(is_final > 0);
            let arcs = self.number(format!("the number of arcs of diagram state {state}"), (0, self.messages()))?;
            self.arcs(state, states, arcs)?;
        }
        Ok(states)
    }

    fn arcs(&mut self, state: usize, states: usize, arcs: usize) -> Step<()> {
        let mut limit = Limit::Range;
        for arc in 1..=arcs {
            let what = format!("the message of arc {arc} of {arcs} of diagram state {state}");
            let message = self.limited(what, (0, self.messages() - 1), limit)?;
            limit = Limit::Above(message);
            let target = self.index(format!("the target of arc {arc} of {arcs} of diagram state {state}"), states)?;
            self.met.diagrams.arcs[state].push((message, target));
        }
        Ok(())
    }

    fn roots(&mut self, states: usize) -> Step<()> {
        self.begin();
        for control in 0..self.controls() {
            let what = format!("the root of control state {control} (0 none, else 1 plus the diagram state)");
            let root = self.number(what, (0, states))?;
            self.met.diagrams.roots.push(root.checked_sub(1));
        }
        Ok(())
    }

    fn controls(&self) -> usize {
        self.met.states.iter().product()
    }

    fn bad(&mut self, states: usize) -> Step<()> {
        self.begin();
        for entry in 0..self.number("the number of bad entries".into(), (0, BAD_ENTRIES_MOST))? {
            self.met.bad.push(self.at);
            self.index(format!("the control state of bad entry {entry}"), self.controls())?;
            let root = self.index(format!("the root of bad entry {entry} (the diagram state itself)"), states)?;
            self.met.diagrams.bad_roots.push(root);
        }
        Ok(())
    }
}
