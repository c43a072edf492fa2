mod build;
mod error;
mod expression;
mod flat;

use std::ops::Range;

use crate::Refusal;

pub use error::SessionError;
pub use expression::{expression, Diagram};
pub use flat::read;

/// A machine.
#[derive(Clone, Copy, Debug, PartialEq, Eq, Hash)]
pub struct Machine {
    /// How many states it has, 1 to 16.
    pub states: usize,
    /// The state in which it starts.
    pub start: usize,
}

/// A queue. Messages are numbered through the queues, so a message belongs to one queue.
#[derive(Clone, Debug, PartialEq, Eq, Hash)]
pub struct Queue {
    /// The messages that may wait in it.
    pub messages: Range<u8>,
    /// What waits in it at the start, oldest first: up to eight of its messages.
    pub starting: Vec<u8>,
}

/// What a transition does beside moving its machine.
#[derive(Clone, Debug, PartialEq, Eq, Hash)]
pub enum Kind {
    /// No queue is touched.
    Local,
    /// A word is put at the end of a queue.
    Send {
        /// The queue that is sent to.
        queue: usize,
        /// Up to sixteen messages of that queue.
        word: Vec<u8>,
    },
    /// A word is taken from the front of a queue, which must begin with it.
    Receive {
        /// The queue that is received from.
        queue: usize,
        /// Up to sixteen messages of that queue.
        word: Vec<u8>,
    },
}

/// A transition of one machine.
#[derive(Clone, Debug, PartialEq, Eq, Hash)]
pub struct Transition {
    /// The machine that moves.
    pub machine: usize,
    /// The state it must be in.
    pub from: usize,
    /// The state it is in afterwards.
    pub to: usize,
    /// Local, send or receive.
    pub kind: Kind,
}

/// The number of a diagram state, which is never the number of a control state. [`Session::state`] makes one from a number,
/// [`Session::add_state`] gives the one of a new state, and [`Session::add_diagram`] that of a new root.
#[derive(Clone, Copy, Debug, PartialEq, Eq, PartialOrd, Ord, Hash)]
pub struct DiagramState(u8);

impl DiagramState {
    /// Its place in the pool.
    pub fn index(self) -> usize {
        usize::from(self.0)
    }
}

/// An arc of a diagram.
#[derive(Clone, Copy, Debug, PartialEq, Eq, Hash)]
pub struct Arc {
    /// The message that it reads.
    pub message: u8,
    /// Where it leads.
    pub target: DiagramState,
}

/// A state of the pool that all diagrams share.
#[derive(Clone, Debug, PartialEq, Eq, Hash)]
pub struct PoolState {
    /// Whether contents that end here belong to the set.
    pub is_final: bool,
    /// Its arcs, by ascending message.
    pub arcs: Vec<Arc>,
}

/// Contents that must not be inside.
#[derive(Clone, Copy, Debug, PartialEq, Eq, Hash)]
pub struct BadEntry {
    /// The control state that it is about.
    pub control: usize,
    /// The root of the diagram of bad contents.
    pub root: DiagramState,
}

/// What a session file says. [`read`] makes one from a file, [`Session::new`] a new one; what it has can be changed, and
/// [`Session::write`] makes a file of it.
///
/// Whatever is done to it, every number stays within its range. What no single change can be judged by is queue order: a word
/// that a root accepts may have a message of an earlier queue after one of a later queue, and then no file says what the
/// session says.
#[derive(Clone, Debug, PartialEq, Eq, Hash)]
pub struct Session {
    machines: Vec<Machine>,
    queues: Vec<Queue>,
    transitions: Vec<Transition>,
    pool: Vec<PoolState>,
    roots: Vec<Option<DiagramState>>,
    bad_entries: Vec<BadEntry>,
}

/// How many control states machines have.
fn product(machines: &[Machine]) -> usize {
    machines.iter().map(|machine| machine.states).product()
}

/// What it says.
impl Session {
    /// The machines.
    pub fn machines(&self) -> &[Machine] {
        &self.machines
    }

    /// The queues.
    pub fn queues(&self) -> &[Queue] {
        &self.queues
    }

    /// The transitions, by their numbers.
    pub fn transitions(&self) -> &[Transition] {
        &self.transitions
    }

    /// The pool of diagram states, by their numbers.
    pub fn pool(&self) -> &[PoolState] {
        &self.pool
    }

    /// The map: for each control state the root of its diagram, or none for an empty set.
    pub fn roots(&self) -> &[Option<DiagramState>] {
        &self.roots
    }

    /// The bad entries, by their numbers.
    pub fn bad_entries(&self) -> &[BadEntry] {
        &self.bad_entries
    }
}

/// Control states.
impl Session {
    /// How many control states there are.
    pub fn control_states(&self) -> usize {
        self.roots.len()
    }

    /// The control state in which every machine is in its starting state.
    pub fn start(&self) -> usize {
        self.machines.iter().fold(0, |control, machine| control * machine.states + machine.start)
    }

    /// The state of each machine in a control state; none where there is no such control state.
    ///
    /// ```
    /// // Machines of two and three states, one queue, nothing else.
    /// let file = [2, 2, 3, 0, 0, 1, 1, 0, 1, 0, 0, 0, 0, 0, 0, 0, 0, 0];
    /// let session = swarmbanner::read(&file)?;
    /// assert_eq!(session.machine_states(5), Some(vec![1, 2]));
    /// assert_eq!(session.control_of(&[1, 2]), Some(5));
    /// assert_eq!(session.machine_states(6), None);
    /// # Ok::<(), swarmbanner::Refusal>(())
    /// ```
    pub fn machine_states(&self, control: usize) -> Option<Vec<usize>> {
        if control >= self.control_states() {
            return None;
        }
        let mut rest = control;
        let mut states: Vec<usize> =
            self.machines.iter().rev().map(|machine| take(&mut rest, machine.states)).collect();
        states.reverse();
        Some(states)
    }

    /// The control state of these states, one for each machine; none where a machine has no such state.
    pub fn control_of(&self, states: &[usize]) -> Option<usize> {
        if states.len() != self.machines.len() {
            return None;
        }
        states.iter().zip(&self.machines).try_fold(0, |control, (&state, machine)| {
            (state < machine.states).then_some(control * machine.states + state)
        })
    }
}

/// The lowest digit, which is taken off.
fn take(rest: &mut usize, base: usize) -> usize {
    let digit = *rest % base;
    *rest /= base;
    digit
}

/// Contents of the queues.
impl Session {
    /// What waits at the start, queue after queue, as [`member`](crate::member) takes it. Nothing, where all queues start empty.
    ///
    /// ```
    /// // One machine, of one state; queue 0 starts with message 0, queue 1 empty. Anything may wait.
    /// let file = [5, 1, 0, 2, 1, 1, 1, 0, 0, 0, 2, 1, 2, 0, 0, 1, 1, 1, 1, 1, 1, 1, 0];
    /// let session = swarmbanner::read(&file)?;
    /// assert_eq!((&session.queues()[0].starting[..], &session.queues()[1].starting[..]), (&[0][..], &[][..]));
    /// assert_eq!(session.starting(), [0]);
    /// assert_eq!(swarmbanner::member(&file, session.start(), &session.starting()), Ok(true));
    /// # Ok::<(), swarmbanner::Refusal>(())
    /// ```
    pub fn starting(&self) -> Vec<u8> {
        self.queues.iter().flat_map(|queue| &queue.starting).copied().collect()
    }

    /// The queue that a message belongs to.
    pub fn queue_of(&self, message: u8) -> Option<usize> {
        self.queues.iter().position(|queue| queue.messages.contains(&message))
    }

    /// Takes contents apart: what waits in each queue.
    ///
    /// # Errors
    ///
    /// Fails as [`member`](crate::member) does: 12 for a message that is in no queue, 13 for one of an earlier queue than
    /// the one before it.
    ///
    /// ```
    /// let s = [1, 1, 0, 2, 1, 1, 1, 0, 0, 0, 1, 0, 1, 0, 2, 1, 2, 0, 0, 1, 1, 1, 1, 1, 1, 1, 0];
    /// let session = swarmbanner::read(&s)?;
    /// assert_eq!(session.split(&[0, 0, 1])?, [&[0, 0][..], &[1]]);
    /// assert_eq!(session.split(&[1])?, [&[][..], &[1]]);
    /// # Ok::<(), swarmbanner::Refusal>(())
    /// ```
    pub fn split<'c>(&self, contents: &'c [u8]) -> Result<Vec<&'c [u8]>, Refusal> {
        let mut ends = vec![0; self.queues.len()];
        let mut before = 0;
        for (place, &message) in contents.iter().enumerate() {
            let queue = self.queue_of(message).ok_or(Refusal { number: 12, place })?;
            if queue < before {
                return Err(Refusal { number: 13, place });
            }
            before = queue;
            ends[queue] = place + 1;
        }
        let mut begin = 0;
        let parts = ends.into_iter().map(|end| {
            let end = begin.max(end);
            let part = &contents[begin..end];
            begin = end;
            part
        });
        Ok(parts.collect())
    }

    /// The configuration after a step: the control state and the contents.
    ///
    /// None where the transition cannot be taken: there is no such transition or control state, the machine is not in its
    /// from-state, the queue does not begin with the word that is received, or these are no contents of the queues.
    ///
    /// ```
    /// let r = [2, 1, 1, 0, 0, 1, 1, 2, 0, 0, 0, 1, 0, 1, 0, 1, 0, 0, 2, 0, 1, 0, 1, 1, 1, 0, 0, 1, 0];
    /// let session = swarmbanner::read(&r)?;
    /// assert_eq!(session.step(0, 0, &[0]), Some((0, vec![0, 0])));
    /// assert_eq!(session.step(0, 1, &[0]), Some((0, vec![])));
    /// assert_eq!(session.step(0, 1, &[]), None);
    /// # Ok::<(), swarmbanner::Refusal>(())
    /// ```
    pub fn step(&self, control: usize, transition: usize, contents: &[u8]) -> Option<(usize, Vec<u8>)> {
        let transition = self.transitions.get(transition)?;
        let mut states = self.machine_states(control)?;
        if states[transition.machine] != transition.from {
            return None;
        }
        states[transition.machine] = transition.to;
        let mut queues: Vec<Vec<u8>> = self.split(contents).ok()?.into_iter().map(<[u8]>::to_vec).collect();
        match &transition.kind {
            Kind::Local => {}
            Kind::Send { queue, word } => queues[*queue].extend(word),
            Kind::Receive { queue, word } => queues[*queue] = queues[*queue].strip_prefix(&word[..])?.to_vec(),
        }
        Some((self.control_of(&states)?, queues.concat()))
    }
}

/// Diagrams.
impl Session {
    /// The root of a control state's diagram; none for an empty set, or where there is no such control state.
    pub fn root(&self, control: usize) -> Option<DiagramState> {
        *self.roots.get(control)?
    }

    /// Whether contents that lead to a diagram state belong to the set.
    pub fn is_final(&self, state: DiagramState) -> bool {
        self.pool.get(state.index()).is_some_and(|state| state.is_final)
    }

    /// Where a diagram state leads for a message; none for nowhere.
    pub fn arc(&self, state: DiagramState, message: u8) -> Option<DiagramState> {
        let arcs = &self.pool.get(state.index())?.arcs;
        let found = arcs.binary_search_by_key(&message, |arc| arc.message).ok()?;
        Some(arcs[found].target)
    }
}
