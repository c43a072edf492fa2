use std::error::Error;
use std::fmt;

use crate::lent::{
    BAD_ENTRIES_MOST, CONTROL_STATES_MOST, MACHINES_MOST, MESSAGES_MOST, POOL_STATES_MOST, QUEUES_MOST, STARTING_MOST,
    TRANSITIONS_MOST, WORD_MOST,
};
use crate::DiagramState;

/// States that a machine can have.
pub(super) const MACHINE_STATES_MOST: usize = 16;

/// Why a session is not made, or not changed: something would be outside its range. Indices count from 0.
///
/// ```
/// use swarmbanner::{Machine, Session, SessionError};
///
/// let error = Session::new(&[Machine { states: 2, start: 2 }], &[1]).unwrap_err();
/// assert_eq!(error, SessionError::NoMachineState { machine: 0, state: 2 });
/// assert_eq!(error.to_string(), "machine 0 has no state 2");
/// ```
#[derive(Clone, Copy, Debug, PartialEq, Eq, Hash)]
#[non_exhaustive]
pub enum SessionError {
    /// There are no machines, or more than four.
    Machines {
        /// How many there would be.
        count: usize,
    },
    /// A machine has no states, or more than sixteen.
    States {
        /// The machine.
        machine: usize,
        /// How many states it would have.
        states: usize,
    },
    /// The machines have more than 256 control states together.
    ControlStates {
        /// The machine with which the product passes 256.
        machine: usize,
    },
    /// There are no queues, or more than four.
    Queues {
        /// How many there would be.
        count: usize,
    },
    /// A queue has no messages, or more than 32.
    Messages {
        /// The queue.
        queue: usize,
        /// How many messages it would have.
        messages: usize,
    },
    /// The queues have more than 32 messages together.
    MessageSum {
        /// The queue with which the sum passes 32.
        queue: usize,
    },
    /// The session has no such machine.
    NoMachine {
        /// The machine.
        machine: usize,
    },
    /// A machine has no such state.
    NoMachineState {
        /// The machine.
        machine: usize,
        /// The state.
        state: usize,
    },
    /// The session has no such queue.
    NoQueue {
        /// The queue.
        queue: usize,
    },
    /// No queue of the session has such a message.
    NoMessage {
        /// The message.
        message: u8,
    },
    /// A word has a message of another queue than the transition's, or a queue is to start with one.
    OtherQueue {
        /// The message.
        message: u8,
        /// The queue of the transition, or the one that is to start with it.
        queue: usize,
    },
    /// A queue is to start with more than eight messages.
    StartingLength {
        /// The queue.
        queue: usize,
        /// How many it would start with.
        length: usize,
    },
    /// A word has more than sixteen messages.
    WordLength {
        /// How many it has.
        length: usize,
    },
    /// The session has 128 transitions already.
    TransitionsFull,
    /// The session has no such transition.
    NoTransition {
        /// Its number.
        transition: usize,
    },
    /// The pool has 127 states already, or would have more with those of a diagram.
    PoolFull,
    /// The pool has no such state: it is one of another session, or of a pool that is replaced.
    NoState {
        /// The state.
        state: DiagramState,
    },
    /// The machines have no such control state.
    NoControl {
        /// The control state.
        control: usize,
    },
    /// The session has 64 bad entries already.
    BadEntriesFull,
    /// The session has no such bad entry.
    NoBadEntry {
        /// Its number.
        entry: usize,
    },
}

impl fmt::Display for SessionError {
    fn fmt(&self, f: &mut fmt::Formatter<'_>) -> fmt::Result {
        use SessionError::*;

        match self {
            Machines { count } => write!(f, "a session has 1 to {MACHINES_MOST} machines, not {count}"),
            States { machine, states } => {
                write!(f, "machine {machine} is to have {states} states; it can have 1 to {MACHINE_STATES_MOST}")
            }
            ControlStates { machine } => {
                write!(f, "with machine {machine} there are more than {CONTROL_STATES_MOST} control states")
            }
            Queues { count } => write!(f, "a session has 1 to {QUEUES_MOST} queues, not {count}"),
            Messages { queue, messages } => {
                write!(f, "queue {queue} is to have {messages} messages; it can have 1 to {MESSAGES_MOST}")
            }
            MessageSum { queue } => write!(f, "with queue {queue} there are more than {MESSAGES_MOST} messages"),
            NoMachine { machine } => write!(f, "there is no machine {machine}"),
            NoMachineState { machine, state } => write!(f, "machine {machine} has no state {state}"),
            NoQueue { queue } => write!(f, "there is no queue {queue}"),
            NoMessage { message } => write!(f, "there is no message {message}"),
            OtherQueue { message, queue } => write!(f, "message {message} is not one of queue {queue}"),
            StartingLength { queue, length } => {
                write!(f, "queue {queue} can start with up to {STARTING_MOST} messages, not with {length}")
            }
            WordLength { length } => write!(f, "a word has up to {WORD_MOST} messages, not {length}"),
            TransitionsFull => write!(f, "a session has up to {TRANSITIONS_MOST} transitions"),
            NoTransition { transition } => write!(f, "there is no transition {transition}"),
            PoolFull => write!(f, "a session has up to {POOL_STATES_MOST} diagram states"),
            NoState { state } => write!(f, "there is no diagram state {}", state.index()),
            NoControl { control } => write!(f, "there is no control state {control}"),
            BadEntriesFull => write!(f, "a session has up to {BAD_ENTRIES_MOST} bad entries"),
            NoBadEntry { entry } => write!(f, "there is no bad entry {entry}"),
        }
    }
}

impl Error for SessionError {}
