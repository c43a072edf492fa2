//! What a session says, before it is written as bytes, and random plans of every shape.

use std::collections::BTreeMap;

use super::draft::{Draft, Role};
use super::resume::resume;
use crate::long_words::LONG_WORD;
use crate::random::Random;
use crate::read;

#[derive(Clone, Copy, Debug, PartialEq, Eq)]
pub enum Direction {
    Send,
    Receive,
}

#[derive(Clone, Debug)]
pub struct Action {
    pub direction: Direction,
    pub queue: usize,
    pub word: Vec<usize>,
}

#[derive(Clone, Debug)]
pub struct PlannedTransition {
    pub machine: usize,
    pub from: usize,
    pub to: usize,
    /// None for a local transition.
    pub action: Option<Action>,
}

#[derive(Clone, Debug, Default)]
pub struct PlannedState {
    pub is_final: bool,
    /// Target by message.
    pub arcs: BTreeMap<usize, usize>,
}

#[derive(Clone, Debug)]
pub struct Plan {
    pub states: Vec<usize>,
    pub starts: Vec<usize>,
    /// Messages of each queue.
    pub queues: Vec<usize>,
    /// What waits in each queue at the start; none for queues that are not listed.
    pub starting: Vec<Vec<usize>>,
    pub transitions: Vec<PlannedTransition>,
    pub pool: Vec<PlannedState>,
    pub roots: Vec<Option<usize>>,
    /// Control state and root.
    pub bad: Vec<(usize, usize)>,
}

impl Plan {
    pub fn message_sum(&self) -> usize {
        self.queues.iter().sum()
    }

    pub fn control_states(&self) -> usize {
        self.states.iter().product()
    }

    pub fn queue_of(&self, message: usize) -> usize {
        let mut past = 0;
        for (queue, &messages) in self.queues.iter().enumerate() {
            past += messages;
            if message < past {
                return queue;
            }
        }
        unreachable!("message {message} is not below the sum")
    }

    pub fn messages_of(&self, queue: usize) -> std::ops::Range<usize> {
        let first: usize = self.queues[..queue].iter().sum();
        first..first + self.queues[queue]
    }

    /// Whether something waits at the start.
    pub fn resumes(&self) -> bool {
        self.starting.iter().any(|queue| !queue.is_empty())
    }

    /// The number of the control state that the session starts in.
    pub fn start(&self) -> usize {
        self.starts.iter().zip(&self.states).fold(0, |number, (start, states)| number * states + start)
    }

    pub fn bytes(&self) -> Vec<u8> {
        self.draft().bytes()
    }

    /// The numbers of the file with their ranges.
    pub fn draft(&self) -> Draft {
        self.draft_of_form(self.resumes())
    }

    /// The same in the form that says what waits at the start, or in the other one.
    pub fn draft_of_form(&self, resumes: bool) -> Draft {
        let mut draft = Draft::default();
        self.draft_machines(&mut draft, resumes);
        self.draft_queues(&mut draft);
        if resumes {
            self.draft_starting(&mut draft);
        }
        self.draft_transitions(&mut draft);
        self.draft_pool(&mut draft);
        self.draft_map(&mut draft);
        draft
    }

    fn draft_machines(&self, draft: &mut Draft, resumes: bool) {
        let most = read::MACHINES;
        let first = self.states.len() + if resumes { most } else { 0 };
        draft.push(Role::Machines, first, 1, most + most);
        for &states in &self.states {
            draft.push(Role::States, states, 1, read::MACHINE_STATES);
        }
        for (&start, &states) in self.starts.iter().zip(&self.states) {
            draft.push_index(Role::Start, start, states);
        }
    }

    fn draft_queues(&self, draft: &mut Draft) {
        draft.push(Role::Queues, self.queues.len(), 1, read::QUEUES);
        for &messages in &self.queues {
            draft.push(Role::Messages, messages, 1, read::MESSAGES);
        }
    }

    fn draft_starting(&self, draft: &mut Draft) {
        for queue in 0..self.queues.len() {
            let messages = self.starting.get(queue).map_or(&[][..], |messages| messages);
            draft.push(Role::StartingLength, messages.len(), 0, read::STARTING);
            for &message in messages {
                draft.push_index(Role::StartingMessage, message, self.message_sum());
            }
        }
    }

    fn draft_transitions(&self, draft: &mut Draft) {
        draft.push(Role::Transitions, self.transitions.len(), 0, read::TRANSITIONS);
        for transition in &self.transitions {
            let states = self.states[transition.machine];
            draft.push_index(Role::Machine, transition.machine, self.states.len());
            draft.push_index(Role::From, transition.from, states);
            draft.push_index(Role::To, transition.to, states);
            let Some(action) = &transition.action else {
                draft.push(Role::Kind, 0, 0, 2);
                continue;
            };
            let kind = match action.direction {
                Direction::Send => 1,
                Direction::Receive => 2,
            };
            draft.push(Role::Kind, kind, 0, 2);
            draft.push_index(Role::Queue, action.queue, self.queues.len());
            draft.push(Role::WordLength, action.word.len(), 0, read::WORD_LENGTH);
            for &message in &action.word {
                draft.push_index(Role::WordMessage, message, self.message_sum());
            }
        }
    }

    fn draft_pool(&self, draft: &mut Draft) {
        draft.push(Role::PoolStates, self.pool.len(), 1, read::POOL_STATES);
        for state in &self.pool {
            draft.push(Role::Final, usize::from(state.is_final), 0, 1);
            draft.push(Role::Arcs, state.arcs.len(), 0, self.message_sum());
            for (&message, &target) in &state.arcs {
                draft.push_index(Role::ArcMessage, message, self.message_sum());
                draft.push_index(Role::ArcTarget, target, self.pool.len());
            }
        }
    }

    fn draft_map(&self, draft: &mut Draft) {
        for root in &self.roots {
            draft.push(Role::Root, root.map_or(0, |root| root + 1), 0, self.pool.len());
        }
        draft.push(Role::BadEntries, self.bad.len(), 0, read::BAD_ENTRIES);
        for &(control_state, root) in &self.bad {
            draft.push_index(Role::BadControlState, control_state, self.control_states());
            draft.push_index(Role::BadRoot, root, self.pool.len());
        }
    }
}

/// Upper ends of what a random plan may have. At least as many messages as queues.
#[derive(Clone, Copy, Debug)]
pub struct Shape {
    pub machines: usize,
    pub control_states: usize,
    pub queues: usize,
    pub messages: usize,
    pub transitions: usize,
    pub pool_states: usize,
    pub bad: usize,
}

impl Shape {
    pub const SMALL: Shape =
        Shape { machines: 3, control_states: 6, queues: 3, messages: 5, transitions: 5, pool_states: 5, bad: 3 };
    pub const MEDIUM: Shape =
        Shape { machines: 4, control_states: 40, queues: 4, messages: 12, transitions: 20, pool_states: 24, bad: 10 };
    pub const LARGE: Shape = Shape {
        machines: read::MACHINES,
        control_states: read::CONTROL_STATES,
        queues: read::QUEUES,
        messages: read::MESSAGES,
        transitions: read::TRANSITIONS,
        pool_states: read::POOL_STATES,
        bad: read::BAD_ENTRIES,
    };
}

/// A number between two ends, and often one of the ends.
fn lean(random: &mut Random, least: usize, most: usize) -> usize {
    match random.below(6) {
        0 => least,
        1 => most,
        _ => random.between(least, most),
    }
}

/// Of a hundred random plans so many resume.
pub const RESUMING: usize = 25;

/// A plan within a shape. Its file is always read. In some plans something waits at the start.
pub fn random_plan(random: &mut Random, shape: &Shape) -> Plan {
    let mut plan = fresh_plan(random, shape);
    if random.chance(RESUMING) {
        resume(random, &mut plan);
    }
    plan
}

/// The same, and nothing waits at the start.
pub fn fresh_plan(random: &mut Random, shape: &Shape) -> Plan {
    let states = random_states(random, shape);
    let starts = states.iter().map(|&states| lean(random, 0, states - 1)).collect();
    let mut plan = Plan {
        states,
        starts,
        queues: random_queues(random, shape),
        starting: Vec::new(),
        transitions: Vec::new(),
        pool: Vec::new(),
        roots: Vec::new(),
        bad: Vec::new(),
    };
    for _ in 0..lean(random, 0, shape.transitions) {
        let transition = random_transition(random, &plan);
        plan.transitions.push(transition);
    }
    let pool_states = lean(random, 1, shape.pool_states);
    plan.pool = random_pool(random, &plan, pool_states);
    let with_root = random.between(50, 100);
    plan.roots = (0..plan.control_states())
        .map(|_| random.chance(with_root).then(|| lean(random, 0, pool_states - 1)))
        .collect();
    for _ in 0..lean(random, 0, shape.bad) {
        plan.bad.push((lean(random, 0, plan.control_states() - 1), lean(random, 0, pool_states - 1)));
    }
    plan
}

fn random_states(random: &mut Random, shape: &Shape) -> Vec<usize> {
    let mut product = 1;
    (0..lean(random, 1, shape.machines))
        .map(|_| {
            let states = lean(random, 1, read::MACHINE_STATES.min(shape.control_states / product));
            product *= states;
            states
        })
        .collect()
}

fn random_queues(random: &mut Random, shape: &Shape) -> Vec<usize> {
    let queues = lean(random, 1, shape.queues);
    let mut left = shape.messages;
    (0..queues)
        .map(|queue| {
            let later = queues - 1 - queue;
            let messages = lean(random, 1, left - later);
            left -= messages;
            messages
        })
        .collect()
}

pub fn random_transition(random: &mut Random, plan: &Plan) -> PlannedTransition {
    let machine = lean(random, 0, plan.states.len() - 1);
    let states = plan.states[machine];
    let direction = match random.below(5) {
        0 => None,
        1 | 2 => Some(Direction::Send),
        _ => Some(Direction::Receive),
    };
    PlannedTransition {
        machine,
        from: lean(random, 0, states - 1),
        to: lean(random, 0, states - 1),
        action: direction.map(|direction| {
            let queue = lean(random, 0, plan.queues.len() - 1);
            let messages = plan.messages_of(queue);
            let length = random_word_length(random);
            let word = (0..length).map(|_| lean(random, messages.start, messages.end - 1)).collect();
            Action { direction, queue, word }
        }),
    }
}

/// Mostly one message, as in protocols; also none, a few, and now and then a long word.
fn random_word_length(random: &mut Random) -> usize {
    match random.below(20) {
        0 | 1 => 0,
        2 | 3 => 2,
        4 | 5 => 3,
        6 | 7 => 4,
        8 => random_long_length(random),
        _ => 1,
    }
}

/// Of a long word, and often of the longest.
pub fn random_long_length(random: &mut Random) -> usize {
    lean(random, LONG_WORD, read::WORD_LENGTH)
}

pub fn random_direction(random: &mut Random) -> Direction {
    if random.chance(50) {
        Direction::Send
    } else {
        Direction::Receive
    }
}

/// Each state is given a queue: arcs in are of it or earlier ones, arcs out of it or later ones.
/// Every pool in queue order can be had like that.
fn random_pool(random: &mut Random, plan: &Plan, pool_states: usize) -> Vec<PlannedState> {
    let last_queue = plan.queues.len() - 1;
    let turn: Vec<usize> = (0..pool_states).map(|_| lean(random, 0, last_queue)).collect();
    let density = random.between(20, 100);
    let finals = random.between(30, 100);
    (0..pool_states)
        .map(|state| {
            let full = random.chance(15);
            let mut arcs = BTreeMap::new();
            for message in 0..plan.message_sum() {
                let queue = plan.queue_of(message);
                let targets: Vec<usize> = (0..pool_states).filter(|&target| queue <= turn[target]).collect();
                if turn[state] <= queue && (full || random.chance(density)) {
                    if let Some(&target) = random.pick(&targets) {
                        arcs.insert(message, target);
                    }
                }
            }
            PlannedState { is_final: random.chance(finals), arcs }
        })
        .collect()
}
