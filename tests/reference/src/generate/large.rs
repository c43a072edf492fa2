//! Large files: the longest one, walks that fill the tables, and contents that are thousands of messages long.

use std::collections::BTreeMap;

use super::plan::{Action, Direction, Plan, PlannedState, PlannedTransition};
use crate::random::Random;
use crate::read::{BAD_ENTRIES, CONTROL_STATES, MESSAGES, POOL_STATES, QUEUES, TRANSITIONS, WORD_LENGTH};

/// The longest file that accepts something from every root. One queue, so that every state can have an arc for every
/// message; control states of 128 and above in the bad list, since these take two bytes.
///
/// Every step is taken in every control state: the third machine has one state, and all transitions are its own. The
/// set of every control state is all contents, and the bad diagrams accept nothing, so the file is closed.
pub fn maximal_closed(random: &mut Random) -> Plan {
    maximal_closed_with_words(random, WORD_LENGTH)
}

/// The longest file that is read: all queues start with as many messages as can wait.
pub fn longest(random: &mut Random) -> Plan {
    let mut longest = longest_fresh(random);
    longest.starting = (0..QUEUES).map(|queue| longest.messages_of(queue).collect()).collect();
    longest
}

/// The longest file that starts with empty queues: with four of them it has three bytes more. Every state has an arc for every
/// message and none is final, so that the test of queue order visits every state in every way, and finds nothing.
pub fn longest_fresh(random: &mut Random) -> Plan {
    let of_a_queue = MESSAGES / QUEUES;
    let mut longest = maximal_closed(random);
    longest.queues = vec![of_a_queue; QUEUES];
    longest.pool = longest_test_of_order(random).pool;
    for action in longest.transitions.iter_mut().filter_map(|transition| transition.action.as_mut()) {
        for message in &mut action.word {
            *message %= of_a_queue;
        }
    }
    longest
}

/// The same as `maximal_closed` with shorter words.
pub fn maximal_closed_with_words(random: &mut Random, length: usize) -> Plan {
    maximal_with_machines(random, vec![16, 16, 1, 1], 2, length)
}

/// As long, but each step is taken in a quarter of the control states.
pub fn maximal_closed_with_fewer_steps(random: &mut Random, length: usize) -> Plan {
    maximal_with_machines(random, vec![4, 4, 4, 4], 0, length)
}

fn maximal_with_machines(random: &mut Random, states: Vec<usize>, moving: usize, length: usize) -> Plan {
    let accepting = POOL_STATES - 1;
    let mut pool = all_arcs(random, accepting);
    let lost = (0..MESSAGES).map(|message| (message, accepting)).collect();
    pool.push(PlannedState { is_final: false, arcs: lost });
    let transitions = (0..TRANSITIONS)
        .map(|number| PlannedTransition {
            machine: moving,
            from: number % states[moving],
            to: (number / 2) % states[moving],
            action: Some(even_word(random, DIRECTIONS[number % 2], length)),
        })
        .collect();
    Plan {
        starts: vec![0; states.len()],
        states,
        queues: vec![MESSAGES],
        starting: vec![],
        transitions,
        pool,
        roots: (0..CONTROL_STATES).map(|control_state| Some(control_state % accepting)).collect(),
        bad: (0..BAD_ENTRIES).map(|entry| (128 + entry, accepting)).collect(),
    }
}

/// Final states with an arc for each message of one queue. Even messages permute the states, so that a word of them
/// loses no pair; odd ones lead anywhere, so that every pair is reached.
fn all_arcs(random: &mut Random, states: usize) -> Vec<PlannedState> {
    let mut pool = vec![PlannedState { is_final: true, arcs: BTreeMap::new() }; states];
    for message in 0..MESSAGES {
        for (planned, target) in pool.iter_mut().zip(targets(random, message, states)) {
            planned.arcs.insert(message, target);
        }
    }
    pool
}

/// Where a message leads from each of some states.
fn targets(random: &mut Random, message: usize, states: usize) -> Vec<usize> {
    let mut permuted: Vec<usize> = (0..states).collect();
    for last in (1..states).rev() {
        permuted.swap(last, random.below(last + 1));
    }
    if message % 2 == 1 {
        return (0..states).map(|_| random.below(states)).collect();
    }
    permuted
}

const DIRECTIONS: [Direction; 2] = [Direction::Send, Direction::Receive];

fn even_word(random: &mut Random, direction: Direction, length: usize) -> Action {
    let word = (0..length).map(|_| 2 * random.below(MESSAGES / 2)).collect();
    Action { direction, queue: 0, word }
}

fn one_step(from: usize, to: usize, action: Option<Action>) -> Vec<PlannedTransition> {
    vec![PlannedTransition { machine: 0, from, to, action }]
}

/// The direction of a step and the length of its word; none for a local step.
pub type StepOf = Option<(Direction, usize)>;

/// One step over 127 states with all arcs for 32 messages; closed. The pool is the same for every step.
pub fn dense(random: &mut Random, step: StepOf) -> Plan {
    let pool = all_arcs(random, POOL_STATES);
    let action = step.map(|(direction, length)| even_word(random, direction, length));
    Plan {
        states: vec![2],
        starts: vec![0],
        queues: vec![MESSAGES],
        starting: vec![],
        transitions: one_step(0, 1, action),
        pool,
        roots: vec![Some(0), Some(1)],
        bad: vec![],
    }
}

/// A receive from the second of two queues; closed. Half of the states read the first queue, so that the word is followed
/// from every pair of these; with one queue it is followed from the roots alone. The pool is the same for every length.
pub fn receive_behind_a_queue(random: &mut Random, length: usize) -> Plan {
    let (states, messages) = (POOL_STATES / 2, MESSAGES / 2);
    let mut pool = vec![PlannedState { is_final: true, arcs: BTreeMap::new() }; POOL_STATES];
    let (first, second) = pool.split_at_mut(states);
    for message in 0..messages {
        for (planned, target) in first.iter_mut().zip(targets(random, message, states)) {
            planned.arcs.insert(message, target);
        }
    }
    for message in messages..MESSAGES {
        for half in [&mut *first, &mut *second] {
            for (planned, target) in half.iter_mut().zip(targets(random, message, POOL_STATES - states)) {
                planned.arcs.insert(message, states + target);
            }
        }
    }
    let word = (0..length).map(|_| messages + 2 * random.below(messages / 2)).collect();
    Plan {
        states: vec![2],
        starts: vec![0],
        queues: vec![messages, MESSAGES - messages],
        starting: vec![],
        transitions: one_step(0, 1, Some(Action { direction: Direction::Receive, queue: 1, word })),
        pool,
        roots: vec![Some(0), Some(1)],
        bad: vec![],
    }
}

/// The same as `dense` with a part of the arcs missing, so that the target is often nowhere; closed, since the source accepts
/// nothing. Arcs for the step's own messages stay, else it could hardly be taken; they are four, however long the word,
/// and the pool is the same for every length. The last state is the start's alone.
pub fn with_holes(random: &mut Random, step: StepOf, percent_missing: usize) -> Plan {
    let mut pool = all_arcs(random, POOL_STATES - 1);
    let own = if step.is_some() { even_word(random, Direction::Send, 4).word } else { vec![] };
    for state in &mut pool {
        state.is_final = false;
        state.arcs.retain(|message, _| own.contains(message) || !random.chance(percent_missing));
    }
    let action = step.map(|(direction, length)| {
        let word = (0..length).map(|_| *random.pick(&own).expect("the step has messages")).collect();
        Action { direction, queue: 0, word }
    });
    pool.push(PlannedState { is_final: true, arcs: BTreeMap::new() });
    Plan {
        states: vec![3],
        starts: vec![0],
        queues: vec![MESSAGES],
        starting: vec![],
        transitions: one_step(1, 2, action),
        pool,
        roots: vec![Some(POOL_STATES - 1), Some(0), Some(1)],
        bad: vec![],
    }
}

/// All arcs for four queues of eight messages, and no final state, so that nothing is accepted in whatever order. From the root
/// every state is reached by messages of the first queue alone, and then again by each later queue and out of order.
pub fn longest_test_of_order(random: &mut Random) -> Plan {
    let mut pool = all_arcs(random, POOL_STATES);
    for state in &mut pool {
        state.is_final = false;
    }
    Plan {
        states: vec![1],
        starts: vec![0],
        queues: vec![MESSAGES / QUEUES; QUEUES],
        starting: vec![],
        transitions: vec![],
        pool,
        roots: vec![Some(0)],
        bad: vec![],
    }
}

/// Steps over dense diagrams in four control states, so that the number of pairs needs more than 16 bits.
pub fn many_dense_steps(random: &mut Random) -> Plan {
    let transitions = (0..12)
        .map(|number| PlannedTransition {
            machine: 0,
            from: number % 4,
            to: (number / 4 + number) % 4,
            action: match number % 3 {
                0 => None,
                1 => Some(even_word(random, Direction::Receive, WORD_LENGTH)),
                _ => Some(even_word(random, Direction::Send, WORD_LENGTH)),
            },
        })
        .collect();
    Plan {
        states: vec![4],
        starts: vec![3],
        queues: vec![MESSAGES],
        starting: vec![],
        transitions,
        pool: all_arcs(random, POOL_STATES),
        roots: vec![Some(0), Some(1), Some(125), Some(126)],
        bad: vec![],
    }
}

/// 256 control states and 128 transitions, all taken everywhere. The set is all contents, but in the last control state
/// it is message 0 alone, any number of times. `last_sent` is what the last transition sends; all others send 0.
/// The bad entries stand at the last control state: the last accepts 0 0 alone, the others nothing.
fn at_the_ends(last_sent: usize) -> Plan {
    let send = |message: usize| Action { direction: Direction::Send, queue: 0, word: vec![message] };
    let state =
        |is_final: bool, arcs: &[(usize, usize)]| PlannedState { is_final, arcs: arcs.iter().copied().collect() };
    let last_transition = TRANSITIONS - 1;
    let last_entry = BAD_ENTRIES - 1;
    let last_control_state = CONTROL_STATES - 1;
    Plan {
        states: vec![16, 16, 1],
        starts: vec![0, 0, 0],
        queues: vec![2],
        starting: vec![],
        transitions: (0..TRANSITIONS)
            .map(|number| PlannedTransition {
                machine: 2,
                from: 0,
                to: 0,
                action: Some(send(if number == last_transition { last_sent } else { 0 })),
            })
            .collect(),
        pool: vec![
            state(true, &[(0, 0), (1, 0)]),
            state(true, &[(0, 1)]),
            state(false, &[(0, 3)]),
            state(false, &[(0, 4)]),
            state(true, &[]),
            state(false, &[]),
        ],
        roots: (0..CONTROL_STATES).map(|number| Some(usize::from(number == last_control_state))).collect(),
        bad: (0..BAD_ENTRIES).map(|entry| (last_control_state, if entry == last_entry { 2 } else { 5 })).collect(),
    }
}

/// The last step of the last control state is the only one that leaves.
pub fn last_step_leaves() -> Plan {
    at_the_ends(1)
}

/// No step leaves, and of the bad entries the last one fails.
pub fn last_entry_is_bad() -> Plan {
    at_the_ends(0)
}

/// Adds states in a circle for one message. Returns the first.
fn circle(pool: &mut Vec<PlannedState>, message: usize, length: usize, is_final: impl Fn(usize) -> bool) -> usize {
    let first = pool.len();
    for index in 0..length {
        let arcs = BTreeMap::from([(message, first + (index + 1) % length)]);
        pool.push(PlannedState { is_final: is_final(index), arcs });
    }
    first
}

/// A local step that leaves with 4,031 messages: circles of 63 and 64 states meet that late.
pub fn long_local_leaves() -> Plan {
    let mut pool = Vec::new();
    let source = circle(&mut pool, 0, 63, |index| index == 62);
    let target = circle(&mut pool, 0, 64, |index| index != 63);
    Plan {
        states: vec![3],
        starts: vec![0],
        queues: vec![1],
        starting: vec![],
        transitions: one_step(1, 2, None),
        pool,
        roots: vec![Some(target), Some(source), Some(target)],
        bad: vec![],
    }
}

/// A send that leaves with 991 messages of its queue and 992 of the next: circles meet late on both sides of the step.
pub fn long_send_leaves() -> Plan {
    let mut pool = Vec::new();
    let source = circle(&mut pool, 0, 31, |_| false);
    let target = circle(&mut pool, 0, 32, |_| true);
    let source_later = circle(&mut pool, 1, 31, |index| index == 30);
    let target_later = circle(&mut pool, 1, 32, |index| index != 31);
    let accepts_all = circle(&mut pool, 1, 1, |_| true);
    pool[target - 1].arcs.insert(1, source_later);
    for state in &mut pool[target..source_later] {
        state.arcs.insert(1, accepts_all);
    }
    pool[target].arcs.insert(1, target_later);
    let action = Action { direction: Direction::Send, queue: 0, word: vec![0] };
    Plan {
        states: vec![3],
        starts: vec![0],
        queues: vec![1, 1],
        starting: vec![],
        transitions: one_step(1, 2, Some(action)),
        pool,
        roots: vec![Some(target), Some(source), Some(target)],
        bad: vec![],
    }
}
