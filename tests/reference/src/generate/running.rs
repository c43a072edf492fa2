//! Plans whose runs go on for long: what is sent to a queue can be received again, and the map holds everything in queue
//! order, or all but some of it.

use std::collections::BTreeMap;
use std::ops::Range;

use super::plan::{random_transition, Action, Direction, Plan, PlannedState, PlannedTransition};
use crate::random::Random;
use crate::read::{CONTROL_STATES, MACHINE_STATES, MESSAGES, POOL_STATES, QUEUES, TRANSITIONS, WORD_LENGTH};

/// What goes through a queue.
#[derive(Clone, Copy, Debug, PartialEq, Eq)]
enum Traffic {
    /// One message over and over, sent and received in words of any length.
    Same,
    /// Any words, received message by message and as parts of what is sent.
    Letters,
    /// The queue's messages in turn and then the first again; whole rounds are sent.
    Rounds,
}

/// What the map holds of a queue.
#[derive(Clone, Copy, Debug, PartialEq, Eq)]
enum Holds {
    Anything,
    /// So many messages, which is at least one.
    AtMost(usize),
    /// The queue's messages in turn, from any of them on.
    Rounds,
}

/// How a plan is to be.
#[derive(Clone, Copy, Debug)]
pub struct Style {
    pub machines: usize,
    /// Of each machine.
    pub most_states: usize,
    pub queues: usize,
    /// Long words alone, beside words of one message.
    pub is_bulk: bool,
    /// Every queue has the same message over and over.
    pub is_same: bool,
    /// All messages that a file can have, in rounds.
    pub is_wide: bool,
    /// The map lacks something.
    pub is_tight: bool,
}

impl Style {
    pub fn random(random: &mut Random) -> Self {
        let is_wide = random.chance(5);
        Style {
            machines: random.between(1, 4),
            most_states: random.between(1, 4),
            queues: if is_wide { QUEUES } else { random.between(1, QUEUES) },
            is_bulk: false,
            is_same: false,
            is_wide,
            is_tight: false,
        }
    }

    /// Many messages in few steps.
    pub fn bulk(random: &mut Random) -> Self {
        Style { most_states: random.between(1, 2), is_bulk: true, ..Style::random(random) }
    }

    /// The same, with words that fill a queue in as few steps as can be.
    pub fn filling(random: &mut Random) -> Self {
        Style { is_same: random.chance(60), is_wide: false, ..Style::bulk(random) }
    }

    pub fn tight(random: &mut Random) -> Self {
        Style { is_tight: true, ..Style::random(random) }
    }
}

/// A plan of a style. Its start is inside the map, and but for tight maps a run can always go on: every message can be
/// received by itself, and every machine of several states has local steps.
pub fn running_plan(random: &mut Random, style: &Style) -> Plan {
    let states = random_states(random, style);
    let traffic: Vec<Traffic> = (0..style.queues).map(|_| random_traffic(random, style)).collect();
    let mut plan = Plan {
        starts: states.iter().map(|&states| random.below(states)).collect(),
        states,
        queues: traffic.iter().map(|&traffic| random_messages(random, traffic, style)).collect(),
        starting: vec![],
        transitions: vec![],
        pool: vec![],
        roots: vec![],
        bad: vec![],
    };
    add_local_rounds(&mut plan);
    for (queue, &traffic) in traffic.iter().enumerate() {
        add_traffic(random, &mut plan, queue, traffic, style.is_bulk);
    }
    for _ in 0..random.below(3) {
        let transition = random_transition(random, &plan);
        plan.transitions.push(transition);
    }
    random.shuffle(&mut plan.transitions);
    let holds = random_holds(random, &traffic, style);
    plan.pool = pool(&plan, &holds);
    plan.roots = vec![Some(0); plan.control_states()];
    // Bulk goes on through a map that lacks some contents, but hardly through one that lacks control states.
    if style.is_tight && !style.is_bulk {
        take_away(random, &mut plan);
    }
    plan
}

/// The plan with more transitions behind its own, up to the most that a file can have.
pub fn with_all_transitions(random: &mut Random, mut plan: Plan) -> Plan {
    while plan.transitions.len() < TRANSITIONS {
        let transition = random_transition(random, &plan);
        plan.transitions.push(transition);
    }
    plan
}

fn random_states(random: &mut Random, style: &Style) -> Vec<usize> {
    let mut states: Vec<usize> = (0..style.machines).map(|_| random.between(1, style.most_states)).collect();
    // Now and then a machine or two have many states.
    if !style.is_bulk && random.chance(18) {
        for _ in 0..2 {
            let machine = random.below(states.len());
            states[machine] = [12, 13, MACHINE_STATES, MACHINE_STATES][random.below(4)];
        }
    }
    while states.iter().product::<usize>() > CONTROL_STATES {
        let machine = random.below(states.len());
        states[machine] = 1;
    }
    states
}

fn random_traffic(random: &mut Random, style: &Style) -> Traffic {
    if style.is_same {
        return Traffic::Same;
    }
    if style.is_wide {
        return Traffic::Rounds;
    }
    [Traffic::Same, Traffic::Letters, Traffic::Rounds, Traffic::Rounds][random.below(4)]
}

fn random_messages(random: &mut Random, traffic: Traffic, style: &Style) -> usize {
    match traffic {
        _ if style.is_wide => MESSAGES / QUEUES,
        Traffic::Same => random.between(1, 2),
        Traffic::Letters => random.between(2, 4),
        Traffic::Rounds => random.between(2, 8),
    }
}

/// Each machine of several states has a local transition from each to the next.
fn add_local_rounds(plan: &mut Plan) {
    for (machine, &states) in plan.states.iter().enumerate() {
        if states > 1 {
            let step = |from| PlannedTransition { machine, from, to: (from + 1) % states, action: None };
            plan.transitions.extend((0..states).map(step));
        }
    }
}

fn add_traffic(random: &mut Random, plan: &mut Plan, queue: usize, traffic: Traffic, is_bulk: bool) {
    let messages = plan.messages_of(queue);
    let mut sent: Vec<Vec<usize>> = vec![];
    let mut received: Vec<Vec<usize>> = messages.clone().map(|message| vec![message]).collect();
    match traffic {
        Traffic::Same => {
            let word = |length: usize| vec![messages.start; length];
            sent = vec![word(1), word(random_length(random, is_bulk)), word(random_length(random, is_bulk))];
            received.extend([word(random_length(random, is_bulk)), word(random_length(random, is_bulk))]);
        }
        Traffic::Letters => {
            for _ in 0..random.between(2, 3) {
                let length = random_length(random, is_bulk);
                sent.push((0..length).map(|_| random.between(messages.start, messages.end - 1)).collect());
            }
            received.extend(sent.iter().map(|word| if is_bulk { word.clone() } else { random_part(random, word) }));
        }
        Traffic::Rounds => {
            let most_rounds = WORD_LENGTH / messages.len();
            let least_rounds = if is_bulk { most_rounds } else { 1 };
            for _ in 0..2 {
                let rounds = random.between(least_rounds, most_rounds);
                sent.push(in_turn(&messages, 0, rounds * messages.len()));
            }
            let firsts = if is_bulk { (0..messages.len()).collect() } else { vec![random.below(messages.len()); 2] };
            for first in firsts {
                received.push(in_turn(&messages, first, random_length(random, is_bulk)));
            }
            // The round broken, which a map of rounds does not hold.
            sent.push(in_turn(&messages, random.below(messages.len()), random.between(1, messages.len() - 1)));
        }
    }
    if traffic != Traffic::Same {
        let mut missed: Vec<_> = if is_bulk { received[messages.len()..].to_vec() } else { sent[..1].to_vec() };
        random.shuffle(&mut missed);
        received.extend(missed.iter().take(3).flat_map(|word| near_misses(random, word, &messages)));
    }
    for words in [&mut sent, &mut received] {
        if random.chance(if is_bulk { 40 } else { 15 }) {
            words.push(vec![]);
        }
    }
    for (direction, words) in [(Direction::Send, sent), (Direction::Receive, received)] {
        for word in words {
            let transition = in_random_states(random, plan, Action { direction, queue, word });
            plan.transitions.push(transition);
        }
    }
}

fn random_length(random: &mut Random, is_bulk: bool) -> usize {
    match random.below(3) {
        0 => WORD_LENGTH,
        _ if is_bulk => random.between(10, WORD_LENGTH),
        _ => random.between(1, WORD_LENGTH),
    }
}

fn random_part(random: &mut Random, word: &[usize]) -> Vec<usize> {
    let begin = random.below(word.len());
    word[begin..random.between(begin + 1, word.len())].to_vec()
}

/// The word with another last message, and with one more message.
fn near_misses(random: &mut Random, word: &[usize], messages: &Range<usize>) -> Vec<Vec<usize>> {
    let (&last, front) = word.split_last().expect("words of this traffic have messages");
    let others: Vec<usize> = messages.clone().filter(|&message| message != last).collect();
    let other = *random.pick(&others).expect("the queue has two messages");
    let mut misses = vec![[front, &[other]].concat(), [word, &[other]].concat()];
    misses.retain(|word| word.len() <= WORD_LENGTH);
    misses
}

fn in_turn(messages: &Range<usize>, first: usize, length: usize) -> Vec<usize> {
    (first..first + length).map(|place| messages.start + place % messages.len()).collect()
}

fn in_random_states(random: &mut Random, plan: &Plan, action: Action) -> PlannedTransition {
    let machine = random.below(plan.states.len());
    let from = random.below(plan.states[machine]);
    let to = if random.chance(50) { from } else { random.below(plan.states[machine]) };
    PlannedTransition { machine, from, to, action: Some(action) }
}

fn random_holds(random: &mut Random, traffic: &[Traffic], style: &Style) -> Vec<Holds> {
    let mut holds: Vec<Holds> = traffic
        .iter()
        .map(|&traffic| {
            let in_rounds = traffic == Traffic::Rounds && random.chance(70);
            if in_rounds {
                Holds::Rounds
            } else {
                Holds::Anything
            }
        })
        .collect();
    if style.is_tight {
        let queue = random.below(holds.len());
        if holds[queue] == Holds::Anything {
            let (least, most) = match style.is_bulk {
                // With the root as many states as a file can have.
                true if style.queues == 1 && random.chance(60) => (POOL_STATES - 1, POOL_STATES - 1),
                true => (20, 90),
                false => (1, [4, 12, 40, 90][random.below(4)]),
            };
            holds[queue] = Holds::AtMost(random.between(least, most));
        }
    }
    holds
}

/// A pool that holds everything in queue order, with state 0 as the root.
pub fn pool_of_everything(plan: &Plan) -> Vec<PlannedState> {
    pool(plan, &vec![Holds::Anything; plan.queues.len()])
}

/// State 0 is the root. Behind it each queue has its own states, and one leads to those of its queue and of later ones.
fn pool(plan: &Plan, holds: &[Holds]) -> Vec<PlannedState> {
    let counts = holds.iter().enumerate().map(|(queue, holds)| match *holds {
        Holds::Anything => 1,
        Holds::AtMost(most) => most,
        Holds::Rounds => plan.queues[queue],
    });
    let mut firsts = vec![1];
    for count in counts {
        firsts.push(firsts[firsts.len() - 1] + count);
    }
    // Where a queue's first message leads.
    let entered = |queue: usize, message: usize| match holds[queue] {
        Holds::Anything | Holds::AtMost(_) => firsts[queue],
        Holds::Rounds => firsts[queue] + message - plan.messages_of(queue).start,
    };
    let entries = |queues: Range<usize>| -> BTreeMap<usize, usize> {
        let of_queue = |queue| plan.messages_of(queue).map(move |message| (message, entered(queue, message)));
        queues.flat_map(of_queue).collect()
    };
    let queues = holds.len();
    let mut pool = vec![PlannedState { is_final: true, arcs: entries(0..queues) }];
    for (queue, &holds) in holds.iter().enumerate() {
        for state in firsts[queue]..firsts[queue + 1] {
            let mut arcs = entries(queue + 1..queues);
            let next = if state + 1 < firsts[queue + 1] { state + 1 } else { firsts[queue] };
            let messages = plan.messages_of(queue);
            match holds {
                Holds::Anything => arcs.extend(messages.map(|message| (message, state))),
                Holds::AtMost(_) if next > state => arcs.extend(messages.map(|message| (message, next))),
                Holds::AtMost(_) => {}
                Holds::Rounds => arcs.extend([(messages.start + next - firsts[queue], next)]),
            }
            pool.push(PlannedState { is_final: true, arcs });
        }
    }
    pool
}

/// In some plans control states lose their root, but for the start, or states of the pool accept no longer, but for the
/// root.
fn take_away(random: &mut Random, plan: &mut Plan) {
    let start = plan.start();
    let without_root = [0, 0, 20, 50][random.below(4)];
    for control_state in 0..plan.roots.len() {
        if control_state != start && random.chance(without_root) {
            plan.roots[control_state] = None;
        }
    }
    let not_final = [0, 0, 0, 30][random.below(4)];
    for state in &mut plan.pool[1..] {
        state.is_final = !random.chance(not_final);
    }
}
