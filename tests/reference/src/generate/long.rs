//! Plans with long words. A random pool loses a random long word soon, so these words go along the arcs of a pool, or
//! the pool is made for the word; where a diagram is to lose the word, the place is chosen.

use std::collections::BTreeMap;

use super::plan::{
    fresh_plan, random_direction, random_long_length, random_transition, Action, Direction, Plan, PlannedState,
    PlannedTransition, Shape,
};
use crate::random::Random;

/// A random plan in which some transitions have long words.
pub fn along_arcs(random: &mut Random, shape: &Shape) -> Plan {
    let mut plan = fresh_plan(random, shape);
    for _ in 0..random.between(1, 3) {
        let length = random_long_length(random);
        let transition = transition_along_arcs(random, &plan, length);
        let at = random.between(0, plan.transitions.len());
        plan.transitions.insert(at, transition);
    }
    plan
}

/// A transition with a word of this length that some diagram reads, or reads in part.
pub fn transition_along_arcs(random: &mut Random, plan: &Plan, length: usize) -> PlannedTransition {
    let PlannedTransition { machine, from, to, .. } = random_transition(random, plan);
    let direction = random_direction(random);
    let queue = random.below(plan.queues.len());
    let weight: usize = plan.states[machine + 1..].iter().product();
    // The reader is the target's diagram for a send, the source's for a receive.
    let (state, queues_before) = if direction == Direction::Send { (to, queue + 1) } else { (from, queue) };
    let roots: Vec<usize> = (0..plan.control_states())
        .filter(|control_state| control_state / weight % plan.states[machine] == state)
        .filter_map(|control_state| plan.roots[control_state])
        .collect();
    let mut reader = random.pick(&roots).copied();
    for _ in 0..random.below(3) {
        let arcs = reader.map_or(vec![], |state| arcs_of_queues(plan, state, queues_before));
        reader = random.pick(&arcs).map_or(reader, |&(_, target)| Some(target));
    }
    let lost = (length > 0 && random.chance(30)).then(|| random.below(length));
    let word = word_along_arcs(random, plan, queue, reader, length, lost);
    PlannedTransition { machine, from, to, action: Some(Action { direction, queue, word }) }
}

/// Arcs of a state for messages of the first queues.
fn arcs_of_queues(plan: &Plan, state: usize, queues: usize) -> Vec<(usize, usize)> {
    let arcs = plan.pool[state].arcs.iter().map(|(&message, &target)| (message, target));
    arcs.filter(|&(message, _)| plan.queue_of(message) < queues).collect()
}

/// A word of a queue along the arcs from a state. At the place where it is to be lost it has a message without an arc,
/// and once no arc goes on, anything.
fn word_along_arcs(
    random: &mut Random,
    plan: &Plan,
    queue: usize,
    from: Option<usize>,
    length: usize,
    lost: Option<usize>,
) -> Vec<usize> {
    let mut reader = from;
    let messages: Vec<usize> = plan.messages_of(queue).collect();
    let mut word = Vec::new();
    for place in 0..length {
        let has_arc = |message: &usize| reader.is_some_and(|state| plan.pool[state].arcs.contains_key(message));
        let goes_on = lost != Some(place);
        let wanted: Vec<usize> = messages.iter().copied().filter(|message| has_arc(message) == goes_on).collect();
        let message = *random.pick(&wanted).or_else(|| random.pick(&messages)).expect("a queue has messages");
        reader = reader.and_then(|state| plan.pool[state].arcs.get(&message).copied());
        word.push(message);
    }
    word
}

/// Contents with a word in them and without it: what is before the word, the word, what is behind it.
struct Parts {
    head: Vec<usize>,
    word: Vec<usize>,
    tail: Vec<usize>,
}

/// A step from control state 1 to 2 that takes one contents to another, with a diagram for each of the two; in some
/// plans also the step back. Control state 0 is the start and holds no messages.
pub fn chained(random: &mut Random) -> Plan {
    let direction = random_direction(random);
    let length = random_long_length(random);
    let mut plan = without_pool(random);
    // Of three queues mostly the middle one.
    let queue = if random.chance(60) { plan.queues.len() / 2 } else { random.below(plan.queues.len()) };
    let parts = random_parts(random, &plan, direction, queue, length);
    let (with_word, without_word) = add_chains(random, &mut plan, &parts);
    let (source, target, back) = match direction {
        Direction::Send => (without_word, with_word, Direction::Receive),
        Direction::Receive => (with_word, without_word, Direction::Send),
    };
    plan.roots = vec![Some(0), Some(source), Some(target)];
    let machine = plan.states.iter().position(|&states| states == 3).expect("one machine has three states");
    let step = |from, to, direction| {
        let action = Action { direction, queue, word: parts.word.clone() };
        PlannedTransition { machine, from, to, action: Some(action) }
    };
    plan.transitions.push(step(1, 2, direction));
    if random.chance(50) {
        plan.transitions.push(step(2, 1, back));
    }
    if random.chance(30) {
        let at = random.between(0, plan.transitions.len());
        let other = random_transition(random, &plan);
        plan.transitions.insert(at, other);
    }
    spoil(random, &mut plan, with_word + parts.head.len(), &parts.word);
    add_bad_entries(random, &mut plan);
    plan
}

fn without_pool(random: &mut Random) -> Plan {
    let states = [vec![3], vec![3], vec![3, 1], vec![1, 3]][random.below(4)].clone();
    Plan {
        starts: vec![0; states.len()],
        states,
        queues: (0..random.between(1, 4).min(3)).map(|_| random.between(1, 3)).collect(),
        starting: vec![],
        transitions: vec![],
        pool: vec![PlannedState { is_final: true, arcs: BTreeMap::new() }],
        roots: vec![],
        bad: vec![],
    }
}

/// A send puts its word behind what waits in its queue, a receive takes it from before that.
fn random_parts(random: &mut Random, plan: &Plan, direction: Direction, queue: usize, length: usize) -> Parts {
    let mut of_queues = |queues: std::ops::Range<usize>, length: usize| {
        let messages: Vec<usize> = queues.flat_map(|queue| plan.messages_of(queue)).collect();
        let mut word: Vec<usize> = (0..length).filter_map(|_| random.pick(&messages).copied()).collect();
        word.sort_by_key(|&message| plan.queue_of(message));
        word
    };
    let word = of_queues(queue..queue + 1, length);
    let sides = [of_queues(0..queue, 2), of_queues(queue..queue + 1, 2), of_queues(queue + 1..plan.queues.len(), 2)];
    let [earlier, waiting, later] = sides.map(|mut side| {
        side.truncate(random.below(3));
        side
    });
    match direction {
        Direction::Send => Parts { head: [earlier, waiting].concat(), word, tail: later },
        Direction::Receive => Parts { head: earlier, word, tail: [waiting, later].concat() },
    }
}

/// Adds a chain of states that reads the contents with the word, and one that reads them without it and joins the first
/// behind the word. Returns the first state of each.
fn add_chains(random: &mut Random, plan: &mut Plan, parts: &Parts) -> (usize, usize) {
    let with_word = plan.pool.len();
    let contents = [&parts.head[..], &parts.word, &parts.tail].concat();
    // Other states of the chains accept too in some plans, and in a few the last one does not.
    let finals = [0, 0, 30, 100][random.below(4)];
    for (index, &message) in contents.iter().enumerate() {
        let arcs = BTreeMap::from([(message, with_word + index + 1)]);
        plan.pool.push(PlannedState { is_final: random.chance(finals), arcs });
    }
    plan.pool.push(PlannedState { is_final: random.chance(80), arcs: BTreeMap::new() });
    let behind_word = with_word + parts.head.len() + parts.word.len();
    let first = plan.pool.len();
    for (index, &message) in parts.head.iter().enumerate() {
        let next = if index + 1 == parts.head.len() { behind_word } else { first + index + 1 };
        plan.pool.push(PlannedState { is_final: random.chance(finals), arcs: BTreeMap::from([(message, next)]) });
    }
    (with_word, if parts.head.is_empty() { behind_word } else { first })
}

/// In some plans the word is lost on its way, or control state 2 has another set, or the start is outside.
fn spoil(random: &mut Random, plan: &mut Plan, word_begins: usize, word: &[usize]) {
    match random.below(10) {
        0..=2 => {
            let place = random.below(word.len());
            plan.pool[word_begins + place].arcs.remove(&word[place]);
        }
        3 | 4 => plan.roots[2] = Some(random.below(plan.pool.len())),
        5 => plan.roots[2] = None,
        6 => plan.pool[0].is_final = false,
        _ => {}
    }
}

/// Entries against the sets of both control states, or against anything.
fn add_bad_entries(random: &mut Random, plan: &mut Plan) {
    if random.chance(50) {
        let control_state = random.between(1, 2);
        let own = plan.roots[control_state].filter(|_| random.chance(70));
        let root = own.unwrap_or_else(|| random.below(plan.pool.len()));
        plan.bad.push((control_state, root));
    }
}
