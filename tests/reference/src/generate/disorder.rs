//! Pools out of queue order: in parts that no accepted word passes through, which change no set, or along a word that a root
//! accepts, so that the file is refused by 9.

use std::collections::{BTreeMap, BTreeSet};

use super::plan::{Plan, PlannedState};
use crate::order_features::PLACES;
use crate::random::Random;
use crate::read::{BAD_ENTRIES, POOL_STATES};

/// Where a part out of order does not matter, as in `order_features::PLACES`.
#[derive(Clone, Copy, Debug, PartialEq, Eq)]
pub enum Harmless {
    Unused,
    UnusedIntoUsed,
    DeadEnd,
    DeadCycle,
    IntoDeadEnd,
}

impl Harmless {
    pub const ALL: [Harmless; 5] =
        [Harmless::Unused, Harmless::UnusedIntoUsed, Harmless::DeadEnd, Harmless::DeadCycle, Harmless::IntoDeadEnd];

    /// What `places_out_of_order` calls it.
    pub fn place(self) -> &'static str {
        PLACES[self as usize]
    }
}

/// States that one part can add.
const MOST_ADDED: usize = 3;

/// Adds a part out of order that changes no set. False, and nothing added, where the plan has no place for it.
pub fn add_harmless(random: &mut Random, plan: &mut Plan, part: Harmless) -> bool {
    if plan.queues.len() < 2 || plan.pool.len() + MOST_ADDED > POOL_STATES {
        return false;
    }
    match part {
        Harmless::Unused => add_unused(random, plan),
        Harmless::UnusedIntoUsed => return add_unused_into_used(random, plan),
        Harmless::DeadEnd | Harmless::DeadCycle => {
            let ways: Vec<(usize, usize)> =
                reached(plan).into_iter().flat_map(|state| free_messages(plan, state)).collect();
            let Some(&(state, message)) = random.pick(&ways) else { return false };
            let first = if part == Harmless::DeadEnd { dead_end(random, plan) } else { dead_cycle(random, plan) };
            plan.pool[state].arcs.insert(message, first);
        }
        Harmless::IntoDeadEnd => return add_way_into_dead_end(random, plan),
    }
    true
}

/// Adds some parts, different or the same; at least one if the plan has two queues and a place for it.
pub fn add_some_harmless(random: &mut Random, plan: &mut Plan) {
    for _ in 0..random.between(1, 3) {
        let part = Harmless::ALL[random.below(Harmless::ALL.len())];
        if !add_harmless(random, plan, part) {
            add_harmless(random, plan, Harmless::Unused);
        }
    }
}

/// A message of a queue and one of an earlier queue.
fn later_and_earlier(random: &mut Random, plan: &Plan) -> (usize, usize) {
    let later = random.between(1, plan.queues.len() - 1);
    let earlier = random.below(later);
    (message_of(random, plan, later), message_of(random, plan, earlier))
}

fn message_of(random: &mut Random, plan: &Plan, queue: usize) -> usize {
    let messages = plan.messages_of(queue);
    random.between(messages.start, messages.end - 1)
}

fn add_state(plan: &mut Plan, is_final: bool, arcs: &[(usize, usize)]) -> usize {
    plan.pool.push(PlannedState { is_final, arcs: arcs.iter().copied().collect() });
    plan.pool.len() - 1
}

/// States that a root of the map or of the bad list leads to.
pub fn reached(plan: &Plan) -> BTreeSet<usize> {
    let mut open: Vec<usize> =
        plan.roots.iter().copied().flatten().chain(plan.bad.iter().map(|&(_, root)| root)).collect();
    let mut reached = BTreeSet::new();
    while let Some(state) = open.pop() {
        if reached.insert(state) {
            open.extend(plan.pool[state].arcs.values());
        }
    }
    reached
}

/// States that lead to a final state.
pub fn alive(plan: &Plan) -> BTreeSet<usize> {
    let mut alive = BTreeSet::new();
    loop {
        let leads = |state: &PlannedState| state.is_final || state.arcs.values().any(|target| alive.contains(target));
        let more: BTreeSet<usize> = (0..plan.pool.len()).filter(|&state| leads(&plan.pool[state])).collect();
        if more == alive {
            return alive;
        }
        alive = more;
    }
}

/// The state with each message that it has no arc for.
fn free_messages(plan: &Plan, state: usize) -> Vec<(usize, usize)> {
    let arcs = &plan.pool[state].arcs;
    (0..plan.message_sum()).filter(|message| !arcs.contains_key(message)).map(|message| (state, message)).collect()
}

/// Three states that no root leads to. What they accept is out of order, mostly.
fn add_unused(random: &mut Random, plan: &mut Plan) {
    let (later, earlier) = later_and_earlier(random, plan);
    let used = random.below(plan.pool.len());
    let end = add_state(plan, random.chance(80), &[]);
    let target = if random.chance(70) { end } else { used };
    let middle = add_state(plan, random.chance(30), &[(earlier, target)]);
    let first = add_state(plan, random.chance(50), &[(later, middle)]);
    if random.chance(30) {
        plan.pool[end].arcs.insert(later, first);
    }
}

/// An unused state that leads into a used one by a message of a later queue than some arc there.
fn add_unused_into_used(random: &mut Random, plan: &mut Plan) -> bool {
    let last = plan.queues.len() - 1;
    let earliest = |state: usize| plan.pool[state].arcs.keys().next().map(|&message| plan.queue_of(message));
    let used: Vec<(usize, usize)> =
        reached(plan).into_iter().filter_map(|state| Some((state, earliest(state)?))).collect();
    let used: Vec<(usize, usize)> = used.into_iter().filter(|&(_, queue)| queue < last).collect();
    let Some(&(state, queue)) = random.pick(&used) else { return false };
    let queue = random.between(queue + 1, last);
    let later = message_of(random, plan, queue);
    add_state(plan, random.chance(50), &[(later, state)]);
    true
}

/// States that lead to no final state, in the wrong order. Returns the first.
fn dead_end(random: &mut Random, plan: &mut Plan) -> usize {
    let (later, earlier) = later_and_earlier(random, plan);
    let end = if random.chance(50) { Some(add_state(plan, false, &[])) } else { None };
    let middle = add_state(plan, false, &[]);
    plan.pool[middle].arcs.insert(earlier, end.unwrap_or(middle));
    add_state(plan, false, &[(later, middle)])
}

/// The same in a cycle of one or two states.
fn dead_cycle(random: &mut Random, plan: &mut Plan) -> usize {
    let (later, earlier) = later_and_earlier(random, plan);
    let first = add_state(plan, false, &[]);
    let second = if random.chance(50) { add_state(plan, false, &[]) } else { first };
    plan.pool[first].arcs.insert(later, second);
    plan.pool[second].arcs.insert(earlier, first);
    first
}

/// A dead end behind a state that is not one, by a message of an earlier queue than a message on the way there.
fn add_way_into_dead_end(random: &mut Random, plan: &mut Plan) -> bool {
    let (reached, alive) = (reached(plan), alive(plan));
    let mut ways = vec![];
    for &source in &reached {
        for (&message, &state) in plan.pool[source].arcs.iter().filter(|(_, state)| alive.contains(state)) {
            let queue = plan.queue_of(message);
            let free = free_messages(plan, state);
            ways.extend(free.into_iter().filter(|&(_, message)| plan.queue_of(message) < queue));
        }
    }
    let Some(&(state, earlier)) = random.pick(&ways) else { return false };
    let end = add_state(plan, false, &[]);
    if random.chance(50) {
        let message = random.below(plan.message_sum());
        plan.pool[end].arcs.insert(message, end);
    }
    plan.pool[state].arcs.insert(earlier, end);
    true
}

/// How a word out of order comes to be accepted.
#[derive(Clone, Copy, Debug, PartialEq, Eq)]
pub enum Fault {
    Root,
    /// The root accepts the empty word too.
    FinalRoot,
    BadRoot,
    /// The entry's control state has no root.
    RootlessBadRoot,
    /// Behind a state that is used already.
    BehindUsed,
    /// With states of a middle queue and dead ends between the two messages, and more behind them.
    FarApart,
    /// Through a state that a word in order leads to before.
    TwoWays,
}

impl Fault {
    pub const ALL: [Fault; 7] = [
        Fault::Root,
        Fault::FinalRoot,
        Fault::BadRoot,
        Fault::RootlessBadRoot,
        Fault::BehindUsed,
        Fault::FarApart,
        Fault::TwoWays,
    ];

    pub fn name(self) -> &'static str {
        match self {
            Fault::Root => "through a root",
            Fault::FinalRoot => "through a final root",
            Fault::BadRoot => "through a bad root",
            Fault::RootlessBadRoot => "through a bad root, its control state has none",
            Fault::BehindUsed => "behind a used state",
            Fault::FarApart => "far apart",
            Fault::TwoWays => "through a state that is reached in two ways",
        }
    }
}

/// States that read one word. Without the mark of the last one, or without a root, they accept nothing that counts.
pub struct Chain {
    pub first: usize,
    pub last: usize,
}

/// Adds a word out of order to what the plan accepts. The plan has two queues, and a used state that lacks an arc.
pub fn add_fault(random: &mut Random, plan: &mut Plan, fault: Fault) -> Chain {
    let chain = match fault {
        Fault::FarApart => far_apart(random, plan),
        Fault::TwoWays => two_ways(random, plan),
        _ => {
            let word = word_out_of_order(random, plan, 2);
            add_chain(random, plan, &word, 0)
        }
    };
    let control_state = random.below(plan.control_states());
    match fault {
        Fault::Root | Fault::TwoWays => plan.roots[control_state] = Some(chain.first),
        Fault::FinalRoot => {
            plan.pool[chain.first].is_final = true;
            plan.roots[control_state] = Some(chain.first);
        }
        Fault::BadRoot => {
            plan.roots[control_state].get_or_insert(0);
            add_bad_root(random, plan, control_state, chain.first);
        }
        Fault::RootlessBadRoot => {
            plan.roots[control_state] = None;
            add_bad_root(random, plan, control_state, chain.first);
        }
        Fault::BehindUsed => {
            let used: Vec<(usize, usize)> =
                reached(plan).into_iter().flat_map(|state| free_messages(plan, state)).collect();
            let &(state, message) = random.pick(&used).expect("a used state lacks an arc");
            plan.pool[state].arcs.insert(message, chain.first);
        }
        Fault::FarApart if random.chance(50) => plan.roots[control_state] = Some(chain.first),
        Fault::FarApart => add_bad_root(random, plan, control_state, chain.first),
    }
    chain
}

fn add_bad_root(random: &mut Random, plan: &mut Plan, control_state: usize, root: usize) {
    plan.bad.truncate(BAD_ENTRIES - 1);
    let at = random.between(0, plan.bad.len());
    plan.bad.insert(at, (control_state, root));
}

/// In order up to some message, and in order from the next one on, which is of an earlier queue.
fn word_out_of_order(random: &mut Random, plan: &Plan, longest_part: usize) -> Vec<usize> {
    let (later, earlier) = later_and_earlier(random, plan);
    let mut part = |first: usize, last: usize| {
        let queues: Vec<usize> = (0..random.between(0, longest_part)).map(|_| random.between(first, last)).collect();
        let mut part: Vec<usize> = queues.into_iter().map(|queue| message_of(random, plan, queue)).collect();
        part.sort_by_key(|&message| plan.queue_of(message));
        part
    };
    let last = plan.queues.len() - 1;
    let x = part(0, plan.queue_of(later));
    let y = part(plan.queue_of(later), last);
    let z = part(plan.queue_of(earlier), last);
    [&x[..], &[later], &y, &[earlier], &z].concat()
}

/// States that read a word one after the other; the last one is final. So many of a hundred have an arc to a dead end too,
/// if they lack one.
pub fn add_chain(random: &mut Random, plan: &mut Plan, word: &[usize], dead_ends: usize) -> Chain {
    let dead = (dead_ends > 0).then(|| dead_cycle(random, plan));
    let first = plan.pool.len();
    for (place, &message) in word.iter().enumerate() {
        let mut arcs = BTreeMap::from([(message, first + place + 1)]);
        if let Some(dead) = dead.filter(|_| random.chance(dead_ends)) {
            arcs.entry(random.below(plan.message_sum())).or_insert(dead);
        }
        plan.pool.push(PlannedState { is_final: false, arcs });
    }
    Chain { first, last: add_state(plan, true, &[]) }
}

/// Of three queues or more the messages between are of a middle one.
fn far_apart(random: &mut Random, plan: &mut Plan) -> Chain {
    let last = plan.queues.len() - 1;
    let (first, middle) = (0, last.div_ceil(2));
    let mut some =
        |queue: usize| -> Vec<usize> { (0..random.between(2, 5)).map(|_| message_of(random, plan, queue)).collect() };
    let word = [some(first), some(last), some(middle), some(first), some(last)].concat();
    add_chain(random, plan, &word, 60)
}

/// A root, a state that a message of an early and one of a later queue lead to, and a way on by an early one.
fn two_ways(random: &mut Random, plan: &mut Plan) -> Chain {
    let (later, earlier) = later_and_earlier(random, plan);
    let queue = random.between(0, plan.queue_of(earlier));
    let before = message_of(random, plan, queue);
    let last = add_state(plan, true, &[]);
    let middle = add_state(plan, random.chance(50), &[(earlier, last)]);
    let first = add_state(plan, random.chance(50), &[(before, middle), (later, middle)]);
    Chain { first, last }
}

/// A word in order in which messages of one queue are side by side, the higher first.
pub fn word_of_equal_queues(random: &mut Random, plan: &Plan) -> Vec<usize> {
    (0..plan.queues.len())
        .flat_map(|queue| {
            let messages = plan.messages_of(queue);
            let again = message_of(random, plan, queue);
            messages.rev().chain([again]).collect::<Vec<usize>>()
        })
        .collect()
}
