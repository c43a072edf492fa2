//! Plans with a step that leaves, made for where the target's diagram loses the contents after it, or that it reads them to
//! their end and does not accept them; and contents of hundreds and thousands of messages, by circles that meet late.

use std::collections::BTreeMap;
use std::ops::Range;

use super::plan::{random_long_length, random_transition, Action, Direction, Plan, PlannedState, PlannedTransition};
use crate::random::Random;

/// How the target's diagram fares with the contents after the step.
#[derive(Clone, Copy, Debug, PartialEq, Eq)]
enum Fate {
    NoRoot,
    /// At this place there is no arc.
    Lost(usize),
    ToItsEnd,
}

/// One machine that steps from 1 to 2, or stays in 1, beside none or another one; at one control state before the step there
/// is a diagram, and at the one after it another. The start holds no messages.
struct Scene {
    plan: Plan,
    machine: usize,
    source: usize,
    target: usize,
}

impl Scene {
    fn new(random: &mut Random, queues: Vec<usize>, stays: bool) -> Self {
        let (states, machine) = match random.below(5) {
            0 | 1 => (vec![3], 0),
            2 => (vec![3, random.between(1, 3)], 0),
            _ => (vec![random.between(1, 3), 3], 1),
        };
        let other = states.get(1 - machine).map(|&states| random.below(states));
        let control_state = |moving: usize| match (other, machine) {
            (None, _) => moving,
            (Some(other), 0) => moving * states[1] + other,
            (Some(other), _) => other * 3 + moving,
        };
        let (source, target) = (control_state(1), control_state(if stays { 1 } else { 2 }));
        let plan = Plan {
            starts: vec![0; states.len()],
            roots: vec![None; states.iter().product()],
            states,
            queues,
            starting: vec![],
            transitions: vec![],
            pool: vec![PlannedState { is_final: true, arcs: BTreeMap::new() }],
            bad: vec![],
        };
        let mut scene = Scene { plan, machine, source, target };
        scene.plan.roots[0] = Some(0);
        scene
    }

    fn add_step(&mut self, action: Option<Action>) {
        let to = if self.source == self.target { 1 } else { 2 };
        self.plan.transitions.push(PlannedTransition { machine: self.machine, from: 1, to, action });
    }

    /// Adds states that read a word one after the other, and returns the first. The last one is the one given.
    fn add_chain(&mut self, word: &[usize], last: usize) -> usize {
        let first = self.plan.pool.len();
        for (place, &message) in word.iter().enumerate() {
            let next = if place + 1 == word.len() { last } else { first + place + 1 };
            self.plan.pool.push(PlannedState { is_final: false, arcs: BTreeMap::from([(message, next)]) });
        }
        if word.is_empty() {
            last
        } else {
            first
        }
    }

    fn add_state(&mut self, is_final: bool) -> usize {
        self.plan.pool.push(PlannedState { is_final, arcs: BTreeMap::new() });
        self.plan.pool.len() - 1
    }

    /// Adds states in a circle for one message, and returns the first.
    fn add_circle(&mut self, message: usize, states: usize) -> usize {
        let first = self.plan.pool.len();
        for place in 0..states {
            let arcs = BTreeMap::from([(message, first + (place + 1) % states)]);
            self.plan.pool.push(PlannedState { is_final: false, arcs });
        }
        first
    }
}

fn word_of(random: &mut Random, plan: &Plan, queues: Range<usize>, length: usize) -> Vec<usize> {
    let messages: Vec<usize> = queues.flat_map(|queue| plan.messages_of(queue)).collect();
    let mut word: Vec<usize> = (0..length).filter_map(|_| random.pick(&messages).copied()).collect();
    word.sort_by_key(|&message| plan.queue_of(message));
    word
}

fn random_action(random: &mut Random, plan: &Plan) -> Option<Action> {
    let direction = match random.below(4) {
        0 => return None,
        1 => Direction::Receive,
        _ => Direction::Send,
    };
    let queue = random.below(plan.queues.len());
    let length = match random.below(8) {
        0 => 0,
        1 | 2 => 1,
        3 => random_long_length(random),
        _ => random.between(2, 4),
    };
    Some(Action { direction, queue, word: word_of(random, plan, queue..queue + 1, length) })
}

/// A step that leaves with a few messages.
pub fn lost(random: &mut Random) -> Plan {
    let queues = (0..random.between(1, 3)).map(|_| random.between(1, 3)).collect();
    let stays = random.chance(15);
    let mut scene = Scene::new(random, queues, stays);
    let action = random_action(random, &scene.plan);
    let all = scene.plan.queues.len();
    let queue = action.as_ref().map_or(random.below(all), |action| action.queue);
    let mut part = |queues: Range<usize>| {
        let length = random.below(4);
        word_of(random, &scene.plan, queues, length)
    };
    let [earlier, own, later] = [part(0..queue), part(queue..queue + 1), part(queue + 1..all)];
    let without_word = [&earlier[..], &own, &later].concat();
    let (before, after) = match &action {
        None => (without_word.clone(), without_word),
        Some(Action { direction: Direction::Send, word, .. }) => {
            (without_word, [&earlier[..], &own, word, &later].concat())
        }
        Some(Action { direction: Direction::Receive, word, .. }) => {
            ([&earlier[..], word, &own, &later].concat(), without_word)
        }
    };
    scene.add_step(action);
    let accepted = scene.add_state(true);
    let source = scene.add_chain(&before, accepted);
    scene.plan.roots[scene.source] = Some(source);
    if !stays {
        let fate = random_fate(random, after.len());
        add_target(random, &mut scene, &after, fate);
    }
    if random.chance(15) {
        let other = random_transition(random, &scene.plan);
        let at = random.below(2);
        scene.plan.transitions.insert(at, other);
    }
    scene.plan
}

fn random_fate(random: &mut Random, length: usize) -> Fate {
    match random.below(12) {
        0 => Fate::NoRoot,
        1 | 2 => Fate::ToItsEnd,
        _ if length == 0 => Fate::ToItsEnd,
        3 => Fate::Lost(0),
        4 => Fate::Lost(length - 1),
        _ => Fate::Lost(random.below(length)),
    }
}

/// The target's diagram. States on the way may accept, and may have arcs that leave out some messages.
fn add_target(random: &mut Random, scene: &mut Scene, after: &[usize], fate: Fate) {
    if fate == Fate::NoRoot {
        return;
    }
    let end = scene.add_state(fate != Fate::ToItsEnd);
    let root = scene.add_chain(after, end);
    scene.plan.roots[scene.target] = Some(root);
    let finals = [0, 50, 100][random.below(3)];
    let skipping = [0, 30][random.below(2)];
    let state_at = |place: usize| if place < after.len() { root + place } else { end };
    for (place, &message) in after.iter().enumerate() {
        let lost = fate == Fate::Lost(place);
        let state = &mut scene.plan.pool[root + place];
        state.is_final = random.chance(finals);
        if lost {
            state.arcs.remove(&message);
        }
        if random.chance(if lost { 60 } else { skipping }) {
            let later: Vec<usize> = (place + 1..after.len()).filter(|&later| after[later] != message).collect();
            if let Some(&later) = random.pick(&later) {
                state.arcs.insert(after[later], state_at(later + 1));
            }
        }
    }
}

/// Messages of one kind in a row that two circles of these lengths tell apart from fewer.
struct Circles {
    source: usize,
    target: usize,
    messages: usize,
}

impl Circles {
    /// Neighbours have no divisor in common, so that every number below their product is told from the others.
    fn random(random: &mut Random, messages: Range<usize>) -> Self {
        let messages = random.between(messages.start, messages.end - 1);
        let lesser = (2..).find(|lesser| lesser * (lesser + 1) > messages).expect("numbers go on");
        let (source, target) = if random.chance(50) { (lesser, lesser + 1) } else { (lesser + 1, lesser) };
        Circles { source, target, messages }
    }
}

/// What stands before the many messages and behind them, before the step and after it.
struct Sides {
    before: (Vec<usize>, Vec<usize>),
    behind: (Vec<usize>, Vec<usize>),
}

/// A step that leaves with so many messages of one kind, and a few others.
pub fn lost_late(random: &mut Random, messages: Range<usize>) -> Plan {
    loop {
        let queues: Vec<usize> = (0..[1, 2, 3, 3, 3][random.below(5)]).map(|_| random.between(1, 3)).collect();
        let mut scene = Scene::new(random, queues, false);
        let circled = if random.chance(50) { 0 } else { random.below(scene.plan.message_sum()) };
        let action = random_action(random, &scene.plan);
        let sides = random_sides(random, &scene.plan, circled, action.as_ref());
        let begins_alike = |word: &[usize]| word.first() == Some(&circled);
        if begins_alike(&sides.behind.0) || begins_alike(&sides.behind.1) {
            continue;
        }
        scene.add_step(action);
        let circles = Circles::random(random, messages);
        add_source_circle(&mut scene, circled, &circles, &sides);
        add_target_circle(random, &mut scene, circled, &circles, &sides);
        return scene.plan;
    }
}

fn random_sides(random: &mut Random, plan: &Plan, circled: usize, action: Option<&Action>) -> Sides {
    let (many, all) = (plan.queue_of(circled), plan.queues.len());
    let mut part = |queues: Range<usize>| {
        let length = random.below(4);
        word_of(random, plan, queues, length)
    };
    let Some(Action { direction, queue, word }) = action else {
        let (head, tail) = (part(0..many + 1), part(many..all));
        return Sides { before: (head.clone(), head), behind: (tail.clone(), tail) };
    };
    let queue = *queue;
    let is_before = if *direction == Direction::Send { queue < many } else { queue <= many };
    let (without, with) = if is_before {
        // A send puts its word behind what waits in its queue, a receive takes it from before that.
        let head = part(0..if *direction == Direction::Send { queue + 1 } else { queue });
        let tail = part(many..all);
        ((head.clone(), tail.clone()), ([&head[..], word].concat(), tail))
    } else {
        let (head, between) = (part(0..many + 1), part(many..queue));
        let (waiting, tail) = (part(queue..queue + 1), part(queue + 1..all));
        let joined = match direction {
            Direction::Send => [&between[..], &waiting, word, &tail].concat(),
            Direction::Receive => [&between[..], word, &waiting, &tail].concat(),
        };
        ((head.clone(), [between, waiting, tail].concat()), (head, joined))
    };
    let (source, target) = if *direction == Direction::Send { (without, with) } else { (with, without) };
    Sides { before: (source.0, target.0), behind: (source.1, target.1) }
}

/// Out of the circle it goes at one place only.
fn add_source_circle(scene: &mut Scene, circled: usize, circles: &Circles, sides: &Sides) {
    let circle = scene.add_circle(circled, circles.source);
    let out = circle + circles.messages % circles.source;
    match sides.behind.0.split_first() {
        None => scene.plan.pool[out].is_final = true,
        Some((&first, rest)) => {
            let accepted = scene.add_state(true);
            let next = scene.add_chain(rest, accepted);
            scene.plan.pool[out].arcs.insert(first, next);
        }
    }
    let root = scene.add_chain(&sides.before.0, circle);
    scene.plan.roots[scene.source] = Some(root);
}

/// Everything is accepted, but what is read from one place of the circle is lost, or not accepted at its end.
fn add_target_circle(random: &mut Random, scene: &mut Scene, circled: usize, circles: &Circles, sides: &Sides) {
    let circle = scene.add_circle(circled, circles.target);
    let faulty = circle + circles.messages % circles.target;
    let word = &sides.behind.1;
    let fate = match random.below(word.len() + 2) {
        place if place < word.len() => Fate::Lost(place),
        _ => Fate::ToItsEnd,
    };
    let good = scene.add_state(true);
    let bad = scene.add_state(false);
    for state in circle..circle + circles.target {
        scene.plan.pool[state].is_final = word.is_empty() && state != faulty;
    }
    if let Some((&first, rest)) = word.split_first() {
        let accepting = scene.add_chain(rest, good);
        for state in (circle..circle + circles.target).filter(|&state| state != faulty) {
            scene.plan.pool[state].arcs.insert(first, accepting);
        }
        match fate {
            Fate::Lost(0) => {}
            Fate::Lost(place) => {
                let next = scene.add_chain(&rest[..place - 1], bad);
                scene.plan.pool[faulty].arcs.insert(first, next);
            }
            _ => {
                let next = scene.add_chain(rest, bad);
                scene.plan.pool[faulty].arcs.insert(first, next);
            }
        }
    }
    let root = scene.add_chain(&sides.before.1, circle);
    scene.plan.roots[scene.target] = Some(root);
}

/// A step that leaves with many messages, of which the target takes less than ten.
pub fn lost_soon(random: &mut Random) -> Plan {
    let mut scene = Scene::new(random, vec![2, 1], false);
    let taken = random.below(10);
    let many = random.between(100, 108);
    let last_queue = random.below(3);
    let word = random.between(0, 2);
    let action = Action { direction: Direction::Send, queue: 0, word: vec![1; word] };
    scene.add_step(Some(action));
    let accepted = scene.add_state(true);
    let source = scene.add_chain(&[vec![0; many], vec![2; last_queue]].concat(), accepted);
    scene.plan.roots[scene.source] = Some(source);
    let end = scene.add_state(random.chance(50));
    let target = scene.add_chain(&vec![0; taken], end);
    scene.plan.roots[scene.target] = Some(target);
    scene.plan
}
