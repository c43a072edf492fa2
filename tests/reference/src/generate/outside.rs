//! Replays that end outside where a step leads to a control state whose diagram has no root, loses what waits, or reads it to
//! its end and does not accept it: with few messages waiting, with many, with full queues and with queues that lie across the
//! end of their room.

use std::collections::BTreeMap;

use super::plan::{Plan, PlannedState};
use super::replay::Generator;
use super::resume::resume;
use super::running::Style;
use super::traces::{Ending, Walk, Waves};
use crate::random::Random;
use crate::read::{read, POOL_STATES};
use crate::replay::QUEUE_ROOM;

/// What becomes of the diagram of some control states.
#[derive(Clone, Copy, Debug)]
enum Spoilt {
    NoRoot,
    /// A root without arcs.
    NoArcs,
    /// The same words are read, and none is accepted.
    NotFinal,
    /// No message of this queue is read.
    Lacks(usize),
    /// Messages of this queue go through states in a circle, one of which lacks an arc.
    Circle(usize),
}

impl Spoilt {
    /// With few messages a circle hardly matters.
    fn random(random: &mut Random, queues: usize, is_with_few: bool) -> Self {
        let queue = random.below(queues);
        match random.below(14) {
            0 | 1 => Spoilt::NoRoot,
            2 => Spoilt::NoArcs,
            3..=5 => Spoilt::NotFinal,
            6..=8 => Spoilt::Lacks(queue),
            _ if is_with_few => Spoilt::NotFinal,
            _ => Spoilt::Circle(queue),
        }
    }
}

const WITH_FEW: &str = "left with few messages";
/// More states than a queue of these plans has messages, and no divisor in common with as many.
const CIRCLES: [usize; 4] = [11, 23, 43, 61];

impl Generator {
    pub(super) fn left_far(&mut self) {
        for _ in 0..560 {
            self.left_with_few();
        }
        for _ in 0..110 {
            self.left_with("left with many messages", |generator, walk, queues| {
                for _ in 0..generator.random.between(1, 3) {
                    let (queue, level) = (generator.random.below(queues), generator.random.between(20, 400));
                    walk.fill(&mut generator.random, queue, level, 60);
                }
            });
        }
        for _ in 0..190 {
            self.left_with("left with full queues", |generator, walk, queues| {
                let first = generator.random.below(queues);
                for queue in [first, generator.random.below(queues)] {
                    walk.fill(&mut generator.random, queue, QUEUE_ROOM, 150);
                }
            });
        }
        for _ in 0..110 {
            self.left_with("left with queues across the end", |generator, walk, queues| {
                let (queue, high) = (generator.random.below(queues), generator.random.between(20, 300));
                let low = generator.random.below(high);
                let is_across = |front: usize, waiting: usize| front + waiting > QUEUE_ROOM;
                walk.ride_until(&mut generator.random, &mut Waves::new(queue, low, high), is_across);
            });
        }
    }

    pub(super) fn left_with_few(&mut self) {
        self.left_with(WITH_FEW, |generator, walk, _| {
            if generator.random.chance(30) {
                let steps = generator.random.below(30);
                walk.wander(&mut generator.random, steps);
            } else {
                let steps = generator.random.between(1, 4);
                walk.creep(&mut generator.random, steps);
            }
        });
    }

    /// A walk of some kind through a map that is spoilt in some control states, until a step leads outside.
    fn left_with(&mut self, kind: &str, go: impl Fn(&mut Self, &mut Walk, usize)) {
        let is_with_few = kind == WITH_FEW;
        let style = if is_with_few { Style::random(&mut self.random) } else { Style::filling(&mut self.random) };
        let (mut plan, _, _) = self.plan_of(Style { most_states: 3, is_wide: false, ..style });
        let spoilt = Spoilt::random(&mut self.random, plan.queues.len(), is_with_few);
        spoil(&mut self.random, &mut plan, spoilt);
        if self.resuming > 0 && self.random.chance(self.resuming) {
            resume(&mut self.random, &mut plan);
        }
        let file = plan.bytes();
        let tables = read(&file).expect("plans are valid");
        let mut walk = Walk::new(&tables);
        go(self, &mut walk, tables.queue_count);
        walk.wander_to_the_border(&mut self.random, 20);
        self.add_walk(kind, &file, walk, Ending::Leaves);
    }
}

/// Some control states but the start get a diagram of their own, or none.
fn spoil(random: &mut Random, plan: &mut Plan, spoilt: Spoilt) {
    let root = match spoilt {
        Spoilt::NoRoot => None,
        Spoilt::NoArcs => {
            plan.pool.push(PlannedState { is_final: random.chance(50), arcs: BTreeMap::new() });
            Some(plan.pool.len() - 1)
        }
        Spoilt::NotFinal => Some(copy(plan, |_, state| state.is_final = false)),
        Spoilt::Lacks(queue) => {
            let lacking = plan.messages_of(queue);
            Some(copy(plan, |_, state| state.arcs.retain(|message, _| !lacking.contains(message))))
        }
        Spoilt::Circle(queue) => Some(add_circle(random, plan, queue)),
    };
    let start = plan.start();
    let others: Vec<usize> = (0..plan.roots.len()).filter(|&control_state| control_state != start).collect();
    let least = random.pick(&others).copied();
    for control_state in others {
        if Some(control_state) == least || random.chance(30) {
            plan.roots[control_state] = root;
        }
    }
}

/// Adds a copy of all states, changed one by one, and returns that of state 0, which is the root of these plans. Where there
/// is no room for it, the root itself.
fn copy(plan: &mut Plan, change: impl Fn(usize, &mut PlannedState)) -> usize {
    let first = plan.pool.len();
    if 2 * first > POOL_STATES {
        return 0;
    }
    for index in 0..first {
        let mut state = plan.pool[index].clone();
        for target in state.arcs.values_mut() {
            *target += first;
        }
        change(index, &mut state);
        plan.pool.push(state);
    }
    first
}

/// A copy in which every message of a queue leads on in a circle of states that lacks one arc. Other messages lead from there to
/// where the root leads, if their queue is a later one.
fn add_circle(random: &mut Random, plan: &mut Plan, queue: usize) -> usize {
    let room = POOL_STATES.saturating_sub(2 * plan.pool.len());
    let fitting: Vec<usize> = CIRCLES.into_iter().filter(|&states| states <= room).collect();
    let Some(&states) = random.pick(&fitting) else { return 0 };
    let messages = plan.messages_of(queue);
    let circle = 2 * plan.pool.len();
    let root = copy(plan, |_, state| {
        for (message, target) in &mut state.arcs {
            if messages.contains(message) {
                *target = circle;
            }
        }
    });
    let later: BTreeMap<usize, usize> = plan.pool[root]
        .arcs
        .iter()
        .map(|(&message, &target)| (message, target))
        .filter(|(message, _)| *message >= messages.end)
        .collect();
    let lacking = (random.below(states), random.between(messages.start, messages.end - 1));
    for place in 0..states {
        let mut arcs = later.clone();
        let onward = messages.clone().filter(|&message| (place, message) != lacking);
        arcs.extend(onward.map(|message| (message, circle + (place + 1) % states)));
        plan.pool.push(PlannedState { is_final: true, arcs });
    }
    root
}
