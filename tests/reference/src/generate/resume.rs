//! Plans that resume: something waits in their queues at the start.

use super::plan::Plan;
use crate::random::Random;
use crate::read::STARTING;

/// Lets something wait at the start: mostly what the diagram there accepts, or that of another control state, which is the start
/// then; else anything.
pub fn resume(random: &mut Random, plan: &mut Plan) {
    if random.chance(75) {
        let others = [random.below(plan.roots.len()), random.below(plan.roots.len())];
        for control_state in [plan.start(), others[0], others[1]] {
            if let Some(word) = accepted_word(random, plan, control_state) {
                start_in(plan, control_state);
                plan.starting = by_queue(plan, &word);
                return;
            }
        }
    }
    plan.starting = random_starting(random, plan);
}

/// Some messages, as many of each queue as can wait there, that the diagram of a control state accepts. None if none were found.
pub fn accepted_word(random: &mut Random, plan: &Plan, control_state: usize) -> Option<Vec<usize>> {
    let root = plan.roots[control_state]?;
    (0..8).find_map(|_| {
        let mut word = vec![];
        let (mut state, stops) = (root, random.between(10, 60));
        for _ in 0..STARTING * plan.queues.len() {
            let arcs: Vec<(usize, usize)> = arcs_onward(plan, state, &word);
            let Some(&(message, target)) = random.pick(&arcs) else { break };
            word.push(message);
            state = target;
            if plan.pool[state].is_final && random.chance(stops) {
                break;
            }
        }
        (!word.is_empty() && plan.pool[state].is_final).then_some(word)
    })
}

/// Arcs for messages that can wait behind a word.
pub fn arcs_onward(plan: &Plan, state: usize, word: &[usize]) -> Vec<(usize, usize)> {
    let last = word.last().map_or(0, |&message| plan.queue_of(message));
    let waiting = |queue: usize| word.iter().filter(|&&message| plan.queue_of(message) == queue).count();
    let can_wait = |message: usize| plan.queue_of(message) >= last && waiting(plan.queue_of(message)) < STARTING;
    let arcs = plan.pool[state].arcs.iter().map(|(&message, &target)| (message, target));
    arcs.filter(|&(message, _)| can_wait(message)).collect()
}

/// A word in queue order, queue by queue.
pub fn by_queue(plan: &Plan, word: &[usize]) -> Vec<Vec<usize>> {
    let of_queue = |queue| word.iter().copied().filter(|&message| plan.queue_of(message) == queue).collect();
    (0..plan.queues.len()).map(of_queue).collect()
}

fn start_in(plan: &mut Plan, control_state: usize) {
    let mut rest = control_state;
    for (start, states) in plan.starts.iter_mut().zip(&plan.states).rev() {
        *start = rest % states;
        rest /= states;
    }
}

/// Any messages, in one queue at least.
pub fn random_starting(random: &mut Random, plan: &Plan) -> Vec<Vec<usize>> {
    let queues = plan.queues.len();
    let mut lengths: Vec<usize> = (0..queues).map(|_| random_length(random)).collect();
    if lengths.iter().all(|&length| length == 0) {
        lengths[random.below(queues)] = random.between(1, STARTING);
    }
    (0..queues).map(|queue| messages_of(random, plan, queue, lengths[queue])).collect()
}

/// None, a few, or as many as can wait.
fn random_length(random: &mut Random) -> usize {
    match random.below(6) {
        0 | 1 => 0,
        2 => STARTING,
        3 => random.between(1, STARTING),
        _ => random.between(1, 3),
    }
}

/// So many messages of a queue.
pub fn messages_of(random: &mut Random, plan: &Plan, queue: usize, length: usize) -> Vec<usize> {
    let messages = plan.messages_of(queue);
    (0..length).map(|_| random.between(messages.start, messages.end - 1)).collect()
}
