//! The verdict by a breadth-first walk over pairs in scratch tables: for large files, and as the measure of speed.
//!
//! A node is a side (before or after the step), the source's state and the target's state or nowhere. Its code is
//! `side * 16256 + source * 128 + target`. Letters are the messages and, above them all, the step itself, so the words
//! that lead to the nodes after the step have the order of the contents shown.

use std::ops::Range;

use crate::read::{read, Kind, Tables, Transition, MESSAGES, POOL_STATES};
use crate::verdict::{Reply, Verdict};

const NOWHERE: usize = POOL_STATES;
const STRIDE: usize = POOL_STATES + 1;
const SIDE: usize = POOL_STATES * STRIDE;
/// Nodes of both sides, and so the entries that each table needs.
pub const NODES: usize = 2 * SIDE;

/// All 0 between walks.
pub struct Scratch {
    /// For a node found, 1 plus its parent's place in the queue; a root has 1. 0 for a node not found.
    seen: Vec<u16>,
    /// The nodes in the order in which they were found.
    queue: Vec<u16>,
}

impl Default for Scratch {
    fn default() -> Self {
        Scratch { seen: vec![0; NODES], queue: vec![0; NODES] }
    }
}

impl Scratch {
    pub fn is_clear(&self) -> bool {
        self.seen.iter().chain(&self.queue).all(|&entry| entry == 0)
    }
}

pub fn check(file: &[u8], scratch: &mut Scratch) -> Reply {
    let tables = read(file)?;
    Ok(check_tables(&tables, scratch))
}

pub fn check_tables(tables: &Tables, scratch: &mut Scratch) -> Verdict {
    if !starts_inside(tables) {
        return Verdict::Outside;
    }
    let mut pairs = 0;
    for control_state in 0..tables.control_state_count {
        for (transition, step) in tables.used_transitions().iter().enumerate() {
            let Some(item) = Item::step(tables, control_state, step) else { continue };
            match item.walk(scratch) {
                Outcome::Holds { pairs: visited } => pairs += visited as u64,
                Outcome::Fails { contents } => {
                    let far = item.far_after(&contents);
                    return Verdict::Leaves { control_state, transition, contents, far };
                }
            }
        }
    }
    for entry in 0..tables.bad_count {
        let Some(item) = Item::bad_entry(tables, entry) else { continue };
        match item.walk(scratch) {
            Outcome::Holds { pairs: visited } => pairs += visited as u64,
            Outcome::Fails { contents } => return Verdict::Bad { entry, contents },
        }
    }
    Verdict::Closed { pairs }
}

/// What waits at the start is followed from the root there, queue after queue.
fn starts_inside(tables: &Tables) -> bool {
    let mut arc = usize::from(tables.roots[start_control_state(tables)]);
    for queue in 0..tables.queue_count {
        for &message in tables.starting(queue) {
            let Some(state) = arc.checked_sub(1) else { return false };
            arc = usize::from(tables.arcs[state * MESSAGES + usize::from(message)]);
        }
    }
    arc > 0 && tables.finals[arc - 1]
}

fn start_control_state(tables: &Tables) -> usize {
    let machines = tables.states.iter().zip(&tables.starts).take(tables.machine_count);
    machines.fold(0, |number, (&states, &start)| number * usize::from(states) + usize::from(start))
}

/// How far apart two control states are that differ by one in the state of a machine.
fn weight(tables: &Tables, machine: usize) -> usize {
    tables.states[machine + 1..tables.machine_count].iter().map(|&states| usize::from(states)).product()
}

/// The control state after a step, or none where the machine is not in the from-state.
pub fn control_state_after(tables: &Tables, control_state: usize, step: &Transition) -> Option<usize> {
    let machine = usize::from(step.machine);
    let weight = weight(tables, machine);
    let state = control_state / weight % usize::from(tables.states[machine]);
    let rest = control_state - state * weight;
    (state == usize::from(step.from)).then(|| rest + usize::from(step.to) * weight)
}

/// What a walk is asked: a step or a bad entry whose control state has a root.
pub struct Item<'t> {
    tables: &'t Tables,
    root: usize,
    kind: Kind,
    word: &'t [u8],
    /// Messages read on either side of the step.
    before: Range<usize>,
    after: Range<usize>,
    /// Pairs whose target is nowhere are dropped, and a pair of final states fails.
    is_bad_entry: bool,
}

pub enum Outcome {
    Holds { pairs: usize },
    Fails { contents: Vec<u8> },
}

impl<'t> Item<'t> {
    /// None where the step is no item or counts nothing.
    pub fn step(tables: &'t Tables, control_state: usize, step: &'t Transition) -> Option<Self> {
        let after = control_state_after(tables, control_state, step)?;
        let source = usize::from(tables.roots[control_state]).checked_sub(1)?;
        let target = usize::from(tables.roots[after]).checked_sub(1).unwrap_or(NOWHERE);
        let own = tables.first_message(usize::from(step.queue));
        let own_end = tables.first_message(usize::from(step.queue) + 1);
        let (side, before, after) = match step.kind {
            Kind::Local => (SIDE, 0..0, 0..tables.message_sum),
            Kind::Send => (0, 0..own_end, own_end..tables.message_sum),
            Kind::Receive => (0, 0..own, own..tables.message_sum),
        };
        let root = side + source * STRIDE + target;
        Some(Item { tables, root, kind: step.kind, word: step.word(), before, after, is_bad_entry: false })
    }

    pub fn bad_entry(tables: &'t Tables, entry: usize) -> Option<Self> {
        let entry = &tables.bad[entry];
        let source = usize::from(tables.roots[usize::from(entry.control_state)]).checked_sub(1)?;
        let root = SIDE + source * STRIDE + usize::from(entry.root);
        let after = 0..tables.message_sum;
        Some(Item { tables, root, kind: Kind::Local, word: &[], before: 0..0, after, is_bad_entry: true })
    }

    pub fn walk(&self, scratch: &mut Scratch) -> Outcome {
        let Scratch { seen, queue } = scratch;
        seen[self.root] = 1;
        queue[0] = self.root as u16;
        let mut tail = 1;
        let mut head = 0;
        let mut failing = None;
        while head < tail {
            let node = usize::from(queue[head]);
            if node >= SIDE {
                let (source, target) = parts(node - SIDE);
                if self.fails(source, target) {
                    failing = Some(head);
                    break;
                }
                tail = self.read_messages(seen, queue, tail, head, node, self.after.clone());
            } else {
                tail = self.read_messages(seen, queue, tail, head, node, self.before.clone());
                if let Some(across) = self.cross(node) {
                    tail = find(seen, queue, tail, head, across);
                }
            }
            head += 1;
        }
        let outcome = match failing {
            None => Outcome::Holds { pairs: tail },
            Some(place) => Outcome::Fails { contents: self.contents(seen, queue, place) },
        };
        for node in &mut queue[..tail] {
            seen[usize::from(*node)] = 0;
            *node = 0;
        }
        outcome
    }

    fn fails(&self, source: usize, target: usize) -> bool {
        let target_accepts = target != NOWHERE && self.tables.finals[target];
        self.tables.finals[source] && target_accepts == self.is_bad_entry
    }

    /// Both read each message in turn; the pair is dropped where the source has nowhere to go.
    #[inline]
    fn read_messages(
        &self,
        seen: &mut [u16],
        queue: &mut [u16],
        mut tail: usize,
        head: usize,
        node: usize,
        messages: Range<usize>,
    ) -> usize {
        let side = if node >= SIDE { SIDE } else { 0 };
        let (source, target) = parts(node - side);
        let source_row = &self.row(source)[messages.clone()];
        // Nowhere reads nothing.
        let target_row = if target == NOWHERE { &[0; MESSAGES] } else { self.row(target) };
        for (&source_arc, &target_arc) in source_row.iter().zip(&target_row[messages]) {
            if source_arc == 0 || (target_arc == 0 && self.is_bad_entry) {
                continue;
            }
            let target = if target_arc == 0 { NOWHERE } else { usize::from(target_arc) - 1 };
            tail = find(seen, queue, tail, head, side + (usize::from(source_arc) - 1) * STRIDE + target);
        }
        tail
    }

    fn row(&self, state: usize) -> &[u8; MESSAGES] {
        let row = &self.tables.arcs[state * MESSAGES..][..MESSAGES];
        row.try_into().expect("a row has an entry for each message")
    }

    #[inline]
    fn read_message(&self, side: usize, node: usize, message: usize) -> Option<usize> {
        let (source, target) = parts(node - side);
        let source = self.arc(source, message)?;
        let target = if target == NOWHERE { None } else { self.arc(target, message) };
        if self.is_bad_entry && target.is_none() {
            return None;
        }
        Some(side + source * STRIDE + target.unwrap_or(NOWHERE))
    }

    #[inline]
    fn arc(&self, state: usize, message: usize) -> Option<usize> {
        usize::from(self.tables.arcs[state * MESSAGES + message]).checked_sub(1)
    }

    /// The step: a send is read by the target, a receive by the source.
    fn cross(&self, node: usize) -> Option<usize> {
        let (source, target) = parts(node);
        match self.kind {
            Kind::Local => None,
            Kind::Send => {
                let known = (target != NOWHERE).then_some(target);
                let target = self.follow_word(known).unwrap_or(NOWHERE);
                Some(SIDE + source * STRIDE + target)
            }
            Kind::Receive => {
                let source = self.follow_word(Some(source))?;
                Some(SIDE + source * STRIDE + target)
            }
        }
    }

    fn follow_word(&self, from: Option<usize>) -> Option<usize> {
        self.word.iter().try_fold(from?, |state, &message| self.arc(state, usize::from(message)))
    }

    /// The messages on the way to a node: u v for a send, u w v for a receive.
    fn contents(&self, seen: &[u16], queue: &[u16], place: usize) -> Vec<u8> {
        let mut backwards = Vec::new();
        let mut place = place;
        while place > 0 {
            let node = usize::from(queue[place]);
            let parent_place = usize::from(seen[node]) - 1;
            let parent = usize::from(queue[parent_place]);
            match self.message_between(parent, node) {
                Some(message) => backwards.push(message),
                None if self.kind == Kind::Receive => backwards.extend(self.word.iter().rev()),
                None => {}
            }
            place = parent_place;
        }
        backwards.reverse();
        backwards
    }

    /// How far the target follows the contents after the step, which are u w v for a send and u v for a receive.
    fn far_after(&self, contents: &[u8]) -> usize {
        let mut state = self.root % STRIDE;
        if state == NOWHERE {
            return 0;
        }
        let u = contents.iter().take_while(|&&message| usize::from(message) < self.before.end).count();
        let (sent, received): (&[u8], _) = match self.kind {
            Kind::Local => (&[], 0),
            Kind::Send => (self.word, 0),
            Kind::Receive => (&[], self.word.len()),
        };
        let mut taken = 0;
        for part in [&contents[..u], sent, &contents[u + received..]] {
            for &message in part {
                let Some(next) = self.arc(state, usize::from(message)) else { return taken };
                state = next;
                taken += 1;
            }
        }
        taken
    }

    /// The lowest message that leads from a node to another, or none where the step does.
    fn message_between(&self, parent: usize, node: usize) -> Option<u8> {
        let (side, messages) = match (parent >= SIDE, node >= SIDE) {
            (false, false) => (0, self.before.clone()),
            (true, true) => (SIDE, self.after.clone()),
            _ => return None,
        };
        let mut leading = messages.filter(|&message| self.read_message(side, parent, message) == Some(node));
        leading.next().map(|message| message as u8)
    }
}

fn parts(node_of_side: usize) -> (usize, usize) {
    (node_of_side / STRIDE, node_of_side % STRIDE)
}

/// Puts a node into the queue unless it is known, and returns the queue's end.
#[inline]
fn find(seen: &mut [u16], queue: &mut [u16], tail: usize, parent_place: usize, node: usize) -> usize {
    if seen[node] != 0 {
        return tail;
    }
    seen[node] = parent_place as u16 + 1;
    queue[tail] = node as u16;
    tail + 1
}
