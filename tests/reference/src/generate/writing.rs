//! Tables to be written: of every file that is read, turned into those of another file, handed in with some product, of
//! the longest file, and all 0. `writing_damage` changes single entries.
//!
//! What is written is known from plans, which are put into bytes by `draft`, so the writer is judged by the generator and
//! not only by itself.

use super::disorder::{self, add_fault, Harmless};
use super::document::{self, hex};
use super::large::longest_fresh;
use super::plan::{Action, Direction, Plan, PlannedState, PlannedTransition, Shape};
use super::reading::{fresh_reading_cases, Generator};
use crate::flat::{Flat, AT_BAD, AT_FINALS, AT_MACHINES, AT_POOL_STATES, AT_QUEUES, AT_SUM, SPACE};
use crate::random::Random;
use crate::read::{self, read};
use crate::stream::{Edit, Handed, Writing};
use crate::write::{BUFFER_TOO_SHORT, NO_FILE};
use crate::writing_features::LONGEST_BUFFER;

#[derive(Clone, Debug, PartialEq, Eq)]
pub enum Expected {
    /// Just this file is written.
    File(Vec<u8>),
    Refused(u8),
    /// Damage whose effect is left to the writer.
    Open,
}

#[derive(Clone, Debug)]
pub struct Case {
    pub kind: &'static str,
    pub writing: Writing,
    pub expected: Expected,
}

/// A file that is read, and what it is read into.
pub(super) struct Base {
    pub(super) file: Vec<u8>,
    pub(super) flat: Flat,
}

impl Base {
    /// None if the file is refused.
    pub(super) fn of(file: Vec<u8>) -> Option<Self> {
        let tables = read(&file).ok()?;
        Some(Base { file, flat: Flat::of(&tables) })
    }

    pub(super) fn of_plan(plan: &Plan) -> Self {
        Base::of(plan.bytes()).expect("plans are valid")
    }
}

/// Like `Shape::SMALL`, but every machine and every queue can be there.
pub(super) const WIDE: Shape = Shape { machines: 4, queues: 4, ..Shape::SMALL };

pub(super) struct Writings {
    pub(super) plans: Generator,
    pub(super) cases: Vec<Case>,
}

pub fn writing_cases(seed: u64) -> Vec<Case> {
    let mut writings = Writings { plans: Generator::fresh(seed + 7), cases: Vec::new() };
    writings.written_back(seed);
    writings.buffers();
    writings.longest_file();
    writings.around_two_bytes();
    writings.products();
    writings.turned();
    writings.out_of_order();
    writings.all_zero(seed);
    writings.damaged_entries();
    writings.resuming_writings(seed);
    writings.cases
}

/// Tables of small files, most of them with up to six entries changed, some with a product beside them.
pub fn random_writings(seed: u64, count: usize) -> impl Iterator<Item = Writing> {
    let mut writings = Writings { plans: Generator::new(seed), cases: Vec::new() };
    (0..count).map(move |_| writings.any_writing())
}

impl Writings {
    pub(super) fn random(&mut self) -> &mut Random {
        &mut self.plans.random
    }

    pub(super) fn add(
        &mut self,
        kind: &'static str,
        file: &[u8],
        buffer_length: usize,
        handed: Handed,
        expected: Expected,
    ) {
        let buffer_from = self.random().byte();
        let writing = Writing { file: file.to_vec(), buffer_length, buffer_from, handed };
        self.cases.push(Case { kind, writing, expected });
    }

    /// The tables of a file as they are.
    pub(super) fn unchanged(&mut self, kind: &'static str, file: &[u8], buffer_length: usize) {
        let is_short = buffer_length < file.len();
        let expected = if is_short { Expected::Refused(BUFFER_TOO_SHORT) } else { Expected::File(file.to_vec()) };
        self.add(kind, file, buffer_length, Handed::Edited(vec![]), expected);
    }

    /// Some entries changed. 16 comes before 17, so the buffer may be anything then.
    pub(super) fn edited(&mut self, kind: &'static str, base: &Base, edits: Vec<Edit>, expected: Expected) {
        let length = base.file.len();
        let buffer_length = match (self.random().below(20), &expected) {
            (_, Expected::File(file)) => file.len() + self.random().below(20),
            (0 | 1, _) => 0,
            (2 | 3, _) => length - 1,
            (4 | 5, _) => self.random().below(length),
            (6, _) => LONGEST_BUFFER,
            _ => length + self.random().below(20),
        };
        self.add(kind, &base.file, buffer_length, Handed::Edited(edits), expected);
    }

    pub(super) fn refused(&mut self, kind: &'static str, base: &Base, edits: &[Edit]) {
        self.edited(kind, base, edits.to_vec(), Expected::Refused(NO_FILE));
    }

    pub(super) fn open(&mut self, kind: &'static str, base: &Base, edits: &[Edit]) {
        self.edited(kind, base, edits.to_vec(), Expected::Open);
    }

    pub(super) fn plan(&mut self) -> Plan {
        self.plans.plan_of_shape(&WIDE)
    }

    pub(super) fn base(&mut self) -> Base {
        Base::of_plan(&self.plan())
    }

    /// Every file of the stream for reading that is read.
    fn written_back(&mut self, seed: u64) {
        for case in fresh_reading_cases(seed).cases {
            if read(&case.bytes).is_ok() {
                self.unchanged("written back", &case.bytes, case.bytes.len());
            }
        }
    }

    fn buffers(&mut self) {
        for round in 0..40 {
            let shape = if round % 8 == 0 { Shape::MEDIUM } else { WIDE };
            let file = self.plans.plan_of_shape(&shape).bytes();
            let length = file.len();
            let shorter = self.random().below(length);
            let longer = length + self.random().between(2, 400);
            for buffer_length in [length - 1, length + 1, 0, shorter, longer, LONGEST_BUFFER] {
                self.unchanged("another buffer", &file, buffer_length);
            }
        }
    }

    fn longest_file(&mut self) {
        let base = Base::of_plan(&longest_fresh(&mut Random::new(1)));
        let length = base.file.len();
        for buffer_length in [length - 1, length + 1, LONGEST_BUFFER, 0] {
            self.unchanged("the longest file", &base.file, buffer_length);
        }
        // The last entry of all, a root that is just past the pool, and a final mark that lets every word be accepted.
        for edit in [Edit { place: SPACE - 1, value: 127 }, Edit { place: AT_FINALS + 126, value: 1 }] {
            self.refused("the longest file, damaged", &base, &[edit]);
        }
        let value = base.flat.0[AT_BAD] ^ 1;
        self.open("the longest file, damaged", &base, &[Edit { place: AT_BAD, value }]);
    }

    /// Numbers of 126 to 128 and 255: transitions, pool states, roots, and control states of bad entries.
    fn around_two_bytes(&mut self) {
        for round in 0..16 {
            let plan = self.plan();
            let steps = (0..127 + round % 2).map(|_| local_step(self.random(), &plan)).collect();
            self.with_room("transitions around 128", &Plan { transitions: steps, ..plan });
            let mut plan = self.plan();
            plan.pool.resize(if round % 4 == 0 { 126 } else { 127 }, PlannedState::default());
            let last = plan.pool.len() - 1;
            plan.roots.fill(Some(last));
            plan.bad = vec![(0, last)];
            self.with_room("states around 127", &plan);
            let states = if round % 2 == 0 { vec![16, 8] } else { vec![16, 16] };
            let control_states = states.iter().product::<usize>();
            let starts = vec![0; 2];
            let roots = vec![Some(0); control_states];
            let bad = [126, 127, 128, 254, 255].into_iter().filter(|&number| number < control_states);
            let bad = bad.map(|control_state| (control_state, 0)).collect();
            let plan = Plan { states, starts, transitions: vec![], roots, bad, ..self.plan() };
            self.with_room("control states around 128", &plan);
        }
    }

    fn with_room(&mut self, kind: &'static str, plan: &Plan) {
        let file = plan.bytes();
        let buffer_length = file.len() + self.random().below(20);
        self.unchanged(kind, &file, buffer_length);
    }

    fn products(&mut self) {
        for _ in 0..12 {
            let base = self.base();
            let product = base.flat.product();
            let length = base.file.len();
            let right = Expected::File(base.file.clone());
            for _ in 0..4 {
                self.add("the right product", &base.file, length, Handed::Product(product), right.clone());
            }
            let any = self.random().below(1 << 24);
            let others = [product - 1, product + 1, 2 * product, product + 256, product + (1 << 16)];
            let others = others.into_iter().chain([0, 256, 257, any, (1 << 24) - 1]);
            for other in others.filter(|&other| other != product) {
                let buffer_length = [0, length - 1, length, length + 9][self.random().below(4)];
                let expected = Expected::Refused(NO_FILE);
                self.add("another product", &base.file, buffer_length, Handed::Product(other), expected);
            }
        }
        // 256 fits no byte.
        let plan = self.plans.plan_of_shape(&WIDE);
        let states = vec![16, 16];
        let plan = Plan { starts: vec![0, 15], roots: vec![Some(0); 256], states, transitions: vec![], ..plan };
        let file = Plan { bad: vec![(255, 0)], ..plan }.bytes();
        for product in [256, 0, 255, 512] {
            let expected = if product == 256 { Expected::File(file.clone()) } else { Expected::Refused(NO_FILE) };
            self.add("a product of 256", &file, file.len(), Handed::Product(product), expected);
        }
    }

    fn any_writing(&mut self) -> Writing {
        let plan = match self.random().below(3) {
            0 => self.plan(),
            1 => self.plans.small_plan(),
            _ => self.plans.plan_in_any_order(),
        };
        let file = plan.bytes();
        let flat = Base::of(file.clone()).map_or_else(Flat::zero, |base| base.flat);
        let handed = if self.random().chance(5) {
            Handed::Product(flat.product() + self.random().below(2))
        } else {
            let count = self.random().below(7);
            let is_of_pool = flat != Flat::zero() && self.random().chance(40);
            let mut edit = || if is_of_pool { self.edit_of_the_pool(&flat) } else { self.any_edit(&flat) };
            Handed::Edited((0..count).map(|_| edit()).collect())
        };
        let buffer_length = [0, file.len(), 400][self.random().below(3)];
        Writing { file, buffer_length, buffer_from: self.random().byte(), handed }
    }

    /// Tables of one file turned into those of another, entry by entry. With an edit left out they are mostly those of none.
    fn turned(&mut self) {
        for _ in 0..24 {
            for turn in Turn::ALL {
                let (plan, other) = loop {
                    let plan = self.plan();
                    if let Some(other) = turn.take(self.random(), &plan) {
                        break (plan, other);
                    }
                };
                self.turn_into("turned into another file", &Base::of_plan(&plan), &other);
            }
        }
        for _ in 0..12 {
            let [plan, other] = [self.plan(), self.plan()];
            self.turn_into("turned into any other file", &Base::of_plan(&plan), &other);
        }
        for _ in 0..60 {
            let base = self.base();
            let place = self.place_of_any_part(&base.flat);
            let wrong = self.random().byte();
            let back = [wrong, base.flat.0[place]].map(|value| Edit { place, value });
            self.edited("changed and changed back", &base, back.to_vec(), Expected::File(base.file.clone()));
        }
    }

    pub(super) fn turn_into(&mut self, kind: &'static str, base: &Base, other: &Plan) {
        let mut edits = edits_between(&base.flat, &Base::of_plan(other).flat);
        self.random().shuffle(&mut edits);
        self.edited(kind, base, edits.clone(), Expected::File(other.bytes()));
        if edits.len() > 1 {
            edits.pop();
            self.open("turned, but for an entry", base, &edits);
        }
    }

    /// The last state of a chain that reads a word out of order is marked as final. Before that no such word is accepted.
    fn out_of_order(&mut self) {
        for _ in 0..16 {
            for fault in disorder::Fault::ALL {
                let mut plan = self.plans.plan_of_queues();
                let chain = add_fault(self.random(), &mut plan, fault);
                plan.pool[chain.last].is_final = false;
                let Some(base) = Base::of(plan.bytes()) else { continue };
                let mark = Edit { place: AT_FINALS + chain.last, value: 1 };
                self.refused("an accepted word is out of order", &base, &[mark]);
            }
        }
        for round in 0..300 {
            let plan = self.plans.harmless_plan(Harmless::ALL[round % Harmless::ALL.len()]);
            let base = Base::of_plan(&plan);
            let edit = self.edit_of_the_pool(&base.flat);
            self.open("arcs out of order", &base, &[edit]);
        }
    }

    /// Of files that are refused, of every row; and tables that are made entry by entry.
    fn all_zero(&mut self, seed: u64) {
        let refused: Vec<Vec<u8>> = fresh_reading_cases(seed)
            .cases
            .into_iter()
            .filter(|case| case.bytes.len() < 100 && read(&case.bytes).is_err())
            .map(|case| case.bytes)
            .collect();
        let stride = refused.len() / 40;
        let no_file = Expected::Refused(NO_FILE);
        for file in refused.iter().step_by(stride) {
            let length = [0, 1, 100, LONGEST_BUFFER][self.random().below(4)];
            self.add("all 0", file, length, Handed::Edited(vec![]), no_file.clone());
            let product = self.random().below(3);
            self.add("all 0, with a product", file, length, Handed::Product(product), no_file.clone());
        }
        let mut made: Vec<Vec<u8>> = vec![hex(document::R), hex(document::S)];
        made.extend((0..38).map(|_| self.plans.small_plan().bytes()));
        for (file, refused) in made.into_iter().zip(refused.iter().step_by(stride)) {
            let target = Base::of(file).expect("plans are valid");
            let mut edits = edits_between(&Flat::zero(), &target.flat);
            self.random().shuffle(&mut edits);
            let length = target.file.len();
            let expected = Expected::File(target.file);
            self.add("made from all 0", refused, length, Handed::Edited(edits.clone()), expected);
            let count = COUNTS[self.random().below(COUNTS.len())];
            edits.retain(|edit| edit.place != count);
            self.add("made from all 0, but for a count", refused, length, Handed::Edited(edits), no_file.clone());
        }
    }
}

/// Counts that are never 0.
const COUNTS: [usize; 4] = [AT_MACHINES, AT_QUEUES, AT_SUM, AT_POOL_STATES];

/// What makes the one tables of the other.
pub(super) fn edits_between(from: &Flat, to: &Flat) -> Vec<Edit> {
    let changed = (0..SPACE).filter(|&place| from.0[place] != to.0[place]);
    changed.map(|place| Edit { place, value: to.0[place] }).collect()
}

/// A small change of a plan.
#[derive(Clone, Copy, Debug)]
enum Turn {
    TargetChanged,
    MarkFlipped,
    RootChanged,
    ArcRemoved,
    TransitionAdded,
    TransitionRemoved,
    LocalMadeASend,
    MadeLocal,
    WordShortened,
    StateAdded,
    BadEntryAdded,
    BadEntryRemoved,
    QueueAdded,
    MessageAdded,
    MachineAdded,
    MachineRemoved,
    StatesExchanged,
}

impl Turn {
    const ALL: [Turn; 17] = [
        Turn::TargetChanged,
        Turn::MarkFlipped,
        Turn::RootChanged,
        Turn::ArcRemoved,
        Turn::TransitionAdded,
        Turn::TransitionRemoved,
        Turn::LocalMadeASend,
        Turn::MadeLocal,
        Turn::WordShortened,
        Turn::StateAdded,
        Turn::BadEntryAdded,
        Turn::BadEntryRemoved,
        Turn::QueueAdded,
        Turn::MessageAdded,
        Turn::MachineAdded,
        Turn::MachineRemoved,
        Turn::StatesExchanged,
    ];

    /// None if the plan has nothing of the kind, or if the other one's file is not read.
    fn take(self, random: &mut Random, plan: &Plan) -> Option<Plan> {
        let mut other = plan.clone();
        match self {
            Turn::TargetChanged => {
                let target = random.below(plan.pool.len());
                *some_arc(random, &mut other)?.1 = target;
            }
            Turn::ArcRemoved => {
                let message = *some_arc(random, &mut other)?.0;
                let having = other.pool.iter_mut().find(|state| state.arcs.contains_key(&message))?;
                having.arcs.remove(&message);
            }
            Turn::MarkFlipped => {
                let state = random.below(plan.pool.len());
                other.pool[state].is_final ^= true;
            }
            Turn::RootChanged => {
                let control_state = random.below(plan.roots.len());
                other.roots[control_state] = random.chance(70).then(|| random.below(plan.pool.len()));
            }
            Turn::TransitionAdded => other.transitions.push(some_send(random, plan)),
            Turn::TransitionRemoved => drop(other.transitions.pop()?),
            Turn::LocalMadeASend => {
                let made = some_send(random, plan).action;
                other.transitions.iter_mut().find(|step| step.action.is_none())?.action = made;
            }
            Turn::MadeLocal => other.transitions.iter_mut().find(|step| step.action.is_some())?.action = None,
            Turn::WordShortened => {
                let mut words = other.transitions.iter_mut().filter_map(|step| step.action.as_mut());
                words.find(|action| !action.word.is_empty())?.word.pop();
            }
            Turn::StateAdded => other.pool.push(PlannedState { is_final: true, ..PlannedState::default() }),
            Turn::BadEntryAdded => {
                other.bad.push((random.below(plan.roots.len()), random.below(plan.pool.len())));
            }
            Turn::BadEntryRemoved => drop(other.bad.pop()?),
            Turn::QueueAdded if plan.queues.len() < read::QUEUES => other.queues.push(random.between(1, 9)),
            Turn::MessageAdded => *other.queues.last_mut()? += 1,
            Turn::MachineAdded if plan.states.len() < read::MACHINES => {
                let states = random.between(1, 3);
                other.states.push(states);
                other.starts.push(states - 1);
                other.roots.resize(plan.roots.len() * states, None);
            }
            Turn::MachineRemoved if plan.states.len() > 1 && plan.states.last() == Some(&1) => {
                let last = plan.states.len() - 1;
                other.states.pop();
                other.starts.pop();
                other.transitions.retain(|step| step.machine < last);
            }
            Turn::StatesExchanged if plan.states.len() > 1 => {
                other.states.swap(0, 1);
                other.starts.swap(0, 1);
                for step in &mut other.transitions {
                    step.machine = [1, 0, 2, 3][step.machine];
                }
            }
            _ => return None,
        }
        let file = other.bytes();
        (file != plan.bytes() && read(&file).is_ok()).then_some(other)
    }
}

fn some_arc<'p>(random: &mut Random, plan: &'p mut Plan) -> Option<(&'p usize, &'p mut usize)> {
    let with_arcs: Vec<usize> = (0..plan.pool.len()).filter(|&state| !plan.pool[state].arcs.is_empty()).collect();
    let state = *random.pick(&with_arcs)?;
    let arc = random.below(plan.pool[state].arcs.len());
    plan.pool[state].arcs.iter_mut().nth(arc)
}

fn local_step(random: &mut Random, plan: &Plan) -> PlannedTransition {
    PlannedTransition { action: None, ..some_send(random, plan) }
}

/// Of one message or two.
fn some_send(random: &mut Random, plan: &Plan) -> PlannedTransition {
    let queue = random.below(plan.queues.len());
    let messages = plan.messages_of(queue);
    let word = (0..random.between(1, 2)).map(|_| random.between(messages.start, messages.end - 1)).collect();
    let machine = random.below(plan.states.len());
    let [from, to] = [random.below(plan.states[machine]), random.below(plan.states[machine])];
    PlannedTransition { machine, from, to, action: Some(Action { direction: Direction::Send, queue, word }) }
}
