//! Tables with single entries changed: each kind of entry, where it is used and past the counts, and each fault alone.

use super::plan::{Plan, PlannedState, Shape};
use super::writing::{Base, Writings, WIDE};
use crate::flat::{
    Flat, Part, AT_ARCS, AT_BAD, AT_BAD_ENTRIES, AT_FINALS, AT_MACHINES, AT_MESSAGES, AT_POOL_STATES, AT_QUEUES,
    AT_ROOTS, AT_STARTING_LENGTHS, AT_STATES, AT_SUM, AT_TRANSITIONS, AT_TRANSITION_COUNT, BAD_ROW, KIND, LENGTH,
    QUEUE, ROW, SPACE,
};
use crate::random::Random;
use crate::read::{BAD_ENTRIES, CONTROL_STATES, MESSAGES, POOL_STATES, TRANSITIONS, WORD_LENGTH};
use crate::stream::Edit;

/// How an entry is changed.
#[derive(Clone, Copy)]
pub(super) enum Change {
    OneMore,
    OneLess,
    Zero,
    Full,
    Any,
}

pub(super) const CHANGES: [Change; 5] = [Change::OneMore, Change::OneLess, Change::Zero, Change::Full, Change::Any];

impl Change {
    /// None if the entry would stay, or would pass what an entry can hold.
    fn of(self, random: &mut Random, before: u8) -> Option<u8> {
        let after = match self {
            Change::OneMore => before.checked_add(1),
            Change::OneLess => before.checked_sub(1),
            Change::Zero => Some(0),
            Change::Full => Some(255),
            Change::Any => Some(random.below(8) as u8),
        };
        after.filter(|&after| after != before)
    }
}

fn row(number: usize, column: usize) -> usize {
    AT_TRANSITIONS + number * ROW + column
}

fn arc(state: usize, message: usize) -> usize {
    AT_ARCS + state * MESSAGES + message
}

fn bad(entry: usize, column: usize) -> usize {
    AT_BAD + entry * BAD_ROW + column
}

pub(super) fn edit(place: usize, value: usize) -> Edit {
    Edit { place, value: u8::try_from(value).expect("an entry is a byte") }
}

/// The first index past a count, the last there is, and one between.
fn past(random: &mut Random, count: usize, room: usize) -> [usize; 3] {
    [count, room - 1, random.between(count, room - 1)]
}

impl Writings {
    pub(super) fn damaged_entries(&mut self) {
        self.small_entries();
        self.rows();
        self.within_rows();
        self.marks_and_arcs();
        self.roots_and_bad_entries();
        for _ in 0..8 {
            self.counts_past_their_tables();
            self.counts_of_nothing();
            self.products_and_sums();
        }
        let of_every_file: Vec<Part> =
            Part::UNUSED.into_iter().filter(|part| !Part::OF_STARTING.contains(part)).collect();
        self.ends_of_what_is_unused(&of_every_file);
        self.any_entries();
    }

    /// Counts, states, starting states and messages.
    fn small_entries(&mut self) {
        for place in 0..AT_STARTING_LENGTHS {
            for change in CHANGES {
                for _ in 0..7 {
                    let (base, value) = self.base_to_change(place, change);
                    self.open("a small entry", &base, &[Edit { place, value }]);
                }
            }
        }
    }

    /// Tables in which an entry can be changed in a way, and what it becomes.
    pub(super) fn base_to_change(&mut self, place: usize, change: Change) -> (Base, u8) {
        loop {
            let base = self.base();
            if let Some(value) = change.of(self.random(), base.flat.0[place]) {
                return (base, value);
            }
        }
    }

    fn rows(&mut self) {
        for column in 0..ROW {
            for change in CHANGES {
                for _ in 0..6 {
                    self.used_rows(column, change);
                    self.rows_past(column, change);
                }
            }
        }
    }

    /// A local transition, and one with a word of any length.
    fn used_rows(&mut self, column: usize, change: Change) {
        let local = loop {
            let base = self.base();
            let number = base.flat.rows().take(base.flat.transitions()).position(|row| row[KIND] == 0);
            if let Some(number) = number {
                break (base, number);
            }
        };
        let length = self.random().between(0, WORD_LENGTH);
        let (plan, number) = self.plans.plan_with_word(length);
        for (base, number) in [local, (Base::of_plan(&plan), number)] {
            let place = row(number, column);
            if let Some(value) = change.of(self.random(), base.flat.0[place]) {
                self.open("a row", &base, &[Edit { place, value }]);
            }
        }
    }

    fn rows_past(&mut self, column: usize, change: Change) {
        let base = self.base();
        let rows = past(self.random(), base.flat.transitions(), TRANSITIONS);
        let place = row(rows[self.random().below(3)], column);
        if let Some(value) = change.of(self.random(), 0) {
            self.refused("a row past the count", &base, &[Edit { place, value }]);
        }
    }

    /// Entries of a row at an end of their range and just past it.
    fn within_rows(&mut self) {
        for _ in 0..16 {
            let base = self.base_where(&WIDE, |flat| flat.transitions() > 0);
            let number = self.random().below(base.flat.transitions());
            let machines = base.flat.machines();
            self.open("a machine", &base, &[edit(row(number, 0), machines - 1)]);
            self.refused("a machine past the count", &base, &[edit(row(number, 0), machines)]);
            let machine = usize::from(base.flat.0[row(number, 0)]);
            let states = usize::from(base.flat.states()[machine]);
            for column in [1, 2] {
                let state = self.random().below(states);
                self.open("a state of a machine", &base, &[edit(row(number, column), state)]);
                self.open("a state of a machine", &base, &[edit(row(number, column), states - 1)]);
                self.refused("a state past those of its machine", &base, &[edit(row(number, column), states)]);
            }
            self.empty_word();
            self.full_word();
            self.one_more_of_0();
        }
    }

    /// A local transition, a state without arcs, a bad entry: entries of 0 are one.
    fn one_more_of_0(&mut self) {
        for place in [AT_TRANSITION_COUNT, AT_POOL_STATES, AT_BAD_ENTRIES] {
            let base = self.base();
            let count = usize::from(base.flat.0[place]);
            self.open("one more, of entries that are 0", &base, &[edit(place, count + 1)]);
        }
    }

    /// Of any queue, and of none.
    fn empty_word(&mut self) {
        let (base, number) = loop {
            let (plan, number) = self.plans.plan_with_word(0);
            if plan.queues.len() > 1 {
                break (Base::of_plan(&plan), number);
            }
        };
        let place = row(number, QUEUE);
        let queues = base.flat.queues();
        let other = (usize::from(base.flat.0[place]) + 1) % queues;
        self.open("another queue of the empty word", &base, &[edit(place, other)]);
        self.refused("a queue past the count", &base, &[edit(place, queues)]);
        self.open(
            "a kind of the empty word",
            &base,
            &[edit(row(number, KIND), 3 - usize::from(base.flat.0[row(number, KIND)]))],
        );
    }

    /// Sixteen messages, of which the last is another one, and lengths past them.
    fn full_word(&mut self) {
        let (plan, number) = self.plans.plan_with_word(WORD_LENGTH);
        let base = Base::of_plan(&plan);
        for length in [WORD_LENGTH + 1, 18, 128 + WORD_LENGTH, 255] {
            self.refused("a length past the word", &base, &[edit(row(number, LENGTH), length)]);
        }
        self.open("a length less", &base, &[edit(row(number, LENGTH), WORD_LENGTH - 1)]);
        let sum = base.flat.sum();
        for message in 0..sum {
            self.open("the last message", &base, &[edit(row(number, ROW - 1), message)]);
        }
        self.refused("the last message past the sum", &base, &[edit(row(number, ROW - 1), sum)]);
    }

    fn marks_and_arcs(&mut self) {
        for _ in 0..16 {
            let base = self.base();
            let (states, sum) = (base.flat.pool_states(), base.flat.sum());
            let state = self.random().below(states);
            let mark = base.flat.finals()[state];
            self.open("a final mark", &base, &[Edit { place: AT_FINALS + state, value: 1 - mark }]);
            for value in [2, 128, 255] {
                self.refused("a final mark", &base, &[edit(AT_FINALS + state, value)]);
            }
            let message = self.random().below(sum);
            let other = self.random().between(1, states);
            for value in [0, 1, other, states] {
                self.open("an arc", &base, &[edit(arc(state, message), value)]);
            }
            for value in [states + 1, states + 2, 128, 255] {
                self.refused("an arc past the pool", &base, &[edit(arc(state, message), value)]);
            }
            for message in past(self.random(), sum, MESSAGES) {
                let value = [1, other, 255][self.random().below(3)];
                self.refused("an arc past the sum", &base, &[edit(arc(state, message), value)]);
            }
            for state in past(self.random(), states, POOL_STATES) {
                self.refused("a mark past the count", &base, &[edit(AT_FINALS + state, 1)]);
                let message = [0, sum - 1, message, sum, MESSAGES - 1][self.random().below(5)];
                let value = [1, other, 255][self.random().below(3)];
                self.refused("an arc past the count", &base, &[edit(arc(state, message), value)]);
            }
        }
    }

    fn roots_and_bad_entries(&mut self) {
        for _ in 0..16 {
            let base = self.base_where(&WIDE, |flat| flat.bad_entries() > 0);
            let (states, product) = (base.flat.pool_states(), base.flat.product());
            let root = AT_ROOTS + self.random().below(product);
            let other = self.random().between(1, states);
            for value in [0, other, states] {
                self.open("a root", &base, &[edit(root, value)]);
            }
            for value in [states + 1, 128, 255] {
                self.refused("a root past the pool", &base, &[edit(root, value)]);
            }
            for control_state in past(self.random(), product, CONTROL_STATES) {
                let value = [1, other, 255][self.random().below(3)];
                self.refused("a root past the product", &base, &[edit(AT_ROOTS + control_state, value)]);
            }
            let entry = self.random().below(base.flat.bad_entries());
            for (column, count) in [(0, product), (1, states)] {
                let below = self.random().below(count);
                for value in [below, count - 1] {
                    self.open("a bad entry", &base, &[edit(bad(entry, column), value)]);
                }
                for value in [count, 127, 255] {
                    self.refused("a bad entry past a count", &base, &[edit(bad(entry, column), value)]);
                }
            }
            for entry in past(self.random(), base.flat.bad_entries(), BAD_ENTRIES) {
                let column = self.random().below(BAD_ROW);
                let value = [1, 255][self.random().below(2)];
                self.refused("a bad entry past the count", &base, &[edit(bad(entry, column), value)]);
            }
        }
    }

    fn base_where(&mut self, shape: &Shape, holds: impl Fn(&Flat) -> bool) -> Base {
        loop {
            let base = Base::of_plan(&self.plans.plan_of_shape(shape));
            if holds(&base.flat) {
                return base;
            }
        }
    }

    /// Tables that are full, and a count that says there is more.
    fn counts_past_their_tables(&mut self) {
        let kind = "a count past its table";
        let full = [
            (AT_MACHINES, WIDE, 4),
            (AT_QUEUES, WIDE, 4),
            (AT_TRANSITION_COUNT, Shape { transitions: TRANSITIONS, ..Shape::SMALL }, TRANSITIONS),
            (AT_POOL_STATES, Shape { pool_states: POOL_STATES, messages: 2, queues: 2, ..Shape::SMALL }, POOL_STATES),
            (AT_BAD_ENTRIES, Shape { bad: BAD_ENTRIES, ..Shape::SMALL }, BAD_ENTRIES),
        ];
        for (place, shape, count) in full {
            let base = self.base_where(&shape, |flat| usize::from(flat.0[place]) == count);
            for value in [count + 1, 255] {
                self.refused(kind, &base, &[edit(place, value)]);
            }
        }
    }

    /// Tables that would be right if a count could be 0.
    fn counts_of_nothing(&mut self) {
        let kind = "a count of 0";
        let plan = self.plan();
        let root = plan.roots[0];
        let lone =
            Plan { states: vec![1], starts: vec![0], transitions: vec![], roots: vec![root], bad: vec![], ..plan };
        self.refused(kind, &Base::of_plan(&lone), &[edit(AT_MACHINES, 0), edit(AT_STATES, 0)]);
        let mut silent = Plan { queues: vec![3], ..lone.clone() };
        silent.pool.iter_mut().for_each(|state| state.arcs.clear());
        let edits = [edit(AT_QUEUES, 0), edit(AT_SUM, 0), edit(AT_MESSAGES, 0)];
        self.refused(kind, &Base::of_plan(&silent), &edits);
        let without_pool = Plan { pool: vec![PlannedState::default()], roots: vec![None], ..lone };
        self.refused(kind, &Base::of_plan(&without_pool), &[edit(AT_POOL_STATES, 0)]);
        let base = self.base_where(&WIDE, |flat| flat.queues() < 4);
        // A queue more, without messages.
        self.refused(kind, &base, &[edit(AT_QUEUES, base.flat.queues() + 1)]);
    }

    /// States and messages past what there can be, with all that goes with them.
    fn products_and_sums(&mut self) {
        let kind = "a product or a sum past its most";
        let with_states = |plan: Plan, states: Vec<usize>| {
            let control_states = states.iter().product();
            let starts = vec![0; states.len()];
            Base::of_plan(&Plan {
                states,
                starts,
                transitions: vec![],
                roots: vec![None; control_states],
                bad: vec![],
                ..plan
            })
        };
        let plan = self.plan();
        self.refused(kind, &with_states(plan, vec![16]), &[edit(AT_STATES, 17)]);
        let plan = self.plan();
        self.refused(kind, &with_states(plan, vec![1, 16]), &[edit(AT_STATES, 17)]);
        let plan = self.plan();
        self.refused(kind, &with_states(plan, vec![16, 16, 1]), &[edit(AT_STATES + 2, 2)]);
        let plan = self.plan();
        self.refused(kind, &with_states(plan, vec![15, 16]), &[edit(AT_STATES + 1, 17)]);
        let plan = self.plan();
        self.refused(kind, &with_states(plan, vec![2, 8, 16]), &[edit(AT_STATES, 3)]);
        for queues in [vec![32], vec![8; 4], vec![1, 31], vec![10, 20]] {
            let mut plan = Plan { transitions: vec![], ..self.plan() };
            plan.pool.iter_mut().for_each(|state| state.arcs.clear());
            let sum: usize = queues.iter().sum();
            let last = queues.len() - 1;
            let messages = queues[last] + 33 - sum;
            let base = Base::of_plan(&Plan { queues, ..plan });
            self.refused(kind, &base, &[edit(AT_MESSAGES + last, messages), edit(AT_SUM, 33)]);
            if last < 3 {
                let more = [edit(AT_QUEUES, last + 2), edit(AT_MESSAGES + last + 1, 33 - sum), edit(AT_SUM, 33)];
                self.refused(kind, &base, &more);
            }
        }
    }

    /// The first and the last of unused entries that lie side by side.
    pub(super) fn ends_of_what_is_unused(&mut self, parts: &[Part]) {
        for &part in parts {
            for round in 0..12 {
                let (base, place) = loop {
                    let base = self.base();
                    let is_end = |&place: &usize| {
                        Part::of(place, &base.flat) == part && part.ends_at(place, &base.flat)[round % 2]
                    };
                    let ends: Vec<usize> = (0..SPACE).filter(is_end).collect();
                    if let Some(&place) = self.random().pick(&ends) {
                        break (base, place);
                    }
                };
                let value = [1, 2, 128, 255][self.random().below(4)];
                self.refused("an end of what is unused", &base, &[edit(place, value)]);
            }
        }
    }

    /// Up to three entries of any parts.
    fn any_entries(&mut self) {
        for round in 0..1_500 {
            let base = self.base();
            let edits: Vec<Edit> = (0..=round % 3).map(|_| self.any_edit(&base.flat)).collect();
            self.open("any entries", &base, &edits);
        }
    }

    pub(super) fn any_edit(&mut self, flat: &Flat) -> Edit {
        let place = self.place_of_any_part(flat);
        let before = flat.0[place];
        let value = match self.random().below(4) {
            0 => before.wrapping_add(1),
            1 => before.wrapping_sub(1),
            2 => self.random().below(6) as u8,
            _ => self.random().byte(),
        };
        Edit { place, value }
    }

    /// Every part is as likely as any other, however few its entries are.
    pub(super) fn place_of_any_part(&mut self, flat: &Flat) -> usize {
        let mut parts = Part::ALL.to_vec();
        if self.plans.resuming == 0 {
            parts.retain(|part| !Part::OF_STARTING.contains(part));
        }
        loop {
            let part = parts[self.random().below(parts.len())];
            let places: Vec<usize> = (0..SPACE).filter(|&place| Part::of(place, flat) == part).collect();
            if let Some(&place) = self.random().pick(&places) {
                return place;
            }
        }
    }

    /// A mark, an arc or a root, within the counts.
    pub(super) fn edit_of_the_pool(&mut self, flat: &Flat) -> Edit {
        let (states, sum) = (flat.pool_states(), flat.sum());
        let random = self.random();
        let state = random.below(states);
        match random.below(4) {
            0 => edit(AT_FINALS + state, usize::from(1 - flat.finals()[state])),
            1 => edit(AT_ROOTS + random.below(flat.product()), random.between(1, states)),
            _ => edit(arc(state, random.below(sum)), random.between(1, states)),
        }
    }
}
