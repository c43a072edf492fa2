//! Files for reading: valid, damaged in one number, and at every boundary.
//!
//! A case that is damaged on purpose says which refusal and place follow from how it was made, so the reader is judged
//! by the generator and not only by itself.

use std::collections::BTreeMap;

use super::document;
use super::draft::{Draft, Role};
use super::large::{longest_fresh, maximal_closed};
use super::long::transition_along_arcs;
use super::plan::{fresh_plan, Plan, Shape, RESUMING};
use super::resume::resume;
use crate::random::Random;
use crate::read;

#[derive(Clone, Copy, Debug, PartialEq, Eq)]
pub enum Expected {
    Read,
    Refused(u8, usize),
    /// Damage whose effect is left to the reader.
    Open,
}

#[derive(Clone, Debug)]
pub struct Case {
    pub kind: String,
    pub bytes: Vec<u8>,
    pub expected: Expected,
}

pub struct Generator {
    pub(super) random: Random,
    /// Of a hundred plans so many resume.
    pub(super) resuming: usize,
    pub cases: Vec<Case>,
    /// How many valid files have some number of a role at an end of its range.
    pub at_limit: BTreeMap<(Role, &'static str), usize>,
}

pub fn reading_cases(seed: u64) -> Generator {
    let mut generator = fresh_reading_cases(seed);
    generator.resuming_files();
    generator
}

/// Those that resume, and those beside them.
pub(super) fn resuming_reading_cases(seed: u64) -> Generator {
    let mut generator = Generator::new(seed);
    generator.resuming_files();
    generator
}

/// Those made before request 8, whose queues start empty.
pub(super) fn fresh_reading_cases(seed: u64) -> Generator {
    let mut generator = Generator::fresh(seed);
    generator.document_files();
    generator.valid_files();
    generator.valid_words();
    generator.valid_products_and_sums();
    generator.row_1();
    generator.row_3();
    generator.row_4();
    generator.row_5();
    generator.row_6();
    generator.row_7();
    generator.row_8();
    generator.row_9();
    generator.row_10();
    generator.flips();
    generator
}

impl Generator {
    pub(crate) fn new(seed: u64) -> Self {
        Generator { random: Random::new(seed), resuming: RESUMING, cases: Vec::new(), at_limit: BTreeMap::new() }
    }

    /// One whose plans start with empty queues.
    pub(super) fn fresh(seed: u64) -> Self {
        Generator { resuming: 0, ..Generator::new(seed) }
    }

    pub(super) fn add(&mut self, kind: impl Into<String>, bytes: Vec<u8>, expected: Expected) {
        self.cases.push(Case { kind: kind.into(), bytes, expected });
    }

    pub(super) fn refused(&mut self, kind: impl Into<String>, bytes: Vec<u8>, number: u8, place: usize) {
        self.add(kind, bytes, Expected::Refused(number, place));
    }

    pub(super) fn valid(&mut self, kind: &str, plan: &Plan) {
        let draft = plan.draft();
        let mut ends: Vec<(Role, &'static str)> = Vec::new();
        for number in &draft.numbers {
            if number.value == number.most {
                ends.push((number.role, "most"));
            }
            if number.value == number.least {
                ends.push((number.role, "least"));
            }
        }
        ends.sort_unstable();
        ends.dedup();
        for end in ends {
            *self.at_limit.entry(end).or_default() += 1;
        }
        self.add(kind, draft.bytes(), Expected::Read);
    }

    pub(super) fn small_plan(&mut self) -> Plan {
        self.plan_of_shape(&Shape::SMALL)
    }

    pub(super) fn plan_of_shape(&mut self, shape: &Shape) -> Plan {
        let mut plan = fresh_plan(&mut self.random, shape);
        if self.resuming > 0 && self.random.chance(self.resuming) {
            resume(&mut self.random, &mut plan);
        }
        plan
    }

    /// A small plan with a word of this length, and the number of its transition.
    pub(super) fn plan_with_word(&mut self, length: usize) -> (Plan, usize) {
        let mut plan = self.small_plan();
        let number = self.random.between(0, plan.transitions.len());
        let transition = transition_along_arcs(&mut self.random, &plan, length);
        plan.transitions.insert(number, transition);
        (plan, number)
    }

    /// A small draft with at least one number of a role, and the position of such a number.
    pub(super) fn draft_with(&mut self, role: Role) -> (Draft, usize) {
        loop {
            let draft = self.small_plan().draft();
            if let Some(&position) = self.random.pick(&draft.positions(role)) {
                return (draft, position);
            }
        }
    }

    fn document_files(&mut self) {
        for worked in document::cases().into_iter().chain(document::samples()) {
            let mut words = worked.line.split(' ');
            let expected = if words.next() == Some("refused") {
                let numbers: Vec<usize> = words.filter_map(|word| word.parse().ok()).collect();
                Expected::Refused(numbers[0] as u8, numbers[1])
            } else {
                Expected::Read
            };
            self.add("document", worked.bytes, expected);
        }
    }

    fn valid_files(&mut self) {
        for _ in 0..500 {
            let plan = self.small_plan();
            self.valid("valid small", &plan);
        }
        for _ in 0..60 {
            let plan = fresh_plan(&mut self.random, &Shape::MEDIUM);
            self.valid("valid medium", &plan);
        }
        for _ in 0..8 {
            let plan = fresh_plan(&mut self.random, &Shape::LARGE);
            self.valid("valid large", &plan);
        }
        // One count after another at its limit, the rest small.
        for shape in [
            Shape { control_states: read::CONTROL_STATES, machines: read::MACHINES, ..Shape::SMALL },
            Shape { messages: read::MESSAGES, queues: read::QUEUES, ..Shape::SMALL },
            Shape { transitions: read::TRANSITIONS, ..Shape::SMALL },
            Shape { pool_states: read::POOL_STATES, messages: 2, queues: 2, ..Shape::SMALL },
            Shape { bad: read::BAD_ENTRIES, ..Shape::SMALL },
        ] {
            for _ in 0..24 {
                let plan = fresh_plan(&mut self.random, &shape);
                self.valid("valid with one large count", &plan);
            }
        }
        for _ in 0..3 {
            let plan = maximal_closed(&mut self.random);
            self.valid("valid maximal", &plan);
        }
        let plan = longest_fresh(&mut Random::new(1));
        self.valid("valid longest of the first form", &plan);
    }

    fn valid_words(&mut self) {
        for length in 0..=read::WORD_LENGTH {
            for _ in 0..8 {
                let (plan, _) = self.plan_with_word(length);
                self.valid(&format!("valid with a word of {length:02}"), &plan);
            }
        }
    }

    /// Products and sums that just pass the tests of row 6.
    fn valid_products_and_sums(&mut self) {
        for states in [vec![16, 16], vec![2, 8, 16], vec![4, 4, 4, 4], vec![16, 16, 1, 1], vec![1, 16, 1, 16]] {
            let mut plan = self.small_plan();
            plan.starts = states.iter().map(|states| states - 1).collect();
            plan.states = states;
            plan.transitions.clear();
            plan.bad.clear();
            plan.roots = vec![None; plan.control_states()];
            self.valid("valid product at its limit", &plan);
        }
        for queues in [vec![32], vec![31, 1], vec![1, 31], vec![8; 4], vec![1, 1, 1, 29], vec![10, 22]] {
            let mut plan = self.small_plan();
            plan.queues = queues;
            plan.transitions.clear();
            for state in &mut plan.pool {
                state.arcs.clear();
            }
            self.valid("valid sum at its limit", &plan);
        }
    }

    fn flips(&mut self) {
        for round in 0..700 {
            let plan = if round % 100 == 0 { fresh_plan(&mut self.random, &Shape::MEDIUM) } else { self.small_plan() };
            let mut bytes = plan.bytes();
            for _ in 0..self.random.between(1, 3) {
                let at = self.random.below(bytes.len());
                bytes[at] = match self.random.below(3) {
                    0 => self.random.byte(),
                    1 => bytes[at] ^ (1 << self.random.below(8)),
                    _ => bytes[at].wrapping_add(1),
                };
            }
            self.add("flipped bytes", bytes, Expected::Open);
        }
        for _ in 0..60 {
            let length = self.random.between(1, 60);
            let most = self.random.between(1, 6);
            let bytes = (0..length).map(|_| self.random.between(0, most) as u8).collect();
            self.add("random bytes", bytes, Expected::Open);
        }
    }
}
