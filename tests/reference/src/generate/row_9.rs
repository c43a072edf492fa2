//! Files for row 9: those that are refused by it, those that an earlier number is refused in first, and those that are read
//! though their pool is out of order somewhere.

use std::collections::BTreeMap;

use super::disorder::{add_chain, add_fault, add_harmless, reached, word_of_equal_queues, Fault, Harmless};
use super::draft::{encode, Draft, Role};
use super::large::longest_test_of_order;
use super::plan::{Plan, PlannedState, Shape};
use super::reading::{Expected, Generator};
use crate::read::{Refusal, POOL_STATES};

/// Of each kind.
const FILES: usize = 32;

/// The kinds that have so many files, but for the faults and the harmless parts.
const KINDS: [&str; 14] = [
    "row 9: before 10",
    "row 9: bytes end after field 4",
    "row 9: 5 in field 4 first",
    "row 9: 3 in field 5 first",
    "row 9: 4 in field 5 first",
    "row 9: 5 in field 5 first",
    "row 9: 3 in field 6 first",
    "row 9: 4 in field 6 first",
    "row 9: 5 in field 6 first",
    "row 9 not yet: the word is not accepted",
    "row 9 not yet: no root for the word",
    "row 9 not yet: no roots at all",
    "row 9 not yet: no final states",
    "row 9 not yet: messages of one queue",
];

/// All kinds that have so many files.
pub fn kinds() -> Vec<String> {
    let refused = Fault::ALL.map(|fault| format!("row 9: {}", fault.name()));
    let read = Harmless::ALL.map(|part| format!("row 9 not yet: {}", part.place()));
    refused.into_iter().chain(read).chain(KINDS.map(String::from)).collect()
}

const FIELD_5: [Role; 1] = [Role::Root];
const FIELD_6: [Role; 3] = [Role::BadEntries, Role::BadControlState, Role::BadRoot];

/// Small files that are refused by 9, or by what comes before it, so many of each kind.
pub(super) fn refused_about_order(seed: u64, of_each_kind: usize) -> Vec<(Vec<u8>, Refusal)> {
    let mut generator = Generator::fresh(seed);
    generator.row_9();
    let mut taken: BTreeMap<String, usize> = BTreeMap::new();
    let mut files = vec![];
    for case in generator.cases {
        let Expected::Refused(number, place) = case.expected else { continue };
        let count = taken.entry(case.kind).or_default();
        if *count < of_each_kind && case.bytes.len() < 300 {
            *count += 1;
            files.push((case.bytes, Refusal { number, place }));
        }
    }
    files
}

impl Generator {
    pub(super) fn row_9(&mut self) {
        for _ in 0..FILES {
            for fault in Fault::ALL {
                self.faulty(fault);
            }
            self.more_bytes();
            self.earlier_refusals();
            for part in Harmless::ALL {
                let plan = self.harmless_plan(part);
                self.valid(&format!("row 9 not yet: {}", part.place()), &plan);
            }
            self.nothing_counts();
            self.equal_queues();
        }
        for ways in [Vec::new(), vec![0], vec![0, POOL_STATES - 1]] {
            self.longest_test(&ways);
        }
        for _ in 0..6 * FILES {
            let plan = self.plan_in_any_order();
            self.add("row 9: arcs in any order", plan.bytes(), Expected::Open);
        }
    }

    /// A plan of several queues with a root and a used state that lacks an arc, so that something can be added.
    pub(super) fn plan_of_queues(&mut self) -> Plan {
        loop {
            let plan = self.small_plan();
            let lacks = |state: usize| plan.pool[state].arcs.len() < plan.message_sum();
            if plan.queues.len() > 1 && reached(&plan).into_iter().any(lacks) {
                return plan;
            }
        }
    }

    pub(super) fn harmless_plan(&mut self, part: Harmless) -> Plan {
        loop {
            let mut plan = self.plan_of_queues();
            if add_harmless(&mut self.random, &mut plan, part) {
                return plan;
            }
        }
    }

    /// The file is refused at its end; and read once nothing is accepted at the end of the word, or once no root leads there.
    fn faulty(&mut self, fault: Fault) {
        let plain = self.plan_of_queues();
        let mut plan = plain.clone();
        let chain = add_fault(&mut self.random, &mut plan, fault);
        let bytes = plan.bytes();
        let end = bytes.len();
        self.refused(format!("row 9: {}", fault.name()), bytes, 9, end);
        if fault == Fault::BehindUsed {
            return;
        }
        if self.random.chance(50) {
            let mut dead = plan.clone();
            dead.pool[chain.last].is_final = false;
            self.valid("row 9 not yet: the word is not accepted", &dead);
        } else {
            let unused = Plan { roots: plain.roots, bad: plain.bad, ..plan };
            self.valid("row 9 not yet: no root for the word", &unused);
        }
    }

    pub(super) fn any_faulty_plan(&mut self) -> Plan {
        let fault = Fault::ALL[self.random.below(Fault::ALL.len())];
        let mut plan = self.plan_of_queues();
        add_fault(&mut self.random, &mut plan, fault);
        plan
    }

    fn any_faulty_draft(&mut self) -> Draft {
        self.any_faulty_plan().draft()
    }

    /// 9 comes before 10, at the same place.
    fn more_bytes(&mut self) {
        let mut bytes = self.any_faulty_draft().bytes();
        let end = bytes.len();
        let more = self.random.between(1, 6);
        bytes.extend((0..more).map(|_| self.random.byte()));
        self.refused("row 9: before 10", bytes, 9, end);
    }

    /// What is refused in field 4, 5 or 6 comes before 9.
    fn earlier_refusals(&mut self) {
        for (field, roles) in [(5, &FIELD_5[..]), (6, &FIELD_6[..])] {
            let (draft, position) = self.faulty_draft_with(roles);
            let place = draft.place(position);
            let mut cut = draft.bytes()[..place].to_vec();
            if self.random.chance(30) {
                cut.push(128 | self.random.byte());
            }
            let length = cut.len();
            self.refused(format!("row 9: 3 in field {field} first"), cut, 3, length);

            let (draft, position) = self.faulty_draft_with(roles);
            let first = 128 | draft.numbers[position].value as u8;
            let bytes = draft.bytes_with(position, &[first, 0]);
            self.refused(format!("row 9: 4 in field {field} first"), bytes, 4, draft.place(position));

            let (draft, position) = self.faulty_draft_with(roles);
            let bytes = draft.bytes_with(position, &encode(draft.numbers[position].most + 1));
            self.refused(format!("row 9: 5 in field {field} first"), bytes, 5, draft.place(position));
        }
        let draft = self.any_faulty_draft();
        let after_pool = draft.positions(Role::Root)[0];
        let bytes = draft.bytes()[..draft.place(after_pool)].to_vec();
        let length = bytes.len();
        self.refused("row 9: bytes end after field 4", bytes, 3, length);
        let last = after_pool - 1;
        let past = draft.numbers[last].most + 1;
        self.refused("row 9: 5 in field 4 first", draft.bytes_with(last, &encode(past)), 5, draft.place(last));
    }

    fn faulty_draft_with(&mut self, roles: &[Role]) -> (Draft, usize) {
        loop {
            let draft = self.any_faulty_draft();
            let positions: Vec<usize> = roles.iter().flat_map(|&role| draft.positions(role)).collect();
            if let Some(&position) = self.random.pick(&positions) {
                return (draft, position);
            }
        }
    }

    /// The longest test there is, with these states final. With none of them the file is read.
    fn longest_test(&mut self, finals: &[usize]) {
        let mut plan = longest_test_of_order(&mut self.random);
        for &state in finals {
            plan.pool[state].is_final = true;
        }
        let bytes = plan.bytes();
        let end = bytes.len();
        if finals.is_empty() {
            self.valid("row 9 not yet: the longest test", &plan);
        } else {
            self.refused("row 9: in the largest pool", bytes, 9, end);
        }
    }

    /// Arcs in any order, and no root or no final state, so that no word is accepted.
    fn nothing_counts(&mut self) {
        let mut rootless = self.plan_in_any_order();
        rootless.roots.fill(None);
        rootless.bad.clear();
        self.valid("row 9 not yet: no roots at all", &rootless);
        let mut endless = self.plan_in_any_order();
        for state in &mut endless.pool {
            state.is_final = false;
        }
        self.valid("row 9 not yet: no final states", &endless);
    }

    fn equal_queues(&mut self) {
        let mut plan = self.plan_of_queues();
        let word = word_of_equal_queues(&mut self.random, &plan);
        let chain = add_chain(&mut self.random, &mut plan, &word, 0);
        let control_state = self.random.below(plan.control_states());
        plan.roots[control_state] = Some(chain.first);
        self.valid("row 9 not yet: messages of one queue", &plan);
    }

    /// A plan whose arcs heed no order. With few arcs, final states and roots about half of these files are read.
    pub(crate) fn plan_in_any_order(&mut self) -> Plan {
        let shape = Shape { queues: 3, messages: 3, pool_states: 4, ..Shape::SMALL };
        let mut plan = loop {
            let plan = self.plan_of_shape(&shape);
            if plan.queues.len() > 1 {
                break plan;
            }
        };
        let states = self.random.between(2, 4);
        let (density, finals) = (self.random.between(15, 70), self.random.between(10, 60));
        plan.pool = (0..states)
            .map(|_| {
                let has_arc: Vec<bool> = (0..plan.message_sum()).map(|_| self.random.chance(density)).collect();
                let messages = (0..plan.message_sum()).filter(|&message| has_arc[message]);
                let arcs = messages.map(|message| (message, self.random.below(states))).collect();
                PlannedState { is_final: self.random.chance(finals), arcs }
            })
            .collect();
        for root in plan.roots.iter_mut().flatten() {
            *root = self.random.below(states);
        }
        for (_, root) in &mut plan.bad {
            *root = self.random.below(states);
        }
        plan
    }
}
