//! Files for reading that resume, and what is refused of what waits at the start: lengths, messages, 23, first numbers, and bytes
//! that end there or have another form.

use std::collections::BTreeMap;

use super::document::{hex, R};
use super::draft::{encode, Draft, Number, Role};
use super::large::longest;
use super::plan::{Plan, Shape};
use super::reading::{resuming_reading_cases, Expected, Generator};
use super::resume::{messages_of, random_starting};
use crate::form_traps::{read_form_with, FormTrap};
use crate::random::Random;
use crate::read::{read, Refusal, Tables, MACHINES, QUEUES, STARTING};

/// Like `Shape::SMALL`, but every machine and every queue can be there.
const SHAPE: Shape = Shape { machines: MACHINES, queues: QUEUES, messages: 8, ..Shape::SMALL };

/// Small files of every kind, and so many that tell each mistake about the two forms, given how they are answered for once they are
/// read or refused; with what they are refused by.
pub(super) fn form_files<A: PartialEq>(
    seed: u64,
    of_each: usize,
    answer: impl Fn(&Result<Tables, Refusal>) -> A,
) -> Vec<(Vec<u8>, Option<Refusal>)> {
    let mut told: BTreeMap<FormTrap, usize> = BTreeMap::new();
    let mut kinds: BTreeMap<String, usize> = BTreeMap::new();
    let mut files = vec![];
    for case in resuming_reading_cases(seed).cases.into_iter().filter(|case| case.bytes.len() < 200) {
        let reply = read(&case.bytes);
        let right = answer(&reply);
        let tells = |trap: &FormTrap| answer(&read_form_with(&case.bytes, Some(*trap))) != right;
        let good_for: Vec<FormTrap> = FormTrap::OF_FORM.into_iter().filter(tells).collect();
        let is_seldom = |trap: &FormTrap| told.get(trap).copied().unwrap_or(0) < of_each;
        let of_kind = kinds.entry(case.kind).or_default();
        if *of_kind < 1 || good_for.iter().any(is_seldom) {
            *of_kind += 1;
            good_for.into_iter().for_each(|trap| *told.entry(trap).or_default() += 1);
            files.push((case.bytes, reply.err()));
        }
    }
    files
}

/// Files of either form, most of them damaged in one number, cut, or with a byte changed.
pub fn random_files(seed: u64, count: usize) -> impl Iterator<Item = Vec<u8>> {
    let mut generator = Generator { resuming: 80, ..Generator::new(seed) };
    (0..count).map(move |_| generator.damaged_file())
}

/// The kinds of these files, each with how many there must be.
pub const KINDS: [(&str, usize); 37] = [
    ("start: the new form", 32),
    ("start: the same in the first form", 32),
    ("start: R in both forms", 9),
    ("start: a length of 0", 6),
    ("start: a length of 1", 10),
    ("start: a length of 2", 10),
    ("start: a length of 3", 10),
    ("start: a length of 4", 10),
    ("start: a length of 5", 10),
    ("start: a length of 6", 10),
    ("start: a length of 7", 10),
    ("start: a length of 8", 10),
    ("start: a length of 9", 10),
    ("start: a length far past", 16),
    ("start: bytes end at the length 9", 4),
    ("start: 4 before 5 at the length 9", 4),
    ("start: a message of an earlier queue", 24),
    ("start: a message of a later queue", 24),
    ("start: a message at the sum", 16),
    ("start: a message far past", 16),
    ("start: bytes end at a message of another queue", 8),
    ("start: cut at a number", 60),
    ("start: cut inside a number", 20),
    ("start: second byte 0", 20),
    ("start: second byte 128 or above", 20),
    ("start: first number 0", 4),
    ("start: first number 9", 4),
    ("start: first number 10", 4),
    ("start: first number far past", 14),
    ("start: first number, and 8 more", 8),
    ("start: 23", 16),
    ("start: 23 before field 3", 30),
    ("start: 23 before 9 and 10", 8),
    ("start: 23 not yet, 3", 8),
    ("start: 23 not yet, 4", 8),
    ("start: 23 not yet, 5", 8),
    ("start: 23 not yet, the last queue waits", 16),
];

impl Generator {
    pub(super) fn resuming_files(&mut self) {
        self.resuming = 100;
        self.both_forms();
        self.starting_lengths();
        self.lengths_past();
        for place in 0..STARTING {
            self.starting_messages(place);
        }
        self.starting_parts_cut();
        self.first_numbers();
        self.starting_empty();
        self.not_yet_empty();
        self.other_roles();
        self.later_rows();
        self.resuming_flips();
    }

    /// A plan of so many machines and queues, whose queues start empty.
    fn plan_of_counts(&mut self, machines: usize, queues: usize) -> Plan {
        loop {
            let plan = Plan { starting: vec![], ..self.plan_of_shape(&SHAPE) };
            if plan.states.len() == machines && plan.queues.len() == queues {
                return plan;
            }
        }
    }

    /// A plan of so many queues, of which one has a word of this length at the start and the others any.
    fn plan_waiting(&mut self, queues: usize, queue: usize, length: usize) -> Plan {
        let machines = self.random.between(1, MACHINES);
        let mut plan = self.plan_of_counts(machines, queues);
        plan.starting = random_starting(&mut self.random, &plan);
        plan.starting[queue] = messages_of(&mut self.random, &plan, queue, length);
        plan
    }

    /// The position of a queue's length among the numbers of a draft.
    fn position_of_length(draft: &Draft, queue: usize) -> usize {
        draft.positions(Role::StartingLength)[queue]
    }

    fn both_forms(&mut self) {
        for machines in 1..=MACHINES {
            for queues in 1..=QUEUES {
                for _ in 0..2 {
                    let fresh = self.plan_of_counts(machines, queues);
                    let plan = Plan { starting: random_starting(&mut self.random, &fresh), ..fresh.clone() };
                    self.valid("start: the new form", &plan);
                    self.valid("start: the same in the first form", &fresh);
                }
            }
        }
        // R with up to eight messages of its only kind.
        let r = hex(R);
        self.add("start: R in both forms", r.clone(), Expected::Read);
        for length in 1..=STARTING {
            let waiting = vec![0; length];
            let bytes = [&[6], &r[1..7], &[length as u8], &waiting, &r[7..]].concat();
            self.add("start: R in both forms", bytes, Expected::Read);
        }
        // As many messages as can wait, and the longest file of all.
        for round in 0..4 {
            let mut plan = self.plan_of_counts(1 + round, QUEUES);
            plan.starting = (0..QUEUES).map(|queue| messages_of(&mut self.random, &plan, queue, STARTING)).collect();
            self.valid("start: 8 messages in each of four queues", &plan);
        }
        let plan = longest(&mut Random::new(1));
        self.valid("start: the longest file", &plan);
    }

    /// Each queue of one to four queues starts with each number of messages, and with one too many.
    fn starting_lengths(&mut self) {
        for queues in 1..=QUEUES {
            for queue in 0..queues {
                for length in 0..=STARTING + 1 {
                    let plan = loop {
                        let plan = self.plan_waiting(queues, queue, length);
                        if plan.resumes() || queues == 1 {
                            break plan;
                        }
                    };
                    let kind = format!("start: a length of {length}");
                    let draft = plan.draft_of_form(true);
                    let place = draft.place(Self::position_of_length(&draft, queue));
                    match length {
                        0 if queues == 1 => self.refused("start: 23", draft.bytes(), 23, 0),
                        0..=STARTING => self.valid(&kind, &plan),
                        _ => self.refused(kind, draft.bytes(), 5, place),
                    }
                }
            }
        }
    }

    /// In some of these numbers the low group or the low byte is a length.
    fn lengths_past(&mut self) {
        for far in [10, 15, 16, 17, 127, 128, 136, 16_383, 12, 32, 64, 129, 255, 256, 264, 1_032] {
            let queues = self.random.between(1, QUEUES);
            let queue = self.random.below(queues);
            let draft = self.plan_waiting(queues, queue, STARTING).draft();
            let position = Self::position_of_length(&draft, queue);
            let place = draft.place(position);
            self.refused("start: a length far past", draft.bytes_with(position, &encode(far)), 5, place);
        }
        for round in 0..8 {
            let queues = self.random.between(1, QUEUES);
            let queue = self.random.below(queues);
            let draft = self.plan_waiting(queues, queue, STARTING + 1).draft_of_form(true);
            let position = Self::position_of_length(&draft, queue);
            let place = draft.place(position);
            if round % 2 == 0 {
                let bytes = draft.bytes()[..=place].to_vec();
                self.refused("start: bytes end at the length 9", bytes, 5, place);
            } else {
                let bytes = draft.bytes_with(position, &[128 | 9, 0]);
                self.refused("start: 4 before 5 at the length 9", bytes, 4, place);
            }
        }
    }

    /// A message at a place of its queue that is of another queue, or of none, or in another form. Whatever is behind it.
    fn starting_messages(&mut self, place_in_queue: usize) {
        for round in 0..2 {
            let queues = self.random.between(3, QUEUES);
            for queue in [0, self.random.between(1, queues - 2), queues - 1] {
                let length = if round == 0 { place_in_queue + 1 } else { STARTING };
                let plan = self.plan_waiting(queues, queue, length);
                let draft = plan.draft();
                let position = Self::position_of_length(&draft, queue) + 1 + place_in_queue;
                let place = draft.place(position);
                let (own, sum) = (plan.messages_of(queue), plan.message_sum());
                if queue > 0 {
                    let earlier = if round == 0 { own.start - 1 } else { self.random.below(own.start) };
                    let bytes = draft.bytes_with(position, &encode(earlier));
                    self.refused("start: a message of an earlier queue", bytes, 7, place);
                }
                if queue + 1 < queues {
                    let later = if round == 0 { own.end } else { self.random.between(own.end, sum - 1) };
                    let mut bytes = draft.bytes_with(position, &encode(later));
                    self.refused("start: a message of a later queue", bytes.clone(), 7, place);
                    if queue == 0 {
                        bytes.truncate(place + 1);
                        self.refused("start: bytes end at a message of another queue", bytes, 7, place);
                    }
                }
                let far = [127, 128, 160, 255, 256, 16_383][self.random.below(6)];
                let (kind, past) =
                    if queue > 0 { ("start: a message at the sum", sum) } else { ("start: a message far past", far) };
                self.refused(kind, draft.bytes_with(position, &encode(past)), 5, place);
                let (kind, second) = if queue % 2 == round {
                    ("start: second byte 0", 0)
                } else {
                    ("start: second byte 128 or above", 128 | self.random.byte())
                };
                let first = 128 | draft.numbers[position].value as u8;
                self.refused(kind, draft.bytes_with(position, &[first, second]), 4, place);
            }
        }
    }

    /// Cut before each number that says what waits, behind the last one, and inside of them; and each length in another form.
    fn starting_parts_cut(&mut self) {
        for round in 0..8 {
            let draft = self.plan_waiting(1 + round % QUEUES, 0, [1, 2, 4, 8][round / 2]).draft();
            let first = Self::position_of_length(&draft, 0);
            let behind = draft.positions(Role::Transitions)[0];
            for position in first..=behind {
                let place = draft.place(position);
                self.refused("start: cut at a number", draft.bytes()[..place].to_vec(), 3, place);
                if position % 3 == round % 3 {
                    let bytes = [&draft.bytes()[..place], &[128 | self.random.byte()]].concat();
                    self.refused("start: cut inside a number", bytes, 3, place + 1);
                }
                if draft.numbers[position].role == Role::StartingLength {
                    let first = 128 | draft.numbers[position].value as u8;
                    let longer = draft.bytes_with(position, &[first, 0]);
                    self.refused("start: second byte 0", longer, 4, place);
                    let three = draft.bytes_with(position, &[first, 128]);
                    self.refused("start: second byte 128 or above", three, 4, place);
                }
            }
        }
    }

    /// Each number from 0 to 10 in the place of the first, whatever form the rest has.
    fn first_numbers(&mut self) {
        for round in 0..4 {
            let plan = self.plan_waiting(1 + round, 0, 1 + round);
            let draft = plan.draft_of_form(round % 2 == 0);
            for first in 0..=10 {
                let bytes = draft.bytes_with(0, &encode(first));
                let kind = format!("start: first number {first}");
                match first {
                    0 | 9 | 10 => self.refused(kind, bytes, 5, 0),
                    _ if first == draft.numbers[0].value => self.add(kind, bytes, Expected::Read),
                    _ => self.add(kind, bytes, Expected::Open),
                }
            }
        }
        // In some of these the low group or the low byte is a number of machines.
        for far in [11, 12, 13, 16, 127, 128, 129, 133, 136, 255, 256, 261, 264, 16_383] {
            let draft = self.plan_waiting(2, 0, 2).draft();
            let bytes = draft.bytes_with(0, &encode(far));
            self.refused("start: first number far past", bytes, 5, 0);
        }
        for round in 0..8 {
            let draft = self.plan_waiting(1 + round / 2, 0, 1 + round).draft_of_form(round % 2 == 0);
            let bytes = draft.bytes_with(0, &encode(draft.numbers[0].value + 8));
            self.refused("start: first number, and 8 more", bytes, 5, 0);
        }
        for first in 5..=8 {
            let draft = self.plan_waiting(2, 0, 2).draft();
            self.refused("start: first number alone", vec![first], 3, 1);
            self.refused("start: first number alone", vec![128 | first], 3, 1);
            self.refused("start: first number, second byte 0", draft.bytes_with(0, &[128 | first, 0]), 4, 0);
        }
        self.refused("start: first number alone", vec![9], 5, 0);
    }

    /// All queues start empty in the new form. What is behind it is not read.
    fn starting_empty(&mut self) {
        for machines in 1..=MACHINES {
            for queues in 1..=QUEUES {
                let draft = self.plan_of_counts(machines, queues).draft_of_form(true);
                let bytes = draft.bytes();
                let behind = draft.positions(Role::Transitions)[0];
                let place = draft.place(behind);
                self.refused("start: 23", bytes.clone(), 23, 0);
                self.refused("start: 23 before field 3", bytes[..place].to_vec(), 23, 0);
                let wrong = [&[255][..], &[129, 1], &[128, 0], &[255, 255]][self.random.below(4)];
                self.refused("start: 23 before field 3", [&bytes[..place], wrong].concat(), 23, 0);
            }
        }
        for round in 0..8 {
            let mut plan = self.any_faulty_plan();
            plan.starting.clear();
            let mut bytes = plan.draft_of_form(true).bytes();
            if round % 2 == 0 {
                bytes.push(self.random.byte());
            }
            self.refused("start: 23 before 9 and 10", bytes, 23, 0);
        }
    }

    /// Up to the last length nothing waits, and then there is something else to refuse, or something waits.
    fn not_yet_empty(&mut self) {
        for queues in 1..=QUEUES {
            for round in 0..4 {
                let mut plan = self.plan_of_counts(1 + round, queues);
                let draft = plan.draft_of_form(true);
                let last = Self::position_of_length(&draft, queues - 1);
                let place = draft.place(last);
                let mut cut = draft.bytes()[..place].to_vec();
                cut.resize(place + round % 2, 128);
                let length = cut.len();
                self.refused("start: 23 not yet, 3", cut, 3, length);
                let second = [0, 128][round % 2];
                self.refused("start: 23 not yet, 4", draft.bytes_with(last, &[128, second]), 4, place);
                let past = [9, 16, 128, 16_383][round];
                self.refused("start: 23 not yet, 5", draft.bytes_with(last, &encode(past)), 5, place);
                plan.starting = vec![vec![]; queues];
                let length = self.random.between(1, STARTING);
                plan.starting[queues - 1] = messages_of(&mut self.random, &plan, queues - 1, length);
                self.valid("start: 23 not yet, the last queue waits", &plan);
                let draft = plan.draft();
                let first = draft.place(last + 1);
                let past = plan.message_sum();
                self.refused("start: 23 not yet, the first message", draft.bytes()[..first].to_vec(), 3, first);
                let bytes = draft.bytes_with(last + 1, &encode(past));
                self.refused("start: 23 not yet, the first message", bytes, 5, first);
            }
        }
    }

    /// The numbers of all other roles, with what waits before them or behind.
    fn other_roles(&mut self) {
        for role in Role::OF_EVERY_FILE {
            let (draft, position) = self.draft_with(role);
            let place = draft.place(position);
            self.refused("start: 3 in another field", draft.bytes()[..place].to_vec(), 3, place);
            let (draft, position) = self.draft_with(role);
            let first = 128 | draft.numbers[position].value as u8;
            let bytes = draft.bytes_with(position, &[first, 0]);
            self.refused("start: 4 in another field", bytes, 4, draft.place(position));
            let (draft, position) = self.draft_with(role);
            let past = draft.numbers[position].most + 1;
            let bytes = draft.bytes_with(position, &encode(past));
            self.refused("start: 5 in another field", bytes, 5, draft.place(position));
        }
    }

    /// Files that resume and are refused by 6, 7, 9 or 10.
    fn later_rows(&mut self) {
        for round in 0..8 {
            let mut bytes = self.small_plan().bytes();
            let length = bytes.len();
            bytes.extend((0..=round).map(|_| self.random.byte()));
            self.refused("start: 10", bytes, 10, length);
            let bytes = self.any_faulty_plan().bytes();
            let length = bytes.len();
            self.refused("start: 9", bytes, 9, length);
            // With 32 messages any other queue passes the sum.
            let queues = 2 + round % (QUEUES - 1);
            let draft = self.plan_waiting(queues, 0, 1).draft();
            let position = draft.positions(Role::Messages)[1 + round % (queues - 1)];
            self.refused("start: 6", draft.bytes_with(position, &[32]), 6, draft.place(position));
        }
        for _ in 0..8 {
            let (plan, draft, position) = loop {
                let plan = self.small_plan();
                let draft = plan.draft();
                let words = draft.positions(Role::WordMessage);
                if let (Some(&position), true) = (self.random.pick(&words), plan.queues.len() > 1) {
                    break (plan, draft, position);
                }
            };
            let own = plan.queue_of(draft.numbers[position].value);
            let others: Vec<usize> = (0..plan.message_sum()).filter(|&other| plan.queue_of(other) != own).collect();
            let other = *self.random.pick(&others).expect("there are two queues");
            self.refused("start: 7 in field 3", draft.bytes_with(position, &encode(other)), 7, draft.place(position));
        }
    }

    fn damaged_file(&mut self) -> Vec<u8> {
        let draft = self.plan_of_shape(&SHAPE).draft();
        let mut bytes = draft.bytes();
        // Mostly before field 3.
        let behind = draft.positions(Role::Transitions)[0] + 1;
        let behind = if self.random.chance(70) { behind } else { draft.numbers.len() };
        let position = self.random.below(behind);
        let Number { least, most, value, .. } = draft.numbers[position];
        let number = match self.random.below(9) {
            0 => return bytes,
            1 => encode(most + 1),
            2 => encode(self.random.between(least, most)),
            3 => encode(self.random.below(12)),
            4 => vec![128 | (value % 128) as u8, [0, 128][self.random.below(2)]],
            5 => vec![],
            6 => [encode(self.random.between(least, most)), encode(value)].concat(),
            7 => {
                bytes.truncate(self.random.between(draft.place(position), bytes.len()));
                return bytes;
            }
            _ => {
                let at = draft.place(position);
                bytes[at] = bytes[at].wrapping_add(self.random.byte() >> self.random.below(8));
                return bytes;
            }
        };
        draft.bytes_with(position, &number)
    }

    /// Half of them near the start of the file.
    fn resuming_flips(&mut self) {
        for round in 0..80 {
            let mut bytes = self.plan_of_shape(&SHAPE).bytes();
            let near = if round % 2 == 0 { bytes.len() } else { bytes.len().min(16) };
            for _ in 0..self.random.between(1, 2) {
                let at = self.random.below(near);
                bytes[at] = match self.random.below(3) {
                    0 => self.random.byte(),
                    1 => bytes[at] ^ (1 << self.random.below(8)),
                    _ => bytes[at].wrapping_add(1),
                };
            }
            self.add("start: flipped bytes", bytes, Expected::Open);
        }
    }
}
