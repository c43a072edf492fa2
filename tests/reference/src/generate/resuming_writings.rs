//! Tables to be written in which something waits at the start, or would if the tables were those of a file: both forms restored and
//! turned into each other, and every entry of what waits changed.

use super::disorder::{add_fault, Fault};
use super::large::longest;
use super::plan::Plan;
use super::reading::{fresh_reading_cases, reading_cases};
use super::resume::{messages_of, random_starting};
use super::resuming_files::form_files;
use super::writing::{edits_between, Base, Expected, Writings};
use super::writing_damage::{edit, Change, CHANGES};
use crate::flat::{
    Flat, Part, AT_FINALS, AT_MACHINES, AT_MESSAGES, AT_QUEUES, AT_STARTING, AT_STARTING_LENGTHS, AT_SUM,
    AT_TRANSITIONS, SPACE,
};
use crate::random::Random;
use crate::read::{read, Refusal, Tables, QUEUES, STARTING};
use crate::start_features::ENOUGH_OF_FORM;
use crate::stream::{Edit, Handed};
use crate::write::{write, NO_FILE};
use crate::writing_features::LONGEST_BUFFER;

/// The place of a message that waits.
fn waiting(queue: usize, index: usize) -> usize {
    AT_STARTING + queue * STARTING + index
}

impl Writings {
    pub(super) fn resuming_writings(&mut self, seed: u64) {
        self.plans.resuming = 100;
        self.both_forms_written_back(seed);
        self.resuming_buffers();
        self.turned_into_the_other_form();
        self.starting_entries();
        for _ in 0..8 {
            self.lengths_of_no_file();
            self.messages_of_no_file();
            self.messages_past_the_length();
            self.queues_past_the_count();
            self.counts_around_what_waits();
        }
        self.ends_of_what_is_unused(&[Part::StartingLengthPast, Part::StartingPast, Part::StartingRoomPast]);
        self.resuming_products();
        self.resuming_from_all_zero();
        self.resuming_out_of_order();
        for round in 0..90 {
            let base = self.base();
            let edits: Vec<Edit> = (0..=round % 3).map(|_| self.any_edit(&base.flat)).collect();
            self.open("any entries where something waits", &base, &edits);
        }
        self.files_of_either_form(seed);
    }

    /// A plan in which a queue starts with so many messages, and the others with any. It has more queues, or it is the last.
    fn plan_waiting(&mut self, length: usize, has_others: bool) -> (Plan, usize) {
        let mut plan = loop {
            let plan = self.plan();
            if plan.queues.len() > 1 || !has_others {
                break plan;
            }
        };
        let queue = self.random().below(plan.queues.len());
        plan.starting = random_starting(self.random(), &plan);
        plan.starting[queue] = messages_of(self.random(), &plan, queue, length);
        (plan, queue)
    }

    /// Every file of the stream for reading that is read and came with request 8.
    fn both_forms_written_back(&mut self, seed: u64) {
        let before = fresh_reading_cases(seed).cases.len();
        for case in reading_cases(seed).cases.into_iter().skip(before) {
            if read(&case.bytes).is_ok() {
                self.unchanged("either form written back", &case.bytes, case.bytes.len());
            }
        }
    }

    fn resuming_buffers(&mut self) {
        for _ in 0..8 {
            let file = self.plan().bytes();
            let length = file.len();
            let (shorter, longer) = (self.random().below(length), length + self.random().between(2, 400));
            for buffer_length in [length - 1, length + 1, 0, shorter, longer, LONGEST_BUFFER] {
                self.unchanged("another buffer for the new form", &file, buffer_length);
            }
        }
        let base = Base::of_plan(&longest(&mut Random::new(1)));
        let length = base.file.len();
        for buffer_length in [length - 1, length, length + 1, LONGEST_BUFFER, 0] {
            self.unchanged("the longest file", &base.file, buffer_length);
        }
        for place in [AT_STARTING_LENGTHS, AT_STARTING_LENGTHS + QUEUES - 1] {
            self.refused("the longest file, damaged", &base, &[edit(place, STARTING + 1)]);
            self.refused("the longest file, damaged", &base, &[edit(place, STARTING - 1)]);
        }
        self.refused("the longest file, damaged", &base, &[edit(AT_TRANSITIONS - 1, 0)]);
        self.refused("the longest file, damaged", &base, &[edit(SPACE - 1, 127)]);
    }

    /// Something comes to wait, nothing waits any longer, and other messages wait.
    fn turned_into_the_other_form(&mut self) {
        for _ in 0..16 {
            let plan = self.plan();
            let fresh = Plan { starting: vec![], ..plan.clone() };
            self.turn_into("made to resume", &Base::of_plan(&fresh), &plan);
            self.turn_into("made to start empty", &Base::of_plan(&plan), &fresh);
            let other = Plan { starting: random_starting(self.random(), &plan), ..plan.clone() };
            self.turn_into("made to start otherwise", &Base::of_plan(&plan), &other);
        }
        // A message 0 of the first queue waits by its length alone, and so does one less.
        for length in 1..=STARTING {
            let mut plan = self.plan();
            plan.starting = vec![vec![0; length]];
            let less = Plan { starting: vec![vec![0; length - 1]], ..plan.clone() };
            self.turn_into("a length more", &Base::of_plan(&less), &plan);
            self.turn_into("a length less", &Base::of_plan(&plan), &less);
        }
    }

    /// Each length and each message, used or not.
    fn starting_entries(&mut self) {
        for place in AT_STARTING_LENGTHS..AT_STARTING {
            for change in CHANGES {
                for _ in 0..4 {
                    let (base, value) = self.base_to_change(place, change);
                    self.open("a length of what waits", &base, &[Edit { place, value }]);
                }
            }
        }
        for place in AT_STARTING..AT_TRANSITIONS {
            for change in [Change::OneMore, Change::Any, Change::Full] {
                let (base, value) = self.base_to_change(place, change);
                self.open("a message that waits", &base, &[Edit { place, value }]);
            }
        }
    }

    /// Nine messages and more, where eight wait: only the length is wrong.
    fn lengths_of_no_file(&mut self) {
        let (plan, queue) = self.plan_waiting(STARTING, false);
        let base = Base::of_plan(&plan);
        for length in [9, [10, 16, 128 + STARTING, 255][self.random().below(4)]] {
            self.refused("a length of 9 or more", &base, &[edit(AT_STARTING_LENGTHS + queue, length)]);
        }
        self.open("a length of 7 where 8 wait", &base, &[edit(AT_STARTING_LENGTHS + queue, STARTING - 1)]);
    }

    /// A message of another queue, and one of none; and another one of its queue.
    fn messages_of_no_file(&mut self) {
        let length = self.random().between(1, STARTING);
        let (plan, queue) = self.plan_waiting(length, true);
        let base = Base::of_plan(&plan);
        let own = plan.messages_of(queue);
        let place = waiting(queue, self.random().below(length));
        if queue > 0 {
            let earlier = self.random().below(own.start);
            self.refused("a message that waits in another queue", &base, &[edit(place, earlier)]);
        }
        let sum = plan.message_sum();
        if own.end < sum {
            let later = self.random().between(own.end, sum - 1);
            self.refused("a message that waits in another queue", &base, &[edit(place, later)]);
        }
        for message in [sum, 255] {
            self.refused("a message that waits past the sum", &base, &[edit(place, message)]);
        }
        let (plan, queue, own) = loop {
            let (plan, queue) = self.plan_waiting(length, false);
            let own = plan.messages_of(queue);
            if own.len() > 1 {
                break (plan, queue, own);
            }
        };
        let base = Base::of_plan(&plan);
        for place in [waiting(queue, 0), waiting(queue, length - 1)] {
            let message = usize::from(base.flat.0[place]);
            let other = own.start + (message - own.start + 1) % own.len();
            self.open("another message of the queue waits", &base, &[edit(place, other)]);
        }
    }

    /// Entries behind what waits in a queue: a message of the queue would be read if the length were one more.
    fn messages_past_the_length(&mut self) {
        let length = self.random().below(STARTING);
        let (plan, queue) = self.plan_waiting(length, true);
        if !plan.resumes() {
            return;
        }
        let base = Base::of_plan(&plan);
        let message = (plan.messages_of(queue).end - 1).max(1);
        let between = self.random().between(length, STARTING - 1);
        for index in [length, between, STARTING - 1] {
            self.refused("a message past the length", &base, &[edit(waiting(queue, index), message)]);
        }
        let both = [edit(AT_STARTING_LENGTHS + queue, length + 1), edit(waiting(queue, length), message)];
        self.open("a message past the length, and the length", &base, &both);
    }

    /// Lengths and messages of queues that there are not.
    fn queues_past_the_count(&mut self) {
        let base = loop {
            let base = self.base();
            if base.flat.queues() < QUEUES {
                break base;
            }
        };
        let queue = self.random().between(base.flat.queues(), QUEUES - 1);
        let length = self.random().between(1, STARTING);
        let message = self.random().between(1, 5);
        let index = self.random().below(STARTING);
        let (of_length, of_message) = (edit(AT_STARTING_LENGTHS + queue, length), edit(waiting(queue, index), message));
        self.refused("a length past the queues", &base, &[of_length]);
        self.refused("a message past the queues", &base, &[of_message]);
        self.refused("both past the queues", &base, &[of_length, of_message]);
        // Nothing else waits, so that the first form would be written.
        let (plan, _) = self.plan_waiting(1, false);
        let fresh = Base::of_plan(&Plan { starting: vec![], ..plan });
        if fresh.flat.queues() < QUEUES {
            let last = QUEUES - 1;
            self.refused("a length past the queues", &fresh, &[edit(AT_STARTING_LENGTHS + last, length)]);
            self.refused("a message past the queues", &fresh, &[edit(waiting(last, STARTING - 1), message)]);
        }
    }

    /// Other counts of machines, queues and messages beside the same messages.
    fn counts_around_what_waits(&mut self) {
        for place in [AT_MACHINES, AT_QUEUES] {
            for change in [Change::OneMore, Change::OneLess, Change::Zero] {
                let (base, value) = self.base_to_change(place, change);
                self.open("another count where something waits", &base, &[Edit { place, value }]);
            }
        }
        let base = self.base();
        // As many machines as the first number would say.
        let machines = base.flat.machines() + 4;
        self.refused("the first number for the machines", &base, &[edit(AT_MACHINES, machines)]);
        let queue = self.random().below(base.flat.queues());
        let messages = usize::from(base.flat.messages()[queue]) + 1;
        let sum = base.flat.sum() + 1;
        let edits = [edit(AT_MESSAGES + queue, messages), edit(AT_SUM, sum)];
        self.open("a message more where something waits", &base, &edits);
    }

    fn resuming_products(&mut self) {
        for _ in 0..6 {
            let base = self.base();
            let product = base.flat.product();
            let right = Expected::File(base.file.clone());
            let length = base.file.len();
            self.add("the right product", &base.file, length, Handed::Product(product), right);
            let refused = Expected::Refused(NO_FILE);
            self.add("another product", &base.file, length, Handed::Product(product + 1), refused);
        }
    }

    /// Made entry by entry from tables that are all 0; and those with nothing but what waits.
    fn resuming_from_all_zero(&mut self) {
        for round in 0..12 {
            let target = self.base();
            let mut edits = edits_between(&Flat::zero(), &target.flat);
            self.random().shuffle(&mut edits);
            let length = target.file.len();
            self.add("made from all 0", &[9], length, Handed::Edited(edits.clone()), Expected::File(target.file));
            edits.retain(|edit| (AT_STARTING_LENGTHS..AT_TRANSITIONS).contains(&edit.place));
            if round % 2 == 0 {
                let refused = Expected::Refused(NO_FILE);
                self.add("nothing but what waits", &[0], length, Handed::Edited(edits), refused);
            }
        }
    }

    fn resuming_out_of_order(&mut self) {
        for fault in Fault::ALL {
            let mut plan = self.plans.plan_of_queues();
            let chain = add_fault(self.random(), &mut plan, fault);
            plan.pool[chain.last].is_final = false;
            let Some(base) = Base::of(plan.bytes()) else { continue };
            self.refused("out of order where something waits", &base, &[edit(AT_FINALS + chain.last, 1)]);
        }
    }

    /// Files that tell the two forms apart. Those that are refused leave all 0.
    fn files_of_either_form(&mut self, seed: u64) {
        let written = |read: &Result<Tables, Refusal>| {
            let flat = read.as_ref().map_or_else(|_| Flat::zero(), Flat::of);
            let mut buffer = [0; 300];
            write(&flat, flat.product(), &mut buffer).map(|_| buffer)
        };
        for (file, refusal) in form_files(seed + 18, ENOUGH_OF_FORM, written) {
            let expected = if refusal.is_some() { Expected::Refused(NO_FILE) } else { Expected::File(file.clone()) };
            let length = file.len() + self.random().below(40);
            self.add("of either form", &file, length, Handed::Edited(vec![]), expected);
        }
    }
}
