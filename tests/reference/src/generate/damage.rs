//! Files made to be refused, row by row of the document's table.

use super::document;
use super::draft::{encode, Role};
use super::large::maximal_closed;
use super::plan::{Action, Direction, Plan, PlannedTransition};
use super::reading::Generator;
use crate::long_words::LONG_WORD;
use crate::read;

impl Generator {
    pub(super) fn row_1(&mut self) {
        let longest = read::LONGEST_FILE;
        let mut full = maximal_closed(&mut self.random).bytes();
        let length = full.len();
        full.resize(longest, 0);
        self.refused("row 1 not yet: 16,384 bytes", full.clone(), 10, length);
        self.refused("row 1 not yet: 16,384 bytes", vec![5; longest], 5, 2);
        self.refused("row 1 not yet: 16,384 bytes", vec![255; longest], 4, 0);
        full.push(0);
        self.refused("row 1: 16,385 bytes", full, 1, longest);
        self.refused("row 1: 16,385 bytes", vec![255; longest + 1], 1, longest);
        self.refused("row 1: more bytes", vec![0; longest + 2], 1, longest);
        self.refused("row 1: more bytes", vec![1; 2 * longest], 1, longest);
    }

    /// Every beginning of a valid file ends before a number or inside one.
    pub(super) fn row_3(&mut self) {
        let mut files = vec![document::hex(document::R), document::hex(document::S)];
        files.extend(document::samples().into_iter().take(2).map(|sample| sample.bytes));
        for _ in 0..8 {
            files.push(self.small_plan().bytes());
        }
        files.push(self.plan_with_word(read::WORD_LENGTH).0.bytes());
        for file in &files {
            for length in 0..file.len() {
                self.refused("row 3: beginning", file[..length].to_vec(), 3, length);
            }
        }
        // A beginning that ends inside a two-byte number, for each role.
        for role in Role::OF_EVERY_FILE {
            for _ in 0..4 {
                let (draft, position) = self.draft_with(role);
                let mut bytes = draft.bytes();
                bytes.truncate(draft.place(position));
                bytes.push(128 | self.random.byte());
                let length = bytes.len();
                self.refused("row 3: inside a number", bytes, 3, length);
            }
        }
        // The second byte of a count of 128 transitions is missing.
        self.refused("row 3: inside a valid number", vec![1, 1, 0, 1, 1, 128], 3, 6);
    }

    pub(super) fn row_4(&mut self) {
        for role in Role::OF_EVERY_FILE {
            for round in 0..10 {
                let (draft, position) = self.draft_with(role);
                let place = draft.place(position);
                let value = draft.numbers[position].value;
                let first = 128 | (value % 128) as u8;
                let second = if round % 2 == 0 { 0 } else { 128 | self.random.byte() };
                let kind = if second == 0 { "row 4: second byte 0" } else { "row 4: second byte 128 or above" };
                self.refused(kind, draft.bytes_with(position, &[first, second]), 4, place);
                let mut ending = draft.bytes();
                ending.truncate(place);
                ending.extend([first, second]);
                self.refused("row 4: at the very end", ending, 4, place);
            }
        }
    }

    pub(super) fn row_5(&mut self) {
        for role in Role::OF_EVERY_FILE {
            for _ in 0..12 {
                let (draft, position) = self.draft_with(role);
                let past = draft.numbers[position].most + 1;
                let bytes = draft.bytes_with(position, &encode(past));
                self.refused(format!("row 5: one past, {role}"), bytes, 5, draft.place(position));
            }
            for far in [127, 128, 255, 256, 16_383] {
                let (draft, position) = self.draft_with(role);
                if far > draft.numbers[position].most {
                    let bytes = draft.bytes_with(position, &encode(far));
                    self.refused(format!("row 5: far past, {role}"), bytes, 5, draft.place(position));
                }
            }
            for _ in 0..8 {
                let (draft, position) = self.draft_with(role);
                if draft.numbers[position].least == 1 {
                    let bytes = draft.bytes_with(position, &[0]);
                    self.refused(format!("row 5: one below, {role}"), bytes, 5, draft.place(position));
                }
            }
        }
        self.words_too_long();
        // One past a limit that needs the large file to be tight.
        let draft = maximal_closed(&mut self.random).draft();
        for role in [Role::Root, Role::BadControlState, Role::BadRoot, Role::ArcTarget, Role::Arcs] {
            let position = *draft.positions(role).last().expect("the maximal file has every role");
            let past = draft.numbers[position].most + 1;
            let bytes = draft.bytes_with(position, &encode(past));
            self.refused(format!("row 5: one past, {role}"), bytes, 5, draft.place(position));
        }
    }

    /// The longest word is read. With one message more the file is refused at the word's length, whatever is behind it.
    fn words_too_long(&mut self) {
        for round in 0..40 {
            let (mut plan, number) = self.plan_with_word(read::WORD_LENGTH);
            self.valid("row 5 not yet: a word of 16", &plan);
            let word = &mut plan.transitions[number].action.as_mut().expect("the transition has a word").word;
            word.push(word[self.random.below(read::WORD_LENGTH)]);
            let draft = plan.draft();
            let words_before = plan.transitions[..number].iter().filter(|earlier| earlier.action.is_some()).count();
            let position = draft.positions(Role::WordLength)[words_before];
            let place = draft.place(position);
            self.refused("row 5: a word of 17", draft.bytes(), 5, place);
            match round % 4 {
                0 => self.refused("row 5: bytes end at the length 17", draft.bytes()[..=place].to_vec(), 5, place),
                1 => {
                    let other_form = draft.bytes_with(position, &[128 | 17, 0]);
                    self.refused("row 5: 4 before 5 at the length 17", other_form, 4, place);
                }
                _ => {
                    // In some of these the low group or the low byte is 16.
                    let far = [18, 31, 32, 64, 127, 128, 144, 256, 272, 16_383][self.random.below(10)];
                    let bytes = draft.bytes_with(position, &encode(far));
                    self.refused("row 5: a length far past, and 17 messages", bytes, 5, place);
                }
            }
        }
    }

    pub(super) fn row_6(&mut self) {
        for round in 0..100 {
            self.product_passes(round % 4);
            self.sum_passes(round % 4);
        }
    }

    /// Some machines within the product, then one whose states pass it.
    fn product_passes(&mut self, ending: usize) {
        let (states, product) = loop {
            let machines = self.random.between(1, read::MACHINES - 1);
            let states: Vec<usize> = (0..machines).map(|_| self.random.between(2, read::MACHINE_STATES)).collect();
            let product: usize = states.iter().product();
            if product > 16 && product <= read::CONTROL_STATES {
                break (states, product);
            }
        };
        let least = read::CONTROL_STATES / product + 1;
        let passing = if self.random.chance(50) { least } else { self.random.between(least, 16) };
        let mut bytes = vec![self.random.between(states.len() + 1, read::MACHINES) as u8];
        bytes.extend(states.iter().map(|&states| states as u8));
        self.passing("product", bytes, passing as u8, 17, ending);
    }

    /// Some queues within the sum, then one whose messages pass it.
    fn sum_passes(&mut self, ending: usize) {
        let draft = self.small_plan().draft();
        let queues_at = draft.place(draft.positions(Role::Queues)[0]);
        let (queues, sum) = loop {
            let queues: Vec<usize> =
                (0..self.random.between(1, read::QUEUES - 1)).map(|_| self.random.between(1, 32)).collect();
            let sum: usize = queues.iter().sum();
            if sum <= read::MESSAGES {
                break (queues, sum);
            }
        };
        let least = read::MESSAGES - sum + 1;
        let passing = if self.random.chance(50) { least } else { self.random.between(least, 32) };
        let mut bytes = draft.bytes()[..queues_at].to_vec();
        bytes.push(self.random.between(queues.len() + 1, read::QUEUES) as u8);
        bytes.extend(queues.iter().map(|&messages| messages as u8));
        self.passing("sum", bytes, passing as u8, 33, ending);
    }

    /// The number that passes comes next. `past` is out of its field's range, and so is refused by 5 first.
    fn passing(&mut self, what: &str, mut bytes: Vec<u8>, passing: u8, past: u8, ending: usize) {
        let place = bytes.len();
        match ending {
            0 => {
                bytes.push(passing);
                self.refused(format!("row 6: {what}, bytes end there"), bytes, 6, place);
            }
            1 => {
                bytes.push(past);
                bytes.extend([0, 0, 0]);
                self.refused(format!("row 6: {what}, 5 before 6"), bytes, 5, place);
            }
            2 => {
                bytes.extend([128 | passing, 0, 0]);
                self.refused(format!("row 6: {what}, 4 before 6"), bytes, 4, place);
            }
            _ => {
                bytes.push(passing);
                let more = self.random.between(1, 12);
                bytes.extend((0..more).map(|_| self.random.byte()));
                self.refused(format!("row 6: {what}, bytes go on"), bytes, 6, place);
            }
        }
    }

    /// A message of another queue in a transition's word, short and long by turns.
    pub(super) fn row_7(&mut self) {
        for round in 0..120 {
            let (mut plan, index) = self.plan_with_two_queues(round % 2 == 1);
            if round % 3 == 0 {
                // A violation in a later transition changes nothing.
                let copy = plan.transitions[0].clone();
                plan.transitions.push(copy);
            }
            let draft = plan.draft();
            let position = draft.positions(Role::WordMessage)[index];
            let queue = plan.transitions[0].action.as_ref().map_or(0, |action| action.queue);
            let others: Vec<usize> =
                (0..plan.message_sum()).filter(|&message| plan.queue_of(message) != queue).collect();
            let message = *self.random.pick(&others).expect("there are two queues");
            let place = draft.place(position);
            let mut bytes = draft.bytes_with(position, &encode(message));
            if round % 4 == 1 {
                bytes.truncate(place + 1);
            }
            let kind = if index + 1 < LONG_WORD { "row 7" } else { "row 7: late in a long word" };
            self.refused(kind, bytes, 7, place);
            let at_the_sum = draft.bytes_with(position, &encode(plan.message_sum()));
            if round % 6 == 0 {
                self.refused("row 7: 5 before 7", at_the_sum, 5, place);
            }
        }
    }

    /// A plan of several queues whose first transition receives a word, and the index of a message of that word.
    fn plan_with_two_queues(&mut self, is_long: bool) -> (Plan, usize) {
        let mut plan = loop {
            let plan = self.small_plan();
            if plan.queues.len() > 1 {
                break plan;
            }
        };
        let queue = self.random.below(plan.queues.len());
        let own = plan.messages_of(queue);
        let (least, most) = if is_long { (LONG_WORD, read::WORD_LENGTH) } else { (1, LONG_WORD - 1) };
        let length = self.random.between(least, most);
        let word = (0..length).map(|_| self.random.between(own.start, own.end - 1)).collect();
        let action = Action { direction: Direction::Receive, queue, word };
        plan.transitions.insert(0, PlannedTransition { machine: 0, from: 0, to: 0, action: Some(action) });
        (plan, self.random.below(length))
    }

    /// A later message of a state that is not above the one before it.
    pub(super) fn row_8(&mut self) {
        for round in 0..120 {
            let (draft, position) = loop {
                let draft = self.small_plan().draft();
                let arcs = draft.positions(Role::ArcMessage);
                // Arcs of one state stand side by side: message, target, message, target.
                let later: Vec<usize> =
                    arcs.iter().copied().filter(|position| arcs.contains(&(position - 2))).collect();
                if let Some(&position) = self.random.pick(&later) {
                    break (draft, position);
                }
            };
            let place = draft.place(position);
            let before = draft.numbers[position - 2].value;
            let (kind, message) = if round % 2 == 0 {
                ("row 8: equal", before)
            } else {
                ("row 8: lower or equal", self.random.between(0, before))
            };
            let mut bytes = draft.bytes_with(position, &encode(message));
            match round % 5 {
                0 => bytes.truncate(place + 1),
                1 => bytes[place + 1] = 127,
                _ => {}
            }
            self.refused(kind, bytes, 8, place);
        }
    }

    pub(super) fn row_10(&mut self) {
        for round in 0..100 {
            let mut bytes = self.small_plan().bytes();
            let length = bytes.len();
            let more = if round % 2 == 0 { 1 } else { self.random.between(2, 40) };
            bytes.extend((0..more).map(|_| self.random.byte()));
            let kind = if more == 1 { "row 10: one byte" } else { "row 10: several bytes" };
            self.refused(kind, bytes, 10, length);
        }
        let mut maximal = maximal_closed(&mut self.random).bytes();
        let length = maximal.len();
        maximal.push(0);
        self.refused("row 10: one byte", maximal, 10, length);
    }
}
