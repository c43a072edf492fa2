//! Writing tables as a session file, from requests 5 and 8 and from what document 01 says of each field.
//!
//! Whether some file is read into the tables is asked of each entry, in the order of the document's fields 1 to 6; nothing
//! is written or read for that. `writing_traps` with no mistake set goes the other way: it writes, reads, and compares.

use std::collections::BTreeSet;

use crate::flat::{Flat, KIND, LENGTH, QUEUE, WORD};
use crate::order::in_queue_order;
use crate::read::{
    refuse, Refusal, Tables, BAD_ENTRIES, CONTROL_STATES, MACHINES, MACHINE_STATES, MESSAGES, POOL_STATES, QUEUES,
    STARTING, TRANSITIONS, WORD_LENGTH,
};

pub const NO_FILE: u8 = 16;
pub const BUFFER_TOO_SHORT: u8 = 17;

/// Writes the tables, with this product of the states beside them, to the front of the buffer. Replies the file's length.
pub fn write(flat: &Flat, product: usize, buffer: &mut [u8]) -> Result<usize, Refusal> {
    write_asking(flat, product, buffer, in_queue_order)
}

/// Writes with this test of queue order in row 9: `tests/bench` times another form of it.
pub fn write_asking(
    flat: &Flat,
    product: usize,
    buffer: &mut [u8],
    is_in_queue_order: impl Fn(&Tables) -> bool,
) -> Result<usize, Refusal> {
    let mut is_of_a_file = true;
    find_faults(flat, product, |_| is_of_a_file = false);
    if !is_of_a_file || !is_in_queue_order(&flat.tables()) {
        return refuse(NO_FILE, 0);
    }
    let file = file_of(flat);
    let Some(front) = buffer.get_mut(..file.len()) else {
        return refuse(BUFFER_TOO_SHORT, 0);
    };
    front.copy_from_slice(&file);
    Ok(file.len())
}

/// Why no file is read into some tables. Past means beyond the count of its kind, where entries are 0.
#[derive(Clone, Copy, Debug, PartialEq, Eq, PartialOrd, Ord)]
pub enum Fault {
    Machines,
    States,
    ProductPasses,
    /// The product handed in is not that of the states.
    ProductIsAnother,
    Start,
    StatesPast,
    StartsPast,
    Queues,
    Messages,
    SumPasses,
    /// The sum in the tables is not that of the messages.
    SumIsAnother,
    MessagesPast,
    /// A queue starts with more messages than it can.
    StartingLength,
    /// It starts with a message that is not below the sum.
    StartingMessage,
    /// It starts with a message below the sum that is of another queue.
    StartingOfAnotherQueue,
    /// A message behind those that it starts with.
    StartingPast,
    StartingLengthsPast,
    StartingRoomsPast,
    Transitions,
    Machine,
    From,
    To,
    Kind,
    /// A local transition has a queue, a length or a message.
    LocalQueue,
    LocalLength,
    LocalWord,
    Queue,
    Length,
    /// A message that is not below the sum.
    Message,
    /// A message below the sum that is of another queue.
    MessageOfAnotherQueue,
    WordPast,
    RowPast,
    PoolStates,
    Final,
    Target,
    ArcPastSum,
    FinalPast,
    ArcPast,
    Root,
    RootPast,
    BadEntries,
    BadControlState,
    BadRoot,
    BadPast,
    OutOfOrder,
}

impl Fault {
    pub const ALL: [Fault; 45] = [
        Fault::Machines,
        Fault::States,
        Fault::ProductPasses,
        Fault::ProductIsAnother,
        Fault::Start,
        Fault::StatesPast,
        Fault::StartsPast,
        Fault::Queues,
        Fault::Messages,
        Fault::SumPasses,
        Fault::SumIsAnother,
        Fault::MessagesPast,
        Fault::StartingLength,
        Fault::StartingMessage,
        Fault::StartingOfAnotherQueue,
        Fault::StartingPast,
        Fault::StartingLengthsPast,
        Fault::StartingRoomsPast,
        Fault::Transitions,
        Fault::Machine,
        Fault::From,
        Fault::To,
        Fault::Kind,
        Fault::LocalQueue,
        Fault::LocalLength,
        Fault::LocalWord,
        Fault::Queue,
        Fault::Length,
        Fault::Message,
        Fault::MessageOfAnotherQueue,
        Fault::WordPast,
        Fault::RowPast,
        Fault::PoolStates,
        Fault::Final,
        Fault::Target,
        Fault::ArcPastSum,
        Fault::FinalPast,
        Fault::ArcPast,
        Fault::Root,
        Fault::RootPast,
        Fault::BadEntries,
        Fault::BadControlState,
        Fault::BadRoot,
        Fault::BadPast,
        Fault::OutOfOrder,
    ];
}

/// All that is wrong with the tables. Words are asked for only where nothing else is.
pub fn faults(flat: &Flat, product: usize) -> BTreeSet<Fault> {
    let mut faults = BTreeSet::new();
    find_faults(flat, product, |fault| {
        faults.insert(fault);
    });
    if faults.is_empty() && !in_queue_order(&flat.tables()) {
        faults.insert(Fault::OutOfOrder);
    }
    faults
}

fn find_faults(flat: &Flat, product: usize, found: impl FnMut(Fault)) {
    let mut judge = Judge { flat, found };
    judge.field_1(product);
    judge.field_2();
    judge.starting();
    judge.field_3();
    judge.field_4();
    judge.field_5();
    judge.field_6();
}

/// Looks at the entries of some tables. A count past its table is a fault, and then the whole table is used.
struct Judge<'t, F: FnMut(Fault)> {
    flat: &'t Flat,
    found: F,
}

impl<F: FnMut(Fault)> Judge<'_, F> {
    fn ask(&mut self, holds: bool, fault: Fault) {
        if !holds {
            (self.found)(fault);
        }
    }

    /// Nothing is there beyond a count.
    fn ask_all_zero(&mut self, entries: &[u8], fault: Fault) {
        self.ask(entries.iter().all(|&entry| entry == 0), fault);
    }

    /// A count of a table that has room for `most`.
    fn count(&mut self, count: usize, least: usize, most: usize, fault: Fault) -> usize {
        self.ask(least <= count && count <= most, fault);
        count.min(most)
    }

    fn field_1(&mut self, product: usize) {
        let flat = self.flat;
        let machines = self.count(flat.machines(), 1, MACHINES, Fault::Machines);
        let (states, states_past) = flat.states().split_at(machines);
        let (starts, starts_past) = flat.starts().split_at(machines);
        for (&states, &start) in states.iter().zip(starts) {
            self.ask(1 <= states && usize::from(states) <= MACHINE_STATES, Fault::States);
            self.ask(start < states, Fault::Start);
        }
        self.ask(flat.product() <= CONTROL_STATES, Fault::ProductPasses);
        self.ask(flat.product() == product, Fault::ProductIsAnother);
        self.ask_all_zero(states_past, Fault::StatesPast);
        self.ask_all_zero(starts_past, Fault::StartsPast);
    }

    fn field_2(&mut self) {
        let flat = self.flat;
        let queues = self.count(flat.queues(), 1, QUEUES, Fault::Queues);
        let (messages, past) = flat.messages().split_at(queues);
        for &messages in messages {
            self.ask(1 <= messages && usize::from(messages) <= MESSAGES, Fault::Messages);
        }
        self.ask(first_message(flat, queues) <= MESSAGES, Fault::SumPasses);
        self.ask(first_message(flat, queues) == flat.sum(), Fault::SumIsAnother);
        self.ask_all_zero(past, Fault::MessagesPast);
    }

    /// What waits at the start, of each queue; where nothing does, all of this is 0.
    fn starting(&mut self) {
        let flat = self.flat;
        let queues = flat.queues().min(QUEUES);
        let (lengths, past) = flat.starting_lengths().split_at(queues);
        for (queue, (&length, room)) in lengths.iter().zip(flat.starting()).enumerate() {
            let length = self.count(usize::from(length), 0, STARTING, Fault::StartingLength);
            let (word, past) = room.split_at(length);
            self.word(queue, word, Fault::StartingMessage, Fault::StartingOfAnotherQueue);
            self.ask_all_zero(past, Fault::StartingPast);
        }
        self.ask_all_zero(past, Fault::StartingLengthsPast);
        for room in flat.starting().skip(queues) {
            self.ask_all_zero(room, Fault::StartingRoomsPast);
        }
    }

    /// The messages of a word are below the sum, and of their queue. In no queue, a message can only be asked whether it is one.
    fn word(&mut self, queue: usize, word: &[u8], no_message: Fault, of_another: Fault) {
        let flat = self.flat;
        let queues = flat.queues().min(QUEUES);
        let sum = first_message(flat, queues);
        let of_the_queue =
            if queue < queues { first_message(flat, queue)..first_message(flat, queue + 1) } else { 0..sum };
        for message in word.iter().map(|&message| usize::from(message)) {
            self.ask(message < sum, no_message);
            self.ask(message >= sum || of_the_queue.contains(&message), of_another);
        }
    }

    fn field_3(&mut self) {
        let flat = self.flat;
        let transitions = self.count(flat.transitions(), 0, TRANSITIONS, Fault::Transitions);
        for row in flat.rows().take(transitions) {
            self.transition(row);
        }
        for row in flat.rows().skip(transitions) {
            self.ask_all_zero(row, Fault::RowPast);
        }
    }

    fn transition(&mut self, row: &[u8]) {
        let machines = self.flat.machines().min(MACHINES);
        match self.flat.states()[..machines].get(usize::from(row[0])) {
            None => (self.found)(Fault::Machine),
            Some(&states) => {
                self.ask(row[1] < states, Fault::From);
                self.ask(row[2] < states, Fault::To);
            }
        }
        match row[KIND] {
            0 => {
                self.ask(row[QUEUE] == 0, Fault::LocalQueue);
                self.ask(row[LENGTH] == 0, Fault::LocalLength);
                self.ask_all_zero(&row[WORD..], Fault::LocalWord);
            }
            1 | 2 => self.sent_or_received(usize::from(row[QUEUE]), usize::from(row[LENGTH]), &row[WORD..]),
            _ => (self.found)(Fault::Kind),
        }
    }

    fn sent_or_received(&mut self, queue: usize, length: usize, word: &[u8]) {
        self.ask(queue < self.flat.queues().min(QUEUES), Fault::Queue);
        let length = self.count(length, 0, WORD_LENGTH, Fault::Length);
        let (word, past) = word.split_at(length);
        self.word(queue, word, Fault::Message, Fault::MessageOfAnotherQueue);
        self.ask_all_zero(past, Fault::WordPast);
    }

    /// An arc is 1 plus its target, which is below the count, so it is at most the count.
    fn field_4(&mut self) {
        let flat = self.flat;
        let pool_states = self.count(flat.pool_states(), 1, POOL_STATES, Fault::PoolStates);
        let sum = first_message(flat, flat.queues().min(QUEUES)).min(MESSAGES);
        let (finals, finals_past) = flat.finals().split_at(pool_states);
        self.ask(finals.iter().all(|&mark| mark <= 1), Fault::Final);
        self.ask_all_zero(finals_past, Fault::FinalPast);
        for arcs in flat.arcs().take(pool_states) {
            let (arcs, past) = arcs.split_at(sum);
            self.ask(arcs.iter().all(|&arc| usize::from(arc) <= flat.pool_states()), Fault::Target);
            self.ask_all_zero(past, Fault::ArcPastSum);
        }
        for arcs in flat.arcs().skip(pool_states) {
            self.ask_all_zero(arcs, Fault::ArcPast);
        }
    }

    /// A root is 1 plus the state as well.
    fn field_5(&mut self) {
        let flat = self.flat;
        let (roots, past) = flat.roots().split_at(flat.product().min(CONTROL_STATES));
        self.ask(roots.iter().all(|&root| usize::from(root) <= flat.pool_states()), Fault::Root);
        self.ask_all_zero(past, Fault::RootPast);
    }

    /// Here the root stands as it is.
    fn field_6(&mut self) {
        let flat = self.flat;
        let entries = self.count(flat.bad_entries(), 0, BAD_ENTRIES, Fault::BadEntries);
        for entry in flat.bad().take(entries) {
            self.ask(usize::from(entry[0]) < flat.product(), Fault::BadControlState);
            self.ask(usize::from(entry[1]) < flat.pool_states(), Fault::BadRoot);
        }
        for entry in flat.bad().skip(entries) {
            self.ask_all_zero(entry, Fault::BadPast);
        }
    }
}

/// The lowest message of a queue; for the queue past the last one, the sum.
fn first_message(flat: &Flat, queue: usize) -> usize {
    flat.messages()[..queue].iter().map(|&messages| usize::from(messages)).sum()
}

/// The file that is read into these tables, where some file is.
pub fn file_of(flat: &Flat) -> Vec<u8> {
    let mut file = Written::default();
    file.fields_1_and_2(flat);
    file.field_3(flat);
    file.field_4(flat);
    file.fields_5_and_6(flat);
    file.0
}

#[derive(Default)]
struct Written(Vec<u8>);

impl Written {
    /// Low group first, and the shorter form.
    fn number(&mut self, number: u8) {
        if number < 128 {
            self.0.push(number);
        } else {
            self.0.extend([128 + number % 128, number / 128]);
        }
    }

    fn numbers(&mut self, numbers: &[u8]) {
        for &number in numbers {
            self.number(number);
        }
    }

    fn fields_1_and_2(&mut self, flat: &Flat) {
        let resumes = flat.starting_lengths().iter().any(|&length| length > 0);
        let first = flat.machines() + if resumes { MACHINES } else { 0 };
        self.number(first as u8);
        self.numbers(&flat.states()[..flat.machines()]);
        self.numbers(&flat.starts()[..flat.machines()]);
        self.number(flat.queues() as u8);
        self.numbers(&flat.messages()[..flat.queues()]);
        if resumes {
            for (&length, room) in flat.starting_lengths().iter().zip(flat.starting()).take(flat.queues()) {
                self.number(length);
                self.numbers(&room[..usize::from(length)]);
            }
        }
    }

    fn field_3(&mut self, flat: &Flat) {
        self.number(flat.transitions() as u8);
        for row in flat.rows().take(flat.transitions()) {
            let end = if row[KIND] == 0 { QUEUE } else { WORD + usize::from(row[LENGTH]) };
            self.numbers(&row[..end]);
        }
    }

    fn field_4(&mut self, flat: &Flat) {
        self.number(flat.pool_states() as u8);
        for (&mark, arcs) in flat.finals().iter().zip(flat.arcs()).take(flat.pool_states()) {
            let count = arcs.iter().filter(|&&arc| arc > 0).count();
            self.numbers(&[mark, count as u8]);
            for (message, &arc) in arcs.iter().enumerate().filter(|(_, &arc)| arc > 0) {
                self.numbers(&[message as u8, arc - 1]);
            }
        }
    }

    fn fields_5_and_6(&mut self, flat: &Flat) {
        self.numbers(&flat.roots()[..flat.product()]);
        self.number(flat.bad_entries() as u8);
        for entry in flat.bad().take(flat.bad_entries()) {
            self.numbers(entry);
        }
    }
}
