//! Tables as C programs hand them in: one byte an entry, used or not, one table behind the other.
//!
//! `include/swarmbanner.h` says which entry lies where. The product of the states is in none of them.

use crate::read::{
    BadEntry, Kind, Tables, Transition, BAD_ENTRIES, CONTROL_STATES, MACHINES, MESSAGES, POOL_STATES, QUEUES, STARTING,
    TRANSITIONS, WORD_LENGTH,
};

pub const AT_MACHINES: usize = 0;
pub const AT_QUEUES: usize = 1;
pub const AT_SUM: usize = 2;
pub const AT_TRANSITION_COUNT: usize = 3;
pub const AT_POOL_STATES: usize = 4;
pub const AT_BAD_ENTRIES: usize = 5;
pub const AT_STATES: usize = 6;
pub const AT_STARTS: usize = AT_STATES + MACHINES;
pub const AT_MESSAGES: usize = AT_STARTS + MACHINES;
pub const AT_STARTING_LENGTHS: usize = AT_MESSAGES + QUEUES;
pub const AT_STARTING: usize = AT_STARTING_LENGTHS + QUEUES;
pub const AT_TRANSITIONS: usize = AT_STARTING + QUEUES * STARTING;
pub const AT_FINALS: usize = AT_TRANSITIONS + TRANSITIONS * ROW;
pub const AT_ARCS: usize = AT_FINALS + POOL_STATES;
pub const AT_ROOTS: usize = AT_ARCS + POOL_STATES * MESSAGES;
pub const AT_BAD: usize = AT_ROOTS + CONTROL_STATES;
pub const SPACE: usize = AT_BAD + BAD_ENTRIES * BAD_ROW;
const _: () = assert!(SPACE == 7_445);

/// Columns of a transition's row: machine, from, to, kind, queue and length, then the word.
pub const KIND: usize = 3;
pub const QUEUE: usize = 4;
pub const LENGTH: usize = 5;
pub const WORD: usize = 6;
pub const ROW: usize = WORD + WORD_LENGTH;
pub const BAD_ROW: usize = 2;

#[derive(Clone, Debug, PartialEq, Eq)]
pub struct Flat(pub [u8; SPACE]);

impl Flat {
    /// All entries 0, as after a refusal.
    pub fn zero() -> Self {
        Flat([0; SPACE])
    }

    pub fn of(tables: &Tables) -> Self {
        let mut flat = Flat::zero();
        let counts = [
            tables.machine_count,
            tables.queue_count,
            tables.message_sum,
            tables.transition_count,
            tables.pool_state_count,
            tables.bad_count,
        ];
        flat.put(AT_MACHINES, &counts.map(|count| count as u8));
        flat.put(AT_STATES, &tables.states);
        flat.put(AT_STARTS, &tables.starts);
        flat.put(AT_MESSAGES, &tables.messages);
        flat.put(AT_STARTING_LENGTHS, &tables.starting_lengths);
        flat.put(AT_STARTING, &tables.starting_messages);
        for (number, step) in tables.transitions.iter().enumerate() {
            let place = AT_TRANSITIONS + number * ROW;
            flat.put(place, &[step.machine, step.from, step.to, step.kind as u8, step.queue, step.length]);
            flat.put(place + WORD, &step.messages);
        }
        flat.put(AT_FINALS, &tables.finals.map(u8::from));
        flat.put(AT_ARCS, &tables.arcs);
        flat.put(AT_ROOTS, &tables.roots);
        for (entry, bad) in tables.bad.iter().enumerate() {
            flat.put(AT_BAD + entry * BAD_ROW, &[bad.control_state, bad.root]);
        }
        flat
    }

    fn put(&mut self, place: usize, entries: &[u8]) {
        self.0[place..place + entries.len()].copy_from_slice(entries);
    }

    fn part(&self, place: usize, length: usize) -> &[u8] {
        &self.0[place..place + length]
    }

    fn count(&self, place: usize) -> usize {
        usize::from(self.0[place])
    }

    pub fn machines(&self) -> usize {
        self.count(AT_MACHINES)
    }

    pub fn queues(&self) -> usize {
        self.count(AT_QUEUES)
    }

    /// As it stands beside the queues, which may have another one.
    pub fn sum(&self) -> usize {
        self.count(AT_SUM)
    }

    pub fn transitions(&self) -> usize {
        self.count(AT_TRANSITION_COUNT)
    }

    pub fn pool_states(&self) -> usize {
        self.count(AT_POOL_STATES)
    }

    pub fn bad_entries(&self) -> usize {
        self.count(AT_BAD_ENTRIES)
    }

    pub fn states(&self) -> &[u8] {
        self.part(AT_STATES, MACHINES)
    }

    pub fn starts(&self) -> &[u8] {
        self.part(AT_STARTS, MACHINES)
    }

    pub fn messages(&self) -> &[u8] {
        self.part(AT_MESSAGES, QUEUES)
    }

    pub fn starting_lengths(&self) -> &[u8] {
        self.part(AT_STARTING_LENGTHS, QUEUES)
    }

    /// The room of each queue for what waits in it at the start.
    pub fn starting(&self) -> impl Iterator<Item = &[u8]> {
        self.part(AT_STARTING, QUEUES * STARTING).chunks_exact(STARTING)
    }

    pub fn rows(&self) -> impl Iterator<Item = &[u8]> {
        self.part(AT_TRANSITIONS, TRANSITIONS * ROW).chunks_exact(ROW)
    }

    pub fn finals(&self) -> &[u8] {
        self.part(AT_FINALS, POOL_STATES)
    }

    /// The arcs of each state.
    pub fn arcs(&self) -> impl Iterator<Item = &[u8]> {
        self.part(AT_ARCS, POOL_STATES * MESSAGES).chunks_exact(MESSAGES)
    }

    pub fn roots(&self) -> &[u8] {
        self.part(AT_ROOTS, CONTROL_STATES)
    }

    pub fn bad(&self) -> impl Iterator<Item = &[u8]> {
        self.part(AT_BAD, BAD_ENTRIES * BAD_ROW).chunks_exact(BAD_ROW)
    }

    /// That of the machines' states.
    pub fn product(&self) -> usize {
        let machines = self.machines().min(MACHINES);
        self.states()[..machines].iter().map(|&states| usize::from(states)).product()
    }

    /// The same entries with their names. What is no kind is taken as a receive, and any mark but 1 as not final.
    pub fn tables(&self) -> Tables {
        let mut tables = Tables {
            machine_count: self.machines(),
            control_state_count: self.product(),
            queue_count: self.queues(),
            message_sum: self.sum(),
            transition_count: self.transitions(),
            pool_state_count: self.pool_states(),
            bad_count: self.bad_entries(),
            ..Tables::empty()
        };
        tables.states.copy_from_slice(self.states());
        tables.starts.copy_from_slice(self.starts());
        tables.messages.copy_from_slice(self.messages());
        tables.starting_lengths.copy_from_slice(self.starting_lengths());
        tables.starting_messages.copy_from_slice(self.part(AT_STARTING, QUEUES * STARTING));
        for (transition, row) in tables.transitions.iter_mut().zip(self.rows()) {
            *transition = transition_of(row);
        }
        for (is_final, &mark) in tables.finals.iter_mut().zip(self.finals()) {
            *is_final = mark == 1;
        }
        tables.arcs.copy_from_slice(self.part(AT_ARCS, POOL_STATES * MESSAGES));
        tables.roots.copy_from_slice(self.roots());
        for (entry, bad) in tables.bad.iter_mut().zip(self.bad()) {
            *entry = BadEntry { control_state: bad[0], root: bad[1] };
        }
        tables
    }
}

fn transition_of(row: &[u8]) -> Transition {
    let mut messages = [0; WORD_LENGTH];
    messages.copy_from_slice(&row[WORD..]);
    let kind = match row[KIND] {
        0 => Kind::Local,
        1 => Kind::Send,
        _ => Kind::Receive,
    };
    Transition { machine: row[0], from: row[1], to: row[2], kind, queue: row[QUEUE], length: row[LENGTH], messages }
}

/// What an entry is, by its place and by the counts that stand in the tables.
#[derive(Clone, Copy, Debug, PartialEq, Eq, PartialOrd, Ord)]
pub enum Part {
    Machines,
    Queues,
    Sum,
    Transitions,
    PoolStates,
    BadEntries,
    States,
    StatesPast,
    Starts,
    StartsPast,
    Messages,
    MessagesPast,
    StartingLength,
    /// Of a queue that is not below the count.
    StartingLengthPast,
    Starting,
    /// Of a queue below the count, past its length.
    StartingPast,
    /// Of a queue that is not below the count.
    StartingRoomPast,
    Machine,
    From,
    To,
    Kind,
    Queue,
    Length,
    Word,
    /// Of a send or a receive, past the length.
    WordPast,
    LocalQueue,
    LocalLength,
    LocalWord,
    RowPast,
    Final,
    FinalPast,
    Arc,
    /// Of a state below the count, for a message that is not below the sum.
    ArcPastSum,
    /// Of a state that is not below the count.
    ArcPast,
    Root,
    RootPast,
    BadControlState,
    BadRoot,
    BadPast,
}

impl Part {
    pub const ALL: [Part; 39] = [
        Part::Machines,
        Part::Queues,
        Part::Sum,
        Part::Transitions,
        Part::PoolStates,
        Part::BadEntries,
        Part::States,
        Part::StatesPast,
        Part::Starts,
        Part::StartsPast,
        Part::Messages,
        Part::MessagesPast,
        Part::StartingLength,
        Part::StartingLengthPast,
        Part::Starting,
        Part::StartingPast,
        Part::StartingRoomPast,
        Part::Machine,
        Part::From,
        Part::To,
        Part::Kind,
        Part::Queue,
        Part::Length,
        Part::Word,
        Part::WordPast,
        Part::LocalQueue,
        Part::LocalLength,
        Part::LocalWord,
        Part::RowPast,
        Part::Final,
        Part::FinalPast,
        Part::Arc,
        Part::ArcPastSum,
        Part::ArcPast,
        Part::Root,
        Part::RootPast,
        Part::BadControlState,
        Part::BadRoot,
        Part::BadPast,
    ];

    /// Those of what waits at the start.
    pub const OF_STARTING: [Part; 5] =
        [Part::StartingLength, Part::StartingLengthPast, Part::Starting, Part::StartingPast, Part::StartingRoomPast];

    /// What is not written out and must be 0.
    pub const UNUSED: [Part; 16] = [
        Part::StatesPast,
        Part::StartsPast,
        Part::MessagesPast,
        Part::StartingLengthPast,
        Part::StartingPast,
        Part::StartingRoomPast,
        Part::WordPast,
        Part::LocalQueue,
        Part::LocalLength,
        Part::LocalWord,
        Part::RowPast,
        Part::FinalPast,
        Part::ArcPastSum,
        Part::ArcPast,
        Part::RootPast,
        Part::BadPast,
    ];

    pub fn of(place: usize, flat: &Flat) -> Part {
        let one_of = |index: usize, count: usize, used: Part, past: Part| if index < count { used } else { past };
        match place {
            AT_MACHINES => Part::Machines,
            AT_QUEUES => Part::Queues,
            AT_SUM => Part::Sum,
            AT_TRANSITION_COUNT => Part::Transitions,
            AT_POOL_STATES => Part::PoolStates,
            AT_BAD_ENTRIES => Part::BadEntries,
            AT_STATES..AT_STARTS => one_of(place - AT_STATES, flat.machines(), Part::States, Part::StatesPast),
            AT_STARTS..AT_MESSAGES => one_of(place - AT_STARTS, flat.machines(), Part::Starts, Part::StartsPast),
            AT_MESSAGES..AT_STARTING_LENGTHS => {
                one_of(place - AT_MESSAGES, flat.queues(), Part::Messages, Part::MessagesPast)
            }
            AT_STARTING_LENGTHS..AT_STARTING => {
                let queue = place - AT_STARTING_LENGTHS;
                one_of(queue, flat.queues(), Part::StartingLength, Part::StartingLengthPast)
            }
            AT_STARTING..AT_TRANSITIONS => {
                let (queue, index) = ((place - AT_STARTING) / STARTING, (place - AT_STARTING) % STARTING);
                let length = usize::from(flat.starting_lengths()[queue]);
                let of_used = one_of(index, length, Part::Starting, Part::StartingPast);
                one_of(queue, flat.queues(), of_used, Part::StartingRoomPast)
            }
            AT_TRANSITIONS..AT_FINALS => Part::of_row(place - AT_TRANSITIONS, flat),
            AT_FINALS..AT_ARCS => one_of(place - AT_FINALS, flat.pool_states(), Part::Final, Part::FinalPast),
            AT_ARCS..AT_ROOTS => {
                let (state, message) = ((place - AT_ARCS) / MESSAGES, (place - AT_ARCS) % MESSAGES);
                let of_used = one_of(message, flat.sum(), Part::Arc, Part::ArcPastSum);
                one_of(state, flat.pool_states(), of_used, Part::ArcPast)
            }
            AT_ROOTS..AT_BAD => one_of(place - AT_ROOTS, flat.product(), Part::Root, Part::RootPast),
            _ => {
                let (entry, column) = ((place - AT_BAD) / BAD_ROW, (place - AT_BAD) % BAD_ROW);
                let of_used = [Part::BadControlState, Part::BadRoot][column];
                one_of(entry, flat.bad_entries(), of_used, Part::BadPast)
            }
        }
    }

    /// Whether this entry of the part is the first, and the last, of those that lie side by side.
    pub fn ends_at(self, place: usize, flat: &Flat) -> [bool; 2] {
        let is_first = place == 0 || Part::of(place - 1, flat) != self;
        let is_last = place + 1 == SPACE || Part::of(place + 1, flat) != self;
        [is_first, is_last]
    }

    /// Of a place in the rows of transitions.
    fn of_row(place: usize, flat: &Flat) -> Part {
        let (number, column) = (place / ROW, place % ROW);
        let row = flat.rows().nth(number).expect("the place is in some row");
        if number >= flat.transitions() {
            return Part::RowPast;
        }
        let is_local = row[KIND] == 0;
        match column {
            0 => Part::Machine,
            1 => Part::From,
            2 => Part::To,
            KIND => Part::Kind,
            QUEUE if is_local => Part::LocalQueue,
            QUEUE => Part::Queue,
            LENGTH if is_local => Part::LocalLength,
            LENGTH => Part::Length,
            _ if is_local => Part::LocalWord,
            _ if column - WORD < usize::from(row[LENGTH]) => Part::Word,
            _ => Part::WordPast,
        }
    }
}
