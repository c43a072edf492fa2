//! What a replay shows: how it ends or is refused, what goes on in the queues, and what is lent.

use std::collections::{BTreeMap, BTreeSet};

use crate::diagram::{follow, root};
use crate::far_features;
use crate::generate::replay::SESSIONS;
use crate::order_features::places_out_of_order;
use crate::read::{
    read, Kind, Refusal, Tables, Transition, MACHINES, MACHINE_STATES, MESSAGES, POOL_STATES, QUEUES, TRANSITIONS,
    WORD_LENGTH,
};
use crate::replay::{Answer, Configuration, Reply, LONGEST_TRACE, QUEUE_ROOM};
use crate::start_features;
use crate::stream::Replay;

/// Replays of each end and refusal.
const OF_EACH_REPLY: usize = 100;
/// Traces of just 16,384 bytes.
const OF_LONGEST_TRACES: usize = 10;
/// Replays in which 5,000 messages pass through a queue.
const OF_MANY_MESSAGES: usize = 10;
/// Replays of most other features, and of the rarer ones.
const OF_OTHERS: usize = 20;
const OF_RARE: usize = 10;

/// The last of what a file can have.
const LAST_MESSAGE: u8 = MESSAGES as u8 - 1;
const LAST_STATE: u8 = MACHINE_STATES as u8 - 1;

/// Messages that pass through a queue in a replay that wraps many times.
const MANY_MESSAGES: usize = 5_000;

/// The features, each with how many replays must have it.
pub fn asked() -> BTreeMap<String, usize> {
    let mut asked = BTreeMap::new();
    let mut ask = |count: usize, features: &[&str]| {
        asked.extend(features.iter().map(|feature| (feature.to_string(), count)));
    };
    ask(
        OF_EACH_REPLY,
        &[
            "end",
            "outside at step 0",
            "outside later",
            "refused 3",
            "refused 4",
            "refused 5",
            "refused 14 by the machine's state",
            "refused 14 by the queue's front",
            "refused 15",
            "file refused",
            "trace refused 1",
            "trace of 16,385 bytes",
            "memory refused 2",
            "lying across the room's end at a refused step",
            "memory just as asked",
            "memory longer than asked",
            "bytes past the last queue kept",
        ],
    );
    ask(OF_LONGEST_TRACES, &["trace of 16,384 bytes"]);
    ask(OF_MANY_MESSAGES, &["5,000 messages through a queue"]);
    ask(
        OF_OTHERS,
        &[
            "empty trace",
            "1,000 steps or more",
            "outside at the trace's end",
            "outside before a number that is refused",
            "refused 4, second byte 0",
            "refused 4, second byte 128 or above",
            "refused 4, the longer form of a possible step",
            "refused 5, one byte",
            "refused 5, two bytes",
            "refused 5, by the number of transitions",
            "refused 5, 128 of 128 transitions",
            "transition 127 taken",
            "refused 14, empty queue",
            "refused 14, a queue that begins the word",
            "refused 14, another first message",
            "refused 14, another last message",
            "refused 14 where 15 would hold too",
            "refused 15, one message to 1,024",
            "refused 15, a word that fits in part",
            "a queue of 1,024",
            "lying across the room's end at the trace's end",
            "lying across the room's end outside",
            "a word sent across the room's end",
            "a word received across the room's end",
            "a word sent up to the room's end",
            "a word received up to the room's end",
            "refused 14, a word across the room's end",
            "message 31 sent",
            "a machine in state 15",
            "memory enough, but not for four queues",
            "memory short by one byte",
            "no memory",
            "file refused where memory is short",
        ],
    );
    ask(
        OF_RARE,
        &[
            "control state of 128 or above",
            "pool state 126 reached",
            "refused 4, the trace's last bytes",
            "refused 5, no transitions",
            "nothing sent to a queue of 1,024",
            "file refused where the trace is long too",
            "trace refused where memory is short",
        ],
    );
    asked.extend(far_features::asked_of_replays());
    asked.extend(ENDS_OF_DISORDERED.map(|end| (of_disordered(end), OF_OTHERS)));
    asked.insert("file refused 01".to_string(), 1);
    asked.extend((3..=10).chain([23]).map(|number| (file_refused(number), OF_RARE)));
    asked.extend(start_features::asked_of_replays());
    for length in 0..=WORD_LENGTH {
        asked.extend([Kind::Send, Kind::Receive].map(|kind| (word_of(kind, length), OF_OTHERS)));
    }
    asked.extend((1..=QUEUES).map(|count| (with_steps(count, "queues"), OF_EACH_REPLY)));
    asked.extend((1..=MACHINES).map(|count| (with_steps(count, "machines"), OF_EACH_REPLY)));
    asked.extend((0..QUEUES).map(|queue| (across_at_queue(queue), OF_OTHERS)));
    asked.extend(SESSIONS.map(|(name, _)| (of_session(name), OF_RARE)));
    asked
}

/// Ends of replays of files that are out of order where it does not matter.
const ENDS_OF_DISORDERED: [&str; 4] = ["end", "outside at step 0", "outside later", "refused"];

fn of_disordered(end: &str) -> String {
    format!("a map out of order, {end}")
}

fn file_refused(number: u8) -> String {
    format!("file refused {number:02}")
}

fn word_of(kind: Kind, length: usize) -> String {
    let done = if kind == Kind::Send { "sent" } else { "received" };
    format!("a word of {length:02} {done}")
}

fn with_steps(count: usize, of: &str) -> String {
    format!("steps taken, {of}: {count}")
}

fn across_at_queue(queue: usize) -> String {
    format!("lying across the room's end, queue {queue}")
}

fn of_session(name: &str) -> String {
    format!("session {name}")
}

pub fn features(asked: &Replay, answer: &Answer) -> BTreeSet<String> {
    let mut features = BTreeSet::new();
    let mut add = |feature: &str| {
        features.insert(feature.to_string());
    };
    match asked.trace.len() {
        0 => add("empty trace"),
        LONGEST_TRACE => add("trace of 16,384 bytes"),
        length if length == LONGEST_TRACE + 1 => add("trace of 16,385 bytes"),
        _ => {}
    }
    if let Some((name, _)) = SESSIONS.iter().find(|(_, file)| asked.file == *file) {
        add(&of_session(name));
    }
    let has_long_trace = asked.trace.len() > LONGEST_TRACE;
    match answer.reply {
        Reply::FileRefused(Refusal { number, .. }) => {
            add("file refused");
            add(&file_refused(number));
            if has_long_trace && number != 1 {
                add("file refused where the trace is long too");
            }
            if asked.memory_length < QUEUE_ROOM {
                add("file refused where memory is short");
            }
        }
        Reply::TraceRefused(_) => add("trace refused 1"),
        Reply::MemoryRefused(_) => add("memory refused 2"),
        Reply::End { .. } => add("end"),
        Reply::Outside { steps: 0, .. } => add("outside at step 0"),
        Reply::Outside { .. } => add("outside later"),
        Reply::StepRefused { refusal: Refusal { number: 14, .. }, .. } => {}
        Reply::StepRefused { refusal: Refusal { number, .. }, .. } => add(&format!("refused {number}")),
    }
    if let Ok(tables) = read(&asked.file) {
        features.extend(start_features::of_replay(&tables, &asked.trace, &answer.reply));
        features.extend(of_memory(asked, &answer.reply, &tables).into_iter().map(String::from));
        let steps = match answer.reply {
            Reply::End { steps } | Reply::Outside { steps, .. } | Reply::StepRefused { steps, .. } => Some(steps),
            _ => None,
        };
        if steps.is_some() && !places_out_of_order(&tables).is_empty() {
            let [end, at_once, later, refused] = ENDS_OF_DISORDERED;
            features.insert(of_disordered(match answer.reply {
                Reply::End { .. } => end,
                Reply::Outside { steps: 0, .. } => at_once,
                Reply::Outside { .. } => later,
                _ => refused,
            }));
        }
        if let Some(steps) = steps {
            features.extend(Watched::new(&tables, &asked.trace, steps).features(&answer.reply));
        }
    }
    features
}

fn of_memory(asked: &Replay, reply: &Reply, tables: &Tables) -> Vec<&'static str> {
    let needed = tables.queue_count * QUEUE_ROOM;
    let given = asked.memory_length;
    let mut features = vec![];
    match reply {
        Reply::FileRefused(_) => {}
        Reply::TraceRefused(_) if given < needed => features.push("trace refused where memory is short"),
        Reply::TraceRefused(_) => {}
        Reply::MemoryRefused(_) => {
            if given + 1 == needed {
                features.push("memory short by one byte");
            }
            if given == 0 {
                features.push("no memory");
            }
        }
        Reply::End { .. } | Reply::Outside { .. } | Reply::StepRefused { .. } => {
            features.push(if given == needed { "memory just as asked" } else { "memory longer than asked" });
            if asked.lent().memory[needed..].iter().any(|&byte| byte > 0) {
                features.push("bytes past the last queue kept");
            }
            if given < QUEUES * QUEUE_ROOM {
                features.push("memory enough, but not for four queues");
            }
        }
    }
    features
}

/// Where a replay's steps lead, taken again.
pub struct Retaken {
    /// The configuration before the last step; none at the start.
    pub before: Option<Configuration>,
    pub last: Configuration,
    /// Messages received from each queue.
    pub received: Vec<usize>,
}

impl Retaken {
    /// Every number of a transition has one byte.
    pub fn new(tables: &Tables, steps: &[u8]) -> Self {
        let received = vec![0; tables.queue_count];
        let mut retaken = Retaken { before: None, last: Configuration::start(tables), received };
        for &number in steps {
            let transition = &tables.transitions[usize::from(number)];
            let after = retaken.last.after(transition).expect("the step was taken");
            if transition.kind == Kind::Receive {
                retaken.received[usize::from(transition.queue)] += transition.word().len();
            }
            retaken.before = Some(std::mem::replace(&mut retaken.last, after));
        }
        retaken
    }
}

/// A replay's steps, taken again, with what they did to rooms that are used round and round.
struct Watched<'t> {
    tables: &'t Tables,
    trace: &'t [u8],
    steps: usize,
    configuration: Configuration,
    /// Messages received from each queue.
    received: [usize; QUEUES],
    features: BTreeSet<String>,
}

impl<'t> Watched<'t> {
    /// Every number of a transition has one byte.
    fn new(tables: &'t Tables, trace: &'t [u8], steps: usize) -> Self {
        let configuration = Configuration::start(tables);
        let mut watched =
            Watched { tables, trace, steps, configuration, received: [0; QUEUES], features: BTreeSet::new() };
        for &number in &trace[..steps] {
            watched.take(&tables.transitions[usize::from(number)]);
            if usize::from(number) == TRANSITIONS - 1 {
                watched.add("transition 127 taken");
            }
        }
        watched
    }

    fn add(&mut self, feature: &str) {
        self.features.insert(feature.to_string());
    }

    fn take(&mut self, transition: &Transition) {
        let queue = usize::from(transition.queue);
        let (waiting, length) = (self.configuration.queues[queue].len(), transition.word().len());
        let head = self.received[queue] % QUEUE_ROOM;
        let end = (head + waiting) % QUEUE_ROOM;
        self.configuration = self.configuration.after(transition).expect("the step was taken");
        if transition.to == LAST_STATE {
            self.add("a machine in state 15");
        }
        if self.is_at_last_pool_state() {
            self.add("pool state 126 reached");
        }
        if transition.kind == Kind::Local {
            return;
        }
        self.features.insert(word_of(transition.kind, length));
        if transition.kind == Kind::Receive {
            self.received[queue] += length;
            match head + length {
                QUEUE_ROOM => self.add("a word received up to the room's end"),
                past if past > QUEUE_ROOM => self.add("a word received across the room's end"),
                _ => {}
            }
            return;
        }
        match end + length {
            QUEUE_ROOM => self.add("a word sent up to the room's end"),
            past if past > QUEUE_ROOM => self.add("a word sent across the room's end"),
            _ => {}
        }
        if transition.word().contains(&LAST_MESSAGE) {
            self.add("message 31 sent");
        }
        if waiting + length == QUEUE_ROOM {
            self.add(if length == 0 { "nothing sent to a queue of 1,024" } else { "a queue of 1,024" });
        }
    }

    fn is_at_last_pool_state(&self) -> bool {
        let root = root(self.tables, self.configuration.control_state(self.tables));
        let last = POOL_STATES - 1;
        self.tables.pool_state_count > last
            && follow(self.tables, root, &self.configuration.queues.concat()) == Some(last)
    }

    fn features(mut self, reply: &Reply) -> BTreeSet<String> {
        if self.steps > 0 {
            self.features.insert(with_steps(self.tables.queue_count, "queues"));
            self.features.insert(with_steps(self.tables.machine_count, "machines"));
        }
        if self.steps >= 1_000 {
            self.add("1,000 steps or more");
        }
        if self.received.iter().any(|&received| received >= MANY_MESSAGES) {
            self.add("5,000 messages through a queue");
        }
        if self.configuration.control_state(self.tables) >= 128 {
            self.add("control state of 128 or above");
        }
        for queue in 0..self.tables.queue_count {
            if self.received[queue] % QUEUE_ROOM + self.configuration.queues[queue].len() > QUEUE_ROOM {
                self.features.insert(across_at_queue(queue));
                self.add(match reply {
                    Reply::End { .. } => "lying across the room's end at the trace's end",
                    Reply::Outside { .. } => "lying across the room's end outside",
                    _ => "lying across the room's end at a refused step",
                });
            }
        }
        match *reply {
            Reply::Outside { .. } => self.outside(),
            Reply::StepRefused { refusal: Refusal { number, place }, .. } => self.refused(number, place),
            _ => {}
        }
        self.features
    }

    fn outside(&mut self) {
        self.features.extend(far_features::of_replay(self.tables, self.steps, &self.configuration, &self.received));
        match self.trace[self.steps..] {
            [] => self.add("outside at the trace's end"),
            [number, ..] if usize::from(number) >= self.tables.transition_count => {
                self.add("outside before a number that is refused");
            }
            _ => {}
        }
    }

    fn refused(&mut self, number: u8, place: usize) {
        match number {
            4 => self.refused_by_4(place),
            5 => self.refused_by_5(place),
            14 => self.refused_by_14(self.tables.transitions[usize::from(self.trace[place])]),
            15 => {
                let transition = self.tables.transitions[usize::from(self.trace[place])];
                match (self.waiting(&transition).len(), transition.word().len()) {
                    (QUEUE_ROOM, 1) => self.add("refused 15, one message to 1,024"),
                    (QUEUE_ROOM, _) => {}
                    _ => self.add("refused 15, a word that fits in part"),
                }
            }
            _ => {}
        }
    }

    fn refused_by_4(&mut self, place: usize) {
        if self.trace[place + 1] == 0 {
            self.add("refused 4, second byte 0");
            let written = usize::from(self.trace[place] - 128);
            let transition = self.tables.used_transitions().get(written);
            if transition.is_some_and(|transition| self.configuration.after(transition).is_ok()) {
                self.add("refused 4, the longer form of a possible step");
            }
        } else {
            self.add("refused 4, second byte 128 or above");
        }
        if place + 2 == self.trace.len() {
            self.add("refused 4, the trace's last bytes");
        }
    }

    fn refused_by_5(&mut self, place: usize) {
        let (first, count) = (usize::from(self.trace[place]), self.tables.transition_count);
        let number = if first < 128 { first } else { first - 128 + 128 * usize::from(self.trace[place + 1]) };
        self.add(if first < 128 { "refused 5, one byte" } else { "refused 5, two bytes" });
        match (number, count) {
            (_, 0) => self.add("refused 5, no transitions"),
            (TRANSITIONS, TRANSITIONS) => self.add("refused 5, 128 of 128 transitions"),
            _ if number == count => self.add("refused 5, by the number of transitions"),
            _ => {}
        }
    }

    fn waiting(&self, transition: &Transition) -> &[u8] {
        &self.configuration.queues[usize::from(transition.queue)]
    }

    fn refused_by_14(&mut self, transition: Transition) {
        let (word, waiting) = (transition.word(), self.waiting(&transition).to_vec());
        if self.configuration.states[usize::from(transition.machine)] != transition.from {
            self.add("refused 14 by the machine's state");
            if transition.kind == Kind::Send && waiting.len() + word.len() > QUEUE_ROOM {
                self.add("refused 14 where 15 would hold too");
            }
            return;
        }
        self.add("refused 14 by the queue's front");
        let head = self.received[usize::from(transition.queue)] % QUEUE_ROOM;
        if head + word.len() > QUEUE_ROOM && waiting.len() >= word.len() {
            self.add("refused 14, a word across the room's end");
        }
        match word.iter().zip(&waiting).position(|(message, other)| message != other) {
            Some(0) => self.add("refused 14, another first message"),
            Some(place) if place + 1 == word.len() => self.add("refused 14, another last message"),
            Some(_) => {}
            None if waiting.is_empty() => self.add("refused 14, empty queue"),
            None => self.add("refused 14, a queue that begins the word"),
        }
    }
}
