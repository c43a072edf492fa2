//! What the files hit, so that a run that tries too little is seen to.

use std::collections::BTreeMap;

use reference_checker::diagram::root;
use reference_checker::expression::Pool;
use reference_checker::read::{read, Kind, Refusal, Tables, Transition, MACHINES, POOL_STATES, WORD_LENGTH};
use reference_checker::replay::{Answer, Reply as Replayed, QUEUE_ROOM};
use reference_checker::verdict::{Reply, Verdict};
use reference_checker::walk::control_state_after;
use swarmbanner::lent::STARTING_MOST;

use crate::typed::starting_of;
use crate::write::Reply as Written;

#[derive(Default)]
pub struct Tally {
    counts: BTreeMap<String, u64>,
    longest_shown: usize,
    most_steps: usize,
    /// Diagrams of as many states as there can be.
    full_pools: u64,
    /// Words of each length in files that were read.
    words: [u64; WORD_LENGTH + 1],
}

/// What a run of some size must have met.
const DEMANDED: [&str; 6] =
    ["read: read", "read: no room", "member: yes", "member: no", "member: no room", "check: no room"];
const VERDICTS: [&str; 4] = ["closed", "outside", "leaves", "bad"];
const REPLAYED: [&str; 5] =
    ["replay: end", "replay: outside", "replay: trace refused 1", "replay: memory refused 2", "replay: no room"];
const WRITTEN: [&str; 5] =
    ["write: written", "write: damaged and written", "write: refused 16", "write: refused 17", "write: no room"];
const DRAWN: [&str; 8] = [
    "draw: drawn",
    "draw: refused 5",
    "draw: refused 18",
    "draw: refused 19",
    "draw: refused 20",
    "draw: refused 21",
    "draw: refused 22",
    "draw: no room",
];
const QUEUES_MET: [&str; 2] = ["replay: a queue goes round its bytes", "replay: a queue is full"];
/// How a diagram loses contents, and what says how far it followed them.
const LOST: [&str; 3] = ["no root", "no arc", "not final"];
const FOLLOWED: [&str; 3] = ["member", "check", "replay"];
/// What is met on files whose queues do not start empty, and on the tables of such a file, changed so that they start otherwise.
const STARTED: [&str; 9] = [
    "read: with messages at the start",
    "read: with eight in a queue",
    "read: with messages in each of several queues",
    "check: closed with messages at the start",
    "check: outside with messages at the start",
    "check: leaves with messages at the start",
    "check: bad with messages at the start",
    "replay: steps from a start with messages",
    "write: another start",
];
const LEFT: [&str; 2] = ["check: leaves by sending a longest word", "check: leaves by receiving a longest word"];

impl Tally {
    pub fn count(&mut self, what: &str) {
        match self.counts.get_mut(what) {
            Some(count) => *count += 1,
            None => drop(self.counts.insert(what.to_string(), 1)),
        }
    }

    pub fn count_reply(&mut self, reply: &Reply, tables: Option<&Tables>) {
        let name = match reply {
            Ok(Verdict::Closed { .. }) => "check: closed",
            Ok(Verdict::Outside) => "check: outside",
            Ok(Verdict::Leaves { control_state, contents, transition, far }) => {
                self.count_left(tables.map(|tables| &tables.transitions[*transition]));
                if let Some(tables) = tables {
                    self.count_lost_by_step(tables, *control_state, *transition, contents.len(), *far);
                }
                self.longest_shown = self.longest_shown.max(contents.len());
                "check: leaves"
            }
            Ok(Verdict::Bad { contents, .. }) => {
                self.longest_shown = self.longest_shown.max(contents.len());
                "check: bad"
            }
            Err(refusal) => return self.count(&format!("check: refused {}", refusal.number)),
        };
        self.count(name);
        if tables.is_some_and(waits) {
            self.count(&format!("{name} with messages at the start"));
        }
    }

    /// What waits at the start of a file that is read.
    pub fn count_start(&mut self, tables: &Tables) {
        let [some, eight, several, ..] = STARTED;
        let starting = starting_of(tables);
        let met = [
            (some, waits(tables)),
            (eight, starting.iter().any(|queue| queue.len() == STARTING_MOST)),
            (several, starting.len() > 1 && starting.iter().all(|queue| !queue.is_empty())),
        ];
        for (what, _) in met.into_iter().filter(|(_, is_met)| *is_met) {
            self.count(what);
        }
    }

    pub fn count_replay(&mut self, file: &[u8], trace: &[u8], answer: &Answer) {
        let name = match answer.reply {
            Replayed::End { steps } => {
                self.count_run(file, trace, answer, steps);
                "replay: end".to_string()
            }
            Replayed::Outside { steps, far } => {
                self.count_run(file, trace, answer, steps);
                self.count_lost_by_run(file, answer, far);
                "replay: outside".to_string()
            }
            Replayed::StepRefused { refusal, steps } => {
                self.count_run(file, trace, answer, steps);
                format!("replay: step refused {}", refusal.number)
            }
            Replayed::FileRefused(refusal) => format!("replay: file refused {}", refusal.number),
            Replayed::TraceRefused(refusal) => format!("replay: trace refused {}", refusal.number),
            Replayed::MemoryRefused(refusal) => format!("replay: memory refused {}", refusal.number),
        };
        self.count(&name);
    }

    fn count_run(&mut self, file: &[u8], trace: &[u8], answer: &Answer, steps: usize) {
        self.most_steps = self.most_steps.max(steps);
        let [goes_round, is_full] = QUEUES_MET;
        if answer.lent.record.lengths.contains(&QUEUE_ROOM) {
            self.count(is_full);
        }
        if steps * WORD_LENGTH > QUEUE_ROOM && sent_to_one_queue(file, &trace[..steps]) > QUEUE_ROOM {
            self.count(goes_round);
        }
        // of a file that is read, the first number tells
        if steps > 0 && usize::from(file[0]) > MACHINES {
            self.count("replay: steps from a start with messages");
        }
    }

    pub fn count_written(&mut self, reply: &Written) {
        match reply {
            Ok(_) => self.count("write: written"),
            Err(refusal) => self.count(&format!("write: refused {}", refusal.number)),
        }
    }

    pub fn count_drawn(&mut self, reply: &Result<Pool, Refusal>) {
        match reply {
            Ok(pool) => {
                self.full_pools += u64::from(pool.state_count == POOL_STATES);
                self.count("draw: drawn");
            }
            Err(refusal) => self.count(&format!("draw: refused {}", refusal.number)),
        }
    }

    pub fn count_words(&mut self, transitions: &[Transition]) {
        for transition in transitions.iter().filter(|transition| transition.kind != Kind::Local) {
            self.words[usize::from(transition.length)] += 1;
        }
    }

    /// How contents of this length are lost in a control state, of which so many messages are followed there.
    pub fn count_lost(&mut self, tables: &Tables, control: usize, far: usize, length: usize, call: &str) {
        let [no_root, no_arc, not_final] = LOST;
        let how = match root(tables, control) {
            None => no_root,
            Some(_) if far < length => no_arc,
            Some(_) => not_final,
        };
        self.count(&lost(call, how));
    }

    fn count_lost_by_step(&mut self, tables: &Tables, control: usize, transition: usize, shown: usize, far: usize) {
        let step = &tables.transitions[transition];
        let target = control_state_after(tables, control, step).expect("the step can be taken");
        let length = match step.kind {
            Kind::Local => shown,
            Kind::Send => shown + step.word().len(),
            Kind::Receive => shown - step.word().len(),
        };
        self.count_lost(tables, target, far, length, "check");
    }

    fn count_lost_by_run(&mut self, file: &[u8], answer: &Answer, far: usize) {
        let (tables, record) = (read(file).expect("a file that is replayed is read"), &answer.lent.record);
        let states = tables.states.iter().zip(record.states).take(tables.machine_count);
        let control = states.fold(0, |control, (&count, state)| control * usize::from(count) + usize::from(state));
        self.count_lost(&tables, control, far, record.lengths.iter().sum(), "replay");
    }

    /// The transition by which a file is left.
    fn count_left(&mut self, transition: Option<&Transition>) {
        let [sending, receiving] = LEFT;
        match transition.filter(|transition| transition.word().len() == WORD_LENGTH).map(|transition| transition.kind) {
            Some(Kind::Send) => self.count(sending),
            Some(Kind::Receive) => self.count(receiving),
            _ => {}
        }
    }

    pub fn add(&mut self, other: Tally) {
        for (what, count) in other.counts {
            *self.counts.entry(what).or_default() += count;
        }
        self.longest_shown = self.longest_shown.max(other.longest_shown);
        self.most_steps = self.most_steps.max(other.most_steps);
        self.full_pools += other.full_pools;
        for (count, more) in self.words.iter_mut().zip(other.words) {
            *count += more;
        }
    }

    /// What was never met.
    pub fn missing(&self) -> Vec<String> {
        let verdicts = VERDICTS.map(|verdict| format!("check: {verdict}"));
        let refused_files = [1, 3, 4, 5, 6, 7, 8, 9, 10, 23];
        let read = refused_files.map(|number| format!("read: refused {number}"));
        let check = (1..=10).chain([23]).map(|number| format!("check: refused {number}"));
        let member = refused_files.into_iter().chain(11..=13).map(|number| format!("member: refused {number}"));
        let files = refused_files.map(|number| format!("replay: file refused {number}"));
        let steps = [3, 4, 5, 14, 15].map(|number| format!("replay: step refused {number}"));
        let met = DEMANDED.into_iter().chain(REPLAYED).chain(WRITTEN).chain(DRAWN).chain(STARTED);
        let losses = FOLLOWED.into_iter().flat_map(|call| LOST.map(|how| lost(call, how)));
        let fixed = met.chain(QUEUES_MET).chain(LEFT).map(str::to_string).chain(losses);
        let demanded = fixed.chain(verdicts).chain(read).chain(check).chain(member).chain(files).chain(steps);
        let lengths = self.words.iter().zip(0..).filter(|(&count, _)| count == 0);
        let words = lengths.map(|(_, length)| format!("a word of length {length}"));
        demanded.filter(|what| !self.counts.contains_key(what)).chain(words).collect()
    }

    pub fn report(&self) -> String {
        let mut report = String::new();
        for call in ["read", "member", "check", "replay", "write", "draw"] {
            let of_call = self.counts.iter().filter_map(|(what, count)| {
                let name = what.strip_prefix(call)?.strip_prefix(": ")?;
                Some(format!("{name} {count}"))
            });
            report += &format!("  {call}: {}\n", of_call.collect::<Vec<_>>().join(", "));
        }
        let words = self.words.map(|count| count.to_string()).join(" ");
        report += &format!("  words read, by length from 0: {words}\n");
        let (longest, most, full) = (self.longest_shown, self.most_steps, self.full_pools);
        report += &format!("  longest contents shown: {longest} messages; longest replay: {most} steps\n");
        report + &format!("  diagrams of {POOL_STATES} states: {full}\n")
    }
}

/// Whether some queue starts with a message.
fn waits(tables: &Tables) -> bool {
    starting_of(tables).iter().any(|queue| !queue.is_empty())
}

fn lost(call: &str, how: &str) -> String {
    format!("{call}: lost, {how}")
}

/// How many messages the steps of a run send to the queue that gets the most. A number of a step that is taken has one byte.
fn sent_to_one_queue(file: &[u8], steps: &[u8]) -> usize {
    let tables = read(file).expect("a file that is replayed is read");
    let mut sent = vec![0; tables.queue_count];
    for &number in steps {
        let transition = &tables.transitions[usize::from(number)];
        if transition.kind == Kind::Send {
            sent[usize::from(transition.queue)] += transition.word().len();
        }
    }
    sent.into_iter().max().unwrap_or(0)
}
