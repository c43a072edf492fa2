//! What files, questions and replays show of what waits at the start, and which mistakes about the two forms they would tell.

use std::collections::{BTreeMap, BTreeSet};

use crate::diagram::{accepts, far, root};
use crate::form_traps::{read_form_with, FormTrap};
use crate::membership::Member;
use crate::read::{read, Kind, Refusal, Tables, QUEUES, STARTING};
use crate::replay::{Configuration, Reply, QUEUE_ROOM};
use crate::traps::{tells, Trap};
use crate::verdict::Verdict;

/// Files, questions or replays that tell each mistake about the two forms.
pub const ENOUGH_OF_FORM: usize = 8;
/// Files and replays that tell each mistake about what waits at the start.
pub const ENOUGH_TOLD: usize = 30;

/// Which mistakes about the two forms would be told, and how often.
pub struct FormHits {
    told: BTreeMap<FormTrap, usize>,
    disagreements: Vec<String>,
}

impl FormHits {
    pub fn new(traps: impl Iterator<Item = FormTrap>) -> Self {
        FormHits { told: traps.map(|trap| (trap, 0)).collect(), disagreements: vec![] }
    }

    /// Counts the mistakes that a file tells, given how it is answered for once it is read or refused.
    pub fn add<A: PartialEq>(&mut self, file: &[u8], mut answer: impl FnMut(&Result<Tables, Refusal>) -> A) {
        let right = read(file);
        if read_form_with(file, None) != right {
            let hex: String = file.iter().map(|byte| format!("{byte:02x} ")).collect();
            self.disagreements.push(format!("read otherwise with what waits taken out; file {hex}"));
        }
        let right_answer = answer(&right);
        for (&trap, count) in self.told.iter_mut().filter(|(trap, _)| trap.is_about(file.first())) {
            let wrong = read_form_with(file, Some(trap));
            *count += usize::from(wrong != right && answer(&wrong) != right_answer);
        }
    }

    pub fn complaints(&self, of: &str) -> Vec<String> {
        let seldom = self.told.iter().filter(|(_, &count)| count < ENOUGH_OF_FORM);
        let complaints = seldom.map(|(trap, count)| format!("only {count} {of} tell {trap:?}"));
        self.disagreements.iter().cloned().chain(complaints).collect()
    }

    pub fn report(&self, of: &str) -> String {
        self.told
            .iter()
            .map(|(trap, count)| format!("{of} whose reading would change by {trap:?}: {count}\n"))
            .collect()
    }
}

/// The control state that a session starts in.
fn start(tables: &Tables) -> usize {
    Configuration::start(tables).control_state(tables)
}

/// What waits at the start, as one word.
fn waiting(tables: &Tables) -> Vec<u8> {
    Configuration::start(tables).queues.concat()
}

/// How the diagram of the start fares with what waits there.
const NO_ROOT: &str = "no root";
const AT_THE_FIRST: &str = "lost at the first message";
const INSIDE_A_QUEUE: &str = "lost inside a queue";
const AT_A_QUEUES_FIRST: &str = "lost at the first message of a later queue";
const AT_THE_LAST: &str = "lost at the last message";
const TO_ITS_END: &str = "read to its end";
const FATES: [&str; 6] = [NO_ROOT, AT_THE_FIRST, INSIDE_A_QUEUE, AT_A_QUEUES_FIRST, AT_THE_LAST, TO_ITS_END];

fn fates(tables: &Tables) -> Vec<&'static str> {
    let (word, root) = (waiting(tables), root(tables, start(tables)));
    let taken = far(tables, root, &word);
    if root.is_none() {
        return vec![NO_ROOT];
    }
    if taken == word.len() {
        return vec![TO_ITS_END];
    }
    let is_queues_first = taken > 0 && tables.queue_of(word[taken]) > tables.queue_of(word[taken - 1]);
    let mut fates = vec![match taken {
        0 => AT_THE_FIRST,
        _ if is_queues_first => AT_A_QUEUES_FIRST,
        _ => INSIDE_A_QUEUE,
    }];
    if taken > 0 && taken + 1 == word.len() {
        fates.push(AT_THE_LAST);
    }
    fates
}

const VERDICTS: [&str; 4] = ["closed", "outside", "leaves", "bad"];

fn name(verdict: &Verdict) -> &'static str {
    match verdict {
        Verdict::Closed { .. } => VERDICTS[0],
        Verdict::Outside => VERDICTS[1],
        Verdict::Leaves { .. } => VERDICTS[2],
        Verdict::Bad { .. } => VERDICTS[3],
    }
}

const WITH_WHAT_WAITS: &str = "with what waits, at the start";

/// The features of files for checking, each with how many must have it.
pub fn asked_of_verdicts() -> BTreeMap<String, usize> {
    let mut asked = BTreeMap::new();
    for verdict in VERDICTS {
        asked.insert(format!("{verdict}, something waits"), 40);
        asked.extend((0..QUEUES - 1).map(|queue| (format!("{verdict}, something waits in queue {queue}"), 12)));
        let of_counts = [(1, 10), (2, 10), (3, 3)];
        asked.extend(of_counts.map(|(count, files)| (format!("{verdict}, something waits in {count} queues"), files)));
        asked.insert(format!("{verdict}, a queue starts with 8 messages"), 6);
        for empty in ["inside", "outside"] {
            asked.insert(format!("{verdict}, something waits, and empty queues are {empty}"), 12);
        }
    }
    asked.extend(FATES.map(|fate| (format!("outside, something waits, {fate}"), 10)));
    asked.extend(["leaves", "bad"].map(|verdict| (format!("{verdict} {WITH_WHAT_WAITS}"), 5)));
    asked
}

pub fn of_verdict(tables: &Tables, verdict: &Verdict) -> BTreeSet<String> {
    if !tables.resumes() {
        return BTreeSet::new();
    }
    let (name, start) = (name(verdict), start(tables));
    let waiting_in: Vec<usize> = (0..tables.queue_count).filter(|&queue| !tables.starting(queue).is_empty()).collect();
    let empty = if accepts(tables, root(tables, start), &[]) { "inside" } else { "outside" };
    let mut features = BTreeSet::from([
        format!("{name}, something waits"),
        format!("{name}, something waits in {} queues", waiting_in.len()),
        format!("{name}, something waits, and empty queues are {empty}"),
    ]);
    features.extend(waiting_in.iter().map(|queue| format!("{name}, something waits in queue {queue}")));
    if tables.starting_lengths.contains(&(STARTING as u8)) {
        features.insert(format!("{name}, a queue starts with 8 messages"));
    }
    let shown = match verdict {
        Verdict::Outside => {
            features.extend(fates(tables).into_iter().map(|fate| format!("outside, something waits, {fate}")));
            None
        }
        Verdict::Leaves { control_state, contents, .. } => Some((*control_state, contents)),
        Verdict::Bad { entry, contents } => Some((usize::from(tables.bad[*entry].control_state), contents)),
        Verdict::Closed { .. } => None,
    };
    if shown == Some((start, &waiting(tables))) {
        features.insert(format!("{name} {WITH_WHAT_WAITS}"));
    }
    features
}

/// What a verdict shows, and which mistakes about what waits it tells.
pub fn of_verdict_with_told(tables: &Tables, verdict: &Verdict) -> BTreeSet<String> {
    let mut features = of_verdict(tables, verdict);
    if tables.resumes() {
        let told = Trap::of_starting().filter(|&trap| tells(tables, verdict, trap));
        features.extend(told.map(|trap| format!("{trap:?}")));
    }
    features
}

/// What is asked of a file that resumes.
const ASKED: [&str; 4] = ["what waits", "nothing", "more behind what waits", "other contents"];

/// The features of questions, each with how many must have it.
pub fn asked_of_questions() -> BTreeMap<String, usize> {
    let replies = ["yes", "no"];
    let asked = replies.iter().flat_map(|reply| ASKED.map(|asked| format!("{reply}, something waits, asked: {asked}")));
    asked.map(|feature| (feature, 10)).collect()
}

pub fn of_question(tables: &Tables, contents: &[u8], reply: Member) -> Option<String> {
    let waiting = waiting(tables);
    let [what_waits, nothing, more, other] = ASKED;
    let asked = match contents {
        [] => nothing,
        _ if contents == waiting => what_waits,
        _ if contents.starts_with(&waiting) => more,
        _ => other,
    };
    let name = if reply.belongs { "yes" } else { "no" };
    tables.resumes().then(|| format!("{name}, something waits, asked: {asked}"))
}

const FIRST_RECEIVED: &str = "something waits, and the first step receives it";
const ALL_RECEIVED: &str = "something waits, and all of it is received";
const WITH_SENT_RECEIVED: &str = "a word received of what waits from the start and of what is sent behind it";
const SENT_BEHIND: &str = "a word sent behind what waits from the start";
const REFUSED_MORE: &str = "refused 14, a word that goes on behind what waits from the start";
const REFUSED_OTHER: &str = "refused 14, another message than waits from the start";
const FULL: &str = "a queue of 1,024 with messages from the start";
const REFUSED_FULL: &str = "refused 15, messages from the start in the queue";
const ENDS: [&str; 8] =
    ["end", "outside", "refused 3", "refused 4", "refused 5", "refused 14", "refused 15", "memory refused"];

/// The features of replays, each with how many must have it.
pub fn asked_of_replays() -> BTreeMap<String, usize> {
    let mut asked: BTreeMap<String, usize> = ENDS.map(|end| (format!("something waits, {end}"), 10)).into();
    asked.extend(ENDS.map(|end| (format!("something waits, {end} without a step"), 8)));
    // A queue that starts with eight messages is not filled by one word; memory is refused before any step.
    asked.remove("something waits, refused 15 without a step");
    asked.remove("something waits, memory refused without a step");
    asked.extend(FATES.map(|fate| (format!("outside at the start, something waits, {fate}"), 8)));
    for feature in [FIRST_RECEIVED, ALL_RECEIVED, SENT_BEHIND, REFUSED_MORE, REFUSED_OTHER, FULL, REFUSED_FULL] {
        asked.insert(feature.to_string(), 20);
    }
    asked.insert(WITH_SENT_RECEIVED.to_string(), 10);
    asked.extend((0..QUEUES).map(|queue| (format!("something waits in queue {queue}, and a step is taken"), 20)));
    asked.extend(
        (1..=STARTING).map(|length| (format!("a queue starts with {length} messages, and a step is taken"), 10)),
    );
    asked
}

/// What a replay shows of what waits at the start.
pub fn of_replay(tables: &Tables, trace: &[u8], reply: &Reply) -> BTreeSet<String> {
    let mut features = BTreeSet::new();
    if !tables.resumes() {
        return features;
    }
    let (end, steps) = match *reply {
        Reply::End { steps } => ("end".to_string(), steps),
        Reply::Outside { steps, .. } => ("outside".to_string(), steps),
        Reply::StepRefused { refusal, steps } => (format!("refused {}", refusal.number), steps),
        Reply::MemoryRefused(_) => return BTreeSet::from(["something waits, memory refused".to_string()]),
        Reply::TraceRefused(_) | Reply::FileRefused(_) => return features,
    };
    features.insert(format!("something waits, {end}"));
    if steps == 0 {
        features.insert(format!("something waits, {end} without a step"));
        if end == "outside" {
            features
                .extend(fates(tables).into_iter().map(|fate| format!("outside at the start, something waits, {fate}")));
        }
    } else {
        for queue in (0..tables.queue_count).filter(|&queue| !tables.starting(queue).is_empty()) {
            features.insert(format!("something waits in queue {queue}, and a step is taken"));
            let length = tables.starting(queue).len();
            features.insert(format!("a queue starts with {length} messages, and a step is taken"));
        }
    }
    features.extend(of_steps(tables, trace, steps, reply).into_iter().map(String::from));
    features
}

/// What the steps do with messages that wait from the start, and what the refused one would. Every number of a transition has one
/// byte.
fn of_steps(tables: &Tables, trace: &[u8], steps: usize, reply: &Reply) -> BTreeSet<&'static str> {
    let mut features = BTreeSet::new();
    let mut from_start: Vec<usize> = (0..tables.queue_count).map(|queue| tables.starting(queue).len()).collect();
    let mut configuration = Configuration::start(tables);
    for (step, &number) in trace[..steps].iter().enumerate() {
        let transition = &tables.transitions[usize::from(number)];
        configuration = configuration.after(transition).expect("the step was taken");
        let (left, length) = (&mut from_start[usize::from(transition.queue)], transition.word().len());
        match transition.kind {
            Kind::Receive if *left > 0 && length > 0 => {
                if step == 0 {
                    features.insert(FIRST_RECEIVED);
                }
                if length > *left {
                    features.insert(WITH_SENT_RECEIVED);
                }
                *left = left.saturating_sub(length);
            }
            Kind::Send if *left > 0 && length > 0 => {
                features.insert(SENT_BEHIND);
            }
            _ => {}
        }
    }
    if from_start.iter().all(|&left| left == 0) {
        features.insert(ALL_RECEIVED);
    }
    let is_full = |queue: usize| from_start[queue] > 0 && configuration.queues[queue].len() == QUEUE_ROOM;
    if (0..tables.queue_count).any(is_full) {
        features.insert(FULL);
    }
    let Reply::StepRefused { refusal: Refusal { number: number @ (14 | 15), .. }, .. } = *reply else {
        return features;
    };
    let transition = &tables.transitions[usize::from(trace[steps])];
    let (queue, word) = (usize::from(transition.queue), transition.word());
    let left = &configuration.queues[queue][..from_start[queue]];
    let is_in_state = configuration.states[usize::from(transition.machine)] == transition.from;
    match number {
        15 if !left.is_empty() => drop(features.insert(REFUSED_FULL)),
        14 if is_in_state && !left.is_empty() => {
            let goes_on = word.starts_with(left);
            features.insert(if goes_on { REFUSED_MORE } else { REFUSED_OTHER });
        }
        _ => {}
    }
    features
}
