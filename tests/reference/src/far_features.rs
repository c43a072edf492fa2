//! What is shown of how far a word is followed: where it has nowhere to go, in verdicts, questions and replays, and how large
//! the number is.
//!
//! A word is lost at the message that there is no arc for; else it is read to its end.

use std::collections::{BTreeMap, BTreeSet};

use crate::diagram::{far, root};
use crate::far_traps::{far_of_step, FarTrap};
use crate::membership::Member;
use crate::read::{Kind, Tables, Transition, QUEUES};
use crate::replay::{Configuration, QUEUE_ROOM};
use crate::verdict::Verdict;
use crate::walk::control_state_after;

/// Files, questions or replays of each feature, but for long words.
const ENOUGH: usize = 30;
/// From so many messages on a number is large.
const MANY: usize = 100;

/// Numbers in groups, each with how many must be lost and how many read to their end.
const NUMBERS: [(&str, std::ops::RangeInclusive<usize>, usize); 6] = [
    ("1", 1..=1, ENOUGH),
    ("2 to 9", 2..=9, ENOUGH),
    ("10 to 99", 10..=99, ENOUGH),
    ("100 to 255", MANY..=255, 10),
    ("256 to 999", 256..=999, 6),
    ("1,000 or more", 1_000..=usize::MAX, 3),
];

/// A word that is followed from a root, or from none.
struct Followed<'w> {
    word: &'w [u8],
    has_root: bool,
    far: usize,
}

impl<'w> Followed<'w> {
    fn new(tables: &Tables, control_state: usize, word: &'w [u8]) -> Self {
        let root = root(tables, control_state);
        Followed { word, has_root: root.is_some(), far: far(tables, root, word) }
    }

    /// The place of the message that has no arc.
    fn lost(&self) -> Option<usize> {
        (self.has_root && self.far < self.word.len()).then_some(self.far)
    }

    /// The features of any word.
    fn features(&self, tables: &Tables) -> Vec<String> {
        if !self.has_root {
            let waits = if self.word.is_empty() { NO_ROOT_AND_NOTHING } else { NO_ROOT };
            return vec![waits.to_string()];
        }
        let group = NUMBERS.iter().find(|(_, numbers, _)| numbers.contains(&self.far)).map(|(name, ..)| *name);
        let Some(place) = self.lost() else {
            let end = if self.word.is_empty() { NOTHING } else { TO_ITS_END };
            return [Some(end.to_string()), group.map(read_to_end_after)].into_iter().flatten().collect();
        };
        let queue = tables.queue_of(self.word[place]);
        let mut features = vec![lost_in_queue(queue)];
        features.extend(group.map(lost_after));
        if place == 0 {
            features.push(AT_THE_FIRST.to_string());
        } else if tables.queue_of(self.word[place - 1]) < queue {
            features.push(AT_A_QUEUES_FIRST.to_string());
        }
        if place + 1 == self.word.len() {
            features.push(AT_THE_LAST.to_string());
        }
        if self.word.len() >= MANY && place < 10 {
            features.push(SOON_OF_MANY.to_string());
        }
        features
    }
}

const NO_ROOT: &str = "no root, and messages";
const NO_ROOT_AND_NOTHING: &str = "no root, and no messages";
const NOTHING: &str = "a root, and no messages";
const TO_ITS_END: &str = "read to its end";
const AT_THE_FIRST: &str = "lost at the first message";
const AT_A_QUEUES_FIRST: &str = "lost at the first message of a later queue";
const AT_THE_LAST: &str = "lost at the last message";
const SOON_OF_MANY: &str = "lost after less than 10 of 100 messages or more";

fn lost_in_queue(queue: usize) -> String {
    format!("lost in queue {queue}")
}

fn lost_after(group: &str) -> String {
    format!("lost after {group}")
}

fn read_to_end_after(group: &str) -> String {
    format!("read to its end after {group}")
}

/// The features of any word that does not belong, each with how many must have it.
fn asked_of_words(prefix: &str, queues: usize) -> BTreeMap<String, usize> {
    let mut asked: BTreeMap<String, usize> = BTreeMap::new();
    for feature in [NO_ROOT, NO_ROOT_AND_NOTHING, NOTHING, TO_ITS_END, AT_THE_FIRST, AT_A_QUEUES_FIRST, AT_THE_LAST] {
        asked.insert(feature.to_string(), ENOUGH);
    }
    asked.insert(SOON_OF_MANY.to_string(), 4);
    asked.extend((0..queues).map(|queue| (lost_in_queue(queue), ENOUGH)));
    for (group, _, enough) in NUMBERS {
        asked.extend([lost_after(group), read_to_end_after(group)].map(|feature| (feature, enough)));
    }
    asked.into_iter().map(|(feature, enough)| (format!("{prefix}, {feature}"), enough)).collect()
}

fn prefixed(prefix: &str, features: Vec<String>) -> impl Iterator<Item = String> + '_ {
    features.into_iter().map(move |feature| format!("{prefix}, {feature}"))
}

/// Queues of the files that are made for checking and asking; more are in a few large ones.
const QUEUES_OF_SMALL_FILES: usize = 3;

/// Of each kind of step, where the contents after it end.
const OF_EVERY_STEP: [&str; 5] = [NO_ROOT, NOTHING, TO_ITS_END, AT_THE_FIRST, BEHIND_THE_FIRST];
const BEHIND_THE_FIRST: &str = "lost behind the first message";
/// A local step that leaves leads to another control state.
const THE_SAME: &str = "the same control state after the step";
const OF_SENDS: [&str; 6] = [
    "lost in an earlier queue",
    "lost in what waited in its queue",
    "lost at the first message of the sent word",
    "lost inside the sent word",
    "lost just behind the sent word",
    "lost later",
];
const OF_RECEIVES: [&str; 5] = [
    "lost in an earlier queue",
    "lost just behind the received word, in its queue",
    "lost just behind the received word, in a later queue",
    "lost later in its queue",
    "lost later in a later queue",
];
const STEPS: [(&str, Kind); 3] = [("local step", Kind::Local), ("send", Kind::Send), ("receive", Kind::Receive)];
const ABOVE: &str = "leaves, farther than the contents shown are long";
/// Files that lose contents at each place after many messages.
const LATE: usize = 2;

fn late(feature: &str) -> String {
    format!("{feature}, after {MANY} or more")
}

/// The features of files for checking, each with how many must have it.
pub fn asked_of_verdicts() -> BTreeMap<String, usize> {
    let mut asked = asked_of_words("leaves", QUEUES_OF_SMALL_FILES);
    for (name, kind) in STEPS {
        let own: &[&str] = match kind {
            Kind::Local => &[BEHIND_THE_FIRST],
            Kind::Send => &OF_SENDS,
            Kind::Receive => &OF_RECEIVES,
        };
        asked.extend(OF_EVERY_STEP.iter().chain(own).map(|feature| (format!("leaves, {name}, {feature}"), ENOUGH)));
        asked
            .extend(own.iter().chain(&[TO_ITS_END]).map(|feature| (late(&format!("leaves, {name}, {feature}")), LATE)));
        if kind != Kind::Local {
            asked.insert(format!("leaves, {name}, {THE_SAME}"), ENOUGH);
        }
    }
    asked.insert(ABOVE.to_string(), ENOUGH);
    asked
}

/// Those of them that take many messages.
pub fn asked_of_many() -> BTreeMap<String, usize> {
    let large = NUMBERS.into_iter().filter(|(_, numbers, _)| *numbers.start() >= MANY);
    let ends: Vec<String> = large.map(|(name, ..)| format!("after {name}")).chain([late("")]).collect();
    let is_of_many = |feature: &str| feature.ends_with(SOON_OF_MANY) || ends.iter().any(|end| feature.ends_with(end));
    asked_of_verdicts().into_iter().filter(|(feature, _)| is_of_many(feature)).collect()
}

/// What a *leaves* shows of the contents after its step.
pub fn of_verdict(tables: &Tables, verdict: &Verdict) -> BTreeSet<String> {
    let Verdict::Leaves { control_state, transition, contents, .. } = verdict else { return BTreeSet::new() };
    let step = &tables.transitions[*transition];
    let led_to = control_state_after(tables, *control_state, step).expect("the step is possible");
    let parts = Parts::new(tables, step, contents);
    let after = parts.after(step);
    let followed = Followed::new(tables, led_to, &after);
    let mut features: BTreeSet<String> = prefixed("leaves", followed.features(tables)).collect();
    if followed.far > contents.len() {
        features.insert(ABOVE.to_string());
    }
    let (name, _) = STEPS.into_iter().find(|(_, kind)| *kind == step.kind).expect("steps are of three kinds");
    let mut add = |feature: &str| {
        let feature = format!("leaves, {name}, {feature}");
        if followed.far >= MANY {
            features.insert(late(&feature));
        }
        features.insert(feature);
    };
    if led_to == *control_state {
        add(THE_SAME);
    }
    match followed.lost() {
        None if !followed.has_root => add(NO_ROOT),
        None if after.is_empty() => add(NOTHING),
        None => add(TO_ITS_END),
        Some(0) => add(AT_THE_FIRST),
        Some(_) => add(BEHIND_THE_FIRST),
    }
    if let Some(beside_word) = followed.lost().and_then(|place| parts.place(tables, step, &after, place)) {
        add(beside_word);
    }
    features
}

/// Contents, cut around what waits in the queue of a step.
struct Parts<'c> {
    earlier: &'c [u8],
    own: &'c [u8],
    later: &'c [u8],
}

impl<'c> Parts<'c> {
    fn new(tables: &Tables, step: &Transition, contents: &'c [u8]) -> Self {
        let up_to = |queue: usize| contents.iter().filter(|&&message| tables.queue_of(message) < queue).count();
        let queue = usize::from(step.queue);
        let (begins, ends) = (up_to(queue), up_to(queue + 1));
        Parts { earlier: &contents[..begins], own: &contents[begins..ends], later: &contents[ends..] }
    }

    fn after(&self, step: &Transition) -> Vec<u8> {
        match step.kind {
            Kind::Local => [self.earlier, self.own, self.later].concat(),
            Kind::Send => [self.earlier, self.own, step.word(), self.later].concat(),
            Kind::Receive => [self.earlier, &self.own[step.word().len()..], self.later].concat(),
        }
    }

    /// Where a lost message stands beside the step's word.
    fn place(&self, tables: &Tables, step: &Transition, after: &[u8], place: usize) -> Option<&'static str> {
        let (earlier, waited, word) = (self.earlier.len(), self.earlier.len() + self.own.len(), step.word().len());
        match step.kind {
            Kind::Local => None,
            Kind::Send => {
                let [in_earlier, in_waiting, at_word, in_word, behind_word, later] = OF_SENDS;
                Some(match place {
                    _ if place < earlier => in_earlier,
                    _ if place < waited => in_waiting,
                    _ if place == waited && word > 0 => at_word,
                    _ if place < waited + word => in_word,
                    _ if place == waited + word => behind_word,
                    _ => later,
                })
            }
            Kind::Receive => {
                let [in_earlier, behind_own, behind_later, own, later] = OF_RECEIVES;
                let is_own = tables.queue_of(after[place]) == usize::from(step.queue);
                Some(match place {
                    _ if place < earlier => in_earlier,
                    _ if place == earlier && is_own => behind_own,
                    _ if place == earlier => behind_later,
                    _ if is_own => own,
                    _ => later,
                })
            }
        }
    }
}

/// What a *leaves* shows, and which mistakes about the number it tells.
pub fn of_verdict_with_told(tables: &Tables, verdict: &Verdict) -> BTreeSet<String> {
    let mut features = of_verdict(tables, verdict);
    if let Verdict::Leaves { control_state, transition, contents, far } = verdict {
        let step = &tables.transitions[*transition];
        let tells = |trap: &FarTrap| far_of_step(tables, *control_state, step, contents, Some(*trap)) != *far;
        features.extend(FarTrap::of_verdicts().filter(tells).map(|trap| format!("{trap:?}")));
    }
    features
}

/// The features of questions, each with how many must have it.
pub fn asked_of_questions() -> BTreeMap<String, usize> {
    let mut asked = asked_of_words("no", QUEUES_OF_SMALL_FILES);
    asked.insert(format!("yes, {NOTHING}"), ENOUGH);
    asked.extend(NUMBERS.map(|(group, _, enough)| (format!("yes, {}", read_to_end_after(group)), enough)));
    asked
}

pub fn of_question(tables: &Tables, control_state: usize, contents: &[u8], reply: Member) -> BTreeSet<String> {
    let name = if reply.belongs { "yes" } else { "no" };
    prefixed(name, Followed::new(tables, control_state, contents).features(tables)).collect()
}

const AT_THE_START: [&str; 2] = ["outside at the start, no root", "outside at the start, a root"];
const IN_A_FULL_QUEUE: &str = "outside, lost in a queue of 1,024";
const BEHIND_A_FULL_QUEUE: &str = "outside, lost behind a queue of 1,024";
const OVER_A_FULL_QUEUE: &str = "outside, read to its end over a queue of 1,024";
const ROOTLESS_WITH_FULL_QUEUE: &str = "outside, no root, and a queue of 1,024";
const ACROSS: &str = "outside, lost past the end of a room";
const ACROSS_TO_ITS_END: &str = "outside, read to its end past the end of a room";
const OVER_A_ROOM: [&str; 2] =
    ["outside, lost after more than 1,024", "outside, read to its end after more than 1,024"];

/// The features of replays that end outside, each with how many must have it.
pub fn asked_of_replays() -> BTreeMap<String, usize> {
    let mut asked = asked_of_words("outside", QUEUES);
    asked.extend(AT_THE_START.map(|feature| (feature.to_string(), ENOUGH)));
    for feature in [IN_A_FULL_QUEUE, BEHIND_A_FULL_QUEUE, OVER_A_FULL_QUEUE, ROOTLESS_WITH_FULL_QUEUE] {
        asked.insert(feature.to_string(), 8);
    }
    asked.extend([ACROSS, ACROSS_TO_ITS_END].map(|feature| (feature.to_string(), 8)));
    asked.extend(OVER_A_ROOM.map(|feature| (feature.to_string(), 8)));
    asked
}

/// What a replay shows that ended outside, given how many steps were taken and how many messages received from each queue.
pub fn of_replay(tables: &Tables, steps: usize, last: &Configuration, received: &[usize]) -> BTreeSet<String> {
    let word = last.queues.concat();
    let followed = Followed::new(tables, last.control_state(tables), &word);
    let mut features: BTreeSet<String> = prefixed("outside", followed.features(tables)).collect();
    let mut add = |feature: &str| {
        features.insert(feature.to_string());
    };
    if steps == 0 {
        add(AT_THE_START[usize::from(followed.has_root)]);
    }
    if followed.has_root && followed.far > QUEUE_ROOM {
        add(OVER_A_ROOM[usize::from(followed.lost().is_none())]);
    }
    let mut begins = 0;
    for (queue, received) in last.queues.iter().zip(received) {
        let ends = begins + queue.len();
        // Where in the word the messages begin that lie at the room's beginning, past its end.
        let across = begins + QUEUE_ROOM - received % QUEUE_ROOM;
        match followed.lost() {
            Some(place) if (across..ends).contains(&place) => add(ACROSS),
            None if followed.has_root && across < ends => add(ACROSS_TO_ITS_END),
            _ => {}
        }
        if queue.len() == QUEUE_ROOM {
            match followed.lost() {
                Some(place) if (begins + 1..ends).contains(&place) => add(IN_A_FULL_QUEUE),
                Some(place) if place >= ends => add(BEHIND_A_FULL_QUEUE),
                Some(_) => {}
                None if followed.has_root => add(OVER_A_FULL_QUEUE),
                None => add(ROOTLESS_WITH_FULL_QUEUE),
            }
        }
        begins = ends;
    }
    features
}
