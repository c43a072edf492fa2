//! What a file shows of long words: in which verdicts they are followed to their end, and where a diagram loses them.
//!
//! A sent word is read by the target's diagram, a received one by the source's. A diagram loses a word where it has
//! nowhere to go; the place is the number of messages read until then.

use std::collections::{BTreeMap, BTreeSet, HashSet};
use std::ops::Range;

use crate::diagram::{follow, root};
use crate::read::{Kind, Tables, Transition, WORD_LENGTH};
use crate::verdict::Verdict;
use crate::walk::control_state_after;

/// Words from this length on are long.
pub const LONG_WORD: usize = 5;

/// Files of each verdict with a word of each long length, sent and received.
const OF_EACH_LENGTH: usize = 8;
/// Files that lose a full word at each place.
const AT_EACH_PLACE: usize = 4;
/// Files of every other feature.
const OF_OTHERS: usize = 20;

/// The features, each with how many files must have it.
pub fn asked() -> BTreeMap<String, usize> {
    let mut asked = BTreeMap::new();
    for kind in [Kind::Send, Kind::Receive] {
        for verdict in ["closed", "outside", "leaves", "bad"] {
            asked.extend((LONG_WORD..=WORD_LENGTH).map(|length| (of_length(verdict, kind, length), OF_EACH_LENGTH)));
        }
        for verdict in ["closed", "leaves"] {
            asked.insert(in_a_middle_queue(verdict, kind), OF_OTHERS);
        }
    }
    for (verdict, kind) in [("closed", Kind::Send), ("closed", Kind::Receive), ("leaves", Kind::Send)] {
        asked.extend((0..WORD_LENGTH).map(|place| (lost_of_full(verdict, kind, place), AT_EACH_PLACE)));
        asked.extend(PARTS.map(|part| (lost_in_part(verdict, kind, part), OF_OTHERS)));
    }
    asked.extend([FULL_WORD_SHOWN, SHOWN_BETWEEN_QUEUES].map(|feature| (feature.to_string(), OF_OTHERS)));
    asked
}

const FULL_WORD_SHOWN: &str = "leaves, a received full word shown";
const SHOWN_BETWEEN_QUEUES: &str = "leaves, a received long word shown between messages of other queues";

fn name(kind: Kind) -> &'static str {
    match kind {
        Kind::Local => "local step",
        Kind::Send => "send",
        Kind::Receive => "receive",
    }
}

fn of_length(verdict: &str, kind: Kind, length: usize) -> String {
    format!("{verdict}, {} of {length:02}", name(kind))
}

fn in_a_middle_queue(verdict: &str, kind: Kind) -> String {
    format!("{verdict}, {} of a long word of a middle queue", name(kind))
}

fn lost_of_full(verdict: &str, kind: Kind, place: usize) -> String {
    format!("{verdict}, {} of a full word that is lost at {place:02}", name(kind))
}

fn lost_in_part(verdict: &str, kind: Kind, part: &str) -> String {
    format!("{verdict}, {} of a long word that is lost {part}", name(kind))
}

const PARTS: [&str; 4] = ["at its first message", "early", "late", "at its last message"];

/// Late is past the messages of short words.
fn part(length: usize, place: usize) -> &'static str {
    let [first, early, late, last] = PARTS;
    if place == 0 {
        first
    } else if place + 1 == length {
        last
    } else if place + 1 < LONG_WORD {
        early
    } else {
        late
    }
}

/// A *leaves* shows what is so of the step that decides; *closed* and *bad*, of the steps that were walked; *outside*
/// walks none.
pub fn features(tables: &Tables, verdict: &Verdict) -> BTreeSet<String> {
    match verdict {
        Verdict::Closed { .. } => of_walked_steps("closed", tables),
        Verdict::Bad { .. } => of_walked_steps("bad", tables),
        Verdict::Outside => {
            let long = tables.used_transitions().iter().filter(|step| is_long(step));
            long.map(|step| of_length("outside", step.kind, step.word().len())).collect()
        }
        Verdict::Leaves { control_state, transition, contents, .. } => {
            let step = &tables.transitions[*transition];
            if is_long(step) {
                of_leaving_step(tables, *control_state, step, contents)
            } else {
                BTreeSet::new()
            }
        }
    }
}

pub fn has_long_word(tables: &Tables) -> bool {
    tables.used_transitions().iter().any(is_long)
}

fn is_long(step: &Transition) -> bool {
    step.word().len() >= LONG_WORD
}

fn is_of_a_middle_queue(tables: &Tables, step: &Transition) -> bool {
    let queue = usize::from(step.queue);
    queue > 0 && queue + 1 < tables.queue_count
}

fn of_walked_steps(verdict: &str, tables: &Tables) -> BTreeSet<String> {
    let mut features = BTreeSet::new();
    for control_state in 0..tables.control_state_count {
        for step in tables.used_transitions().iter().filter(|step| is_long(step)) {
            let length = step.word().len();
            for place in places(tables, control_state, step) {
                if place < length {
                    features.extend(lost(verdict, step, place));
                    continue;
                }
                features.insert(of_length(verdict, step.kind, length));
                if is_of_a_middle_queue(tables, step) {
                    features.insert(in_a_middle_queue(verdict, step.kind));
                }
            }
        }
    }
    features
}

fn lost(verdict: &str, step: &Transition, place: usize) -> Vec<String> {
    let length = step.word().len();
    let mut features = vec![lost_in_part(verdict, step.kind, part(length, place))];
    if length == WORD_LENGTH {
        features.push(lost_of_full(verdict, step.kind, place));
    }
    features
}

fn of_leaving_step(tables: &Tables, control_state: usize, step: &Transition, contents: &[u8]) -> BTreeSet<String> {
    let length = step.word().len();
    let queue = usize::from(step.queue);
    let begins = contents.iter().take_while(|&&message| tables.queue_of(message) < queue).count();
    let ends = contents.iter().take_while(|&&message| tables.queue_of(message) <= queue).count();
    let mut features = BTreeSet::from([of_length("leaves", step.kind, length)]);
    if is_of_a_middle_queue(tables, step) {
        features.insert(in_a_middle_queue("leaves", step.kind));
    }
    if step.kind == Kind::Receive && contents[begins..ends].starts_with(step.word()) {
        if length == WORD_LENGTH {
            features.insert(FULL_WORD_SHOWN.to_string());
        }
        if begins > 0 && ends < contents.len() {
            features.insert(SHOWN_BETWEEN_QUEUES.to_string());
        }
    }
    if step.kind == Kind::Send {
        let after = control_state_after(tables, control_state, step).and_then(|after| root(tables, after));
        let place = follow(tables, after, &contents[..ends]).map_or(length, |state| place(tables, state, step.word()));
        if place < length {
            features.extend(lost("leaves", step, place));
        }
    }
    features
}

/// How many messages of a word are read from a state.
fn place(tables: &Tables, state: usize, word: &[u8]) -> usize {
    (0..word.len()).find(|&place| follow(tables, Some(state), &word[..=place]).is_none()).unwrap_or(word.len())
}

/// How many messages of the step's word are read, from each pair before the step whose reader is somewhere.
fn places(tables: &Tables, control_state: usize, step: &Transition) -> BTreeSet<usize> {
    let Some(after) = control_state_after(tables, control_state, step) else { return BTreeSet::new() };
    let Some(source) = root(tables, control_state) else { return BTreeSet::new() };
    let queue = usize::from(step.queue);
    let queues_before = if step.kind == Kind::Send { queue + 1 } else { queue };
    let pairs = pairs_before((source, root(tables, after)), tables, 0..tables.first_message(queues_before));
    let readers = pairs.into_iter().filter_map(|(source, target)| match step.kind {
        Kind::Send => target,
        Kind::Receive => Some(source),
        Kind::Local => None,
    });
    readers.map(|state| place(tables, state, step.word())).collect()
}

/// Where both roots stand after the same word of some messages; the source is somewhere.
fn pairs_before(
    roots: (usize, Option<usize>),
    tables: &Tables,
    messages: Range<usize>,
) -> HashSet<(usize, Option<usize>)> {
    let mut known = HashSet::from([roots]);
    let mut open = vec![roots];
    while let Some((source, target)) = open.pop() {
        for message in messages.clone() {
            let letter = [message as u8];
            let Some(source) = follow(tables, Some(source), &letter) else { continue };
            let pair = (source, follow(tables, target, &letter));
            if known.insert(pair) {
                open.push(pair);
            }
        }
    }
    known
}
