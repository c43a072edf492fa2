//! What a text of request 6 shows: the reply, its length, what is wrong where, limits, spaces, empty parts, the diagram.

use std::collections::{BTreeMap, BTreeSet};

use crate::derivatives::State;
use crate::expression::{offenders, parse, Alternatives, Atom, Item, LEVELS, LONGEST_TEXT};
use crate::expression_traps::state_count;
use crate::generate::expression_faults::is_of_the_grammar;
use crate::position_traps::minimised;
use crate::read::{Refusal, MESSAGES, POOL_STATES};

type Reply = Result<Vec<State>, Refusal>;

/// Texts of each reply.
const OF_EACH_REPLY: usize = 100;
/// Texts of most features.
const OF_OTHERS: usize = 20;
/// Texts with a number of states around 127.
const OF_MOST_STATES: usize = 40;
/// Texts of any other number of states.
const OF_EACH_COUNT: usize = 3;
/// Texts that are refused at some byte, of each value.
const OF_EACH_BYTE: usize = 4;
/// States are counted up to here.
const MANY_STATES: usize = 1_000;

const REPLIES: [&str; 7] = ["pool", "refused 5", "refused 18", "refused 19", "refused 20", "refused 21", "refused 22"];

const OTHERS: [&str; 85] = [
    "255 bytes, pool",
    "256 bytes, pool",
    "256 bytes, refused 19 at 255",
    "256 bytes, refused 19 at 256",
    "257 bytes",
    "258 to 300 bytes",
    "more than 300 bytes",
    "refused 18, else in the grammar",
    "refused 18, else outside the grammar",
    "19 at 0",
    "19 at the end, a group not closed",
    "19 at the end, 9 groups not closed",
    "19 at a star, the first sign",
    "19 at a star after (",
    "19 at a star after |",
    "19 at a star after a star",
    "19 at a star after a star and spaces",
    "19 at a ) without a (",
    "19 at a digit after 0",
    "19 at another byte",
    "19 behind a 5",
    "19 behind a 20",
    "19 behind a 21",
    "19 behind many states",
    "5 left of 20",
    "5 left of 21",
    "20 left of 5",
    "20 left of 21",
    "21 left of 5",
    "21 left of 20",
    "5 and 21 at one number",
    "5 with many states",
    "20 with many states",
    "21 with many states",
    "5 for 32",
    "5 for 33 to 99",
    "5 for three digits",
    "5 for four or five digits",
    "5 for up to ten digits",
    "5 for up to twenty digits",
    "5 for more than twenty digits",
    "5, below 32 in 8 bits",
    "5, below 32 in 16 bits",
    "5, below 32 in 32 bits",
    "5, below 32 in 64 bits",
    "9 levels, refused 20",
    "10 levels or more, refused 20",
    "33 occurrences, refused 21",
    "34 occurrences or more, refused 21",
    "32 occurrences, refused 22",
    "more than 1,000 states, refused 22",
    "pool, 8 levels",
    "pool, 8 levels twice",
    "pool, more than 8 groups",
    "pool, 31 occurrences",
    "pool, 32 occurrences",
    "pool, a message that occurs often",
    "pool, spaces alone",
    "pool, spaces first",
    "pool, spaces last",
    "pool, spaces between numbers",
    "pool, spaces between a number and its star",
    "pool, spaces between a group and its star",
    "pool, spaces after a star",
    "pool, spaces after (",
    "pool, spaces before )",
    "pool, spaces before |",
    "pool, spaces after |",
    "pool, several spaces side by side",
    "pool, an empty alternative first",
    "pool, an empty alternative last",
    "pool, an empty alternative between others",
    "pool, an empty alternative in a group",
    "pool, an empty group",
    "pool, an empty group with a star",
    "pool, a number with a star",
    "pool, a group with a star",
    "pool, a star in a group with a star",
    "pool, a group with a star that can be empty",
    "pool, the start is final",
    "pool, the start is not final",
    "pool, an arc to its own state",
    "pool, an arc to a lower state",
    "pool, states that accept the same words",
    "pool, a state that no word of 30 messages reaches",
];

/// The features, each with how many texts must have it.
pub fn asked() -> BTreeMap<String, usize> {
    let mut asked = BTreeMap::new();
    asked.extend(REPLIES.map(|reply| (reply.to_string(), OF_EACH_REPLY)));
    asked.extend(OTHERS.map(|feature| (feature.to_string(), OF_OTHERS)));
    asked.extend((1..=129).map(|count| (of_count(count), OF_EACH_COUNT)));
    asked.extend((126..=129).map(|count| (of_count(count), OF_MOST_STATES)));
    asked.extend((0..MESSAGES as u8).map(|message| (with_message(message), OF_OTHERS)));
    asked.extend((0..=255).filter(|&byte| is_ever_refused(byte)).map(|byte| (at_byte(byte), OF_EACH_BYTE)));
    asked
}

/// A beginning goes on with a space, a bar or an opening bracket, whatever it is.
fn is_ever_refused(byte: u8) -> bool {
    !b" |(".contains(&byte)
}

fn of_count(states: usize) -> String {
    let reply = if states <= POOL_STATES { "pool" } else { "refused 22" };
    format!("{reply}, {states:03} states")
}

fn with_message(message: u8) -> String {
    format!("pool, with message {message:02}")
}

fn at_byte(byte: u8) -> String {
    format!("19 at byte {byte:03}")
}

/// Features that a text was asked for.
#[derive(Default)]
struct Shown(BTreeSet<String>);

impl Shown {
    fn add(&mut self, feature: impl Into<String>) {
        self.0.insert(feature.into());
    }

    fn add_if(&mut self, holds: bool, feature: impl Into<String>) {
        if holds {
            self.add(feature);
        }
    }
}

pub fn features(text: &[u8], reply: &Reply) -> BTreeSet<String> {
    let mut shown = Shown::default();
    shown.of_length(text, reply);
    match reply {
        Ok(states) => {
            shown.add("pool");
            shown.of_spaces(text);
            shown.of_tree(&parse(text).expect("a text of the grammar"));
            shown.of_states(states);
        }
        Err(refusal) => {
            shown.add(format!("refused {}", refusal.number));
            match refusal.number {
                18 => {}
                19 => shown.of_fault(text, refusal.place),
                22 => shown.of_many_states(text),
                _ => shown.of_offender(text, *refusal),
            }
        }
    }
    shown.0
}

fn has_many_states(text: &[u8]) -> bool {
    state_count(text, POOL_STATES).is_none()
}

impl Shown {
    fn of_length(&mut self, text: &[u8], reply: &Reply) {
        let length = text.len();
        let is_19_at = |place: usize| *reply == Err(Refusal { number: 19, place });
        self.add_if(length == 255 && reply.is_ok(), "255 bytes, pool");
        self.add_if(length == 256 && reply.is_ok(), "256 bytes, pool");
        self.add_if(length == 256 && is_19_at(255), "256 bytes, refused 19 at 255");
        self.add_if(length == 256 && is_19_at(256), "256 bytes, refused 19 at 256");
        self.add_if(length == 257, "257 bytes");
        self.add_if((258..=300).contains(&length), "258 to 300 bytes");
        self.add_if(length > 300, "more than 300 bytes");
        if length > LONGEST_TEXT {
            let else_where = if parse(text).is_ok() { "in" } else { "outside" };
            self.add(format!("refused 18, else {else_where} the grammar"));
        }
    }

    /// Of a text whose longest beginning ends at a place.
    fn of_fault(&mut self, text: &[u8], place: usize) {
        let beginning = &text[..place];
        let count = |sign: u8| beginning.iter().filter(|&&byte| byte == sign).count();
        let open = count(b'(') - count(b')');
        self.add_if(place == 0, "19 at 0");
        match text.get(place) {
            None => {
                self.add("19 at the end, a group not closed");
                self.add_if(open > LEVELS, "19 at the end, 9 groups not closed");
            }
            Some(&byte) => {
                self.add(at_byte(byte));
                self.of_wrong_byte(byte, beginning);
            }
        }
        let closed = [beginning, &vec![b')'; open]].concat();
        let offenders = offenders(&parse(&closed).expect("a beginning of the grammar"));
        for offender in &offenders {
            self.add(format!("19 behind a {}", offender.number));
        }
        self.add_if(offenders.is_empty() && has_many_states(&closed), "19 behind many states");
    }

    fn of_wrong_byte(&mut self, byte: u8, beginning: &[u8]) {
        let before = beginning.iter().rfind(|&&byte| byte != b' ');
        let feature = match (byte, before) {
            (b'*', None) => "19 at a star, the first sign",
            (b'*', Some(b'(')) => "19 at a star after (",
            (b'*', Some(b'|')) => "19 at a star after |",
            (b'*', _) if beginning.ends_with(b" ") => "19 at a star after a star and spaces",
            (b'*', _) => "19 at a star after a star",
            (b')', _) => "19 at a ) without a (",
            (b'0'..=b'9', _) => "19 at a digit after 0",
            _ => "19 at another byte",
        };
        assert!(is_of_the_grammar(byte) || feature == "19 at another byte");
        self.add(feature);
    }

    /// Of a text that passes a limit.
    fn of_offender(&mut self, text: &[u8], Refusal { number, place }: Refusal) {
        let alternatives = parse(text).expect("a text of the grammar");
        for other in offenders(&alternatives) {
            if other.place > place {
                self.add(format!("{number} left of {}", other.number));
            } else if other.number != number {
                self.add(format!("{number} and {} at one number", other.number));
            }
        }
        self.add_if(has_many_states(text), format!("{number} with many states"));
        let counts = Counts::of(&alternatives);
        match number {
            20 if counts.groups.len() == LEVELS + 1 => self.add("9 levels, refused 20"),
            20 => self.add("10 levels or more, refused 20"),
            21 if counts.occurrences == 33 => self.add("33 occurrences, refused 21"),
            21 => self.add("34 occurrences or more, refused 21"),
            _ => self.of_number(&text[place..]),
        }
    }

    /// Of a number of 32 or more, at the front.
    fn of_number(&mut self, text: &[u8]) {
        let digits: Vec<u8> = text.iter().take_while(|byte| byte.is_ascii_digit()).map(|digit| digit - b'0').collect();
        self.add(match digits.len() {
            2 if digits == [3, 2] => "5 for 32",
            2 => "5 for 33 to 99",
            3 => "5 for three digits",
            4..=5 => "5 for four or five digits",
            6..=10 => "5 for up to ten digits",
            11..=20 => "5 for up to twenty digits",
            _ => "5 for more than twenty digits",
        });
        for bits in [8, 16, 32, 64] {
            let low = digits.iter().fold(0, |low: u128, &digit| (low * 10 + u128::from(digit)) % (1 << bits));
            self.add_if(low < MESSAGES as u128, format!("5, below 32 in {bits} bits"));
        }
    }

    fn of_many_states(&mut self, text: &[u8]) {
        match state_count(text, MANY_STATES) {
            Some(count) => self.add(of_count(count)),
            None => self.add("more than 1,000 states, refused 22"),
        }
        let counts = Counts::of(&parse(text).expect("a text of the grammar"));
        self.add_if(counts.occurrences == 32, "32 occurrences, refused 22");
    }

    fn of_spaces(&mut self, text: &[u8]) {
        let signs: Vec<usize> = (0..text.len()).filter(|&place| text[place] != b' ').collect();
        let (Some(first), Some(last)) = (signs.first(), signs.last()) else {
            return self.add_if(!text.is_empty(), "pool, spaces alone");
        };
        self.add_if(*first > 0, "pool, spaces first");
        self.add_if(last + 1 < text.len(), "pool, spaces last");
        self.add_if(text.windows(2).any(|pair| pair == b"  "), "pool, several spaces side by side");
        for pair in signs.windows(2).filter(|pair| pair[1] > pair[0] + 1) {
            let [before, after] = [text[pair[0]], text[pair[1]]];
            let is_after_number = before.is_ascii_digit();
            self.add_if(is_after_number && after.is_ascii_digit(), "pool, spaces between numbers");
            self.add_if(is_after_number && after == b'*', "pool, spaces between a number and its star");
            self.add_if(before == b')' && after == b'*', "pool, spaces between a group and its star");
            self.add_if(before == b'*', "pool, spaces after a star");
            self.add_if(before == b'(', "pool, spaces after (");
            self.add_if(after == b')', "pool, spaces before )");
            self.add_if(after == b'|', "pool, spaces before |");
            self.add_if(before == b'|', "pool, spaces after |");
        }
    }

    fn of_tree(&mut self, alternatives: &Alternatives) {
        let counts = Counts::of(alternatives);
        let deepest = counts.groups.get(LEVELS - 1).copied().unwrap_or(0);
        self.add_if(deepest > 0, "pool, 8 levels");
        self.add_if(deepest > 1, "pool, 8 levels twice");
        self.add_if(counts.groups.iter().sum::<usize>() > LEVELS, "pool, more than 8 groups");
        self.add_if(counts.occurrences == 31, "pool, 31 occurrences");
        self.add_if(counts.occurrences == 32, "pool, 32 occurrences");
        self.add_if(counts.messages.values().any(|&count| count >= 8), "pool, a message that occurs often");
        for &message in counts.messages.keys() {
            self.add(with_message(message));
        }
        self.of_alternatives(alternatives, false, false);
    }

    fn of_alternatives(&mut self, alternatives: &Alternatives, is_group: bool, is_in_starred: bool) {
        let last = alternatives.len() - 1;
        for (number, _) in alternatives.iter().enumerate().filter(|(_, items)| items.is_empty() && last > 0) {
            self.add_if(number == 0, "pool, an empty alternative first");
            self.add_if(number == last, "pool, an empty alternative last");
            self.add_if(0 < number && number < last, "pool, an empty alternative between others");
            self.add_if(is_group, "pool, an empty alternative in a group");
        }
        for Item { atom, is_starred, .. } in alternatives.iter().flatten() {
            self.add_if(*is_starred && is_in_starred, "pool, a star in a group with a star");
            let Atom::Group(inside) = atom else {
                self.add_if(*is_starred, "pool, a number with a star");
                continue;
            };
            let is_empty = *inside == [vec![]];
            self.add_if(is_empty, "pool, an empty group");
            self.add_if(is_empty && *is_starred, "pool, an empty group with a star");
            self.add_if(*is_starred, "pool, a group with a star");
            self.add_if(*is_starred && can_be_empty(inside), "pool, a group with a star that can be empty");
            self.of_alternatives(inside, true, is_in_starred || *is_starred);
        }
    }

    fn of_states(&mut self, states: &[State]) {
        self.add(of_count(states.len()));
        self.add(if states[0].is_final { "pool, the start is final" } else { "pool, the start is not final" });
        for (number, state) in states.iter().enumerate() {
            self.add_if(state.arcs.values().any(|&target| target == number), "pool, an arc to its own state");
            self.add_if(state.arcs.values().any(|&target| target < number), "pool, an arc to a lower state");
        }
        self.add_if(minimised(states).len() < states.len(), "pool, states that accept the same words");
        self.add_if(farthest(states) > 30, "pool, a state that no word of 30 messages reaches");
    }
}

/// How much there is of what, the groups by level.
#[derive(Default)]
struct Counts {
    occurrences: usize,
    groups: Vec<usize>,
    /// Without those of 32 or more.
    messages: BTreeMap<u8, usize>,
}

impl Counts {
    fn of(alternatives: &Alternatives) -> Self {
        let mut counts = Counts::default();
        counts.count(alternatives, 0);
        counts
    }

    fn count(&mut self, alternatives: &Alternatives, level: usize) {
        for item in alternatives.iter().flatten() {
            match &item.atom {
                Atom::Group(inside) => {
                    self.groups.resize(self.groups.len().max(level + 1), 0);
                    self.groups[level] += 1;
                    self.count(inside, level + 1);
                }
                Atom::Message(message) => {
                    self.occurrences += 1;
                    if let Some(message) = message {
                        *self.messages.entry(*message).or_default() += 1;
                    }
                }
            }
        }
    }
}

fn can_be_empty(alternatives: &Alternatives) -> bool {
    let is_left_out = |item: &Item| match &item.atom {
        Atom::Group(inside) => item.is_starred || can_be_empty(inside),
        Atom::Message(_) => item.is_starred,
    };
    alternatives.iter().any(|items| items.iter().all(is_left_out))
}

/// The length of the longest word that a state is numbered by: the state before it is the lowest with an arc there.
fn farthest(states: &[State]) -> usize {
    let mut lengths: Vec<usize> = vec![0];
    for target in 1..states.len() {
        let before = states.iter().position(|state| state.arcs.values().any(|&to| to == target));
        lengths.push(lengths[before.expect("each state is reached")] + 1);
    }
    lengths.into_iter().max().unwrap_or(0)
}
