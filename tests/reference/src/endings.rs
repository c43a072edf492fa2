//! The sets of occurrences that short words can end on, from all words of the marked expression: the document's definition,
//! for small expressions.

use std::collections::{BTreeMap, BTreeSet};

use crate::derivatives::State;
use crate::expression::{Alternatives, Atom, Item};
use crate::read::MESSAGES;

/// An occurrence: its mark, then its message.
type Occurrence = (u8, u8);
type Words = BTreeSet<Vec<Occurrence>>;

/// What a word is in the language.
#[derive(Default)]
struct Ending {
    /// The marks of the occurrences that it can end on.
    marks: BTreeSet<u8>,
    is_whole: bool,
}

/// Up to what length words of the marked expression are made, and the marks given so far.
struct Maker {
    most: usize,
    marks: u8,
}

impl Maker {
    fn alternatives(&mut self, alternatives: &Alternatives) -> Words {
        let words_of = |items: &Vec<Item>| {
            items.iter().fold(Words::from([vec![]]), |words, item| {
                let of_item = self.item(item);
                self.joined(&words, &of_item)
            })
        };
        alternatives.iter().flat_map(words_of).collect()
    }

    fn item(&mut self, item: &Item) -> Words {
        let once = match &item.atom {
            Atom::Group(alternatives) => self.alternatives(alternatives),
            Atom::Message(message) => {
                self.marks += 1;
                Words::from([vec![(self.marks - 1, message.expect("within the limits"))]])
            }
        };
        if !item.is_starred {
            return once;
        }
        let mut words = Words::from([vec![]]);
        loop {
            let count = words.len();
            words.extend(self.joined(&words, &once));
            if words.len() == count {
                return words;
            }
        }
    }

    fn joined(&self, fronts: &Words, backs: &Words) -> Words {
        let joined = fronts.iter().flat_map(|front| backs.iter().map(move |back| [&front[..], back].concat()));
        joined.filter(|word| word.len() <= self.most).collect()
    }
}

/// The beginnings, up to some length, of all words of the language, and what they can end on.
fn endings(alternatives: &Alternatives, length: usize) -> BTreeMap<Vec<u8>, Ending> {
    let marks = count(alternatives);
    // No beginning needs an occurrence twice to go on to a word of the language.
    let words = Maker { most: length + marks, marks: 0 }.alternatives(alternatives);
    let mut endings: BTreeMap<Vec<u8>, Ending> = BTreeMap::new();
    for word in &words {
        let messages: Vec<u8> = word.iter().map(|&(_, message)| message).collect();
        for end in 0..=word.len().min(length) {
            let ending = endings.entry(messages[..end].to_vec()).or_default();
            ending.marks.extend(word[..end].last().map(|&(mark, _)| mark));
            ending.is_whole |= end == word.len();
        }
    }
    endings
}

/// How many occurrences of messages there are.
pub fn count(alternatives: &Alternatives) -> usize {
    let of_item = |item: &Item| match &item.atom {
        Atom::Group(alternatives) => count(alternatives),
        Atom::Message(_) => 1,
    };
    alternatives.iter().flatten().map(of_item).sum()
}

/// Whether words of up to some length reach these states, as the document numbers them; and how many were reached.
pub fn reached_by_words(states: &[State], alternatives: &Alternatives, length: usize) -> Result<usize, String> {
    let endings = endings(alternatives, length);
    let mut words: Vec<&Vec<u8>> = endings.keys().collect();
    words.sort_by_key(|word| (word.len(), *word));
    let mut reached: Vec<&BTreeSet<u8>> = Vec::new();
    for word in words {
        let Ending { marks, is_whole } = &endings[word];
        let wrong = |what: &str| Err(format!("{what} at the word {word:?}"));
        let Some(state) = follow(states, word) else { return wrong("nowhere") };
        // The empty word alone has no marks.
        let number = reached.iter().position(|&others| others == marks).unwrap_or(reached.len());
        if number == reached.len() {
            reached.push(marks);
        }
        if state != number {
            return wrong(&format!("state {state}, not {number},"));
        }
        if states[state].is_final != *is_whole {
            return wrong("another mark");
        }
        let goes_on = |message: u8| endings.contains_key(&[&word[..], &[message]].concat());
        let has_arc = |message: u8| states[state].arcs.contains_key(&message);
        if word.len() < length && (0..MESSAGES as u8).any(|message| goes_on(message) != has_arc(message)) {
            return wrong("other arcs");
        }
    }
    Ok(reached.len())
}

fn follow(states: &[State], word: &[u8]) -> Option<usize> {
    word.iter().try_fold(0, |state: usize, message| states.get(state)?.arcs.get(message).copied())
}
