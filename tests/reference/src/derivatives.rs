//! The states of request 6, from derivatives of the expression.
//!
//! Each occurrence of a message has a mark of its own, and the derivative of the marked expression by a mark is what can be
//! read after it: Antimirov's partial derivatives, each a list of terms that are read one after the other. Deriving by all
//! occurrences of the messages of a word in turn takes every way to read the word, and the marks taken last are the
//! occurrences that the word can end on. Every way counts, since no term is without words: it goes on to a word of the
//! language.
//!
//! Words are taken from the shortest and lowest on, and not prolonged where an earlier one has left the same marks with the
//! same derivatives, for the two go on alike. So a set of occurrences is met first by the shortest, lowest word that ends
//! on it. That all words which end on a set go on alike is not used here: every arc asks it.

use std::collections::{BTreeMap, BTreeSet, VecDeque};

use crate::expression::{Alternatives, Atom, Item};
use crate::read::MESSAGES;

#[derive(Clone, Debug, PartialEq, Eq)]
pub struct State {
    pub is_final: bool,
    /// Targets by message.
    pub arcs: BTreeMap<u8, usize>,
}

/// The number of a term.
type Name = usize;
/// Terms that are read one after the other.
type Rest = Vec<Name>;
/// The ways to read a word: the last mark, none before the first, and what can be read after it.
type Ways = BTreeSet<(Option<u8>, Rest)>;

enum Term {
    Occurrence { mark: u8, message: u8 },
    Alternatives(Vec<Rest>),
    Star(Name),
}

/// A marked expression.
pub struct Expression {
    terms: Vec<Term>,
    whole: Name,
    marks: u8,
}

impl Expression {
    /// Of a text within the limits; marks count from left to right.
    pub fn of(alternatives: &Alternatives) -> Self {
        let mut expression = Expression { terms: Vec::new(), whole: 0, marks: 0 };
        expression.whole = expression.alternatives(alternatives);
        expression
    }

    fn named(&mut self, term: Term) -> Name {
        self.terms.push(term);
        self.terms.len() - 1
    }

    fn alternatives(&mut self, alternatives: &Alternatives) -> Name {
        let alternatives =
            alternatives.iter().map(|items| items.iter().map(|item| self.item(item)).collect()).collect();
        self.named(Term::Alternatives(alternatives))
    }

    fn item(&mut self, item: &Item) -> Name {
        let name = match &item.atom {
            Atom::Group(alternatives) => self.alternatives(alternatives),
            Atom::Message(message) => {
                let (mark, message) = (self.marks, message.expect("within the limits"));
                self.marks += 1;
                self.named(Term::Occurrence { mark, message })
            }
        };
        if item.is_starred {
            self.named(Term::Star(name))
        } else {
            name
        }
    }

    /// Whether the empty word is one of the term's.
    fn can_be_empty(&self, name: Name) -> bool {
        match &self.terms[name] {
            Term::Occurrence { .. } => false,
            Term::Alternatives(alternatives) => alternatives.iter().any(|rest| self.can_all_be_empty(rest)),
            Term::Star(_) => true,
        }
    }

    fn can_all_be_empty(&self, rest: &[Name]) -> bool {
        rest.iter().all(|&name| self.can_be_empty(name))
    }

    /// The derivatives of a term by all occurrences of a message, each with its mark.
    fn derive(&self, name: Name, message: u8) -> Vec<(u8, Rest)> {
        match &self.terms[name] {
            Term::Occurrence { mark, message: own } if *own == message => vec![(*mark, vec![])],
            Term::Occurrence { .. } => vec![],
            Term::Alternatives(alternatives) => {
                alternatives.iter().flat_map(|rest| self.derive_rest(rest, message)).collect()
            }
            Term::Star(once) => before(self.derive(*once, message), &[name]),
        }
    }

    /// The message is of the first term, or of what comes after it if that can be empty.
    fn derive_rest(&self, rest: &[Name], message: u8) -> Vec<(u8, Rest)> {
        let Some((&first, others)) = rest.split_first() else { return vec![] };
        let mut derived = before(self.derive(first, message), others);
        if self.can_be_empty(first) {
            derived.extend(self.derive_rest(others, message));
        }
        derived
    }

    fn derive_ways(&self, ways: &Ways, message: u8) -> Ways {
        let derived = ways.iter().flat_map(|(_, rest)| self.derive_rest(rest, message));
        derived.map(|(mark, rest)| (Some(mark), rest)).collect()
    }

    /// The start, and the sets of occurrences that words can end on; none where they are more than `most`.
    pub fn states(&self, most: usize) -> Option<Vec<State>> {
        let mut found = Found::default();
        found.number(self, Ways::from([(None, vec![self.whole])]));
        while let Some((state, ways)) = found.not_prolonged.pop_front() {
            for message in 0..MESSAGES as u8 {
                let prolonged = self.derive_ways(&ways, message);
                if prolonged.is_empty() {
                    continue;
                }
                let target = found.number(self, prolonged);
                if found.states.len() > most {
                    return None;
                }
                let other = found.states[state].arcs.insert(message, target);
                assert!(other.is_none_or(|other| other == target), "words that end on one set go on alike");
            }
        }
        Some(found.states)
    }
}

/// What is read, and then all of these.
fn before(derived: Vec<(u8, Rest)>, others: &[Name]) -> Vec<(u8, Rest)> {
    derived.into_iter().map(|(mark, rest)| (mark, [&rest, others].concat())).collect()
}

/// The states met, by the marks that words end on; the start is the only one without any.
#[derive(Default)]
struct Found {
    states: Vec<State>,
    numbers: BTreeMap<BTreeSet<Option<u8>>, usize>,
    met: BTreeSet<Ways>,
    not_prolonged: VecDeque<(usize, Ways)>,
}

impl Found {
    /// The number of the state that a word reaches.
    fn number(&mut self, expression: &Expression, ways: Ways) -> usize {
        let ends = ways.iter().map(|(mark, _)| *mark).collect();
        let is_final = ways.iter().any(|(_, rest)| expression.can_all_be_empty(rest));
        let number = *self.numbers.entry(ends).or_insert(self.states.len());
        if number == self.states.len() {
            self.states.push(State { is_final, arcs: BTreeMap::new() });
        }
        assert_eq!(self.states[number].is_final, is_final, "words that end on one set are in the language alike");
        if self.met.insert(ways.clone()) {
            self.not_prolonged.push_back((number, ways));
        }
        number
    }
}
