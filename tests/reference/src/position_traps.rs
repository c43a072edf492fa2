//! The states of an expression from its tree and the occurrences that can come after each, with a mistake on purpose or without
//! one.

use std::collections::{BTreeMap, BTreeSet};

use crate::derivatives::State;
use crate::expression_traps::ExpressionTrap;

/// An expression whose occurrences are numbered from left to right.
#[derive(Clone, Debug)]
pub enum Node {
    Occurrence { number: usize, message: u8 },
    Sequence(Vec<Node>),
    Choice(Vec<Node>),
    Star(Box<Node>),
}

/// A set of occurrences, of which a text that is not refused for its length has up to 128.
type Set = u128;

#[derive(Clone, Copy)]
struct Part {
    first: Set,
    last: Set,
    is_nullable: bool,
}

/// The occurrences of a set, ascending.
fn members(mut set: Set) -> impl Iterator<Item = usize> {
    std::iter::from_fn(move || {
        let lowest = (set > 0).then(|| set.trailing_zeros() as usize);
        set &= set.wrapping_sub(1);
        lowest
    })
}

fn without_highest(set: Set) -> Set {
    members(set).last().map_or(0, |highest| set ^ 1 << highest)
}

/// Of each occurrence its message, and the occurrences that can come after it.
struct Follow {
    trap: Option<ExpressionTrap>,
    messages: Vec<u8>,
    after: Vec<Set>,
}

/// The states of an expression; none where they are more than `most`.
pub fn states_with(node: &Node, most: usize, trap: Option<ExpressionTrap>) -> Option<Vec<State>> {
    let mut follow = Follow { trap, messages: vec![], after: vec![] };
    let whole = follow.part(node);
    let states = Numbering { follow: &follow, whole, met: vec![] }.states(most)?;
    Some(if trap == Some(ExpressionTrap::Minimised) { minimised(&states) } else { states })
}

impl Follow {
    fn is(&self, trap: ExpressionTrap) -> bool {
        self.trap == Some(trap)
    }

    fn part(&mut self, node: &Node) -> Part {
        match node {
            Node::Occurrence { number, message } => self.occurrence(*number, *message),
            Node::Sequence(nodes) => {
                let empty = Part { first: 0, last: 0, is_nullable: true };
                nodes.iter().fold(empty, |front, node| self.then(front, node))
            }
            Node::Choice(nodes) => {
                let none = Part { first: 0, last: 0, is_nullable: false };
                nodes.iter().fold(none, |part, node| {
                    let other = self.part(node);
                    Part {
                        first: part.first | other.first,
                        last: part.last | other.last,
                        is_nullable: part.is_nullable || other.is_nullable,
                    }
                })
            }
            Node::Star(node) => self.star(node),
        }
    }

    fn occurrence(&mut self, number: usize, message: u8) -> Part {
        let own = match self.trap {
            Some(ExpressionTrap::OccurrencesLostFrom(lost)) if number >= lost => 0,
            _ => 1 << number,
        };
        // Nodes may have been left out.
        self.messages.resize(number, message);
        self.after.resize(number, 0);
        self.messages.push(message);
        self.after.push(0);
        Part { first: own, last: own, is_nullable: false }
    }

    fn then(&mut self, front: Part, node: &Node) -> Part {
        let back = self.part(node);
        self.link(front.last, back.first);
        let extends = front.is_nullable && (front.first == 0 || !self.is(ExpressionTrap::FirstNotExtended));
        let keeps = back.is_nullable && (back.last == 0 || !self.is(ExpressionTrap::LastNotKept));
        Part {
            first: if extends { front.first | back.first } else { front.first },
            last: if keeps { front.last | back.last } else { back.last },
            is_nullable: front.is_nullable && back.is_nullable,
        }
    }

    fn star(&mut self, node: &Node) -> Part {
        let once = self.part(node);
        match self.trap {
            Some(ExpressionTrap::StarReadsOnce) => {}
            Some(ExpressionTrap::LostFromFirst) => self.link(once.last, without_highest(once.first)),
            Some(ExpressionTrap::LostFromLast) => self.link(without_highest(once.last), once.first),
            _ => self.link(once.last, once.first),
        }
        Part { is_nullable: once.is_nullable || !self.is(ExpressionTrap::StarIsPlus), ..once }
    }

    fn link(&mut self, lasts: Set, firsts: Set) {
        for last in members(lasts) {
            self.after[last] |= firsts;
        }
    }
}

/// A state: its set, which is empty at the start, what can come next, and whether it is final.
#[derive(Clone, Copy)]
struct Met {
    set: Set,
    after: Set,
    is_final: bool,
    is_start: bool,
}

struct Numbering<'f> {
    follow: &'f Follow,
    whole: Part,
    met: Vec<Met>,
}

impl Numbering<'_> {
    fn is(&self, trap: ExpressionTrap) -> bool {
        self.follow.is(trap)
    }

    fn start(&self) -> Met {
        let is_final = self.whole.is_nullable && !self.is(ExpressionTrap::StartNeverFinal);
        Met { set: 0, after: self.whole.first, is_final, is_start: true }
    }

    fn state(&self, set: Set) -> Met {
        let after = members(set).fold(0, |after, number| after | self.follow.after[number]);
        let last = self.whole.last;
        let is_final = match self.follow.trap {
            Some(ExpressionTrap::FinalIfAllEnd) => set & last == set,
            Some(ExpressionTrap::FinalByTheLowest) => members(set).next().is_some_and(|lowest| last >> lowest & 1 == 1),
            _ => set & last != 0,
        };
        Met { set, after, is_final, is_start: false }
    }

    fn is_same(&self, one: &Met, other: &Met) -> bool {
        let goes_on_alike = one.after == other.after && one.is_final == other.is_final;
        match self.follow.trap {
            Some(ExpressionTrap::AlikeMerged) => goes_on_alike,
            Some(ExpressionTrap::StartMerged) if one.is_start != other.is_start => goes_on_alike,
            _ => one.is_start == other.is_start && one.set == other.set,
        }
    }

    /// The messages that a state may go on with, in the order that new states are numbered in.
    fn messages(&self, after: Set) -> Vec<u8> {
        let of = |set: Set| members(set).map(|number| self.follow.messages[number]);
        match self.follow.trap {
            Some(ExpressionTrap::MessagesDescending) => of(after).collect::<BTreeSet<u8>>().into_iter().rev().collect(),
            Some(ExpressionTrap::ByOccurrence) => of(after).collect(),
            Some(ExpressionTrap::EmptySetIsAState) => self.follow.messages.clone(),
            _ => of(after).collect::<BTreeSet<u8>>().into_iter().collect(),
        }
    }

    fn ends(&self, after: Set, message: u8) -> Set {
        let mut own = members(after).filter(|number| self.follow.messages[*number] == message);
        if self.is(ExpressionTrap::OneOccurrenceTaken) {
            return own.next().map_or(0, |lowest| 1 << lowest);
        }
        own.fold(0, |set, number| set | 1 << number)
    }

    fn states(mut self, most: usize) -> Option<Vec<State>> {
        self.met.push(self.start());
        let mut arcs: Vec<Option<BTreeMap<u8, usize>>> = vec![None];
        while let Some(state) = self.next(&arcs) {
            let after = self.met[state].after;
            let mut own = BTreeMap::new();
            for message in self.messages(after) {
                let set = self.ends(after, message);
                if set == 0 && !self.is(ExpressionTrap::EmptySetIsAState) {
                    continue;
                }
                own.insert(message, self.number(self.state(set)));
            }
            arcs.resize(self.met.len(), None);
            arcs[state] = Some(own);
            if self.met.len() > most {
                return None;
            }
        }
        let states = self.met.iter().zip(arcs);
        Some(states.map(|(met, arcs)| State { is_final: met.is_final, arcs: arcs.unwrap_or_default() }).collect())
    }

    /// The next state whose arcs are not known.
    fn next(&self, arcs: &[Option<BTreeMap<u8, usize>>]) -> Option<usize> {
        if self.is(ExpressionTrap::DepthFirst) {
            return arcs.iter().rposition(Option::is_none);
        }
        arcs.iter().position(Option::is_none)
    }

    fn number(&mut self, state: Met) -> usize {
        let known = self.met.iter().position(|met| self.is_same(met, &state));
        known.unwrap_or_else(|| {
            self.met.push(state);
            self.met.len() - 1
        })
    }
}

/// The pool with all states in one that accept the same words.
pub fn minimised(states: &[State]) -> Vec<State> {
    let mut classes: Vec<usize> = states.iter().map(|state| usize::from(state.is_final)).collect();
    loop {
        let looks: Vec<(usize, Vec<(u8, usize)>)> = states
            .iter()
            .zip(&classes)
            .map(|(state, &class)| (class, state.arcs.iter().map(|(&message, &to)| (message, classes[to])).collect()))
            .collect();
        let mut known: Vec<&(usize, Vec<(u8, usize)>)> = vec![];
        let mut finer = vec![];
        for look in &looks {
            let class = known.iter().position(|other| *other == look).unwrap_or(known.len());
            if class == known.len() {
                known.push(look);
            }
            finer.push(class);
        }
        if finer == classes {
            break;
        }
        classes = finer;
    }
    let count = classes.iter().max().map_or(0, |most| most + 1);
    let member = |class| classes.iter().position(|&other| other == class).expect("a class has a state");
    let state = |class| {
        let State { is_final, arcs } = &states[member(class)];
        State { is_final: *is_final, arcs: arcs.iter().map(|(&message, &to)| (message, classes[to])).collect() }
    };
    (0..count).map(state).collect()
}
