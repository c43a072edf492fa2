//! One diagram: the part of the pool that a root reaches, and a way through it.

use std::collections::{BTreeMap, BTreeSet};

use swarmbanner::{DiagramState, End, PoolState, Queue, Way};

use crate::dot::{Attribute, Dot};
use crate::text::ranges;
use crate::tone::Tone;

const TAKEN: &str = Tone::Taken.line();
const LOST: &str = Tone::Lost.line();

/// A diagram whose nodes have a prefix of their own, since pictures may have the same state twice.
pub struct Diagram<'a> {
    pub pool: &'a [PoolState],
    /// The queues of the messages; without any, messages stand alone.
    pub queues: &'a [Queue],
    pub prefix: &'a str,
    pub title: &'a str,
    pub root: Option<DiagramState>,
    pub way: Option<&'a Way>,
}

impl Diagram<'_> {
    pub fn draw(&self, dot: &mut Dot) {
        dot.open_cluster(self.prefix, self.title);
        self.draw_root(dot);
        for state in self.reached() {
            self.draw_state(dot, state);
        }
        for state in self.reached() {
            self.draw_arcs(dot, state);
        }
        self.draw_lost(dot);
        dot.close();
    }

    fn name(&self, state: DiagramState) -> String {
        format!("{}{}", self.prefix, state.index())
    }

    /// An arrow from nothing to the root; where there is none, to nowhere.
    fn draw_root(&self, dot: &mut Dot) {
        let begin = format!("{}_begin", self.prefix);
        dot.node(&begin, &[("shape", "point"), ("width", "0.08")]);
        match self.root {
            Some(root) if self.way.is_some() => {
                dot.arrow(&begin, &self.name(root), &[("color", TAKEN), ("penwidth", "2")]);
            }
            Some(root) => dot.arrow(&begin, &self.name(root), &[]),
            None => self.draw_nowhere(dot, &begin, "no root"),
        }
    }

    fn draw_nowhere(&self, dot: &mut Dot, from: &str, label: &str) {
        let nowhere = format!("{}_nowhere", self.prefix);
        let shape = [("label", "nowhere"), ("shape", "box"), ("style", "dashed"), ("width", "0.9"), ("height", "0.32")];
        dot.node(&nowhere, &[&shape[..], &[("color", LOST), ("fontcolor", LOST)]].concat());
        let arrow = [("label", label), ("class", "lost"), ("style", "dashed"), ("color", LOST), ("fontcolor", LOST)];
        dot.arrow(from, &nowhere, &[&arrow[..], &[("penwidth", "2")]].concat());
    }

    /// The root and all that arcs lead to from there, by number.
    fn reached(&self) -> BTreeSet<DiagramState> {
        let mut reached = BTreeSet::new();
        let mut found: Vec<DiagramState> = self.root.into_iter().collect();
        while let Some(state) = found.pop() {
            if reached.insert(state) {
                found.extend(self.pool[state.index()].arcs.iter().map(|arc| arc.target));
            }
        }
        reached
    }

    fn draw_state(&self, dot: &mut Dot, state: DiagramState) {
        let label = state.index().to_string();
        let mut attributes: Vec<Attribute> = vec![("label", &label)];
        if self.pool[state.index()].is_final {
            attributes.push(("shape", "doublecircle"));
        }
        if let Some(way) = self.way.filter(|way| way.states.contains(&state)) {
            let ends_here = way.states.last() == Some(&state);
            let tone = match way.end {
                End::NotFinal if ends_here => Tone::Lost,
                _ => Tone::Taken,
            };
            let width = if ends_here { "2.5" } else { "1.5" };
            let colours = [("color", tone.line()), ("style", "filled"), ("fillcolor", tone.fill())];
            attributes.extend(colours.into_iter().chain([("penwidth", width)]));
        }
        dot.node(&self.name(state), &attributes);
    }

    /// Arcs to the same state share an arrow, but those on the way have arrows of their own.
    fn draw_arcs(&self, dot: &mut Dot, state: DiagramState) {
        let mut others: BTreeMap<DiagramState, Vec<u8>> = BTreeMap::new();
        for arc in &self.pool[state.index()].arcs {
            let places = self.way.map_or(vec![], |way| way.places(state, arc.message));
            if places.is_empty() {
                others.entry(arc.target).or_default().push(arc.message);
                continue;
            }
            let label = format!("{} [{}]", self.messages(&[arc.message]), ranges(&places));
            let attributes =
                [("label", &label[..]), ("class", "way"), ("color", TAKEN), ("fontcolor", TAKEN), ("penwidth", "2")];
            dot.arrow(&self.name(state), &self.name(arc.target), &attributes);
        }
        for (target, messages) in others {
            dot.arrow(&self.name(state), &self.name(target), &[("label", &self.messages(&messages))]);
        }
    }

    /// Messages with their queues, a line for each queue.
    fn messages(&self, messages: &[u8]) -> String {
        let mut by_queue: BTreeMap<Option<usize>, Vec<usize>> = BTreeMap::new();
        for &message in messages {
            let queue = self.queues.iter().position(|queue| queue.messages.contains(&message));
            by_queue.entry(queue).or_default().push(message.into());
        }
        let line = |(queue, messages): (&Option<usize>, &Vec<usize>)| match queue {
            Some(queue) => format!("q{queue}: {}", ranges(messages)),
            None => ranges(messages),
        };
        by_queue.iter().map(line).collect::<Vec<_>>().join("\n")
    }

    fn draw_lost(&self, dot: &mut Dot) {
        let Some((state, message)) = self.way.and_then(Way::lost) else { return };
        let label = format!("{} [{}]", self.messages(&[message]), self.way.map_or(0, |way| way.states.len()));
        self.draw_nowhere(dot, &self.name(state), &label);
    }
}
