//! A session as lines of text that can be edited (docs/COMMANDS.md, "As lines"). [`Typed`](crate::Typed) reads them.
//!
//! A line has what the file says. Numbers that follow from the order of the lines, and what a control state is, stand in comments.

use swarmbanner::{Arc, Kind, PoolState, Queue, Session, Transition};

use crate::listing::counts;
use crate::words::numbers;

/// Comments stand in a column, but not behind a line that is longer than this.
const COLUMN_MOST: usize = 60;

/// The counts as a comment, then each part of the session after an empty line.
pub fn lines(session: &Session) -> Vec<String> {
    let parts = [machines(session), queues(session), transitions(session), pool(session), roots(session), bad(session)];
    let mut lines = vec![format!("# {}", counts(session))];
    for part in parts.iter().filter(|part| !part.is_empty()) {
        lines.push(String::new());
        lines.extend(in_columns(part));
    }
    lines
}

/// An item and the comment behind it; without an item, a comment alone.
pub(crate) type Line = (String, String);

pub(crate) fn in_columns(part: &[Line]) -> Vec<String> {
    let lengths = part.iter().map(|(item, _)| item.len());
    let column = lengths.filter(|&length| length <= COLUMN_MOST).max().unwrap_or(0);
    let line = |(item, comment): &Line| match item.is_empty() {
        true => format!("# {comment}"),
        false => format!("{item:column$}  # {comment}"),
    };
    part.iter().map(line).collect()
}

fn machines(session: &Session) -> Vec<Line> {
    let line = |(machine, number): (&swarmbanner::Machine, usize)| {
        (format!("machine states {} start {}", machine.states, machine.start), format!("machine {number}"))
    };
    session.machines().iter().zip(0..).map(line).collect()
}

fn queues(session: &Session) -> Vec<Line> {
    let line =
        |(queue, number): (&Queue, usize)| (item_of_queue(queue), format!("queue {number}: {}", messages_of(queue)));
    session.queues().iter().zip(0..).map(line).collect()
}

fn item_of_queue(queue: &Queue) -> String {
    let starting = match queue.starting.is_empty() {
        true => String::new(),
        false => format!(" start: {}", numbers(&queue.starting)),
    };
    format!("queue messages {}{starting}", queue.messages.len())
}

/// The messages of a queue, which has one at least.
pub(crate) fn messages_of(queue: &Queue) -> String {
    let (first, last) = (queue.messages.start, queue.messages.end - 1);
    match first == last {
        true => format!("message {first}"),
        false => format!("messages {first} to {last}"),
    }
}

fn transitions(session: &Session) -> Vec<Line> {
    let line = |(transition, number): (&Transition, usize)| (item_of(transition), format!("transition {number}"));
    session.transitions().iter().zip(0..).map(line).collect()
}

fn item_of(transition: &Transition) -> String {
    let Transition { machine, from, to, kind } = transition;
    let does = match kind {
        Kind::Local => "local".to_string(),
        Kind::Send { queue, word } => format!("send queue {queue}: {}", numbers(word)),
        Kind::Receive { queue, word } => format!("receive queue {queue}: {}", numbers(word)),
    };
    format!("transition machine {machine} from {from} to {to} {}", does.trim_end())
}

fn pool(session: &Session) -> Vec<Line> {
    let line = |(state, number): (&PoolState, usize)| (item_of_state(state, 0), format!("state {number}"));
    session.pool().iter().zip(0..).map(line).collect()
}

/// A diagram state behind so many others that its arcs do not count.
pub(crate) fn item_of_state(state: &PoolState, before: usize) -> String {
    let arc = |arc: &Arc| format!("{}>{}", arc.message, before + arc.target.index());
    let is_final = state.is_final.then(|| "final".to_string());
    let words = ["state".to_string()].into_iter().chain(is_final).chain(state.arcs.iter().map(arc));
    words.collect::<Vec<_>>().join(" ")
}

/// A control state without a root has a comment alone, so that its number is found there too.
fn roots(session: &Session) -> Vec<Line> {
    let line = |(root, control): (&Option<swarmbanner::DiagramState>, usize)| match root {
        Some(root) => (format!("control {control} root {}", root.index()), machines_in(session, control)),
        None => (String::new(), format!("control {control} has no root: {}", machines_in(session, control))),
    };
    session.roots().iter().zip(0..).map(line).collect()
}

fn bad(session: &Session) -> Vec<Line> {
    let line = |(entry, number): (&swarmbanner::BadEntry, usize)| {
        let item = format!("bad control {} root {}", entry.control, entry.root.index());
        (item, format!("bad entry {number}: {}", machines_in(session, entry.control)))
    };
    session.bad_entries().iter().zip(0..).map(line).collect()
}

/// The state of each machine in a control state, and whether all start there.
fn machines_in(session: &Session, control: usize) -> String {
    let states = session.machine_states(control).unwrap_or_default();
    let states: Vec<String> = states.iter().map(usize::to_string).collect();
    let is_start = if control == session.start() { ", the start" } else { "" };
    format!("machines in {}{is_start}", states.join(" "))
}
