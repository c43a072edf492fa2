//! What a session file has in it, field by field, with the byte that each part begins at.

use swarmbanner::{PoolState, Session};

use crate::fields::Fields;
use crate::lines::messages_of;
use crate::words::{numbers, several, several_bad, step};

/// The counts on the first line, then each field.
pub fn listing(file: &[u8], session: &Session) -> Vec<String> {
    let places = Fields::of(file);
    let mut lines = vec![counts(session)];
    let titles = ["machines", "queues", "transitions", "diagram states", "roots of the control states", "bad entries"];
    let parts = [
        machines(session),
        queues(session, &places),
        transitions(session, &places),
        pool(session, &places),
        roots(session),
        bad(session, &places),
    ];
    for (((title, part), place), field) in titles.iter().zip(parts).zip(&places.fields).zip(1..) {
        lines.push(format!("field {field}, byte {place}: {title}{}", if part.is_empty() { ": none" } else { "" }));
        lines.extend(part.into_iter().map(|line| format!("  {line}")));
    }
    lines
}

/// How many there are of each kind; of messages at the start only where there are any.
pub(crate) fn counts(session: &Session) -> String {
    let messages = session.queues().last().map_or(0, |queue| queue.messages.end);
    let mut counts = vec![
        several(session.machines().len(), "machine"),
        several(session.control_states(), "control state"),
        several(session.queues().len(), "queue"),
        several(messages.into(), "message"),
        several(session.transitions().len(), "transition"),
        several(session.pool().len(), "diagram state"),
        several_bad(session.bad_entries().len()),
    ];
    match session.starting().len() {
        0 => {}
        waiting => counts.push(format!("{} at the start", several(waiting, "message"))),
    }
    counts.join(", ")
}

fn machines(session: &Session) -> Vec<String> {
    let line = |(machine, number)| {
        let swarmbanner::Machine { states, start } = machine;
        format!("machine {number}: {}, starts in {start}", several(states, "state"))
    };
    session.machines().iter().copied().zip(0..).map(line).collect()
}

/// What a queue starts with is said where it starts with something, with the place of its length.
fn queues(session: &Session, places: &Fields) -> Vec<String> {
    let line = |(queue, number): (&swarmbanner::Queue, usize)| {
        let place = places.starting.get(number).filter(|_| !queue.starting.is_empty());
        let starting = place.map(|place| format!("; at the start, byte {place}: {}", numbers(&queue.starting)));
        format!("queue {number}: {}{}", messages_of(queue), starting.unwrap_or_default())
    };
    session.queues().iter().zip(0..).map(line).collect()
}

fn transitions(session: &Session, places: &Fields) -> Vec<String> {
    let numbered = session.transitions().iter().zip(&places.transitions).zip(0..);
    numbered.map(|((transition, place), number)| format!("{number}, byte {place}: {}", step(transition))).collect()
}

fn pool(session: &Session, places: &Fields) -> Vec<String> {
    let numbered = session.pool().iter().zip(&places.pool).zip(0..);
    numbered.map(|((state, place), number)| format!("{number}, byte {place}: {}", marks_and_arcs(state))).collect()
}

/// Whether a diagram state is final, and where it leads.
pub(crate) fn marks_and_arcs(state: &PoolState) -> String {
    let kind = if state.is_final { "final" } else { "not final" };
    let arcs: Vec<String> = state.arcs.iter().map(|arc| format!("{} to {}", arc.message, arc.target.index())).collect();
    let arcs = if arcs.is_empty() { "no arcs".to_string() } else { arcs.join(", ") };
    format!("{kind}; {arcs}")
}

/// A control state with the states of its machines.
fn control(session: &Session, control: usize) -> String {
    let states = session.machine_states(control).unwrap_or_default();
    let states: Vec<String> = states.iter().map(usize::to_string).collect();
    format!("{control} ({})", states.join(", "))
}

fn roots(session: &Session) -> Vec<String> {
    let line = |(root, number): (&Option<swarmbanner::DiagramState>, usize)| match root {
        Some(root) => format!("{}: {}", control(session, number), root.index()),
        None => format!("{}: none", control(session, number)),
    };
    session.roots().iter().zip(0..).map(line).collect()
}

fn bad(session: &Session, places: &Fields) -> Vec<String> {
    let numbered = session.bad_entries().iter().zip(&places.bad).zip(0..);
    let line = |((entry, place), number): ((&swarmbanner::BadEntry, &usize), usize)| {
        format!(
            "{number}, byte {place}: control state {}, root {}",
            control(session, entry.control),
            entry.root.index()
        )
    };
    numbered.map(line).collect()
}
