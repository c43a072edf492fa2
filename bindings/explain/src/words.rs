//! A verdict in words.

use swarmbanner::{End, Failure, Kind, Reply, Session, Transition, Way};

use crate::refused::Refused;

/// The lines that say what a reply on a file means. How far contents are followed is what the reply says.
pub fn explained(file: &[u8], reply: &Reply) -> Vec<String> {
    if let Reply::Refused(refusal) = reply {
        return Refused::new(file, *refusal).lines();
    }
    let session = match swarmbanner::read(file) {
        Ok(session) => session,
        Err(refusal) => return Refused::new(file, refusal).lines(),
    };
    match (reply, Failure::shown(&session, reply)) {
        (Reply::Closed { pairs }, _) => closed(&session, *pairs),
        (_, Some(Failure::Leaves { before, transition, after })) => leaves(&session, &before, transition, &after),
        (_, Some(Failure::Bad { entry, inside, bad })) => is_bad(&session, entry, &inside, &bad),
        (Reply::Outside, _) => outside(&session),
        _ => vec!["the tables of the file have no such way".to_string()],
    }
}

fn closed(session: &Session, pairs: usize) -> Vec<String> {
    let roots = session.roots().iter().flatten().count();
    let counts = [
        format!("{roots} of {} with a root", several(session.control_states(), "control state")),
        several(session.transitions().len(), "transition"),
        several_bad(session.bad_entries().len()),
    ];
    vec![
        "the start is inside, no step leads out, and nothing that is listed as bad is inside".to_string(),
        "this holds for queues of any length".to_string(),
        format!("{}; pairs compared: {pairs}", counts.join(", ")),
    ]
}

fn outside(session: &Session) -> Vec<String> {
    let (start, waiting) = (session.start(), session.starting());
    let way = Way::follow(session, session.root(start), &waiting);
    let mut lines = configuration(session, "start", start, &waiting);
    lines.push(format!("outside: {}", followed(session, &set_of(start), &way)));
    lines
}

fn leaves(session: &Session, before: &(usize, Way), transition: usize, after: &(usize, Way)) -> Vec<String> {
    let (control, way) = before;
    let (target, way_after) = after;
    let mut lines = configuration(session, "before", *control, &way.contents);
    lines.push(format!("inside: {}", followed(session, &set_of(*control), way)));
    lines.push(format!("step: transition {transition}: {}", step(&session.transitions()[transition])));
    lines.extend(configuration(session, "after", *target, &way_after.contents));
    lines.push(format!("outside: {}", followed(session, &set_of(*target), way_after)));
    lines
}

fn is_bad(session: &Session, entry: usize, inside: &(usize, Way), bad: &Way) -> Vec<String> {
    let (control, way) = inside;
    let mut lines = configuration(session, "configuration", *control, &way.contents);
    lines.push(format!("inside: {}", followed(session, &set_of(*control), way)));
    lines.push(format!("bad: {}", followed(session, &format!("the diagram of bad entry {entry}"), bad)));
    lines
}

pub(crate) fn set_of(control: usize) -> String {
    format!("the set of control state {control}")
}

/// A count with its noun.
pub(crate) fn several(count: usize, noun: &str) -> String {
    format!("{count} {noun}{}", if count == 1 { "" } else { "s" })
}

pub(crate) fn several_bad(count: usize) -> String {
    format!("{count} bad {}", if count == 1 { "entry" } else { "entries" })
}

/// A control state with its machines, and a line for each queue.
fn configuration(session: &Session, title: &str, control: usize, contents: &[u8]) -> Vec<String> {
    let states = session.machine_states(control).expect("the control state is one of the session");
    let queues = session.split(contents).expect("contents shown by the checker are queue after queue");
    let mut lines = vec![format!("{title}: control state {control}: {}", machines_in(&states))];
    lines.extend(queues.iter().zip(0..).map(|(word, queue)| match word.len() {
        0 => format!("  queue {queue} is empty"),
        length => format!("  queue {queue} holds {}: {}", several(length, "message"), numbers(word)),
    }));
    lines
}

/// The state of each machine.
pub(crate) fn machines_in(states: &[usize]) -> String {
    let machines: Vec<String> =
        states.iter().zip(0..).map(|(state, machine)| format!("machine {machine} in state {state}")).collect();
    machines.join(", ")
}

pub(crate) fn numbers(word: &[u8]) -> String {
    word.iter().map(u8::to_string).collect::<Vec<_>>().join(" ")
}

/// What a transition does.
pub(crate) fn step(transition: &Transition) -> String {
    let Transition { machine, from, to, kind } = transition;
    let word = |word: &[u8]| if word.is_empty() { "the empty word".to_string() } else { numbers(word) };
    let does = match kind {
        Kind::Local => "touches no queue".to_string(),
        Kind::Send { queue, word: sent } => format!("puts {} at the end of queue {queue}", word(sent)),
        Kind::Receive { queue, word: taken } => format!("takes {} from the front of queue {queue}", word(taken)),
    };
    format!("machine {machine} goes from state {from} to state {to} and {does}")
}

/// How far a diagram takes contents, and what it lacks where they are lost.
pub(crate) fn followed(session: &Session, whose: &str, way: &Way) -> String {
    let (Some(root), Some(last)) = (way.states.first(), way.states.last()) else {
        return format!("{whose} has no root, so nothing is in it");
    };
    let (root, last) = (root.index(), last.index());
    let (taken, all) = (way.states.len() - 1, way.contents.len());
    let mark = if way.end == End::Final { "is final" } else { "is not final" };
    let Some((_, message)) = way.lost() else {
        return match all {
            0 => format!("{whose} begins in diagram state {root}, which {mark}"),
            _ => format!("{whose} takes {}, from diagram state {root} to {last}, which {mark}", all_of(all)),
        };
    };
    let next = next_of(session, way, taken, message);
    match taken {
        0 => format!("{whose} takes none of {}: its root, diagram state {root}, has no arc for {next}", several(all, "message")),
        _ => format!(
            "{whose} takes the first {}of {all} messages, from diagram state {root} to {last}, which has no arc for {next}",
            if taken == 1 { String::new() } else { format!("{taken} ") },
        ),
    }
}

fn all_of(count: usize) -> String {
    match count {
        1 => "the one message".to_string(),
        _ => format!("all {count} messages"),
    }
}

/// The message that a way has no arc for, with its place in its queue, counted from 1.
fn next_of(session: &Session, way: &Way, taken: usize, message: u8) -> String {
    let queue = session.queue_of(message).expect("contents have messages of queues");
    let before = way.contents[..taken].iter().filter(|&&before| session.queue_of(before) == Some(queue)).count();
    let which = if taken == 0 { "first" } else { "next" };
    format!("the {which} one: message {message}, number {} in queue {queue}", before + 1)
}
