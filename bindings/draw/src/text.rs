//! Words, contents and steps as they stand in a picture.

use swarmbanner::{Kind, Session, Transition};

/// More messages of a queue than this are not written out.
const MESSAGES_SHOWN: usize = 16;

/// More messages of a word than this stand on further lines beside an arrow.
const MESSAGES_ON_A_LINE: usize = 8;

/// More signs of an expression than this stand on further lines above its picture.
const SIGNS_ON_A_LINE: usize = 100;

/// More runs of numbers than this are not written out. A word of sixteen in turn from two arcs has eight on each.
const RUNS_SHOWN: usize = 8;

fn listed(messages: &[u8]) -> String {
    messages.iter().map(u8::to_string).collect::<Vec<_>>().join(" ")
}

fn waiting(messages: &[u8]) -> String {
    match messages.len() {
        0 => "ε".to_string(),
        1..=MESSAGES_SHOWN => listed(messages),
        length => format!("{} .. ({length} messages)", listed(&messages[..MESSAGES_SHOWN])),
    }
}

/// What waits in each queue.
pub fn contents(session: &Session, contents: &[u8]) -> String {
    let queues = session.split(contents).expect("contents shown by the checker are queue after queue");
    let written: Vec<String> =
        queues.iter().zip(0..).map(|(word, queue)| format!("q{queue}: {}", waiting(word))).collect();
    written.join("   ")
}

/// What waits in each queue at the start.
pub fn starting(session: &Session) -> String {
    format!("at the start   {}", contents(session, &session.starting()))
}

/// `q!m..`, `q?m..` or `local`, in lines of so many messages. A word is written out whole.
fn action(kind: &Kind, on_a_line: usize) -> String {
    let (queue, mark, word) = match kind {
        Kind::Local => return "local".to_string(),
        Kind::Send { queue, word } => (queue, '!', word),
        Kind::Receive { queue, word } => (queue, '?', word),
    };
    let lines: Vec<String> = word.chunks(on_a_line).map(listed).collect();
    let written = if lines.is_empty() { "ε".to_string() } else { lines.join("\n") };
    format!("q{queue}{mark}{written}")
}

/// What stands beside the arrow of a transition.
pub fn label(number: usize, transition: &Transition) -> String {
    format!("{number}: {}", action(&transition.kind, MESSAGES_ON_A_LINE))
}

/// A transition in a title, which has room for the longest word.
pub fn step(number: usize, transition: &Transition) -> String {
    let Transition { machine, from, to, kind } = transition;
    format!("transition {number} (machine {machine} from {from} to {to}, {})", action(kind, usize::MAX))
}

/// A control state with the states of its machines.
pub fn control(session: &Session, control: usize) -> String {
    let states = session.machine_states(control).expect("the control state is one of the session");
    let states: Vec<String> = states.iter().map(usize::to_string).collect();
    format!("control state {control} = ({})", states.join(", "))
}

/// The text of an expression, which has digits, spaces and signs alone, in lines.
pub fn expression(text: &[u8]) -> String {
    let lines: Vec<_> = text.chunks(SIGNS_ON_A_LINE).map(String::from_utf8_lossy).collect();
    if text.iter().all(|&byte| byte == b' ') {
        "the empty word".to_string()
    } else {
        lines.join("\n")
    }
}

/// Ascending numbers, with runs as `first-last`.
pub fn ranges(numbers: &[usize]) -> String {
    let runs = numbers.chunk_by(|one, next| one + 1 == *next).map(|run| match run {
        [only] => only.to_string(),
        _ => format!("{}-{}", run[0], run[run.len() - 1]),
    });
    let runs: Vec<String> = runs.collect();
    match runs.len() {
        0..=RUNS_SHOWN => runs.join(", "),
        count => format!("{}, .. {}", runs[..4].join(", "), runs[count - 1]),
    }
}
