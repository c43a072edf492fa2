//! The diagram of an expression in words, as bytes and as lines, and why a text is none.

use swarmbanner::{Diagram, PoolState, Refusal};

use crate::lines::{in_columns, item_of_state};
use crate::listing::marks_and_arcs;
use crate::words::numbers;

/// A line for each state: the shortest and lowest word that leads to it, whether it is final, and its arcs.
pub fn described(diagram: &Diagram) -> Vec<String> {
    let line = |((state, word), number): ((&PoolState, &Vec<u8>), usize)| {
        let name = if number == 0 { "the root".to_string() } else { format!("after {}", numbers(word)) };
        format!("state {number}, {name}: {}", marks_and_arcs(state))
    };
    diagram.states().iter().zip(&words_of(diagram)).zip(0..).map(line).collect()
}

/// The shortest and lowest word to each state. States are numbered by these words, so what leads to a state comes before it.
fn words_of(diagram: &Diagram) -> Vec<Vec<u8>> {
    let mut words: Vec<Vec<u8>> = vec![vec![]];
    for (number, state) in diagram.states().iter().enumerate() {
        for arc in &state.arcs {
            if arc.target.index() == words.len() {
                words.push([&words[number][..], &[arc.message]].concat());
            }
        }
    }
    words
}

/// The bytes of field 4 of a session file that has this diagram for its pool. Every number of a pool is below 128, so it has one
/// byte.
pub fn field_4(diagram: &Diagram) -> Vec<u8> {
    let state = |state: &PoolState| {
        let arcs = state.arcs.iter().flat_map(|arc| [arc.message, arc.target.index() as u8]);
        [u8::from(state.is_final), state.arcs.len() as u8].into_iter().chain(arcs).collect::<Vec<u8>>()
    };
    [diagram.states().len() as u8].into_iter().chain(diagram.states().iter().flat_map(state)).collect()
}

/// The states as lines that [`Typed`](crate::Typed) reads, for a session that has so many states already. The text, in which there
/// is no newline as it was drawn, stands in a comment.
pub fn state_lines(diagram: &Diagram, before: usize, text: &[u8]) -> Vec<String> {
    let text = shown(text);
    let text = if text.trim().is_empty() { "the empty word" } else { text.trim() };
    let line = |(state, number): (&PoolState, usize)| {
        let comment = match number == before {
            true => format!("state {number}, the root: {text}"),
            false => format!("state {number}"),
        };
        (item_of_state(state, before), comment)
    };
    in_columns(&diagram.states().iter().zip(before..).map(line).collect::<Vec<_>>())
}

/// What a refusal of a text says, the text, and a mark under the place.
pub fn undrawn(text: &[u8], refusal: Refusal) -> Vec<String> {
    let cause = match (refusal.number, outside(text, refusal.place)) {
        (19, why) => format!("{}: {why}", refusal.cause_in_text()),
        _ => refusal.cause_in_text().to_string(),
    };
    let place = refusal.place;
    vec![refusal.to_string(), cause, shown(text), format!("{:place$}^{}", "", "~".repeat(extent(text, refusal) - 1))]
}

/// Why no expression goes on as a text does from a place on.
fn outside(text: &[u8], place: usize) -> String {
    let before = text[..place].iter().rev().find(|&&byte| byte != b' ');
    match text.get(place) {
        None => "it ends inside a group".to_string(),
        Some(b')') => "no group is open here".to_string(),
        Some(b'*') if before == Some(&b'*') => "an item has one star at most".to_string(),
        Some(b'*') => "a star stands behind a number or a group".to_string(),
        Some(b'0'..=b'9') => "a number has no leading zero".to_string(),
        Some(&byte) if byte.is_ascii_graphic() => format!("{} is no sign of one", char::from(byte)),
        Some(byte) => format!("the byte {byte:02x} (hex) is no sign of one"),
    }
}

/// The text with one character for each byte, so that the mark stands where it should: bytes that are not printed are `?`.
fn shown(text: &[u8]) -> String {
    let shown = |&byte: &u8| if byte == b' ' || byte.is_ascii_graphic() { char::from(byte) } else { '?' };
    text.iter().map(shown).collect()
}

/// How many bytes a refusal is about, one at least: a whole number, or for the number of states the whole text.
fn extent(text: &[u8], refusal: Refusal) -> usize {
    let length = match refusal.number {
        5 | 21 => text[refusal.place..].iter().take_while(|byte| byte.is_ascii_digit()).count(),
        22 => text.len(),
        _ => 1,
    };
    length.max(1)
}
