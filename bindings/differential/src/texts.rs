//! Texts to draw: expressions grown at random, as they are, past a limit, or with something changed, and signs of any kind.

use reference_checker::expression::{LEVELS, LONGEST_TEXT, OCCURRENCES};
use reference_checker::generate::expression_draft::{Draft, Form, Token};
use reference_checker::random::Random;
use reference_checker::read::MESSAGES;

/// The signs of expressions, and one that is none.
const SIGNS: &[u8] = b"0129  (()||**x";

pub fn text(random: &mut Random) -> Vec<u8> {
    match random.below(100) {
        0..45 => grown(random).text(),
        45..65 => changed(random),
        65..70 => of_occurrences(random, OCCURRENCES, OCCURRENCES + 2).text(),
        70..75 => with_other_number(random),
        75..80 => nested(random),
        80..85 => doubling(random),
        85..90 => padded(random),
        _ => (0..random.below(30)).map(|_| SIGNS[random.below(SIGNS.len())]).collect(),
    }
}

fn of_occurrences(random: &mut Random, least: usize, most: usize) -> Draft {
    let occurrences = random.between(least, most);
    Form::any(random, occurrences).draft(random)
}

fn grown(random: &mut Random) -> Draft {
    let most = if random.chance(70) { 8 } else { OCCURRENCES };
    of_occurrences(random, 0, most)
}

/// One or two bytes set, taken out or put in; or only a beginning.
fn changed(random: &mut Random) -> Vec<u8> {
    let draft = grown(random);
    if random.chance(20) {
        return draft.beginning(random);
    }
    let mut text = draft.text();
    for _ in 0..random.between(1, 2) {
        let place = random.below(text.len() + 1);
        let sign = if random.chance(10) { random.byte() } else { SIGNS[random.below(SIGNS.len())] };
        match random.below(3) {
            0 => text.insert(place, sign),
            1 if place < text.len() => text[place] = sign,
            _ if place < text.len() => drop(text.remove(place)),
            _ => {}
        }
    }
    text
}

/// A number that is no message's, or nearly.
fn with_other_number(random: &mut Random) -> Vec<u8> {
    let mut draft = of_occurrences(random, 1, OCCURRENCES + 2);
    let number = *random.pick(&draft.numbers()).expect("there is a number");
    draft.tokens[number] = match random.below(4) {
        0 => Token::Number(format!("{}{}", random.between(1, 9), "0".repeat(random.between(2, 30)))),
        _ => Token::number(random.between(MESSAGES - 1, 300)),
    };
    draft.text()
}

/// In so many groups, about as many as there may be.
fn nested(random: &mut Random) -> Vec<u8> {
    let levels = random.between(LEVELS - 1, LEVELS + 2);
    let (before, inside) = (grown(random).text(), grown(random).text());
    [&before[..], &b"(".repeat(levels), &inside, &b")".repeat(levels)].concat()
}

/// Twice as many states with each last message that is any.
fn doubling(random: &mut Random) -> Vec<u8> {
    let last = random.below(9);
    let [one, other] = [random.below(5), 5 + random.below(5)];
    let any = format!("({one}|{other})");
    let behind = if random.chance(50) { grown(random).text() } else { vec![] };
    [format!("{any}*{one}{} ", any.repeat(last)).into_bytes(), behind].concat()
}

/// About as long as a text may be, or much longer.
fn padded(random: &mut Random) -> Vec<u8> {
    let length = if random.chance(90) { random.between(LONGEST_TEXT - 1, LONGEST_TEXT + 2) } else { 5_000 };
    let mut draft = grown(random);
    draft.pad(random, length);
    draft.text()
}
