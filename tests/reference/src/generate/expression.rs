//! Texts for request 6: all short ones, texts of the grammar grown at random, the same damaged, and texts of every length.
//! `expression_faults` has those outside the grammar, `expression_limits` those that pass a limit, `expression_states` those of a
//! known number of states.
//!
//! A text in the stream is put like a file: its length in three bytes, low byte first, then its bytes, which are 1,000 at most.
//! It is answered by one line. `refused N at P` is a refusal. `pool n R H` is a pool of n states with root R, which is 0: h = 0,
//! then h = (h * 257 + x + 1) mod 16,777,213 for n, the 127 final marks (0 or 1) and the 4,064 arcs (at state * 32 + message: 0
//! for none, else 1 plus the target), in this order; entries beyond the count are 0; H is the last h.

use std::collections::BTreeSet;

use super::expression_draft::{Draft, Form};
use crate::expression::{LEVELS, LONGEST_TEXT, OCCURRENCES};
use crate::random::Random;

/// The signs that all short texts are of.
pub const SIGNS: &[u8; 7] = b"01()|* ";
/// All texts of the signs that are no longer than this.
pub const SHORT: usize = 5;

#[derive(Clone, Copy, Debug, PartialEq, Eq)]
pub enum Expected {
    /// A pool of so many states.
    States(usize),
    Refused(u8, usize),
    /// A pool, or 22.
    WithinLimits,
    /// Left to the reference.
    Open,
}

#[derive(Clone, Debug)]
pub struct Case {
    pub kind: &'static str,
    pub text: Vec<u8>,
    pub expected: Expected,
}

pub(super) struct Texts {
    pub(super) random: Random,
    pub(super) cases: Vec<Case>,
    known: BTreeSet<Vec<u8>>,
}

/// No text is there twice.
pub fn expression_cases(seed: u64) -> Vec<Case> {
    let mut texts = Texts { random: Random::new(seed + 11), cases: vec![], known: BTreeSet::new() };
    texts.document();
    texts.short();
    texts.grown();
    texts.walked();
    texts.of_known_states();
    texts.of_limits();
    texts.of_lengths();
    texts.outside_the_grammar();
    texts.damaged();
    texts.cases
}

/// Texts of the grammar, small ones and others, and as many with a few bytes changed.
pub fn random_texts(seed: u64, count: usize) -> impl Iterator<Item = Vec<u8>> {
    let mut texts = Texts { random: Random::new(seed), cases: vec![], known: BTreeSet::new() };
    (0..count).map(move |round| {
        let most = if round % 4 < 2 { 3 } else { OCCURRENCES };
        let mut text = texts.grow(1, most).text();
        for _ in 0..round % 2 * 2 {
            texts.damage(&mut text);
        }
        text
    })
}

/// All texts of the signs up to a length, the shorter first.
pub fn texts_of_signs(longest: usize) -> Vec<Vec<u8>> {
    let mut texts = vec![vec![]];
    let mut shorter = 0;
    for _ in 0..longest {
        let as_long = texts.len();
        for text in shorter..as_long {
            texts.extend(SIGNS.map(|sign| [&texts[text][..], &[sign]].concat()));
        }
        shorter = as_long;
    }
    texts
}

impl Texts {
    pub(super) fn add(&mut self, kind: &'static str, text: Vec<u8>, expected: Expected) {
        if self.known.insert(text.clone()) {
            self.cases.push(Case { kind, text, expected });
        }
    }

    /// A text within the limits that is at most as long as can be.
    pub(super) fn grow(&mut self, least: usize, most: usize) -> Draft {
        loop {
            let occurrences = self.random.between(least, most);
            let draft = Form::any(&mut self.random, occurrences).draft(&mut self.random);
            if draft.text().len() <= LONGEST_TEXT {
                return draft;
            }
        }
    }

    /// From the document, with the replies that its words have.
    fn document(&mut self) {
        let refused = Expected::Refused;
        let texts: [(&str, Expected); 20] = [
            ("(0|1)* 2", Expected::States(4)),
            ("", Expected::States(1)),
            ("0*", Expected::States(2)),
            ("0 *", Expected::States(2)),
            ("()", Expected::States(1)),
            ("()*", Expected::States(1)),
            ("(|0|)", Expected::States(2)),
            ("0 1 0 1", Expected::States(5)),
            ("((((((((0))))))))", Expected::States(2)),
            ("01", refused(19, 1)),
            ("0**", refused(19, 2)),
            ("0 * *", refused(19, 4)),
            ("**", refused(19, 0)),
            ("(0", refused(19, 2)),
            ("0)", refused(19, 1)),
            ("0,1", refused(19, 1)),
            ("1 32", refused(5, 2)),
            ("(((((((((0)))))))))", refused(20, 8)),
            ("32(((((((((0)))))))))", refused(5, 0)),
            ("(((((((((32)))))))) )", refused(20, 8)),
        ];
        for (text, expected) in texts {
            self.add("of the document", text.as_bytes().to_vec(), expected);
        }
        let ones = |count: usize| vec!["1"; count].join(" ").into_bytes();
        self.add("of the document", ones(32), Expected::States(33));
        self.add("of the document", ones(33), refused(21, 64));
        self.add("of the document", [&ones(32)[..], b" 32"].concat(), refused(5, 64));
        let window = "(0|1)*0(0|1)(0|1)(0|1)(0|1)(0|1)(0|1)";
        self.add("of the document", window.as_bytes().to_vec(), refused(22, 0));
    }

    fn short(&mut self) {
        for text in texts_of_signs(SHORT) {
            self.add("short", text, Expected::Open);
        }
        for _ in 0..700 {
            let length = self.random.between(SHORT + 1, 12);
            let text = (0..length).map(|_| SIGNS[self.random.below(SIGNS.len())]).collect();
            self.add("of the signs", text, Expected::Open);
        }
    }

    fn grown(&mut self) {
        for (count, least, most) in [(700, 1, 6), (500, 5, 14), (400, 12, 32)] {
            for _ in 0..count {
                let text = self.grow(least, most).text();
                self.add("grown", text, Expected::WithinLimits);
            }
        }
    }

    /// Byte by byte, with whatever may come next.
    fn walked(&mut self) {
        for _ in 0..700 {
            let length = self.random.between(6, 50);
            let text = Walk::default().walked(&mut self.random, length);
            self.add("walked", text, Expected::WithinLimits);
        }
    }

    fn of_lengths(&mut self) {
        for length in (6..=LONGEST_TEXT).step_by(10) {
            self.add("spaces", vec![b' '; length], Expected::States(1));
        }
        for length in [250, 251, 252, 253, 254, 255, 255, 255, 256, 256, 256] {
            for _ in 0..12 {
                let mut draft = self.grow(1, 32);
                draft.pad(&mut self.random, length);
                self.add("long", draft.text(), Expected::WithinLimits);
            }
        }
        self.too_long();
        for length in [255, 256, 257, 400] {
            for sign in *SIGNS {
                self.add("of one sign", vec![sign; length], Expected::Open);
            }
            for pair in ["()", "0 ", "0|", "0*", "(|", "|)", "1 ", "10", ")(", "* "] {
                let text = pair.bytes().cycle().take(length).collect();
                self.add("of two signs", text, Expected::Open);
            }
        }
    }

    fn too_long(&mut self) {
        for length in [257, 257, 257, 258, 259, 260, 270, 300, 384, 511, 512, 513, 600, 768, 1_000] {
            for _ in 0..6 {
                let mut draft = self.grow(1, 32);
                draft.pad(&mut self.random, length);
                let mut text = draft.text();
                self.add("too long", text.clone(), Expected::Refused(18, LONGEST_TEXT));
                let place = self.random.below(length);
                text[place] = self.random.byte();
                self.add("too long and damaged", text, Expected::Refused(18, LONGEST_TEXT));
            }
        }
    }

    /// Texts made so far with a few bytes changed.
    fn damaged(&mut self) {
        let texts: Vec<Vec<u8>> =
            self.cases.iter().filter(|case| case.text.len() > SHORT).map(|case| case.text.clone()).collect();
        for _ in 0..1_500 {
            let mut text = texts[self.random.below(texts.len())].clone();
            if text.len() > LONGEST_TEXT {
                continue;
            }
            for _ in 0..[1, 1, 2, 3][self.random.below(4)] {
                self.damage(&mut text);
            }
            self.add("damaged", text, Expected::Open);
        }
    }

    fn damage(&mut self, text: &mut Vec<u8>) {
        let place = self.random.below(text.len().max(1));
        let sign = b"0123456789()|*  "[self.random.below(16)];
        match self.random.below(6) {
            _ if text.is_empty() => text.push(sign),
            0 => drop(text.remove(place)),
            1 => text[place] = sign,
            2 => text.insert(place, sign),
            3 => text.insert(place, text[place]),
            4 => text.truncate(place),
            _ => {
                let other = self.random.below(text.len());
                text.swap(place, other);
            }
        }
    }
}

/// What may come next in a text of the grammar within the limits.
#[derive(Default)]
struct Walk {
    text: Vec<u8>,
    level: usize,
    occurrences: usize,
    can_be_starred: bool,
}

impl Walk {
    fn walked(mut self, random: &mut Random, length: usize) -> Vec<u8> {
        while self.text.len() < length {
            let sign = b"00112(()||** "[random.below(13)];
            self.step(random, sign);
        }
        self.text.extend(vec![b')'; self.level]);
        self.text
    }

    /// Takes the sign if it may come next.
    fn step(&mut self, random: &mut Random, sign: u8) {
        let is_after_number = self.text.last().is_some_and(u8::is_ascii_digit);
        match sign {
            b'0'..=b'9' if self.occurrences == OCCURRENCES || is_after_number => return,
            b'0'..=b'9' => self.occurrences += 1,
            b'(' if self.level == LEVELS => return,
            b'(' => self.level += 1,
            b')' if self.level == 0 => return,
            b')' => self.level -= 1,
            b'*' if !self.can_be_starred => return,
            _ => {}
        }
        self.text.push(sign);
        if matches!(sign, b'1' | b'2') && random.chance(20) {
            self.text.push(b'0' + random.below(10) as u8);
        }
        if sign != b' ' {
            self.can_be_starred = sign == b')' || sign.is_ascii_digit();
        }
    }
}
