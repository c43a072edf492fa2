//! Traces: the bytes as they are, or written from decimal numbers that somebody typed.

use std::fmt::{self, Write};

/// The largest number that two groups of seven bits can write.
const NUMBER_MOST: usize = 16_383;

/// More of a word than this is not shown.
const WORD_SHOWN: usize = 40;

/// A trace, and where each number was typed.
#[derive(Clone, Debug, Default, PartialEq, Eq)]
pub struct Trace {
    /// The bytes that are replayed.
    pub bytes: Vec<u8>,
    /// The line that each number stands on, counted from 1; none where nobody typed it.
    lines: Vec<usize>,
}

/// A word that is not a number of a trace.
#[derive(Clone, Debug, PartialEq, Eq)]
pub struct Mistyped {
    /// The line that it stands on, counted from 1.
    pub line: usize,
    /// The word, with bytes that are not plain letters written out.
    pub word: String,
    /// Whether it is a number, and too large.
    pub is_number: bool,
}

impl Trace {
    /// A trace as it is.
    pub fn of(bytes: Vec<u8>) -> Self {
        Trace { bytes, lines: vec![] }
    }

    /// A trace that is typed: decimal numbers with white space between, and comments from `#` to the end of the line.
    pub fn typed(text: &[u8]) -> Result<Self, Mistyped> {
        let mut trace = Trace::default();
        for (content, line) in text.split(|&byte| byte == b'\n').zip(1..) {
            let told = content.split(|&byte| byte == b'#').next().unwrap_or_default();
            for word in told.split(u8::is_ascii_whitespace).filter(|word| !word.is_empty()) {
                let number = decimal(word).map_err(|is_number| Mistyped { line, word: shown(word), is_number })?;
                trace.bytes.extend(groups(number));
                trace.lines.push(line);
            }
        }
        Ok(trace)
    }

    /// The line on which the number with this place among all numbers was typed.
    pub fn line_of(&self, number: usize) -> Option<usize> {
        self.lines.get(number).copied()
    }
}

/// The number; else whether the word is one, which is then too large.
fn decimal(word: &[u8]) -> Result<usize, bool> {
    if !word.iter().all(u8::is_ascii_digit) {
        return Err(false);
    }
    let number = word.iter().try_fold(0, |number, digit| {
        let number = 10 * number + usize::from(digit - b'0');
        (number <= NUMBER_MOST).then_some(number)
    });
    number.ok_or(true)
}

/// The shorter form, which is compulsory.
fn groups(number: usize) -> Vec<u8> {
    let (low, high) = ((number % 128) as u8, (number / 128) as u8);
    if high == 0 {
        vec![low]
    } else {
        vec![128 + low, high]
    }
}

/// A word as complaints show it: not too much of it, and bytes that are not plain letters written out.
pub(crate) fn shown(word: &[u8]) -> String {
    let mut shown = word[..word.len().min(WORD_SHOWN)].escape_ascii().to_string();
    if word.len() > WORD_SHOWN {
        write!(shown, ".. ({} bytes)", word.len()).expect("a string takes what is written");
    }
    shown
}

impl fmt::Display for Mistyped {
    fn fmt(&self, f: &mut fmt::Formatter<'_>) -> fmt::Result {
        let Mistyped { line, word, is_number } = self;
        match is_number {
            true => write!(f, "line {line}: {word} cannot be written in a trace, whose numbers go up to {NUMBER_MOST}"),
            false => write!(f, "line {line}: {word} is no number"),
        }
    }
}
