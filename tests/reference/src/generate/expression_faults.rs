//! Texts outside the grammar whose longest beginning is known from how they were made.

use super::expression::{Expected, Texts};
use super::expression_draft::{Draft, Token};
use crate::expression::LONGEST_TEXT;

/// The bytes that texts of the grammar are of.
pub fn is_of_the_grammar(byte: u8) -> bool {
    b"0123456789()|* ".contains(&byte)
}

/// What is wrong where a text leaves the grammar.
#[derive(Clone, Copy, Debug, PartialEq, Eq)]
enum Fault {
    StarFirst,
    StarAfterOpen,
    StarAfterBar,
    StarAfterStar,
    CloseWithoutOpen,
    DigitAfterZero,
    Unclosed,
}

impl Fault {
    const ALL: [Fault; 7] = [
        Fault::StarFirst,
        Fault::StarAfterOpen,
        Fault::StarAfterBar,
        Fault::StarAfterStar,
        Fault::CloseWithoutOpen,
        Fault::DigitAfterZero,
        Fault::Unclosed,
    ];
}

impl Texts {
    pub(super) fn outside_the_grammar(&mut self) {
        self.of_other_bytes();
        for fault in Fault::ALL {
            let enough = if fault == Fault::DigitAfterZero { 150 } else { 60 };
            let mut made = 0;
            while made < enough {
                made += usize::from(self.with_fault(fault));
            }
        }
        self.behind_limits();
        self.as_long_as_can_be();
    }

    /// Those that are spaces elsewhere more often.
    fn of_other_bytes(&mut self) {
        for byte in (0..=255).filter(|&byte| !is_of_the_grammar(byte)) {
            for _ in 0..if matches!(byte, 9..=13) { 12 } else { 6 } {
                let text = self.grow(1, 5).beginning(&mut self.random);
                let rest = self.grow(1, 2).beginning(&mut self.random);
                let place = text.len();
                self.add("another byte", [&text[..], &[byte], &rest].concat(), Expected::Refused(19, place));
            }
        }
    }

    /// False where the text has no place for it.
    fn with_fault(&mut self, fault: Fault) -> bool {
        let mut tokens = self.grow(1, 12).tokens;
        let at = match fault {
            Fault::Unclosed => return self.unclosed(tokens),
            Fault::StarFirst => Some(0),
            Fault::StarAfterOpen => self.after(&tokens, |token| *token == Token::Open),
            Fault::StarAfterBar => self.after(&tokens, |token| *token == Token::Bar),
            Fault::StarAfterStar => self.after(&tokens, |token| *token == Token::Star),
            Fault::CloseWithoutOpen => {
                let closed: Vec<usize> = (0..=tokens.len()).filter(|&at| level(&tokens[..at]) == 0).collect();
                self.random.pick(&closed).copied()
            }
            Fault::DigitAfterZero => self.after(&tokens, Token::is_number).map(|after| after - 1),
        };
        let Some(at) = at else { return false };
        match fault {
            Fault::CloseWithoutOpen => tokens.insert(at, Token::Close),
            Fault::DigitAfterZero => {
                let digits = (0..self.random.between(1, 3)).map(|_| self.random.below(10).to_string());
                tokens[at] = Token::Number(std::iter::once("0".to_string()).chain(digits).collect());
            }
            _ => tokens.insert(at, Token::Star),
        }
        let mut draft = Draft::of(tokens);
        let percent = [0, 30][self.random.below(2)];
        draft.add_spaces(&mut self.random, percent);
        let place = draft.place(at) + usize::from(fault == Fault::DigitAfterZero);
        let text = draft.text();
        let is_taken = text.len() <= LONGEST_TEXT;
        if is_taken {
            self.add("a fault", text, Expected::Refused(19, place));
        }
        is_taken
    }

    fn unclosed(&mut self, tokens: Vec<Token>) -> bool {
        let open: Vec<usize> = (0..=tokens.len()).filter(|&end| level(&tokens[..end]) > 0).collect();
        let Some(&end) = self.random.pick(&open) else { return false };
        let mut draft = Draft::of(tokens[..end].to_vec());
        draft.add_spaces(&mut self.random, 20);
        let text = draft.text();
        let length = text.len();
        if length <= LONGEST_TEXT {
            self.add("not closed", text, Expected::Refused(19, length));
        }
        length <= LONGEST_TEXT
    }

    /// Behind some token of a kind.
    fn after(&mut self, tokens: &[Token], is: impl Fn(&Token) -> bool) -> Option<usize> {
        let places: Vec<usize> = (0..tokens.len()).filter(|&place| is(&tokens[place])).collect();
        self.random.pick(&places).map(|place| place + 1)
    }

    /// Texts that pass a limit, or have too many states, and go on to leave the grammar.
    fn behind_limits(&mut self) {
        let texts: Vec<Vec<u8>> = self
            .cases
            .iter()
            .filter(|case| matches!(case.expected, Expected::Refused(5 | 20..=22, _)) && case.text.len() < 250)
            .map(|case| case.text.clone())
            .collect();
        for _ in 0..400 {
            let text = &texts[self.random.below(texts.len())];
            let (rest, taken) =
                [(")", 0), ("|*", 1), ("(", 1), (" x", 1), ("()**", 3), (" 00", 2), ("|(0", 3)][self.random.below(7)];
            let place = text.len() + taken;
            self.add("a fault behind a limit", [text, rest.as_bytes()].concat(), Expected::Refused(19, place));
        }
    }

    /// Of 255 and 256 bytes, and wrong at the end.
    fn as_long_as_can_be(&mut self) {
        for round in 0..180 {
            let length = LONGEST_TEXT - round / 6 % 2;
            let mut draft = self.grow(1, 20);
            draft.pad(&mut self.random, length - 2);
            let text = draft.text();
            if text.len() != length - 2 {
                continue;
            }
            let (rest, taken) = [("()", 2), ("|(", 2), ("((", 2), ("|)", 1), (" $", 1), ("))", 0)][round % 6];
            let expected = match taken {
                2 if rest == "()" => Expected::WithinLimits,
                _ => Expected::Refused(19, length - 2 + taken),
            };
            self.add("as long as can be", [&text, rest.as_bytes()].concat(), expected);
        }
        for levels in [1, 2, 3, 7, 8, 9, 20, 100, 127, 128, 129, 200] {
            for _ in 0..3 {
                let text = self.opened(levels);
                self.add("as long as can be, not closed", text, Expected::Refused(19, LONGEST_TEXT));
            }
        }
    }

    /// 256 bytes with so many brackets that are not closed.
    fn opened(&mut self, levels: usize) -> Vec<u8> {
        let mut text = vec![b'('; levels];
        while text.len() < LONGEST_TEXT {
            let place = self.random.below(text.len() + 1);
            text.insert(place, b"  |"[self.random.below(3)]);
        }
        text
    }
}

/// Groups that are open behind some tokens.
fn level(tokens: &[Token]) -> usize {
    let count = |sign: Token| tokens.iter().filter(|token| **token == sign).count();
    count(Token::Open) - count(Token::Close)
}
