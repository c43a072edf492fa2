//! Texts of the grammar around the limits: numbers, levels, occurrences, and which of two offenders counts.

use super::expression::{Expected, Texts};
use super::expression_draft::{Draft, Form, Token};
use crate::expression::{LEVELS, LONGEST_TEXT, OCCURRENCES};
use crate::read::MESSAGES;

/// Numbers around 32, around what fits in a byte or two, and some that are below 32 in their last bits.
const NUMBERS: [u128; 44] = [
    9,
    10,
    19,
    20,
    29,
    30,
    31,
    32,
    33,
    34,
    39,
    40,
    63,
    64,
    95,
    96,
    99,
    100,
    127,
    128,
    132,
    160,
    199,
    255,
    256,
    257,
    287,
    288,
    300,
    319,
    320,
    512,
    999,
    1_000,
    65_535,
    65_536,
    65_567,
    65_568,
    (1 << 32) - 1,
    1 << 32,
    (1 << 32) + 31,
    (1 << 64) - 1,
    1 << 64,
    (1 << 64) + 31,
];

/// What passes a limit.
#[derive(Clone, Copy, Debug, PartialEq, Eq)]
enum Offender {
    Number,
    Level,
    Occurrence,
}

impl Offender {
    const ALL: [Offender; 3] = [Offender::Number, Offender::Level, Offender::Occurrence];
}

impl Texts {
    pub(super) fn of_limits(&mut self) {
        self.of_numbers();
        self.of_levels();
        self.of_occurrences();
        self.of_two_offenders();
        self.of_offenders_with_many_states();
    }

    fn of_numbers(&mut self) {
        for number in NUMBERS {
            for _ in 0..if matches!(number, 31..=33) { 30 } else { 5 } {
                self.with_number(number.to_string());
            }
        }
        for bits in [8, 16, 32, 64] {
            for _ in 0..40 {
                let most = 1 << [4, 12, 40][self.random.below(3)];
                let factor = self.random.between(1, most) as u128;
                let number = (factor << bits) + self.random.below(MESSAGES) as u128;
                self.with_number(number.to_string());
            }
        }
        for digits in (2..=LONGEST_TEXT).step_by(3).chain([100, 200, 253, 255, 256]) {
            let first = self.random.between(1, 9);
            let others = (1..digits).map(|_| self.random.below(10).to_string());
            let number = std::iter::once(first.to_string()).chain(others).collect();
            self.with_number(number);
            self.with_number(format!("1{}", "0".repeat(digits - 1)));
        }
    }

    /// Somewhere in a text, or alone if it is long.
    fn with_number(&mut self, number: String) {
        let is_offender = number.len() > 2 || number.parse::<usize>().is_ok_and(|number| number >= MESSAGES);
        let (draft, at) = loop {
            let mut draft = if number.len() > 100 { Draft::of(vec![Token::number(0)]) } else { self.grow(1, 8) };
            let numbers = draft.numbers();
            let at = numbers[self.random.below(numbers.len())];
            draft.tokens[at] = Token::Number(number.clone());
            if draft.text().len() <= LONGEST_TEXT {
                break (draft, at);
            }
        };
        let expected = if is_offender { Expected::Refused(5, draft.place(at)) } else { Expected::WithinLimits };
        self.add("a number", draft.text(), expected);
    }

    fn of_levels(&mut self) {
        for (levels, count) in [(7, 20), (8, 60), (9, 60), (10, 20), (11, 10), (16, 10), (17, 10), (40, 10), (128, 1)] {
            let mut made = 0;
            while made < count {
                made += usize::from(self.with_levels(levels));
            }
        }
        // Many groups, few of them in one another.
        for round in 0..60 {
            let least = if round % 2 == 0 { 2 } else { LEVELS };
            let tokens = (0..self.random.between(2, 4)).flat_map(|_| self.nested(least, 6)).collect();
            self.of_tokens("groups side by side", tokens);
        }
    }

    fn with_levels(&mut self, levels: usize) -> bool {
        let others = if levels > 20 { 1 } else { 30 };
        let mut tokens = self.nested(levels, others);
        if levels < 20 && self.random.chance(30) {
            tokens.splice(0..0, self.nested(3, 10));
        }
        self.of_tokens("levels", tokens)
    }

    /// Groups in one another, with other items beside them.
    fn nested(&mut self, levels: usize, others: usize) -> Vec<Token> {
        let mut tokens = if self.random.chance(80) { vec![self.message()] } else { vec![] };
        for _ in 0..levels {
            tokens = [vec![Token::Open], tokens, vec![Token::Close]].concat();
            if self.random.chance(others) {
                tokens.push(Token::Star);
            }
            if self.random.chance(others) {
                let message = self.message();
                let at = [0, tokens.len()][self.random.below(2)];
                tokens.insert(at, message);
            }
            if self.random.chance(others / 2) {
                let at = [0, tokens.len()][self.random.below(2)];
                tokens.insert(at, Token::Bar);
            }
        }
        tokens
    }

    fn message(&mut self) -> Token {
        Token::number(self.random.below(MESSAGES))
    }

    /// Adds a text that is not refused for its length; what is expected of it is told by its tokens.
    fn of_tokens(&mut self, kind: &'static str, tokens: Vec<Token>) -> bool {
        let mut draft = Draft::of(tokens);
        let percent = [0, 0, 15][self.random.below(3)];
        draft.add_spaces(&mut self.random, percent);
        let is_taken = draft.text().len() <= LONGEST_TEXT;
        if is_taken {
            self.add(kind, draft.text(), expected(&draft));
        }
        is_taken
    }

    fn of_occurrences(&mut self) {
        for (count, texts) in [(30, 10), (31, 20), (32, 60), (33, 60), (34, 20), (36, 10), (40, 10), (64, 10)] {
            let mut made = 0;
            while made < texts {
                let messages = if self.random.chance(40) { MESSAGES } else { 3 };
                let form = Form { messages: (0..messages).collect(), ..Form::any(&mut self.random, count) };
                let tokens = form.tokens(&mut self.random);
                made += usize::from(self.of_tokens("occurrences", tokens));
            }
        }
        for (count, texts) in [(31, 12), (32, 12), (33, 6)] {
            for _ in 0..texts {
                let tokens = (0..count).map(|_| self.message()).collect();
                self.of_tokens("messages in a row", tokens);
            }
        }
        for count in [32, 33, 65, 100, 127, 128] {
            for _ in 0..3 {
                let tokens = self.numbers_between([None, Some(Token::Bar), Some(Token::Star)], count);
                self.of_tokens("many occurrences", tokens);
            }
        }
    }

    /// Numbers of one digit, with any of these after each but the last.
    fn numbers_between(&mut self, between: [Option<Token>; 3], count: usize) -> Vec<Token> {
        let mut tokens = vec![Token::number(self.random.below(10))];
        for _ in 1..count {
            tokens.extend(between[self.random.below(3)].clone());
            tokens.push(Token::number(self.random.below(10)));
        }
        tokens
    }

    /// Side by side, or in alternatives; and both at one number.
    fn of_two_offenders(&mut self) {
        for left in Offender::ALL {
            for right in Offender::ALL {
                let mut made = 0;
                while made < 30 {
                    let mut tokens = self.with_offender(left);
                    tokens.extend(self.random.chance(30).then_some(Token::Bar));
                    tokens.extend(self.with_offender(right));
                    made += usize::from(self.of_tokens("two offenders", tokens));
                }
            }
        }
        let mut made = 0;
        while made < 60 {
            let form = Form { messages: (0..9).collect(), ..Form::any(&mut self.random, 34) };
            let mut tokens = form.tokens(&mut self.random);
            let numbers: Vec<usize> = (0..tokens.len()).filter(|&at| tokens[at].is_number()).collect();
            let which = OCCURRENCES + usize::from(made % 3 == 2);
            tokens[numbers[which]] = Token::number(self.random.between(MESSAGES, 300));
            made += usize::from(self.of_tokens("a number past both limits", tokens));
        }
    }

    fn with_offender(&mut self, offender: Offender) -> Vec<Token> {
        match offender {
            Offender::Number => vec![Token::number(self.random.between(MESSAGES, 300))],
            Offender::Level => self.nested(LEVELS + 1, 5),
            Offender::Occurrence => {
                let form = Form { messages: (0..9).collect(), ..Form::any(&mut self.random, OCCURRENCES + 1) };
                form.tokens(&mut self.random)
            }
        }
    }

    /// 22 comes last.
    fn of_offenders_with_many_states(&mut self) {
        for round in 0..90 {
            let mut tokens = self.window(6);
            let offender = self.with_offender(Offender::ALL[round % 3]);
            match round % 2 {
                0 => tokens.splice(0..0, [offender, vec![Token::Bar]].concat()).for_each(drop),
                _ => tokens.extend([vec![Token::Bar], offender].concat()),
            }
            self.of_tokens("an offender and many states", tokens);
        }
    }
}

/// What counts among the tokens, from the document: the leftmost, and 5 before 21.
fn expected(draft: &Draft) -> Expected {
    let (mut level, mut occurrences) = (0, 0);
    for (at, token) in draft.tokens.iter().enumerate() {
        let refused = |number| Expected::Refused(number, draft.place(at));
        match token {
            Token::Open => level += 1,
            Token::Close => level -= 1,
            Token::Number(_) => occurrences += 1,
            Token::Bar | Token::Star => {}
        }
        match token {
            Token::Open if level == LEVELS + 1 => return refused(20),
            Token::Number(digits) if digits.parse::<u128>().map_or(true, |number| number >= MESSAGES as u128) => {
                return refused(5)
            }
            Token::Number(_) if occurrences == OCCURRENCES + 1 => return refused(21),
            _ => {}
        }
    }
    Expected::WithinLimits
}
