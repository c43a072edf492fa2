//! Texts of the grammar made at random, token by token, so that the place of each token is known.

use crate::random::Random;
use crate::read::MESSAGES;

#[derive(Clone, Debug, PartialEq, Eq)]
pub enum Token {
    Number(String),
    Open,
    Close,
    Bar,
    Star,
}

impl Token {
    pub fn number(number: usize) -> Self {
        Token::Number(number.to_string())
    }

    pub fn is_number(&self) -> bool {
        matches!(self, Token::Number(_))
    }

    fn spelling(&self) -> &str {
        match self {
            Token::Number(digits) => digits,
            Token::Open => "(",
            Token::Close => ")",
            Token::Bar => "|",
            Token::Star => "*",
        }
    }
}

/// What texts are made of.
#[derive(Clone, Debug)]
pub struct Form {
    pub occurrences: usize,
    /// Groups that may lie in one another.
    pub levels: usize,
    pub messages: Vec<usize>,
    /// In a hundred: items with a star, items that are groups, places with several alternatives, parts that are left empty.
    pub stars: usize,
    pub groups: usize,
    pub bars: usize,
    pub empties: usize,
}

impl Form {
    /// Any form with so many occurrences.
    pub fn any(random: &mut Random, occurrences: usize) -> Self {
        let messages = if random.chance(30) { random.between(1, MESSAGES) } else { random.between(1, 4) };
        Form {
            occurrences,
            levels: random.below(9),
            messages: some_messages(random, messages),
            stars: [5, 20, 40][random.below(3)],
            groups: [10, 25, 40][random.below(3)],
            bars: [10, 30, 60][random.below(3)],
            empties: [0, 10, 30][random.below(3)],
        }
    }

    pub fn tokens(&self, random: &mut Random) -> Vec<Token> {
        let mut grower = Grower { random, form: self, tokens: vec![] };
        grower.alternatives(self.occurrences, 0);
        grower.tokens
    }

    /// The same with spaces here and there, or without any.
    pub fn draft(&self, random: &mut Random) -> Draft {
        let tokens = self.tokens(random);
        let percent = [0, 0, 10, 40][random.below(4)];
        let mut draft = Draft::of(tokens);
        draft.add_spaces(random, percent);
        draft
    }
}

/// So many different messages.
pub fn some_messages(random: &mut Random, count: usize) -> Vec<usize> {
    let mut messages: Vec<usize> = (0..MESSAGES).collect();
    random.shuffle(&mut messages);
    messages.truncate(count);
    messages
}

struct Grower<'g> {
    random: &'g mut Random,
    form: &'g Form,
    tokens: Vec<Token>,
}

impl Grower<'_> {
    /// With so many occurrences in all.
    fn alternatives(&mut self, occurrences: usize, level: usize) {
        let count = if self.random.chance(self.form.bars) { self.random.between(2, 4) } else { 1 };
        let mut left = occurrences;
        for number in 0..count {
            if number > 0 {
                self.tokens.push(Token::Bar);
            }
            let own = match number + 1 == count {
                true => left,
                false if self.random.chance(self.form.empties) => 0,
                false => self.random.between(left.min(1), left),
            };
            self.alternative(own, level);
            left -= own;
        }
    }

    fn alternative(&mut self, occurrences: usize, level: usize) {
        let mut left = occurrences;
        while left > 0 {
            let is_group = level < self.form.levels && self.random.chance(self.form.groups);
            let own = if is_group { self.random.between(1, left) } else { 1 };
            if is_group {
                self.group(own, level);
            } else {
                let message = *self.random.pick(&self.form.messages).expect("some messages");
                self.tokens.push(Token::number(message));
            }
            self.star();
            left -= own;
        }
        if level < self.form.levels && self.random.chance(self.form.empties / 5) {
            self.group(0, level);
            self.star();
        }
    }

    fn group(&mut self, occurrences: usize, level: usize) {
        self.tokens.push(Token::Open);
        self.alternatives(occurrences, level + 1);
        self.tokens.push(Token::Close);
    }

    fn star(&mut self) {
        if self.random.chance(self.form.stars) {
            self.tokens.push(Token::Star);
        }
    }
}

/// Tokens, and how many spaces are before each and at the end.
#[derive(Clone, Debug)]
pub struct Draft {
    pub tokens: Vec<Token>,
    gaps: Vec<usize>,
}

impl Draft {
    /// With spaces only where they part two numbers.
    pub fn of(tokens: Vec<Token>) -> Self {
        let parts_numbers = |place: usize| place > 0 && tokens[place - 1].is_number() && tokens[place].is_number();
        let mut gaps: Vec<usize> = (0..tokens.len()).map(|place| usize::from(parts_numbers(place))).collect();
        gaps.push(0);
        Draft { tokens, gaps }
    }

    pub fn add_spaces(&mut self, random: &mut Random, percent: usize) {
        for gap in &mut self.gaps {
            if random.chance(percent) {
                *gap += [1, 1, 1, 2, 5][random.below(5)];
            }
        }
    }

    /// Spaces anywhere, until the text has this length; nothing if it is as long already.
    pub fn pad(&mut self, random: &mut Random, length: usize) {
        while self.text().len() < length {
            let gap = random.below(self.gaps.len());
            let missing = length - self.text().len();
            self.gaps[gap] += random.between(1, missing.min(40));
        }
    }

    pub fn text(&self) -> Vec<u8> {
        let mut text = Vec::new();
        for (number, gap) in self.gaps.iter().enumerate() {
            text.extend(vec![b' '; *gap]);
            text.extend(self.tokens.get(number).map_or("", Token::spelling).bytes());
        }
        text
    }

    /// Of the first byte of a token.
    pub fn place(&self, token: usize) -> usize {
        let before: usize = self.tokens[..token].iter().map(|token| token.spelling().len()).sum();
        before + self.gaps[..=token].iter().sum::<usize>()
    }

    /// Tokens that are numbers.
    pub fn numbers(&self) -> Vec<usize> {
        (0..self.tokens.len()).filter(|&token| self.tokens[token].is_number()).collect()
    }

    /// A beginning of the text, which some text of the grammar shares whatever its length.
    pub fn beginning(&self, random: &mut Random) -> Vec<u8> {
        let mut text = self.text();
        text.truncate(random.below(text.len() + 1));
        text
    }
}
