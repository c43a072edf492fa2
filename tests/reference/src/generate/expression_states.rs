//! Texts of a known number of states, below 127 and above.
//!
//! A window, such as (0|1)*0(0|1)(0|1), tells the last messages apart and has many states for its length. An alternative that
//! begins with a message of its own adds a state with each of its occurrences.

use super::expression::{Expected, Texts};
use super::expression_draft::{some_messages, Draft, Token};
use crate::expression::{LONGEST_TEXT, OCCURRENCES};
use crate::expression_traps::state_count;
use crate::read::{MESSAGES, POOL_STATES};

/// States are counted up to here.
const COUNTED: usize = 400;

impl Texts {
    pub(super) fn of_known_states(&mut self) {
        let around_most = [126, 127, 128, 129].map(|states| (states, 40));
        let others = (2..136).map(|states| (states, 3));
        for (states, count) in others.chain(around_most) {
            let mut made = 0;
            while made < count {
                made += usize::from(self.with_states(states));
            }
        }
        for wide in 6..=13 {
            for _ in 0..8 {
                let tokens = self.window(wide);
                self.of_states("many states", tokens, COUNTED);
                let tokens = self.full_window(wide);
                self.of_states("many states of 32 occurrences", tokens, COUNTED);
            }
        }
    }

    /// False where nothing was found that has so many.
    fn with_states(&mut self, states: usize) -> bool {
        let letters = self.letters();
        let own = (0..MESSAGES).find(|message| !letters.contains(message)).expect("a message is left");
        let window = if states < 34 && self.random.chance(30) { vec![] } else { self.any_window(&letters) };
        let occurrences = window.iter().filter(|token| token.is_number()).count();
        let Some(few) = state_count(&Draft::of(window.clone()).text(), COUNTED) else { return false };
        let Some(missing) = states.checked_sub(few) else { return false };
        if occurrences + missing > OCCURRENCES {
            return false;
        }
        let mut chain: Vec<Token> = (0..missing).map(|_| Token::number(self.random.below(MESSAGES))).collect();
        if let Some(first) = chain.first_mut() {
            *first = Token::number(own);
        }
        let bar = vec![Token::Bar];
        let tokens = match self.random.below(3) {
            _ if missing == 0 => window,
            0 => [window, bar, chain].concat(),
            1 => [chain, bar, window].concat(),
            _ => [vec![Token::Open], window, bar, chain, vec![Token::Close]].concat(),
        };
        self.of_states("so many states", tokens, states)
    }

    /// False where the text is too long.
    fn of_states(&mut self, kind: &'static str, tokens: Vec<Token>, states: usize) -> bool {
        let mut draft = Draft::of(tokens);
        let percent = [0, 0, 10][self.random.below(3)];
        draft.add_spaces(&mut self.random, percent);
        let text = draft.text();
        let is_taken = text.len() <= LONGEST_TEXT;
        if is_taken {
            let is_few = states <= POOL_STATES;
            self.add(kind, text, if is_few { Expected::States(states) } else { Expected::Refused(22, 0) });
        }
        is_taken
    }

    fn letters(&mut self) -> Vec<usize> {
        let count = self.random.between(2, 3);
        some_messages(&mut self.random, count)
    }

    /// Any of two letters, again and again; then one; then so many times any of two.
    pub(super) fn window(&mut self, wide: usize) -> Vec<Token> {
        let letters = self.letters();
        let any = self.any_of(&letters[..2]);
        let mut tokens = [any, vec![Token::Star, Token::number(letters[0])]].concat();
        for _ in 0..wide {
            tokens.extend(self.any_of(&letters[..2]));
        }
        tokens
    }

    /// A window with as many occurrences as there can be.
    fn full_window(&mut self, wide: usize) -> Vec<Token> {
        let mut tokens = self.window(wide);
        while tokens.iter().filter(|token| token.is_number()).count() < OCCURRENCES {
            tokens.extend(self.random.chance(20).then_some(Token::Bar));
            tokens.push(Token::number(self.random.below(MESSAGES)));
        }
        tokens
    }

    fn any_of(&mut self, letters: &[usize]) -> Vec<Token> {
        let mut letters = letters.to_vec();
        self.random.shuffle(&mut letters);
        let mut tokens = vec![Token::Open];
        for (number, letter) in letters.into_iter().enumerate() {
            tokens.extend((number > 0).then_some(Token::Bar));
            tokens.push(Token::number(letter));
        }
        tokens.push(Token::Close);
        tokens
    }

    /// A window with single letters, stars and empty alternatives in it.
    fn any_window(&mut self, letters: &[usize]) -> Vec<Token> {
        let mut tokens = [self.any_of(letters), vec![Token::Star, Token::number(letters[0])]].concat();
        for _ in 0..self.random.below(9) {
            if self.random.chance(60) {
                tokens.extend(self.any_of(&letters[..2]));
                if self.random.chance(15) {
                    tokens.insert(tokens.len() - 1, Token::Bar);
                }
                continue;
            }
            tokens.push(Token::number(letters[self.random.below(letters.len())]));
            tokens.extend(self.random.chance(20).then_some(Token::Star));
        }
        tokens
    }
}
