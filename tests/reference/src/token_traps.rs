//! The tokens of a text, its tree by a stack of open groups, and its limits, with a mistake on purpose or without one.

use std::cmp::Reverse;
use std::collections::BTreeSet;

use crate::derivatives::State;
use crate::expression::{LEVELS, LONGEST_TEXT, OCCURRENCES};
use crate::expression_traps::ExpressionTrap as Trap;
use crate::position_traps::{states_with, Node};
use crate::read::{refuse, Refusal, MESSAGES, POOL_STATES};

enum Sign {
    Number(Vec<u8>),
    Open,
    Close,
    Bar,
    Star,
}

struct Token {
    place: usize,
    end: usize,
    sign: Sign,
}

/// The tokens of a text, as far as there are any, and the byte where none begins.
struct Tokens {
    found: Vec<Token>,
    stop: Option<usize>,
}

pub struct Reader<'t> {
    pub text: &'t [u8],
    pub trap: Option<Trap>,
}

impl Reader<'_> {
    fn is(&self, trap: Trap) -> bool {
        self.trap == Some(trap)
    }

    pub fn states(&self) -> Result<Vec<State>, Refusal> {
        let of_length = self.of_length();
        if !self.is(Trap::GrammarBeforeLength) {
            of_length?;
        }
        let tokens = self.tokens();
        let node = self.tree_of(&tokens).map_err(|place| self.nineteen(&tokens.found, place))?;
        of_length?;
        let states = || self.counted(&node);
        if self.is(Trap::StatesBeforeLimits) {
            states()?;
        }
        self.leftmost(&tokens.found).map_or_else(states, Err)
    }

    fn of_length(&self) -> Result<(), Refusal> {
        let length = self.text.len();
        let most = match self.trap {
            Some(Trap::LongTaken) => LONGEST_TEXT + 1,
            Some(Trap::LongestRefused) => LONGEST_TEXT - 1,
            _ => LONGEST_TEXT,
        };
        if length <= most {
            return Ok(());
        }
        refuse(18, if self.is(Trap::LongAtTheEnd) { length } else { most })
    }

    fn counted(&self, node: &Node) -> Result<Vec<State>, Refusal> {
        let most = match self.trap {
            Some(Trap::OneMoreState) => POOL_STATES + 1,
            Some(Trap::LastStateRefused) => POOL_STATES - 1,
            _ => POOL_STATES,
        };
        let place = if self.is(Trap::TwentyTwoAtTheEnd) { self.text.len() } else { 0 };
        states_with(node, most, self.trap).ok_or(Refusal { number: 22, place })
    }

    /// The tree, or where the text is wrong.
    pub fn tree(&self) -> Result<Node, usize> {
        self.tree_of(&self.tokens())
    }

    fn tree_of(&self, tokens: &Tokens) -> Result<Node, usize> {
        let length = self.text.len();
        if self.is(Trap::NoSpaceFirst) && self.text.first() == Some(&b' ') {
            return Err(0);
        }
        let mut groups = Groups::of(self.trap);
        for token in &tokens.found {
            groups.take(token)?;
        }
        if let Some(place) = tokens.stop {
            return Err(place);
        }
        if self.is(Trap::EmptyTextRefused) && tokens.found.is_empty() {
            return Err(length);
        }
        if self.is(Trap::NoSpaceLast) && groups.end < length {
            return Err(groups.end);
        }
        groups.close_all(length)
    }

    fn tokens(&self) -> Tokens {
        let mut tokens = Tokens { found: vec![], stop: None };
        let mut place = 0;
        while let (Some(&byte), None) = (self.text.get(place), tokens.stop) {
            let sign = match byte {
                b' ' => None,
                b'(' => Some(Sign::Open),
                b')' => Some(Sign::Close),
                b'|' => Some(Sign::Bar),
                b'*' => Some(Sign::Star),
                b'0'..=b'9' => {
                    place = self.number(place, &mut tokens);
                    continue;
                }
                _ if self.is(Trap::TabIsASpace) && byte.is_ascii_whitespace() => None,
                _ => {
                    tokens.stop = Some(place);
                    None
                }
            };
            tokens.found.extend(sign.map(|sign| Token { place, end: place + 1, sign }));
            place += 1;
        }
        tokens
    }

    /// The places of the digits that are taken for one number.
    fn digits(&self, first: usize) -> Vec<usize> {
        let mut digits = vec![first];
        let mut place = first + 1;
        while let Some(byte) = self.text.get(place) {
            match byte {
                b'0'..=b'9' => digits.push(place),
                b' ' if self.is(Trap::SpacesInNumbers) => {}
                _ => break,
            }
            place += 1;
        }
        let is_one = match self.trap {
            Some(Trap::DigitsAreNumbers) => true,
            Some(Trap::ZeroEndsANumber) => self.text[first] == b'0',
            _ => false,
        };
        digits.truncate(if is_one { 1 } else { digits.len() });
        digits
    }

    /// Puts a number, and returns where it ends.
    fn number(&self, place: usize, tokens: &mut Tokens) -> usize {
        let mut digits = self.digits(place);
        if self.text[place] == b'0' && digits.len() > 1 && !self.is(Trap::LeadingZeroTaken) {
            tokens.stop = Some(if self.is(Trap::LeadingZeroAtTheZero) { place } else { digits[1] });
            digits.truncate(1);
        }
        let end = digits[digits.len() - 1] + 1;
        let sign = Sign::Number(digits.into_iter().map(|place| self.text[place]).collect());
        tokens.found.push(Token { place, end, sign });
        end
    }

    /// The refusal of a text whose longest beginning ends at a place.
    fn nineteen(&self, tokens: &[Token], place: usize) -> Refusal {
        let is_before = |token: &&Token| token.place < place;
        let before = tokens.iter().take_while(is_before).count();
        let before = &tokens[..before];
        let place = match self.trap {
            Some(Trap::LimitsBeforeGrammar) => match self.leftmost(before) {
                Some(offender) => return offender,
                None => place,
            },
            Some(Trap::BeforeTheSpaces) => before.last().map_or(0, |token| token.end),
            Some(Trap::OneByteOn) => place + 1,
            Some(Trap::NineteenAtZero) => 0,
            Some(Trap::BoundedLength) => {
                (0..=place).rev().find(|&end| end + open_at(before, end) <= LONGEST_TEXT).unwrap_or(0)
            }
            Some(Trap::BoundedLevels) => {
                (0..=place).rev().find(|&end| (0..=end).all(|end| open_at(before, end) <= LEVELS)).unwrap_or(0)
            }
            Some(Trap::UnclosedAtFirstBracket) => self.open_bracket(before, place, |places| places.first().copied()),
            Some(Trap::UnclosedAtLastBracket) => self.open_bracket(before, place, |places| places.last().copied()),
            Some(Trap::UnclosedAtLastByte) => place.min(self.text.len().saturating_sub(1)),
            _ => place,
        };
        Refusal { number: 19, place }
    }

    /// At the end of the text one of the brackets that are open, else the place itself.
    fn open_bracket(&self, tokens: &[Token], place: usize, which: impl Fn(&[usize]) -> Option<usize>) -> usize {
        let mut open = vec![];
        for token in tokens {
            match token.sign {
                Sign::Open => open.push(token.place),
                Sign::Close => drop(open.pop()),
                _ => {}
            }
        }
        if place < self.text.len() { None } else { which(&open) }.unwrap_or(place)
    }

    /// The offender that counts.
    fn leftmost(&self, tokens: &[Token]) -> Option<Refusal> {
        let found = self.offenders(tokens);
        let of = |number: u8| found.iter().filter(move |refusal| refusal.number == number);
        let leftmost = found.iter().min_by_key(|refusal| (refusal.place, refusal.number)).copied();
        match self.trap {
            Some(Trap::First(number)) => of(number).next().copied().or(leftmost),
            Some(Trap::TwentyOneBeforeFive) => {
                found.iter().min_by_key(|refusal| (refusal.place, Reverse(refusal.number))).copied()
            }
            Some(Trap::TwentyAtTheLast) if leftmost.is_some_and(|found| found.number == 20) => {
                of(20).next_back().copied()
            }
            Some(Trap::TwentyOneAtTheLast) if leftmost.is_some_and(|found| found.number == 21) => {
                of(21).next_back().copied()
            }
            _ => leftmost,
        }
    }

    fn offenders(&self, tokens: &[Token]) -> Vec<Refusal> {
        let shifted = |limit: usize, more: Trap, less: Trap| match self.trap {
            Some(trap) if trap == more => limit + 1,
            Some(trap) if trap == less => limit - 1,
            _ => limit,
        };
        let levels = shifted(LEVELS, Trap::NinthLevelTaken, Trap::EighthLevelRefused);
        let messages = shifted(MESSAGES, Trap::ThirtyTwoTaken, Trap::ThirtyOneRefused);
        let most = shifted(OCCURRENCES, Trap::ThirtyThirdTaken, Trap::ThirtySecondRefused);
        let (mut level, mut count) = (0, 0);
        let mut counted = BTreeSet::new();
        let mut found = vec![];
        for token in tokens {
            match &token.sign {
                Sign::Open => level += 1,
                Sign::Close if !self.is(Trap::LevelsNeverLeft) => level = usize::saturating_sub(level, 1),
                Sign::Number(digits) => {
                    let value = value(digits, self.trap);
                    count += usize::from(counted.insert(value) || !self.is(Trap::MessagesCounted));
                    if value >= messages as u128 {
                        let place = if self.is(Trap::FiveAtTheLastDigit) { token.end - 1 } else { token.place };
                        found.push(Refusal { number: 5, place });
                    }
                    if count > most {
                        found.push(Refusal { number: 21, place: token.place });
                    }
                }
                _ => {}
            }
            if matches!(token.sign, Sign::Open) && level > levels {
                found.push(Refusal { number: 20, place: token.place });
            }
        }
        found
    }
}

/// How many groups are open where the first bytes end.
fn open_at(tokens: &[Token], end: usize) -> usize {
    tokens.iter().filter(|token| token.place < end).fold(0, |level: usize, token| match token.sign {
        Sign::Open => level + 1,
        Sign::Close => level.saturating_sub(1),
        _ => level,
    })
}

/// The number of some digits, up to the largest there is room for.
fn value(digits: &[u8], trap: Option<Trap>) -> u128 {
    let digits = digits.iter().map(|digit| u128::from(digit - b'0'));
    match trap {
        Some(Trap::WrapsAt(bits)) => digits.fold(0, |value, digit| (value * 10 + digit) % (1 << bits)),
        _ => digits.fold(0, |value, digit| value.saturating_mul(10).saturating_add(digit)),
    }
}

#[derive(Clone, Copy, PartialEq, Eq)]
enum Before {
    Nothing,
    Item,
    Starred,
}

/// The alternatives of a group that are whole, and the items of the one that is not.
#[derive(Default)]
struct Group {
    alternatives: Vec<Vec<Node>>,
    items: Vec<Node>,
}

struct Groups {
    trap: Option<Trap>,
    open: Vec<Group>,
    before: Before,
    occurrences: usize,
    /// Of the last token.
    end: usize,
}

impl Groups {
    fn of(trap: Option<Trap>) -> Self {
        Groups { trap, open: vec![Group::default()], before: Before::Nothing, occurrences: 0, end: 0 }
    }

    fn is(&self, trap: Trap) -> bool {
        self.trap == Some(trap)
    }

    fn innermost(&mut self) -> &mut Group {
        self.open.last_mut().expect("the text is never closed")
    }

    fn take(&mut self, token: &Token) -> Result<(), usize> {
        match &token.sign {
            Sign::Number(digits) => {
                let message = (value(digits, self.trap) % 64) as u8;
                self.put(Node::Occurrence { number: self.occurrences, message });
                self.occurrences += 1;
            }
            Sign::Open => {
                self.open.push(Group::default());
                self.before = Before::Nothing;
            }
            Sign::Close if self.open.len() > 1 => {
                let group = self.innermost();
                if group.alternatives.is_empty() && group.items.is_empty() && self.is(Trap::EmptyGroupRefused) {
                    return Err(token.place);
                }
                let node = self.close(token.place)?;
                self.put(node);
            }
            Sign::Close if self.is(Trap::StrayCloseTaken) => {}
            Sign::Close => return Err(token.place),
            Sign::Bar => self.end_alternative(token.place)?,
            Sign::Star => self.star(token)?,
        }
        self.end = token.end;
        Ok(())
    }

    fn put(&mut self, node: Node) {
        self.innermost().items.push(node);
        self.before = Before::Item;
    }

    fn end_alternative(&mut self, place: usize) -> Result<(), usize> {
        let items = std::mem::take(&mut self.innermost().items);
        if items.is_empty() && self.is(Trap::EmptyAlternativeRefused) {
            return Err(place);
        }
        self.innermost().alternatives.push(items);
        self.before = Before::Nothing;
        Ok(())
    }

    fn star(&mut self, token: &Token) -> Result<(), usize> {
        match self.before {
            Before::Item if self.is(Trap::NoSpaceBeforeStar) && self.end < token.place => return Err(token.place),
            Before::Item => {}
            Before::Starred if self.is(Trap::StarTwice) => return Ok(()),
            Before::Nothing if self.is(Trap::StarOfNothing) => return Ok(()),
            _ => return Err(token.place),
        }
        let is_of_the_last = self.is(Trap::StarOfTheLastItem);
        let items = &mut self.innermost().items;
        let item = items.pop().expect("an item is before");
        items.push(starred(item, is_of_the_last));
        self.before = Before::Starred;
        Ok(())
    }

    /// The innermost group, closed.
    fn close(&mut self, place: usize) -> Result<Node, usize> {
        self.end_alternative(place)?;
        let group = self.open.pop().expect("a group is open");
        Ok(choice(group.alternatives, self.trap))
    }

    fn close_all(mut self, length: usize) -> Result<Node, usize> {
        while self.open.len() > 1 && self.is(Trap::UnclosedTaken) {
            let node = self.close(length)?;
            self.put(node);
        }
        if self.open.len() > 1 {
            return Err(length);
        }
        self.close(length)
    }
}

/// An item with its star, which may be for the last item of a group's last alternative.
fn starred(mut item: Node, is_of_the_last: bool) -> Node {
    if let (Node::Choice(alternatives), true) = (&mut item, is_of_the_last) {
        if let Some(Node::Sequence(items)) = alternatives.last_mut() {
            if let Some(last) = items.pop() {
                items.push(Node::Star(Box::new(last)));
                return item;
            }
        }
    }
    Node::Star(Box::new(item))
}

fn choice(mut alternatives: Vec<Vec<Node>>, trap: Option<Trap>) -> Node {
    match trap {
        Some(Trap::FirstAlternativeOnly) => alternatives.truncate(1),
        Some(Trap::LastAlternativeOnly) => drop(alternatives.drain(..alternatives.len() - 1)),
        Some(Trap::EmptyAlternativesDropped) if alternatives.iter().any(|items| !items.is_empty()) => {
            alternatives.retain(|items| !items.is_empty());
        }
        Some(Trap::BarBindsTighter) => {
            alternatives = vec![alternatives.into_iter().reduce(with_bar).unwrap_or_default()]
        }
        _ => {}
    }
    Node::Choice(alternatives.into_iter().map(Node::Sequence).collect())
}

/// Two alternatives as one, with a choice where they meet.
fn with_bar(mut front: Vec<Node>, back: Vec<Node>) -> Vec<Node> {
    let left: Vec<Node> = front.pop().into_iter().collect();
    let mut back = back.into_iter();
    let right: Vec<Node> = back.next().into_iter().collect();
    front.push(Node::Choice(vec![Node::Sequence(left), Node::Sequence(right)]));
    front.extend(back);
    front
}
