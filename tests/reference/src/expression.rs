//! Request 6: a text becomes the pool of just its language, with root 0, or a refusal with its place.
//!
//! Each thing of the grammar has a function that takes its bytes, and the next byte alone tells whether one can take it. Where
//! none can, no text of the grammar begins with all bytes up to this one. Those before it are the beginning of one, whatever
//! they are: alternatives may be empty, and groups that are open can be closed. So the place of 19 is where taking ends.

use crate::derivatives::{Expression, State};
use crate::read::{refuse, Refusal, MESSAGES, POOL_STATES};

pub const LONGEST_TEXT: usize = 256;
pub const LEVELS: usize = 8;
pub const OCCURRENCES: usize = 32;

/// The root of every pool that is made: the start.
pub const ROOT: usize = 0;

/// What a group holds, and the whole text.
pub type Alternatives = Vec<Vec<Item>>;

#[derive(Clone, Debug, PartialEq, Eq)]
pub struct Item {
    /// Of its first byte.
    pub place: usize,
    pub atom: Atom,
    pub is_starred: bool,
}

#[derive(Clone, Debug, PartialEq, Eq)]
pub enum Atom {
    /// None for 32 or more.
    Message(Option<u8>),
    Group(Alternatives),
}

/// The states of the pool, the start first.
pub fn expression(text: &[u8]) -> Result<Vec<State>, Refusal> {
    let alternatives = within_limits(text)?;
    Expression::of(&alternatives).states(POOL_STATES).ok_or(Refusal { number: 22, place: 0 })
}

/// Refuses all but what has too many states.
pub fn within_limits(text: &[u8]) -> Result<Alternatives, Refusal> {
    if text.len() > LONGEST_TEXT {
        return refuse(18, LONGEST_TEXT);
    }
    let alternatives = parse(text).map_err(|place| Refusal { number: 19, place })?;
    // At one place 5 comes before 21, being lower.
    match offenders(&alternatives).into_iter().min_by_key(|refusal| (refusal.place, refusal.number)) {
        Some(leftmost) => Err(leftmost),
        None => Ok(alternatives),
    }
}

/// The tree of a text, or the length of its longest beginning that some text of the grammar shares.
pub fn parse(text: &[u8]) -> Result<Alternatives, usize> {
    let mut parser = Parser { text, place: 0 };
    let alternatives = parser.alternatives()?;
    if parser.place < text.len() {
        return Err(parser.place);
    }
    Ok(alternatives)
}

struct Parser<'t> {
    text: &'t [u8],
    place: usize,
}

impl Parser<'_> {
    fn next(&self) -> Option<u8> {
        self.text.get(self.place).copied()
    }

    fn take(&mut self, sign: u8) -> bool {
        let is_next = self.next() == Some(sign);
        self.place += usize::from(is_next);
        is_next
    }

    fn spaces(&mut self) {
        while self.take(b' ') {}
    }

    fn alternatives(&mut self) -> Result<Alternatives, usize> {
        let mut alternatives = vec![self.alternative()?];
        while self.take(b'|') {
            alternatives.push(self.alternative()?);
        }
        Ok(alternatives)
    }

    /// Items as long as one begins, with the spaces around them.
    fn alternative(&mut self) -> Result<Vec<Item>, usize> {
        let mut items = Vec::new();
        loop {
            self.spaces();
            let place = self.place;
            let atom = match self.next() {
                Some(b'0'..=b'9') => Atom::Message(self.number()?),
                Some(b'(') => Atom::Group(self.group()?),
                _ => return Ok(items),
            };
            self.spaces();
            items.push(Item { place, atom, is_starred: self.take(b'*') });
        }
    }

    /// A whole run of digits; after a leading zero nothing but its end is a number.
    fn number(&mut self) -> Result<Option<u8>, usize> {
        let first = self.place;
        while self.next().is_some_and(|byte| byte.is_ascii_digit()) {
            if self.place > first && self.text[first] == b'0' {
                return Err(self.place);
            }
            self.place += 1;
        }
        let digits = self.text[first..self.place].iter().map(|digit| digit - b'0');
        let value = digits.into_iter().try_fold(0u8, |value, digit| value.checked_mul(10)?.checked_add(digit));
        Ok(value.filter(|&message| usize::from(message) < MESSAGES))
    }

    fn group(&mut self) -> Result<Alternatives, usize> {
        self.take(b'(');
        let alternatives = self.alternatives()?;
        if self.take(b')') {
            Ok(alternatives)
        } else {
            Err(self.place)
        }
    }
}

/// All that passes a limit, at its first byte, from left to right.
pub fn offenders(alternatives: &Alternatives) -> Vec<Refusal> {
    let mut offenders = Offenders::default();
    offenders.look_at(alternatives, 1);
    offenders.found
}

#[derive(Default)]
struct Offenders {
    occurrences: usize,
    found: Vec<Refusal>,
}

impl Offenders {
    /// A group among these alternatives is of the level given.
    fn look_at(&mut self, alternatives: &Alternatives, level: usize) {
        for item in alternatives.iter().flatten() {
            let place = item.place;
            match &item.atom {
                Atom::Group(inside) => {
                    if level > LEVELS {
                        self.found.push(Refusal { number: 20, place });
                    }
                    self.look_at(inside, level + 1);
                }
                Atom::Message(message) => {
                    self.occurrences += 1;
                    if message.is_none() {
                        self.found.push(Refusal { number: 5, place });
                    }
                    if self.occurrences > OCCURRENCES {
                        self.found.push(Refusal { number: 21, place });
                    }
                }
            }
        }
    }
}

/// The tables of a pool; entries beyond the count are 0.
#[derive(Clone, Debug, PartialEq, Eq)]
pub struct Pool {
    pub state_count: usize,
    pub finals: [bool; POOL_STATES],
    /// At `state * 32 + message`: 0 for no arc, else 1 plus the target.
    pub arcs: [u8; POOL_STATES * MESSAGES],
}

impl Pool {
    pub fn empty() -> Self {
        Pool { state_count: 0, finals: [false; POOL_STATES], arcs: [0; POOL_STATES * MESSAGES] }
    }

    /// At most 127 states.
    pub fn of(states: &[State]) -> Self {
        let mut pool = Pool { state_count: states.len(), ..Pool::empty() };
        for (number, state) in states.iter().enumerate() {
            pool.finals[number] = state.is_final;
            for (&message, &target) in &state.arcs {
                pool.arcs[number * MESSAGES + usize::from(message)] = target as u8 + 1;
            }
        }
        pool
    }
}
