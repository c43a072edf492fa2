//! Diagrams from expressions by the product's algorithm, as the measure of speed: occurrences are bits of a number, the text
//! gives for each those that can come after it, and the sets are listed first and found again where arcs are filled. A second
//! form stores each arc as its target is found. The reference answers by derivatives and uses neither.

use crate::expression::{Pool, LEVELS, LONGEST_TEXT, OCCURRENCES};
use crate::read::{refuse, Refusal, MESSAGES, POOL_STATES};

/// A set of occurrences.
type Set = u32;

/// The pool of a text, whose root is 0.
pub fn pool_of(text: &[u8]) -> Result<Pool, Refusal> {
    positions_of(text)?.pool()
}

/// The same in one pass over the states.
pub fn pool_at_once(text: &[u8]) -> Result<Pool, Refusal> {
    positions_of(text)?.pool_at_once()
}

fn positions_of(text: &[u8]) -> Result<Positions, Refusal> {
    if text.len() > LONGEST_TEXT {
        return refuse(18, LONGEST_TEXT);
    }
    scan(text)?;
    Ok(Positions::of(text))
}

/// What stands before a place, as far as a star or a digit there goes.
#[derive(Clone, Copy, PartialEq, Eq)]
enum Before {
    Nothing,
    Item,
    Starred,
}

/// The fault in the grammar, else what first passes a limit.
fn scan(text: &[u8]) -> Result<(), Refusal> {
    let mut scan = Scan { level: 0, occurrences: 0, before: Before::Nothing, offender: None };
    let mut place = 0;
    while place < text.len() {
        place = scan.take(text, place)?;
    }
    if scan.level > 0 {
        return refuse(19, text.len());
    }
    scan.offender.map_or(Ok(()), Err)
}

struct Scan {
    level: usize,
    occurrences: usize,
    before: Before,
    offender: Option<Refusal>,
}

impl Scan {
    /// Takes the token at a place, or a space, and returns where it ends.
    fn take(&mut self, text: &[u8], place: usize) -> Result<usize, Refusal> {
        match text[place] {
            b' ' => {}
            b'|' => self.before = Before::Nothing,
            b'*' if self.before == Before::Item => self.before = Before::Starred,
            b'(' => {
                self.before = Before::Nothing;
                self.level += 1;
                if self.level > LEVELS {
                    self.offend(20, place);
                }
            }
            b')' if self.level > 0 => {
                self.before = Before::Item;
                self.level -= 1;
            }
            b'0'..=b'9' => {
                self.before = Before::Item;
                let end = number_end(text, place)?;
                self.take_number(number(&text[place..end]), place);
                return Ok(end);
            }
            _ => return refuse(19, place),
        }
        Ok(place + 1)
    }

    fn take_number(&mut self, number: usize, place: usize) {
        self.occurrences += 1;
        if number >= MESSAGES {
            self.offend(5, place);
        } else if self.occurrences > OCCURRENCES {
            self.offend(21, place);
        }
    }

    fn offend(&mut self, number: u8, place: usize) {
        self.offender = self.offender.or(Some(Refusal { number, place }));
    }
}

/// The end of a run of digits, which may not go on after a leading zero.
fn number_end(text: &[u8], first: usize) -> Result<usize, Refusal> {
    let mut end = first + 1;
    while end < text.len() && text[end].is_ascii_digit() {
        if text[first] == b'0' {
            return refuse(19, end);
        }
        end += 1;
    }
    Ok(end)
}

/// The number of some digits, as far as it matters.
fn number(digits: &[u8]) -> usize {
    digits.iter().fold(0, |value: usize, digit| (value * 10 + usize::from(digit - b'0')).min(MESSAGES))
}

/// Of a part of the text: the occurrences that its words can begin with and end on, and whether the empty word is one.
#[derive(Clone, Copy)]
struct Part {
    first: Set,
    last: Set,
    is_nullable: bool,
}

impl Part {
    const EMPTY: Part = Part { first: 0, last: 0, is_nullable: true };
    const NONE: Part = Part { first: 0, last: 0, is_nullable: false };

    fn or(self, other: Part) -> Part {
        Part {
            first: self.first | other.first,
            last: self.last | other.last,
            is_nullable: self.is_nullable || other.is_nullable,
        }
    }
}

/// A group that is open: its alternatives that are whole, and the one that is not.
#[derive(Clone, Copy)]
struct Level {
    alternatives: Part,
    alternative: Part,
}

impl Level {
    const OPEN: Level = Level { alternatives: Part::NONE, alternative: Part::EMPTY };

    fn end_alternative(&mut self) {
        self.alternatives = self.alternatives.or(self.alternative);
        self.alternative = Part::EMPTY;
    }
}

/// Of each message its occurrences, and of each occurrence those that can come after it.
struct Positions {
    labels: [Set; MESSAGES],
    follow: [Set; OCCURRENCES],
    occurrences: usize,
    whole: Part,
}

impl Positions {
    /// Of a text that was scanned.
    fn of(text: &[u8]) -> Self {
        let mut positions =
            Positions { labels: [0; MESSAGES], follow: [0; OCCURRENCES], occurrences: 0, whole: Part::NONE };
        let mut levels = [Level::OPEN; LEVELS + 1];
        let (mut level, mut place) = (0, 0);
        while place < text.len() {
            let first = place;
            place += 1;
            let item = match text[first] {
                b'|' => {
                    levels[level].end_alternative();
                    continue;
                }
                b'(' => {
                    level += 1;
                    levels[level] = Level::OPEN;
                    continue;
                }
                b')' => {
                    levels[level].end_alternative();
                    level -= 1;
                    levels[level + 1].alternatives
                }
                b'0'..=b'9' => {
                    while place < text.len() && text[place].is_ascii_digit() {
                        place += 1;
                    }
                    positions.occurrence(number(&text[first..place]))
                }
                _ => continue,
            };
            let item = positions.starred(item, text, &mut place);
            levels[level].alternative = positions.then(levels[level].alternative, item);
        }
        levels[0].end_alternative();
        positions.whole = levels[0].alternatives;
        positions
    }

    fn occurrence(&mut self, message: usize) -> Part {
        let own = 1 << self.occurrences;
        self.occurrences += 1;
        self.labels[message] |= own;
        Part { first: own, last: own, is_nullable: false }
    }

    /// The item with its star, if there is one behind it and spaces.
    fn starred(&mut self, item: Part, text: &[u8], place: &mut usize) -> Part {
        while *place < text.len() && text[*place] == b' ' {
            *place += 1;
        }
        if *place == text.len() || text[*place] != b'*' {
            return item;
        }
        *place += 1;
        self.link(item.last, item.first);
        Part { is_nullable: true, ..item }
    }

    fn then(&mut self, front: Part, back: Part) -> Part {
        self.link(front.last, back.first);
        Part {
            first: if front.is_nullable { front.first | back.first } else { front.first },
            last: if back.is_nullable { front.last | back.last } else { back.last },
            is_nullable: front.is_nullable && back.is_nullable,
        }
    }

    fn link(&mut self, mut lasts: Set, firsts: Set) {
        while lasts != 0 {
            self.follow[lasts.trailing_zeros() as usize] |= firsts;
            lasts &= lasts - 1;
        }
    }

    /// The occurrences that can come after one of these.
    fn after(&self, mut set: Set) -> Set {
        let mut after = 0;
        while set != 0 {
            after |= self.follow[set.trailing_zeros() as usize];
            set &= set - 1;
        }
        after
    }

    /// The occurrences that can come next, at the start or behind a set.
    fn next(&self, state: usize, set: Set) -> Set {
        if state == 0 {
            self.whole.first
        } else {
            self.after(set)
        }
    }

    fn is_final(&self, state: usize, set: Set) -> bool {
        if state == 0 {
            self.whole.is_nullable
        } else {
            set & self.whole.last != 0
        }
    }

    /// The sets in the order of their states, the start with the empty one, and how many there are.
    fn sets(&self) -> Result<([Set; POOL_STATES], usize), Refusal> {
        let mut sets = [0; POOL_STATES];
        let mut count = 1;
        let mut state = 0;
        while state < count {
            let after = self.next(state, sets[state]);
            for &occurrences in &self.labels {
                let ends = after & occurrences;
                if ends == 0 || sets[..count].contains(&ends) {
                    continue;
                }
                if count == POOL_STATES {
                    return refuse(22, 0);
                }
                sets[count] = ends;
                count += 1;
            }
            state += 1;
        }
        Ok((sets, count))
    }

    fn pool(&self) -> Result<Pool, Refusal> {
        let (all, count) = self.sets()?;
        let sets = &all[..count];
        let mut pool = Pool::empty();
        pool.state_count = count;
        for (state, &set) in sets.iter().enumerate() {
            pool.finals[state] = self.is_final(state, set);
            let after = self.next(state, set);
            for (message, &occurrences) in self.labels.iter().enumerate() {
                let ends = after & occurrences;
                if ends != 0 {
                    let target = sets.iter().position(|&set| set == ends).expect("every set is listed");
                    pool.arcs[state * MESSAGES + message] = target as u8 + 1;
                }
            }
        }
        Ok(pool)
    }

    fn pool_at_once(&self) -> Result<Pool, Refusal> {
        let mut pool = Pool::empty();
        // The start is the only state whose set is empty, and nothing looks for it.
        let mut sets = [0; POOL_STATES];
        let mut count = 1;
        let mut state = 0;
        while state < count {
            let set = sets[state];
            let after = self.next(state, set);
            pool.finals[state] = self.is_final(state, set);
            for (message, &occurrences) in self.labels.iter().enumerate() {
                let ends = after & occurrences;
                if ends == 0 {
                    continue;
                }
                let target = sets[..count].iter().position(|&set| set == ends).unwrap_or(count);
                if target == POOL_STATES {
                    return refuse(22, 0);
                }
                sets[target] = ends;
                count = count.max(target + 1);
                pool.arcs[state * MESSAGES + message] = target as u8 + 1;
            }
            state += 1;
        }
        pool.state_count = count;
        Ok(pool)
    }
}
