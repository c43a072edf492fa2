//! A session file as a list of numbers, each with its role and its range, so that one of them can be damaged at a time.

use std::fmt;

/// Which number of which field this is.
#[derive(Clone, Copy, Debug, PartialEq, Eq, PartialOrd, Ord)]
pub enum Role {
    Machines,
    States,
    Start,
    Queues,
    Messages,
    /// Of a file that resumes.
    StartingLength,
    StartingMessage,
    Transitions,
    Machine,
    From,
    To,
    Kind,
    Queue,
    WordLength,
    WordMessage,
    PoolStates,
    Final,
    Arcs,
    ArcMessage,
    ArcTarget,
    Root,
    BadEntries,
    BadControlState,
    BadRoot,
}

impl Role {
    /// Those of files of either form.
    pub const OF_EVERY_FILE: [Role; 22] = [
        Role::Machines,
        Role::States,
        Role::Start,
        Role::Queues,
        Role::Messages,
        Role::Transitions,
        Role::Machine,
        Role::From,
        Role::To,
        Role::Kind,
        Role::Queue,
        Role::WordLength,
        Role::WordMessage,
        Role::PoolStates,
        Role::Final,
        Role::Arcs,
        Role::ArcMessage,
        Role::ArcTarget,
        Role::Root,
        Role::BadEntries,
        Role::BadControlState,
        Role::BadRoot,
    ];

    /// Those of what waits at the start.
    pub const OF_STARTING: [Role; 2] = [Role::StartingLength, Role::StartingMessage];

    pub fn all() -> impl Iterator<Item = Role> {
        Self::OF_EVERY_FILE.into_iter().chain(Self::OF_STARTING)
    }
}

impl fmt::Display for Role {
    fn fmt(&self, f: &mut fmt::Formatter) -> fmt::Result {
        write!(f, "{self:?}")
    }
}

#[derive(Clone, Copy, Debug)]
pub struct Number {
    pub role: Role,
    pub value: usize,
    pub least: usize,
    pub most: usize,
}

#[derive(Clone, Debug, Default)]
pub struct Draft {
    pub numbers: Vec<Number>,
}

impl Draft {
    pub fn push(&mut self, role: Role, value: usize, least: usize, most: usize) {
        self.numbers.push(Number { role, value, least, most });
    }

    /// An index, which lies below the count of its kind.
    pub fn push_index(&mut self, role: Role, value: usize, count: usize) {
        self.push(role, value, 0, count - 1);
    }

    pub fn bytes(&self) -> Vec<u8> {
        self.numbers.iter().flat_map(|number| encode(number.value)).collect()
    }

    /// Where the number at this position begins; at the count of numbers, the length of the file.
    pub fn place(&self, position: usize) -> usize {
        self.numbers[..position].iter().map(|number| encode(number.value).len()).sum()
    }

    /// The file with other bytes in place of one number.
    pub fn bytes_with(&self, position: usize, raw: &[u8]) -> Vec<u8> {
        let mut bytes = self.bytes();
        let start = self.place(position);
        bytes.splice(start..self.place(position + 1), raw.iter().copied());
        bytes
    }

    pub fn positions(&self, role: Role) -> Vec<usize> {
        (0..self.numbers.len()).filter(|&position| self.numbers[position].role == role).collect()
    }
}

/// The shorter form of a number: groups of seven bits, low group first.
pub fn encode(value: usize) -> Vec<u8> {
    assert!(value < 1 << 14, "{value} needs more than two bytes");
    let (low, high) = ((value % 128) as u8, (value / 128) as u8);
    if high == 0 {
        vec![low]
    } else {
        vec![low | 128, high]
    }
}
