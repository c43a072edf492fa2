//! A line by itself: its words, and the item that they make.

use super::Wrong;
use crate::trace::shown;

// What a number of a line says, as faults name it.
pub(super) const STATES: &str = "the number of states";
pub(super) const START: &str = "the starting state";
pub(super) const MESSAGES: &str = "the number of messages";
pub(super) const MACHINE: &str = "the machine";
pub(super) const FROM: &str = "the state that it leads from";
pub(super) const TO: &str = "the state that it leads to";
pub(super) const QUEUE: &str = "the queue";
pub(super) const STARTING: &str = "a message of the start";
pub(super) const MESSAGE: &str = "a message of the word";
pub(super) const ARC_MESSAGE: &str = "the message of an arc";
pub(super) const TARGET: &str = "the target of an arc";
pub(super) const CONTROL: &str = "the control state";
pub(super) const ROOT: &str = "the root";

/// A number as it was typed.
#[derive(Clone, Copy)]
pub(super) struct Number<'t> {
    /// What it is; the largest that there is where it is larger.
    pub(super) value: usize,
    word: &'t [u8],
}

impl Number<'_> {
    pub(super) fn shown(&self) -> String {
        shown(self.word)
    }
}

/// `machine states STATES start START`
pub(super) struct Machine<'t> {
    pub(super) states: Number<'t>,
    pub(super) start: Number<'t>,
}

/// `queue messages MESSAGES [start: MESSAGE ..]`
pub(super) struct Queue<'t> {
    pub(super) messages: Number<'t>,
    pub(super) starting: Vec<Number<'t>>,
}

/// `transition machine MACHINE from FROM to TO ..`
pub(super) struct Transition<'t> {
    pub(super) machine: Number<'t>,
    pub(super) from: Number<'t>,
    pub(super) to: Number<'t>,
    pub(super) does: Does<'t>,
}

/// `local`, or `send` or `receive` and then `queue QUEUE: MESSAGE ..`
pub(super) enum Does<'t> {
    Local,
    Send { queue: Number<'t>, word: Vec<Number<'t>> },
    Receive { queue: Number<'t>, word: Vec<Number<'t>> },
}

/// `state [final] MESSAGE>TARGET ..`
pub(super) struct State<'t> {
    pub(super) is_final: bool,
    pub(super) arcs: Vec<(Number<'t>, Number<'t>)>,
}

/// `control CONTROL root ROOT`, after `bad` or not
pub(super) struct Root<'t> {
    pub(super) control: Number<'t>,
    pub(super) root: Number<'t>,
}

/// What a line adds to a session.
pub(super) enum Item<'t> {
    Machine(Machine<'t>),
    Queue(Queue<'t>),
    Transition(Transition<'t>),
    State(State<'t>),
    Root(Root<'t>),
    Bad(Root<'t>),
}

impl<'t> Item<'t> {
    /// The item of a line; none where it has no words, or a comment alone.
    pub(super) fn of(line: &'t [u8]) -> Result<Option<Self>, Wrong> {
        let told = line.split(|&byte| byte == b'#').next().unwrap_or_default();
        let mut words = Words(told.split(u8::is_ascii_whitespace).flat_map(pieces).collect());
        let Some(first) = words.next() else { return Ok(None) };
        let item = match first {
            b"machine" => Item::Machine(words.machine()?),
            b"queue" => Item::Queue(words.queue()?),
            b"transition" => Item::Transition(words.transition()?),
            b"state" => Item::State(words.state()?),
            b"control" => Item::Root(words.root()?),
            b"bad" => {
                words.take("control")?;
                Item::Bad(words.root()?)
            }
            _ => return Err(Wrong::NoItem { word: shown(first) }),
        };
        words.end()?;
        Ok(Some(item))
    }
}

/// `:` and `>` are words by themselves, with white space around them or not.
fn pieces(chunk: &[u8]) -> impl Iterator<Item = &[u8]> {
    let is_mark = |byte: u8| byte == b':' || byte == b'>';
    chunk.chunk_by(move |&one, &next| !is_mark(one) && !is_mark(next))
}

/// The words of a line that are left.
struct Words<'t>(std::collections::VecDeque<&'t [u8]>);

impl<'t> Words<'t> {
    fn next(&mut self) -> Option<&'t [u8]> {
        self.0.pop_front()
    }

    fn is_next(&self, word: &str) -> bool {
        self.0.front() == Some(&word.as_bytes())
    }

    /// One word and no other.
    fn take(&mut self, wanted: &'static str) -> Result<(), Wrong> {
        match self.next() {
            Some(word) if word == wanted.as_bytes() => Ok(()),
            found => Err(Wrong::Wanted { wanted, found: found.map(shown) }),
        }
    }

    fn number(&mut self, what: &'static str) -> Result<Number<'t>, Wrong> {
        let Some(word) = self.next() else { return Err(Wrong::NumberMissing { what }) };
        if !word.iter().all(u8::is_ascii_digit) {
            return Err(Wrong::NoNumber { what, found: shown(word) });
        }
        let digits = word.iter().map(|digit| usize::from(digit - b'0'));
        let value = digits.fold(0, |number: usize, digit| number.saturating_mul(10).saturating_add(digit));
        Ok(Number { value, word })
    }

    /// A number after the word that names it.
    fn after(&mut self, name: &'static str, what: &'static str) -> Result<Number<'t>, Wrong> {
        self.take(name)?;
        self.number(what)
    }

    /// Numbers up to the end of the line.
    fn numbers(&mut self, what: &'static str) -> Result<Vec<Number<'t>>, Wrong> {
        (0..self.0.len()).map(|_| self.number(what)).collect()
    }

    fn end(&mut self) -> Result<(), Wrong> {
        self.next().map_or(Ok(()), |word| Err(Wrong::More { word: shown(word) }))
    }

    fn machine(&mut self) -> Result<Machine<'t>, Wrong> {
        Ok(Machine { states: self.after("states", STATES)?, start: self.after("start", START)? })
    }

    fn queue(&mut self) -> Result<Queue<'t>, Wrong> {
        let messages = self.after("messages", MESSAGES)?;
        if !self.is_next("start") {
            return Ok(Queue { messages, starting: vec![] });
        }
        self.next();
        self.take(":")?;
        Ok(Queue { messages, starting: self.numbers(STARTING)? })
    }

    fn transition(&mut self) -> Result<Transition<'t>, Wrong> {
        let (machine, from, to) = (self.after("machine", MACHINE)?, self.after("from", FROM)?, self.after("to", TO)?);
        Ok(Transition { machine, from, to, does: self.does()? })
    }

    fn does(&mut self) -> Result<Does<'t>, Wrong> {
        match self.next() {
            Some(b"local") => Ok(Does::Local),
            Some(b"send") => {
                let (queue, word) = self.queue_and_word()?;
                Ok(Does::Send { queue, word })
            }
            Some(b"receive") => {
                let (queue, word) = self.queue_and_word()?;
                Ok(Does::Receive { queue, word })
            }
            found => Err(Wrong::NoKind { found: found.map(shown) }),
        }
    }

    fn queue_and_word(&mut self) -> Result<(Number<'t>, Vec<Number<'t>>), Wrong> {
        let queue = self.after("queue", QUEUE)?;
        self.take(":")?;
        Ok((queue, self.numbers(MESSAGE)?))
    }

    fn state(&mut self) -> Result<State<'t>, Wrong> {
        let is_final = self.is_next("final");
        if is_final {
            self.next();
        }
        let mut arcs = vec![];
        while !self.0.is_empty() {
            arcs.push((self.number(ARC_MESSAGE)?, self.after(">", TARGET)?));
        }
        Ok(State { is_final, arcs })
    }

    fn root(&mut self) -> Result<Root<'t>, Wrong> {
        Ok(Root { control: self.number(CONTROL)?, root: self.after("root", ROOT)? })
    }
}
