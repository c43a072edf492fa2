//! A session that is typed as lines (docs/COMMANDS.md, "As lines"), as [`lines`](crate::lines) prints them.
//!
//! First each line by itself is made an item, then the items are held to each other, in the order of a file: a line may refer to one
//! that comes after it.

mod fault;
mod item;

use std::ops::RangeInclusive;

use swarmbanner::lent::{
    BAD_ENTRIES_MOST, CONTROL_STATES_MOST, MACHINES_MOST, MESSAGES_MOST, POOL_STATES_MOST, QUEUES_MOST, STARTING_MOST,
    TRANSITIONS_MOST, WORD_MOST,
};
use swarmbanner::{BadEntry, DiagramState, Kind, Machine, Session, Transition};

use crate::fields::STATES_MOST;
use crate::order::{Diagrams, Owner};
use crate::words::several;

pub use fault::{Fault, Wrong};
use item::{Does, Item, Number};

/// A session that was typed, and the lines that its roots stand on.
#[derive(Clone, Debug, PartialEq, Eq)]
pub struct Typed {
    /// The session.
    pub session: Session,
    /// For each control state that has a root, its line.
    roots: Vec<Option<usize>>,
    /// The line of each bad entry.
    bad_entries: Vec<usize>,
    /// The last line of the text.
    last: usize,
}

impl Typed {
    /// Reads lines. The first fault is told: of the words of the lines first, then of how many there are of a kind, then of what they
    /// say together, in the order of a file.
    ///
    /// ```
    /// use swarmbanner_explain::Typed;
    ///
    /// let typed = Typed::parse(b"machine states 1 start 0\nqueue messages 1\nstate final 0>0\ncontrol 0 root 0").unwrap();
    /// assert_eq!(typed.write().unwrap(), [1, 1, 0, 1, 1, 0, 1, 1, 1, 0, 0, 1, 0]);
    /// let fault = Typed::parse(b"machine states 1\n").unwrap_err();
    /// assert_eq!(fault.to_string(), "1: the line ends where \"start\" is wanted");
    /// ```
    pub fn parse(text: &[u8]) -> Result<Self, Fault> {
        let items = Items::of(text)?;
        let mut typed = items.frame()?;
        items.queues.iter().enumerate().try_for_each(|(queue, line)| typed.set_starting(queue, line))?;
        items.transitions.iter().try_for_each(|line| typed.add_transition(line))?;
        items.add_pool(&mut typed)?;
        items.roots.iter().try_for_each(|line| typed.add_root(line))?;
        items.bad_entries.iter().try_for_each(|line| typed.add_bad_entry(line))?;
        Ok(typed)
    }

    /// The session file that says the same. Everything is within its range, so a refusal is for a word out of queue order: the
    /// fault is then of the line that gives the root.
    pub fn write(&self) -> Result<Vec<u8>, Fault> {
        self.session.write().map_err(|refusal| match Diagrams::of(&self.session).disorder() {
            Some(disorder) => Fault { line: self.line_of(disorder.owner), wrong: Wrong::OutOfOrder(disorder) },
            None => Fault { line: self.last, wrong: Wrong::Refused(refusal) },
        })
    }

    fn line_of(&self, owner: Owner) -> usize {
        let line = match owner {
            Owner::Control(control) => self.roots.get(control).copied().flatten(),
            Owner::Bad(entry) => self.bad_entries.get(entry).copied(),
        };
        line.unwrap_or(self.last)
    }
}

/// The items of a text by their kinds, each with the number of its line.
#[derive(Default)]
struct Items<'t> {
    machines: Vec<(usize, item::Machine<'t>)>,
    queues: Vec<(usize, item::Queue<'t>)>,
    transitions: Vec<(usize, item::Transition<'t>)>,
    states: Vec<(usize, item::State<'t>)>,
    roots: Vec<(usize, item::Root<'t>)>,
    bad_entries: Vec<(usize, item::Root<'t>)>,
    /// The last line, where what is missing is missed.
    last: usize,
}

impl<'t> Items<'t> {
    fn of(text: &'t [u8]) -> Result<Self, Fault> {
        let mut items = Items::default();
        let whole = text.strip_suffix(b"\n").unwrap_or(text);
        for (content, line) in whole.split(|&byte| byte == b'\n').zip(1..) {
            items.last = line;
            if let Some(item) = Item::of(content).map_err(at(line))? {
                items.take(line, item);
            }
        }
        Ok(items)
    }

    fn take(&mut self, line: usize, item: Item<'t>) {
        match item {
            Item::Machine(machine) => self.machines.push((line, machine)),
            Item::Queue(queue) => self.queues.push((line, queue)),
            Item::Transition(transition) => self.transitions.push((line, transition)),
            Item::State(state) => self.states.push((line, state)),
            Item::Root(root) => self.roots.push((line, root)),
            Item::Bad(entry) => self.bad_entries.push((line, entry)),
        }
    }

    /// A session of the machines and of queues that start empty, which has nothing else yet.
    fn frame(&self) -> Result<Typed, Fault> {
        self.counts()?;
        let machines = self.machines()?;
        let session = Session::new(&machines, &self.messages()?).expect("machines and queues are within their ranges");
        let roots = vec![None; session.control_states()];
        Ok(Typed { session, roots, bad_entries: vec![], last: self.last })
    }

    /// As many items of each kind as a session may have.
    fn counts(&self) -> Result<(), Fault> {
        self.count(&self.machines, "machine", 1..=MACHINES_MOST)?;
        self.count(&self.queues, "queue", 1..=QUEUES_MOST)?;
        self.count(&self.transitions, "transition", 0..=TRANSITIONS_MOST)?;
        self.count(&self.states, "state", 1..=POOL_STATES_MOST)?;
        self.count(&self.bad_entries, "bad entry", 0..=BAD_ENTRIES_MOST)
    }

    fn count<T>(&self, lines: &[(usize, T)], item: &'static str, range: RangeInclusive<usize>) -> Result<(), Fault> {
        let (least, most) = range.into_inner();
        if let Some(&(line, _)) = lines.get(most) {
            return Err(Fault { line, wrong: Wrong::TooMany { item, least, most } });
        }
        if lines.len() < least {
            return Err(Fault { line: self.last, wrong: Wrong::TooFew { item, least, most } });
        }
        Ok(())
    }

    /// The machines, with up to 256 control states together.
    fn machines(&self) -> Result<Vec<Machine>, Fault> {
        let mut product = 1;
        let machines = self.machines.iter().map(|(line, machine)| {
            let why = (product > STATES_MOST).then(|| {
                format!("the product of the states is {product} before it and may be {CONTROL_STATES_MOST} with it")
            });
            let most = STATES_MOST.min(CONTROL_STATES_MOST / product);
            let states = within(machine.states, item::STATES, 1..=most, why).map_err(at(*line))?;
            let start = below(machine.start, item::START, states, None).map_err(at(*line))?;
            product *= states;
            Ok(Machine { states, start })
        });
        machines.collect()
    }

    /// The messages of each queue, up to 32 together.
    fn messages(&self) -> Result<Vec<usize>, Fault> {
        let mut sum = 0;
        let queues = self.queues.iter().map(|(line, queue)| {
            let why = (sum > 0).then(|| {
                let before = several(sum, "message");
                format!("the queues before it have {before}, and all together may have {MESSAGES_MOST}")
            });
            let messages = within(queue.messages, item::MESSAGES, 1..=MESSAGES_MOST - sum, why).map_err(at(*line))?;
            sum += messages;
            Ok(messages)
        });
        queues.collect()
    }

    /// All states before the first arc, as an arc may lead to a later one.
    fn add_pool(&self, typed: &mut Typed) -> Result<(), Fault> {
        let session = &mut typed.session;
        for (number, (_, state)) in self.states.iter().enumerate() {
            // A new session has the first state.
            let known = session.state(number).map_or_else(|| session.add_state(false), Ok);
            let added = known.and_then(|added| session.set_final(added, state.is_final));
            added.expect("a session may have so many states");
        }
        self.states.iter().enumerate().try_for_each(|(number, (line, state))| {
            let from = typed.session.state(number).expect("the state was added");
            state.arcs.iter().try_for_each(|&arc| typed.add_arc(from, arc)).map_err(at(*line))
        })
    }
}

/// A fault of a line.
fn at(line: usize) -> impl Fn(Wrong) -> Fault {
    move |wrong| Fault { line, wrong }
}

/// A number within its range.
fn within(
    number: Number,
    what: &'static str,
    range: RangeInclusive<usize>,
    why: Option<String>,
) -> Result<usize, Wrong> {
    if range.contains(&number.value) {
        return Ok(number.value);
    }
    let (least, most) = range.into_inner();
    Err(Wrong::Range { what, number: number.shown(), allowed: (least <= most).then_some((least, most)), why })
}

/// A number below a count, which is not 0.
fn below(number: Number, what: &'static str, count: usize, why: Option<String>) -> Result<usize, Wrong> {
    within(number, what, 0..=count - 1, why)
}

/// Adding what lines say to the session.
impl Typed {
    fn set_starting(&mut self, queue: usize, (line, typed): &(usize, item::Queue)) -> Result<(), Fault> {
        let starting = self.starting(queue, &typed.starting).map_err(at(*line))?;
        self.session.set_starting(queue, &starting).expect("the queue can start with these messages");
        Ok(())
    }

    /// Up to eight messages of a queue.
    fn starting(&self, queue: usize, messages: &[Number]) -> Result<Vec<u8>, Wrong> {
        if messages.len() > STARTING_MOST {
            return Err(Wrong::StartingLength { length: messages.len() });
        }
        self.messages(queue, messages, item::STARTING)
    }

    fn add_transition(&mut self, (line, typed): &(usize, item::Transition)) -> Result<(), Fault> {
        let transition = self.transition(typed).map_err(at(*line))?;
        self.session.add_transition(transition).expect("the transition is within its ranges");
        Ok(())
    }

    fn transition(&self, typed: &item::Transition) -> Result<Transition, Wrong> {
        let machine = below(typed.machine, item::MACHINE, self.session.machines().len(), None)?;
        let states = self.session.machines()[machine].states;
        let why = || Some(format!("these are the states of machine {machine}"));
        let from = below(typed.from, item::FROM, states, why())?;
        let to = below(typed.to, item::TO, states, why())?;
        let kind = match &typed.does {
            Does::Local => Kind::Local,
            Does::Send { queue, word } => {
                let (queue, word) = self.word(*queue, word)?;
                Kind::Send { queue, word }
            }
            Does::Receive { queue, word } => {
                let (queue, word) = self.word(*queue, word)?;
                Kind::Receive { queue, word }
            }
        };
        Ok(Transition { machine, from, to, kind })
    }

    /// A queue and up to sixteen of its messages.
    fn word(&self, queue: Number, word: &[Number]) -> Result<(usize, Vec<u8>), Wrong> {
        let queue = below(queue, item::QUEUE, self.session.queues().len(), None)?;
        if word.len() > WORD_MOST {
            return Err(Wrong::WordLength { length: word.len() });
        }
        Ok((queue, self.messages(queue, word, item::MESSAGE)?))
    }

    /// Messages of a queue.
    fn messages(&self, queue: usize, messages: &[Number], what: &'static str) -> Result<Vec<u8>, Wrong> {
        let message = |&message: &Number| {
            let message = self.message(message, what)?;
            match self.session.queue_of(message) {
                Some(of) if of != queue => {
                    let own = self.session.queues()[queue].clone();
                    Err(Wrong::OtherQueue { message, of, queue, own })
                }
                _ => Ok(message),
            }
        };
        messages.iter().map(message).collect()
    }

    fn message(&self, message: Number, what: &'static str) -> Result<u8, Wrong> {
        let count = self.session.queues().last().map_or(0, |queue| queue.messages.end);
        below(message, what, count.into(), None).map(|message| message as u8)
    }

    fn state(&self, state: Number, what: &'static str) -> Result<DiagramState, Wrong> {
        let number = below(state, what, self.session.pool().len(), None)?;
        Ok(self.session.state(number).expect("the state is one of the pool"))
    }

    fn add_arc(&mut self, from: DiagramState, (message, target): (Number, Number)) -> Result<(), Wrong> {
        let message = self.message(message, item::ARC_MESSAGE)?;
        let target = self.state(target, item::TARGET)?;
        match self.session.set_arc(from, message, target).expect("the arc is within its ranges") {
            Some(_) => Err(Wrong::ArcTwice { message }),
            None => Ok(()),
        }
    }

    fn add_root(&mut self, (line, typed): &(usize, item::Root)) -> Result<(), Fault> {
        let BadEntry { control, root } = self.rooted(typed).map_err(at(*line))?;
        if let Some(before) = self.roots[control].replace(*line) {
            return Err(Fault { line: *line, wrong: Wrong::RootTwice { control, before } });
        }
        self.session.set_root(control, Some(root)).expect("the root is within its range");
        Ok(())
    }

    fn add_bad_entry(&mut self, (line, typed): &(usize, item::Root)) -> Result<(), Fault> {
        let entry = self.rooted(typed).map_err(at(*line))?;
        self.session.add_bad_entry(entry).expect("the bad entry is within its ranges");
        self.bad_entries.push(*line);
        Ok(())
    }

    /// A control state with a root, of the map or of a bad entry.
    fn rooted(&self, typed: &item::Root) -> Result<BadEntry, Wrong> {
        let control = below(typed.control, item::CONTROL, self.session.control_states(), None)?;
        Ok(BadEntry { control, root: self.state(typed.root, item::ROOT)? })
    }
}
