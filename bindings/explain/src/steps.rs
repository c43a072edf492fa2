//! A replay in words, step by step.
//!
//! The steps are taken here, in plain Rust and over the tables that the library read, since each has its own line and a library
//! call for each beginning of the trace would replay it anew. What they lead to is held to what the proved library replied to
//! the whole trace: how it ended, the state of each machine and every message. Where the two should differ nothing is said. How far
//! the set follows what waits at the end is the library's number, and is not found here.

use std::collections::VecDeque;

use swarmbanner::lent::QUEUE_LEAST;
use swarmbanner::{Configuration, Kind, Refusal, Replayed, Session, Transition, Way};

use crate::fields::number_at;
use crate::trace::Trace;
use crate::words::{followed, machines_in, numbers, set_of, several, step};

/// A queue of more messages is shown by both of its ends.
const MESSAGES_SHOWN: usize = 16;

/// The lines that say what a replay did: the start, each step with the queues after it, and why it ended.
///
/// # Errors
///
/// Fails, with both answers, where the steps lead to something else than the library replied.
pub fn stepped(
    session: &Session,
    trace: &Trace,
    replayed: &Replayed,
    last: &Configuration<'_>,
) -> Result<Vec<String>, String> {
    let mut run = Run::start(session);
    let mut lines = vec![format!("start: {}; {}", machines_in(&run.states), run.queues())];
    let (mut place, mut steps) = (0, 0);
    let ended = loop {
        if !run.is_inside() {
            break Replayed::Outside { steps, followed: followed_in(replayed) };
        }
        if place == trace.bytes.len() {
            break Replayed::End { steps };
        }
        match run.turn(&trace.bytes, place) {
            Ok((number, next)) => {
                place = next;
                steps += 1;
                let did = step(&session.transitions()[number]);
                lines.push(format!("step {steps}: transition {number}: {did}; {}", run.queues()));
            }
            Err(refusal) => break Replayed::Refused { refusal, steps },
        }
    };
    if ended != *replayed {
        return Err(format!("the library says \"{replayed}\", its steps lead to \"{ended}\""));
    }
    if !run.is_at(last) {
        return Err(format!("the library says \"{replayed}\" at other states or queues than its steps lead to"));
    }
    let Some(ending) = run.ending(trace, place, &ended) else {
        return Err(format!("the library says \"{replayed}\", and the tables of the file have no such way"));
    };
    lines.extend(ending);
    Ok(lines)
}

/// How far what waits is followed, as the library says; 0 where it does not.
fn followed_in(replayed: &Replayed) -> usize {
    match replayed {
        Replayed::Outside { followed, .. } => *followed,
        _ => 0,
    }
}

/// A run that goes on.
struct Run<'s> {
    session: &'s Session,
    states: Vec<usize>,
    queues: Vec<VecDeque<u8>>,
}

impl<'s> Run<'s> {
    fn start(session: &'s Session) -> Self {
        Run {
            session,
            states: session.machines().iter().map(|machine| machine.start).collect(),
            queues: session.queues().iter().map(|queue| queue.starting.iter().copied().collect()).collect(),
        }
    }

    fn control(&self) -> usize {
        self.session.control_of(&self.states).expect("transitions lead to states of their machines")
    }

    fn contents(&self) -> Vec<u8> {
        self.queues.iter().flatten().copied().collect()
    }

    fn is_at(&self, configuration: &Configuration<'_>) -> bool {
        let queues = self.queues.iter().map(|queue| queue.iter());
        self.states == configuration.states
            && queues.len() == configuration.queues.len()
            && queues.zip(&configuration.queues).all(|(messages, other)| messages.eq(*other))
    }

    fn is_inside(&self) -> bool {
        let Some(root) = self.session.root(self.control()) else { return false };
        let mut contents = self.queues.iter().flatten();
        let reached = contents.try_fold(root, |state, &message| self.session.arc(state, message));
        reached.is_some_and(|state| self.session.is_final(state))
    }

    /// Reads the number at a place and takes its step: the number, and the place after it.
    fn turn(&mut self, trace: &[u8], place: usize) -> Result<(usize, usize), Refusal> {
        let refused = |number| Refusal { number, place };
        let Some((number, bytes)) = number_at(trace, place) else {
            return Err(Refusal { number: 3, place: trace.len() });
        };
        // two bytes, of which the second is 0 or announces a third
        if bytes == 2 && !(1..128).contains(&trace[place + 1]) {
            return Err(refused(4));
        }
        let session = self.session;
        let transition = session.transitions().get(number).ok_or(refused(5))?;
        if self.obstacle(transition).is_some() {
            return Err(refused(14));
        }
        if self.overflow(transition).is_some() {
            return Err(refused(15));
        }
        self.take(transition);
        Ok((number, place + bytes))
    }

    /// Why a transition is not possible, in words.
    fn obstacle(&self, transition: &Transition) -> Option<String> {
        let state = self.states[transition.machine];
        if state != transition.from {
            return Some(format!("machine {} is in state {state}", transition.machine));
        }
        let Kind::Receive { queue, word } = &transition.kind else { return None };
        let front: Vec<u8> = self.queues[*queue].iter().take(word.len()).copied().collect();
        match front.len() {
            _ if front == *word => None,
            0 => Some(format!("queue {queue} is empty")),
            length if length < word.len() => Some(format!("queue {queue} holds {} alone", numbers(&front))),
            _ => Some(format!("queue {queue} begins with {}", numbers(&front))),
        }
    }

    /// Why there is no room for what a transition sends, in words.
    fn overflow(&self, transition: &Transition) -> Option<String> {
        let Kind::Send { queue, word } = &transition.kind else { return None };
        let waiting = self.queues[*queue].len();
        let passes = waiting + word.len() > QUEUE_LEAST;
        passes.then(|| {
            let more = several(word.len(), "message");
            format!("queue {queue} holds {waiting}, and with {more} more it would pass {QUEUE_LEAST}")
        })
    }

    fn take(&mut self, transition: &Transition) {
        self.states[transition.machine] = transition.to;
        match &transition.kind {
            Kind::Local => {}
            Kind::Send { queue, word } => self.queues[*queue].extend(word),
            Kind::Receive { queue, word } => drop(self.queues[*queue].drain(..word.len())),
        }
    }

    /// What waits in each queue; and where that is listed as bad, by which entry.
    fn queues(&self) -> String {
        let queues =
            self.queues.iter().zip(0..).map(|(messages, queue)| format!("queue {queue}: {}", waiting(messages)));
        let bad = self.bad().into_iter().map(|(entry, _)| format!("listed as bad by entry {entry}"));
        queues.chain(bad).collect::<Vec<_>>().join("; ")
    }

    /// The bad entries that list the configuration, and the way through the diagram of each.
    fn bad(&self) -> Vec<(usize, Way)> {
        let control = self.control();
        let entries = self.session.bad_entries().iter().zip(0..).filter(|(entry, _)| entry.control == control);
        let ways =
            entries.map(|(entry, number)| (number, Way::follow(self.session, Some(entry.root), &self.contents())));
        ways.filter(|(_, way)| way.end == swarmbanner::End::Final).collect()
    }

    /// What the last configuration is, and why it is the last; none where it is not followed as far as the end says.
    fn ending(&self, trace: &Trace, place: usize, ended: &Replayed) -> Option<Vec<String>> {
        let (control, contents) = (self.control(), self.contents());
        let (is_inside, taken) = match ended {
            Replayed::Outside { followed, .. } => (false, *followed),
            _ => (true, contents.len()),
        };
        let way = Way::followed(self.session, self.session.root(control), &contents, taken)?;
        let judged = followed(self.session, &set_of(control), &way);
        let mut lines: Vec<String> = is_inside.then(|| format!("inside: {judged}")).into_iter().collect();
        for (entry, way) in self.bad() {
            lines.push(format!("bad: {}", followed(self.session, &format!("the diagram of bad entry {entry}"), &way)));
        }
        lines.push(match ended {
            Replayed::Outside { .. } => format!("outside: {judged}"),
            Replayed::Refused { refusal, steps } => self.refused(trace, place, *refusal, *steps),
            _ => "end: the trace has no more numbers".to_string(),
        });
        Some(lines)
    }

    fn refused(&self, trace: &Trace, place: usize, refusal: Refusal, steps: usize) -> String {
        let typed = trace.line_of(steps).map_or(String::new(), |line| format!(" (line {line} of the text)"));
        let found = number_at(&trace.bytes, place);
        let bytes = trace.bytes[place..].iter().take(found.map_or(1, |(_, bytes)| bytes));
        let stands = bytes.map(|byte| format!("{byte:02x}")).collect::<Vec<_>>().join(" ");
        let transition = found.and_then(|(number, _)| Some((number, self.session.transitions().get(number)?)));
        let why = match (refusal.number, transition) {
            (3, _) => format!("byte {place} is {stands} (hex), which announces another, and the trace ends"),
            (4, _) => format!(
                "bytes {place} and {} are {stands} (hex), but a number has one byte up to 127, else two of which the second is 1 \
                 to 127",
                place + 1
            ),
            (_, Some((number, transition))) => {
                let but = self.obstacle(transition).or(self.overflow(transition)).unwrap_or_default();
                format!("transition {number}: {}; but {but}", step(transition))
            }
            _ => {
                let number = found.map_or(0, |(number, _)| number);
                format!("{number} is no transition, as {}", transitions_of(self.session))
            }
        };
        format!("refused: step {}{typed}: {why}", steps + 1)
    }
}

fn transitions_of(session: &Session) -> String {
    match session.transitions().len() {
        0 => "the file has none".to_string(),
        1 => "the file has transition 0 alone".to_string(),
        count => format!("the file has transitions 0 to {}", count - 1),
    }
}

/// Messages as they wait; where they are many, the first and the last of them.
fn waiting(messages: &VecDeque<u8>) -> String {
    let part = |from: usize, to: usize| numbers(&messages.range(from..to).copied().collect::<Vec<_>>());
    match messages.len() {
        0 => "-".to_string(),
        length if length <= MESSAGES_SHOWN => part(0, length),
        length => {
            let half = MESSAGES_SHOWN / 2;
            format!("{} .. {} ({length} messages)", part(0, half), part(length - half, length))
        }
    }
}
