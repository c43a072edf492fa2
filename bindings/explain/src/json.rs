//! A verdict as a JSON object on one line. docs/COMMANDS.md lists the keys.

use std::ffi::OsStr;
use std::fmt::Write;
use std::os::unix::ffi::OsStrExt;

use swarmbanner::{End, Failure, Kind, Reply, Session, Transition, Way};

use crate::refused::Refused;

/// The object of a file: its name, the line on it, the exit status of that line alone, and what the line says.
pub fn object(name: &OsStr, file: &[u8], line: &str, status: u8, reply: &Reply) -> String {
    let mut object = Object::default();
    object.text("file", &name.to_string_lossy());
    if name.to_str().is_none() {
        object.numbers("file_bytes", name.as_bytes().iter().map(|&byte| byte.into()));
    }
    object
        .text("line", line)
        .text("verdict", line.split(' ').next().unwrap_or_default())
        .number("status", status.into());
    match (reply, swarmbanner::read(file)) {
        (Reply::Refused(refusal), _) => refused(&mut object, &Refused::new(file, *refusal)),
        (Reply::Closed { pairs }, _) => {
            object.number("pairs", *pairs);
        }
        (_, Ok(session)) => failure(&mut object, &session, reply),
        (_, Err(_)) => {}
    }
    object.finish()
}

fn failure(object: &mut Object, session: &Session, reply: &Reply) {
    match Failure::shown(session, reply) {
        Some(Failure::Leaves { before: (control, way), transition, after: (target, after) }) => {
            configuration(object, session, control, &way.contents);
            object.raw("transition", &step(transition, &session.transitions()[transition]));
            let mut then = Object::default();
            configuration(&mut then, session, target, &after.contents);
            object
                .raw("after", &then.finish())
                .number("followed", followed_of(&after))
                .raw("lost", &lost(session, &after));
        }
        Some(Failure::Bad { entry, inside: (control, way), bad }) => {
            object.number("entry", entry);
            configuration(object, session, control, &way.contents);
            object.numbers("inside", states(&way)).numbers("bad", states(&bad));
        }
        None if *reply == Reply::Outside => {
            let (start, waiting) = (session.start(), session.starting());
            configuration(object, session, start, &waiting);
            object.raw("lost", &lost(session, &Way::follow(session, session.root(start), &waiting)));
        }
        None => {}
    }
}

fn configuration(object: &mut Object, session: &Session, control: usize, contents: &[u8]) {
    let machines = session.machine_states(control).unwrap_or_default();
    let queues = session.split(contents).unwrap_or_default();
    let lists: Vec<String> = queues.iter().map(|queue| list(queue.iter().map(|&message| message.into()))).collect();
    object.number("control", control).numbers("machines", machines.into_iter());
    object.numbers("contents", contents.iter().map(|&message| message.into()));
    object.raw("queues", &format!("[{}]", lists.join(",")));
}

fn step(number: usize, transition: &Transition) -> String {
    let Transition { machine, from, to, kind } = transition;
    let mut object = Object::default();
    object.number("number", number).number("machine", *machine).number("from", *from).number("to", *to);
    let (name, touched) = match kind {
        Kind::Local => ("local", None),
        Kind::Send { queue, word } => ("send", Some((queue, word))),
        Kind::Receive { queue, word } => ("receive", Some((queue, word))),
    };
    object.text("kind", name);
    if let Some((queue, word)) = touched {
        object.number("queue", *queue).numbers("word", word.iter().map(|&message| message.into()));
    }
    object.finish()
}

fn states(way: &Way) -> impl Iterator<Item = usize> + '_ {
    way.states.iter().map(|state| state.index())
}

/// How many messages of its contents a way takes.
fn followed_of(way: &Way) -> usize {
    way.states.len().saturating_sub(1)
}

/// Where a diagram loses contents: how many messages it read, the states it was in, and what it lacked.
fn lost(session: &Session, way: &Way) -> String {
    let mut object = Object::default();
    let why = match way.end {
        End::Nowhere if way.states.is_empty() => "no root",
        End::Nowhere => "no arc",
        End::NotFinal => "not final",
        End::Final => "not lost",
    };
    object.text("why", why).number("read", followed_of(way)).numbers("states", states(way));
    if let Some((_, message)) = way.lost() {
        object.number("message", message.into());
        if let Some(queue) = session.queue_of(message) {
            object.number("queue", queue);
        }
    }
    object.finish()
}

fn refused(object: &mut Object, refused: &Refused) {
    object.number("number", refused.refusal.number.into()).number("place", refused.refusal.place);
    object.text("cause", refused.refusal.cause());
    if let Some(field) = refused.field {
        object.number("field", field.into());
    }
    object.text("what", &refused.what).numbers("stands", refused.stands.iter().map(|&byte| byte.into()));
    if let Some((least, most)) = refused.allowed {
        object.numbers("allowed", [least, most].into_iter());
    }
}

fn list(numbers: impl Iterator<Item = usize>) -> String {
    format!("[{}]", numbers.map(|number| number.to_string()).collect::<Vec<_>>().join(","))
}

/// An object as it is written.
#[derive(Default)]
struct Object(String);

impl Object {
    /// A key with a value that is JSON already.
    fn raw(&mut self, key: &str, value: &str) -> &mut Self {
        let comma = if self.0.is_empty() { "" } else { "," };
        write!(self.0, "{comma}{}:{value}", quoted(key)).expect("a string takes what is written");
        self
    }

    fn text(&mut self, key: &str, value: &str) -> &mut Self {
        self.raw(key, &quoted(value))
    }

    fn number(&mut self, key: &str, value: usize) -> &mut Self {
        self.raw(key, &value.to_string())
    }

    fn numbers(&mut self, key: &str, values: impl Iterator<Item = usize>) -> &mut Self {
        self.raw(key, &list(values))
    }

    fn finish(&self) -> String {
        format!("{{{}}}", self.0)
    }
}

fn quoted(text: &str) -> String {
    let mut quoted = String::from("\"");
    for letter in text.chars() {
        match letter {
            '"' | '\\' => quoted.extend(['\\', letter]),
            letter if letter < ' ' || letter == '\u{7f}' => {
                write!(quoted, "\\u{:04x}", u32::from(letter)).expect("a string takes what is written");
            }
            letter => quoted.push(letter),
        }
    }
    quoted.push('"');
    quoted
}
