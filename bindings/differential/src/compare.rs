//! One file and one text: all six calls, with lengths and dirt chosen for them, beside the reference.

use reference_checker::membership::{membership, Member};
use reference_checker::random::Random;
use reference_checker::read::{read, Refusal, Tables, LONGEST_FILE, MESSAGES, QUEUES};
use reference_checker::replay::{replay, Answer, Lent as Replaying, Record, Reply as Replayed};
use reference_checker::verdict::{line, Reply, Verdict};
use reference_checker::walk::{check_tables, Scratch};
use swarmbanner::lent::{self, CONTENTS_LEAST, QUEUE_LEAST, RECORD_LEAST, REPLY_LEAST, SPACE_LEAST, TABLE_LEAST};
use swarmbanner::{Checker, Replayer};

use crate::drawing::Drawer;
use crate::flat::flat;
use crate::lend::Lent;
use crate::tally::Tally;
use crate::texts::text;
use crate::traces::trace;
use crate::typed::{same_membership, same_run, same_session};
use crate::writing::Writer;

/// Most entries that are lent beyond the least.
pub const MORE: usize = 70;
/// Most bytes of queue memory that are lent.
pub const MEMORY_MOST: usize = 2 * QUEUES * QUEUE_LEAST;
/// More of a trace is not shown in a complaint.
const TRACE_SHOWN: usize = 400;
/// One file in so many goes through the typed calls as well.
pub const TYPED: usize = 4;

pub struct Comparer {
    space: Lent<u8>,
    seen: Lent<u16>,
    queue: Lent<u16>,
    contents: Lent<u8>,
    memory: Lent<u8>,
    record: Lent<usize>,
    reply: Lent<usize>,
    checker: Checker,
    replayer: Replayer,
    writer: Writer,
    drawer: Drawer,
    scratch: Scratch,
    pub tally: Tally,
}

/// A kind and the numbers that go with it.
pub type Told = (usize, [usize; REPLY_LEAST]);

pub fn refused(refusal: &Refusal) -> Told {
    (lent::REFUSED, [usize::from(refusal.number), refusal.place, 0, 0])
}

fn told(reply: &Reply) -> Told {
    match reply {
        Ok(Verdict::Closed { pairs }) => (lent::CLOSED, [*pairs as usize, 0, 0, 0]),
        Ok(Verdict::Outside) => (lent::OUTSIDE, [0; REPLY_LEAST]),
        Ok(Verdict::Leaves { control_state, transition, contents, far }) => {
            (lent::LEAVES, [*control_state, *transition, contents.len(), *far])
        }
        Ok(Verdict::Bad { entry, contents }) => (lent::BAD, [*entry, contents.len(), 0, 0]),
        Err(refusal) => refused(refusal),
    }
}

fn told_of_replay(reply: &Replayed) -> Told {
    let numbers = |refusal: &Refusal, steps| [usize::from(refusal.number), refusal.place, steps, 0];
    match reply {
        Replayed::End { steps } => (lent::END, [*steps, 0, 0, 0]),
        Replayed::Outside { steps, far } => (lent::LEFT, [*steps, *far, 0, 0]),
        Replayed::StepRefused { refusal, steps } => (lent::STEP_REFUSED, numbers(refusal, *steps)),
        Replayed::FileRefused(refusal) => (lent::REFUSED, numbers(refusal, 0)),
        Replayed::TraceRefused(refusal) => (lent::TRACE_REFUSED, numbers(refusal, 0)),
        Replayed::MemoryRefused(refusal) => (lent::MEMORY_REFUSED, numbers(refusal, 0)),
    }
}

fn shown(reply: &Reply) -> &[u8] {
    match reply {
        Ok(Verdict::Leaves { contents, .. } | Verdict::Bad { contents, .. }) => contents,
        _ => &[],
    }
}

pub fn demand(holds: bool, what: &str) -> Result<(), String> {
    if holds {
        Ok(())
    } else {
        Err(what.to_string())
    }
}

/// The least or a little more, and now and then too little.
pub fn length(random: &mut Random, least: usize) -> usize {
    match random.below(50) {
        0 => least - 1,
        1 => random.below(least),
        2..15 => least,
        _ => random.between(least, least + MORE),
    }
}

impl Comparer {
    pub fn new() -> Self {
        let mut random = Random::new(77);
        // No entry is 0, so that one set to 0 is seen.
        Comparer {
            space: Lent::new(SPACE_LEAST + MORE, || random.between(1, 255) as u8),
            seen: Lent::new(TABLE_LEAST + MORE, || random.between(1, 65_535) as u16),
            queue: Lent::new(TABLE_LEAST + MORE, || random.between(1, 65_535) as u16),
            contents: Lent::new(CONTENTS_LEAST + MORE, || random.between(1, 255) as u8),
            memory: Lent::new(MEMORY_MOST, || random.between(1, 255) as u8),
            record: Lent::new(RECORD_LEAST + MORE, || random.between(1, usize::MAX - 1)),
            reply: Lent::new(REPLY_LEAST + MORE, || random.between(1, usize::MAX - 1)),
            checker: Checker::new(),
            replayer: Replayer::new(),
            writer: Writer::new(&mut random),
            drawer: Drawer::new(&mut random),
            scratch: Scratch::default(),
            tally: Tally::default(),
        }
    }

    /// Every call on a file, and a text to draw; `check` is left out for files that take too long.
    pub fn compare(&mut self, file: &[u8], random: &mut Random, checks: bool) -> Result<(), String> {
        let tables = read(file);
        self.compare_reading(file, &tables, random)?;
        self.writer.compare(file, &tables, random, &mut self.tally)?;
        for _ in 0..2 {
            self.compare_membership(file, &tables, random)?;
        }
        let is_typed = random.below(TYPED) == 0;
        if is_typed {
            compare_session(file, &tables)?;
        }
        let steps = trace(tables.as_ref().ok(), random);
        let queues = tables.as_ref().map_or_else(|_| random.between(1, QUEUES), |tables| tables.queue_count);
        let memory_length = length(random, queues * QUEUE_LEAST);
        self.compare_replaying(file, &steps, memory_length, random)?;
        if checks {
            let reply = match &tables {
                Ok(tables) => Ok(check_tables(tables, &mut self.scratch)),
                Err(refusal) => Err(*refusal),
            };
            self.compare_checking(file, tables.as_ref().ok(), &reply, random)?;
            if is_typed {
                self.compare_typed_checking(file, &reply)?;
            }
        }
        self.compare_drawing(&text(random), random)
    }

    pub fn compare_drawing(&mut self, text: &[u8], random: &mut Random) -> Result<(), String> {
        self.drawer.compare(text, random, &mut self.tally)
    }

    /// What the call put into the front of `reply`, and that the rest is as it was.
    fn reply(&self, kind: usize, call: &str) -> Result<Told, String> {
        demand(self.reply.kept_from(REPLY_LEAST), &format!("{call}: the reply's rest has changed"))?;
        let numbers = &self.reply.now()[..REPLY_LEAST];
        Ok((kind, numbers.try_into().expect("a reply has four numbers")))
    }

    fn compare_reading(
        &mut self,
        file: &[u8],
        tables: &Result<Tables, Refusal>,
        random: &mut Random,
    ) -> Result<(), String> {
        let (space_length, reply_length) = (length(random, SPACE_LEAST), length(random, REPLY_LEAST));
        let kind = lent::read(file, self.space.lend(space_length), self.reply.lend(reply_length));
        if space_length < SPACE_LEAST || reply_length < REPLY_LEAST {
            self.tally.count("read: no room");
            demand(kind == lent::NO_ROOM, "read: room was found where there is none")?;
            return demand(self.space.kept() && self.reply.kept(), "read: written to without room");
        }
        let told = self.reply(kind, "read")?;
        match tables {
            Ok(tables) => {
                self.tally.count("read: read");
                self.tally.count_words(tables.used_transitions());
                self.tally.count_start(tables);
                demand(told == (lent::READ, [0; REPLY_LEAST]), &format!("read: told {told:?} of a file that is read"))?;
                demand(self.space.now()[..SPACE_LEAST] == flat(tables), "read: other tables")?;
                demand(self.space.kept_from(SPACE_LEAST), "read: the space's rest has changed")
            }
            Err(refusal) => {
                self.tally.count(&format!("read: refused {}", refusal.number));
                demand(told == refused(refusal), &format!("read: told {told:?}, the reference {refusal}"))?;
                demand(self.space.kept(), "read: the space has changed after a refusal")
            }
        }
    }

    fn compare_membership(
        &mut self,
        file: &[u8],
        tables: &Result<Tables, Refusal>,
        random: &mut Random,
    ) -> Result<(), String> {
        let (control, contents) = question(tables.as_ref().ok(), random);
        let reply_length = length(random, REPLY_LEAST);
        let kind = lent::member(file, control, &contents, self.reply.lend(reply_length));
        if reply_length < REPLY_LEAST {
            self.tally.count("member: no room");
            return demand(kind == lent::NO_ROOM && self.reply.kept(), "member: written to without room");
        }
        let expected = membership(file, control, &contents);
        let expected_told = match &expected {
            Ok(Member { belongs: true, far }) => (lent::YES, [*far, 0, 0, 0]),
            Ok(Member { belongs: false, far }) => (lent::NO, [*far, 0, 0, 0]),
            Err(refusal) => refused(refusal),
        };
        let told = self.reply(kind, "member")?;
        self.tally.count(&match &expected {
            Ok(Member { belongs: true, .. }) => "member: yes".to_string(),
            Ok(Member { belongs: false, .. }) => "member: no".to_string(),
            Err(refusal) => format!("member: refused {}", refusal.number),
        });
        demand(told == expected_told, &format!("member {control} {contents:?}: told {told:?}, not {expected_told:?}"))?;
        let typed = swarmbanner::membership(file, control, &contents);
        demand(same_membership(&typed, &expected), "member: the typed call says something else")?;
        let is_inside = swarmbanner::member(file, control, &contents);
        demand(is_inside == typed.map(|said| said.is_inside), "member: yes or no is another")?;
        if let (Ok(tables), Ok(Member { belongs: false, far })) = (tables, expected) {
            self.tally.count_lost(tables, control, far, contents.len(), "member");
        }
        Ok(())
    }

    fn compare_checking(
        &mut self,
        file: &[u8],
        tables: Option<&Tables>,
        expected: &Reply,
        random: &mut Random,
    ) -> Result<(), String> {
        let [seen_length, queue_length] = [(); 2].map(|()| length(random, TABLE_LEAST));
        let (contents_length, reply_length) = (length(random, CONTENTS_LEAST), length(random, REPLY_LEAST));
        let kind = lent::check(
            file,
            self.seen.lend(seen_length),
            self.queue.lend(queue_length),
            self.contents.lend(contents_length),
            self.reply.lend(reply_length),
        );
        let memory_kept = self.seen.kept() && self.queue.kept() && self.contents.kept();
        if reply_length < REPLY_LEAST {
            self.tally.count("check: no room");
            return demand(
                kind == lent::NO_ROOM && memory_kept && self.reply.kept(),
                "check: written to without room for a reply",
            );
        }
        let is_short = seen_length < TABLE_LEAST || queue_length < TABLE_LEAST || contents_length < CONTENTS_LEAST;
        let short = Err(Refusal { number: 2, place: 0 });
        let expected = if is_short && file.len() <= LONGEST_FILE { &short } else { expected };
        self.tally.count_reply(expected, tables);
        let told_here = self.reply(kind, "check")?;
        demand(told_here == told(expected), &format!("check: told {told_here:?}, the reference {}", line(expected)))?;
        if expected.is_err() {
            return demand(memory_kept, "check: lent memory has changed after a refusal");
        }
        self.verdict_left(shown(expected))
    }

    /// What a verdict leaves in lent memory.
    fn verdict_left(&self, shown: &[u8]) -> Result<(), String> {
        for (name, table) in [("seen", &self.seen), ("queue", &self.queue)] {
            demand(table.now().iter().all(|&entry| entry == 0), &format!("check: {name} is not 0 all over"))?;
            demand(table.kept_from(table.now().len()), &format!("check: memory around {name} has changed"))?;
        }
        demand(self.contents.now()[..shown.len()] == *shown, "check: other contents are shown")?;
        demand(self.contents.kept_from(shown.len()), "check: the rest of the contents buffer has changed")
    }

    /// A trace on a file, in so much memory.
    pub fn compare_replaying(
        &mut self,
        file: &[u8],
        trace: &[u8],
        memory_length: usize,
        random: &mut Random,
    ) -> Result<(), String> {
        let (record_length, reply_length) = (length(random, RECORD_LEAST), length(random, REPLY_LEAST));
        let kind = lent::replay(
            file,
            trace,
            self.memory.lend(memory_length),
            self.record.lend(record_length),
            self.reply.lend(reply_length),
        );
        let run_kept = self.memory.kept() && self.record.kept();
        if record_length < RECORD_LEAST || reply_length < REPLY_LEAST {
            self.tally.count("replay: no room");
            demand(kind == lent::NO_ROOM, "replay: room was found where there is none")?;
            return demand(run_kept && self.reply.kept(), "replay: written to without room");
        }
        let before = Replaying { record: Record::default(), memory: self.memory.before().to_vec() };
        let expected = replay(file, trace, &before);
        self.tally.count_replay(file, trace, &expected);
        let told_here = self.reply(kind, "replay")?;
        if told_here != told_of_replay(&expected.reply) {
            let begin = &trace[..trace.len().min(TRACE_SHOWN)];
            return Err(format!("replay of {begin:?}..: told {told_here:?}, the reference {}", expected.reply));
        }
        if random.below(TYPED) == 0 {
            let replayed = self.replayer.replay(file, trace);
            demand(same_run(&replayed, &self.replayer, &expected), "replay: the typed call says something else")?;
        }
        match expected.reply {
            Replayed::End { .. } | Replayed::Outside { .. } | Replayed::StepRefused { .. } => self.run_left(&expected),
            _ => demand(run_kept, "replay: record or memory has changed after a refusal"),
        }
    }

    /// What a replay leaves in the record and in queue memory.
    fn run_left(&self, expected: &Answer) -> Result<(), String> {
        let numbers = expected.lent.record.numbers();
        demand(self.record.now()[..RECORD_LEAST].iter().copied().eq(numbers), "replay: another record")?;
        demand(self.record.kept_from(RECORD_LEAST), "replay: the record's rest has changed")?;
        demand(self.memory.now() == expected.lent.memory, "replay: other queue memory")?;
        demand(self.memory.kept_from(self.memory.now().len()), "replay: memory around the queues has changed")
    }

    fn compare_typed_checking(&mut self, file: &[u8], expected: &Reply) -> Result<(), String> {
        let reply = self.checker.check(file);
        demand(reply.to_string() == line(expected), &format!("check: the binding prints {reply}"))?;
        self.tally.count("typed");
        // A witness of the proved library, taken apart by the binding and put to membership.
        if let swarmbanner::Reply::Leaves { control, transition, contents, followed } = reply {
            let session = swarmbanner::read(file).map_err(|refusal| refusal.to_string())?;
            let (target, after) =
                session.step(control, transition, &contents).ok_or("step: the step shown cannot be taken")?;
            let inside = Member { belongs: true, far: contents.len() };
            demand(membership(file, control, &contents) == Ok(inside), "leaves: the contents shown are not inside")?;
            let outside = Member { belongs: false, far: followed };
            demand(membership(file, target, &after) == Ok(outside), "leaves: the step shown is not lost there")?;
        }
        Ok(())
    }
}

fn compare_session(file: &[u8], tables: &Result<Tables, Refusal>) -> Result<(), String> {
    match (swarmbanner::read(file), tables) {
        (Ok(session), Ok(tables)) => {
            demand(same_session(&session, tables), "read: the typed session differs")?;
            demand(session.write().as_deref() == Ok(file), "write: the typed session is not written back")
        }
        (Err(one), Err(other)) => demand(one.to_string() == other.to_string(), "read: the typed refusal differs"),
        _ => Err("read: only one side refuses".to_string()),
    }
}

/// A control state and contents: mostly a way through the diagram, else anything.
fn question(tables: Option<&Tables>, random: &mut Random) -> (usize, Vec<u8>) {
    let Some(tables) = tables else {
        return (random.below(300), vec![random.byte()]);
    };
    let control = match random.below(12) {
        0 => tables.control_state_count + random.below(3),
        1 => random.between(256, usize::MAX - 1),
        _ => random.below(tables.control_state_count),
    };
    let mut contents = way(tables, control, random);
    for _ in 0..random.below(3) {
        let at = random.below(contents.len() + 1);
        match random.below(4) {
            0 => contents.insert(at, random.below(tables.message_sum) as u8),
            1 if at < contents.len() => contents[at] = random.below(tables.message_sum) as u8,
            2 if random.chance(20) => contents.insert(at, random.byte()),
            _ => {}
        }
    }
    (control, contents)
}

/// Messages along arcs from the root.
fn way(tables: &Tables, control: usize, random: &mut Random) -> Vec<u8> {
    let mut contents = Vec::new();
    let Some(&root) = tables.roots.get(control) else { return contents };
    let mut entry = usize::from(root);
    for _ in 0..random.below(9) {
        let Some(state) = entry.checked_sub(1) else { break };
        let row = &tables.arcs[state * MESSAGES..][..MESSAGES];
        let arcs: Vec<u8> = (0..).zip(row).filter(|(_, &entry)| entry > 0).map(|(message, _)| message).collect();
        let Some(&message) = random.pick(&arcs) else { break };
        contents.push(message);
        entry = row[usize::from(message)].into();
    }
    contents
}
