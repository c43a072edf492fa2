//! Wrong replays on purpose. With no trap set, this is another way to replay, in place and message by message. Mistakes about
//! how far contents outside are followed are in `far_traps`.

use crate::read::{read, Kind, Reader, Refusal, Tables, Transition, MESSAGES, QUEUES, WORD_LENGTH};
use crate::replay::{Answer, Lent, Record, Reply, LONGEST_TRACE, QUEUE_ROOM};
use crate::starting::{starting_with, Mistaken};

#[derive(Clone, Copy, Debug, PartialEq, Eq, PartialOrd, Ord)]
pub enum ReplayTrap {
    /// A word is received from the end of its queue.
    ReceiveFromTheBack,
    /// A word is received from the first queue that has messages.
    ReceiveFromTheVeryFront,
    /// A word is put before the messages waiting.
    SendToTheFront,
    /// Of a word to be received, only the first message is compared.
    FirstMessageAsked,
    /// Of a word to be received, messages that lie past the end of their room, at its beginning, are not compared.
    AcrossUncompared,
    /// A word ends after fifteen messages.
    FifteenTaken,
    /// The length of a word is kept in four bits, so that sixteen messages are none.
    SixteenAreNone,
    /// The start is not asked whether it is inside.
    StartPassedOver,
    /// Only the configuration at the end of the trace is asked whether it is inside.
    OutsideAskedAtTheEnd,
    /// At the end of the trace it is not asked.
    EndBeforeOutside,
    /// The next number is refused before it is asked.
    NumberBeforeOutside,
    /// The last machine is most significant.
    LastMachineFirst,
    /// Messages that lie past the end of their room, at its beginning, are not followed.
    AcrossUnasked,
    /// The end of the trace is refused by 3.
    EndIsRefused,
    /// A number in the longer form is read.
    LongerFormRead,
    /// Numbers that are refused by 5 and 14 change nothing, as in a run.
    RefusedPassedOver,
    /// A refused step is counted.
    RefusedStepCounted,
    /// A queue takes 1,023 messages.
    FullQueueRefused,
    /// A queue takes 1,025 messages.
    OneMoreTaken,
    /// All queues together take 1,024 messages.
    RoomShared,
    /// A full queue does not take the empty word.
    NothingRefused,
    /// 15 is asked before 14.
    FullBeforeState,
    /// A step refused for its queue has moved its machine.
    RefusedStepMovesMachine,
    /// A word that is refused has filled the queue as far as it goes.
    RefusedWordFills,
    /// A trace of 16,384 bytes is refused.
    LongestTraceRefused,
    /// A trace of 16,385 bytes is taken.
    OneMoreByteTaken,
    /// Memory of just 1,024 bytes a queue is refused.
    ExactMemoryRefused,
    /// Memory is asked for four queues.
    FourQueuesAsked,
    /// The trace is refused before the file.
    TraceBeforeFile,
    /// The memory is refused before the trace.
    MemoryBeforeTrace,
    /// Where file, trace or memory are refused, what is lent is cleared.
    RefusalClears,
    /// The machines start as the record says.
    StartsAsLent,
    /// The heads are not 0.
    HeadsKept,
    /// The messages stay where they came to lie in a room that is used round and round.
    LeftAsTheyLie,
    /// They do so after a refused step.
    LeftAsTheyLieAfterRefusal,
    /// The byte after the messages is as before the call.
    StaleByte,
    /// All bytes after the messages are.
    RestKept,
    /// Memory past the last queue is cleared.
    PastCleared,
    /// Entries of the record beyond the counts are as before the call.
    BeyondCountsKept,
    /// Where the start is outside, what is lent is as before the call.
    StartLeavesLent,
    /// The queues begin with other messages than those that wait.
    Begins(Mistaken),
    /// They begin with as many messages, which are as they were lent.
    BeginsAsLent,
    /// Messages that wait from the start take no room.
    StartTakesNoRoom,
    /// They take it twice.
    StartTakesRoomTwice,
    /// A word is put before the messages that wait from the start.
    SentBeforeTheStart,
    /// A word is received from behind them.
    ReceivedBehindTheStart,
    /// Where no step is taken, the queues are left empty.
    EmptyWithoutSteps,
}

impl ReplayTrap {
    pub const ALL: [ReplayTrap; 40] = [
        ReplayTrap::ReceiveFromTheBack,
        ReplayTrap::ReceiveFromTheVeryFront,
        ReplayTrap::SendToTheFront,
        ReplayTrap::FirstMessageAsked,
        ReplayTrap::AcrossUncompared,
        ReplayTrap::FifteenTaken,
        ReplayTrap::SixteenAreNone,
        ReplayTrap::StartPassedOver,
        ReplayTrap::OutsideAskedAtTheEnd,
        ReplayTrap::EndBeforeOutside,
        ReplayTrap::NumberBeforeOutside,
        ReplayTrap::LastMachineFirst,
        ReplayTrap::AcrossUnasked,
        ReplayTrap::EndIsRefused,
        ReplayTrap::LongerFormRead,
        ReplayTrap::RefusedPassedOver,
        ReplayTrap::RefusedStepCounted,
        ReplayTrap::FullQueueRefused,
        ReplayTrap::OneMoreTaken,
        ReplayTrap::RoomShared,
        ReplayTrap::NothingRefused,
        ReplayTrap::FullBeforeState,
        ReplayTrap::RefusedStepMovesMachine,
        ReplayTrap::RefusedWordFills,
        ReplayTrap::LongestTraceRefused,
        ReplayTrap::OneMoreByteTaken,
        ReplayTrap::ExactMemoryRefused,
        ReplayTrap::FourQueuesAsked,
        ReplayTrap::TraceBeforeFile,
        ReplayTrap::MemoryBeforeTrace,
        ReplayTrap::RefusalClears,
        ReplayTrap::StartsAsLent,
        ReplayTrap::HeadsKept,
        ReplayTrap::LeftAsTheyLie,
        ReplayTrap::LeftAsTheyLieAfterRefusal,
        ReplayTrap::StaleByte,
        ReplayTrap::RestKept,
        ReplayTrap::PastCleared,
        ReplayTrap::BeyondCountsKept,
        ReplayTrap::StartLeavesLent,
    ];

    /// Mistakes about what waits at the start.
    pub fn of_starting() -> impl Iterator<Item = ReplayTrap> {
        let others = [
            ReplayTrap::BeginsAsLent,
            ReplayTrap::StartTakesNoRoom,
            ReplayTrap::StartTakesRoomTwice,
            ReplayTrap::SentBeforeTheStart,
            ReplayTrap::ReceivedBehindTheStart,
            ReplayTrap::EmptyWithoutSteps,
        ];
        Mistaken::ALL.map(ReplayTrap::Begins).into_iter().chain(others)
    }

    /// Whether a replay tells it only if something waits at the start.
    pub fn is_of_starting(self) -> bool {
        Self::of_starting().any(|trap| trap == self)
    }

    /// Whether a trace of more or less 16,384 bytes is needed to tell it.
    pub fn is_of_long_traces(self) -> bool {
        use ReplayTrap::{LongestTraceRefused, MemoryBeforeTrace, OneMoreByteTaken, TraceBeforeFile};
        matches!(self, LongestTraceRefused | OneMoreByteTaken | TraceBeforeFile | MemoryBeforeTrace)
    }
}

/// Whether a replay tells a mistake of these, by more than how far contents are followed.
pub fn tells(file: &[u8], trace: &[u8], lent: &Lent, answer: &Answer, trap: ReplayTrap) -> bool {
    replay_with(file, trace, lent, Some(trap)).without_far() != answer.without_far()
}

/// The replay with a mistake, or without one.
pub fn replay_with(file: &[u8], trace: &[u8], lent: &Lent, trap: Option<ReplayTrap>) -> Answer {
    let tables = match admit(file, trace, lent.memory.len(), trap) {
        Ok(tables) => tables,
        Err(reply) if trap == Some(ReplayTrap::RefusalClears) => {
            return Answer { reply, lent: Lent { record: Record::default(), memory: vec![0; lent.memory.len()] } };
        }
        Err(reply) => return Answer { reply, lent: lent.clone() },
    };
    let mut run = Run::new(&tables, lent, trap);
    let reply = run.reply(trace);
    if run.is(ReplayTrap::StartLeavesLent) && matches!(reply, Reply::Outside { steps: 0, .. }) {
        return Answer { reply, lent: lent.clone() };
    }
    if let Reply::End { steps: 0 } | Reply::Outside { steps: 0, .. } | Reply::StepRefused { steps: 0, .. } = reply {
        if run.is(ReplayTrap::EmptyWithoutSteps) {
            run.queues.iter_mut().for_each(Vec::clear);
        }
    }
    let is_refused = matches!(reply, Reply::StepRefused { .. });
    Answer { reply, lent: Lent { record: run.record(&lent.record), memory: run.memory(&lent.memory, is_refused) } }
}

fn admit(file: &[u8], trace: &[u8], memory_length: usize, trap: Option<ReplayTrap>) -> Result<Tables, Reply> {
    let is = |other: ReplayTrap| trap == Some(other);
    let longest = match trap {
        Some(ReplayTrap::LongestTraceRefused) => LONGEST_TRACE - 1,
        Some(ReplayTrap::OneMoreByteTaken) => LONGEST_TRACE + 1,
        _ => LONGEST_TRACE,
    };
    let long_trace = Reply::TraceRefused(Refusal { number: 1, place: LONGEST_TRACE });
    let is_long = trace.len() > longest;
    if is_long && is(ReplayTrap::TraceBeforeFile) {
        return Err(long_trace);
    }
    let tables = read(file).map_err(Reply::FileRefused)?;
    let queues = if is(ReplayTrap::FourQueuesAsked) { QUEUES } else { tables.queue_count };
    let least = queues * QUEUE_ROOM + usize::from(is(ReplayTrap::ExactMemoryRefused));
    let is_short = memory_length < least;
    if is_long && !(is_short && is(ReplayTrap::MemoryBeforeTrace)) {
        return Err(long_trace);
    }
    if is_short {
        return Err(Reply::MemoryRefused(Refusal { number: 2, place: 0 }));
    }
    Ok(tables)
}

struct Run<'t> {
    tables: &'t Tables,
    trap: Option<ReplayTrap>,
    states: Vec<usize>,
    queues: Vec<Vec<u8>>,
    /// Of these messages in each queue, how many wait from the start.
    from_start: Vec<usize>,
    /// Messages received from each queue.
    received: Vec<usize>,
}

impl<'t> Run<'t> {
    fn new(tables: &'t Tables, lent: &Lent, trap: Option<ReplayTrap>) -> Self {
        let states = (0..tables.machine_count).map(|machine| {
            if trap == Some(ReplayTrap::StartsAsLent) {
                usize::from(lent.record.states[machine] % tables.states[machine])
            } else {
                usize::from(tables.starts[machine])
            }
        });
        let mistaken = if let Some(ReplayTrap::Begins(mistaken)) = trap { Some(mistaken) } else { None };
        let mut queues = starting_with(tables, mistaken);
        if trap == Some(ReplayTrap::BeginsAsLent) {
            for (queue, room) in queues.iter_mut().zip(lent.memory.chunks(QUEUE_ROOM)) {
                *queue = room[..queue.len()].to_vec();
            }
        }
        let from_start = queues.iter().map(Vec::len).collect();
        Run { tables, trap, states: states.collect(), queues, from_start, received: vec![0; tables.queue_count] }
    }

    fn is(&self, trap: ReplayTrap) -> bool {
        self.trap == Some(trap)
    }

    fn reply(&mut self, trace: &[u8]) -> Reply {
        let mut reader = Reader { bytes: trace, place: 0 };
        let mut steps = 0;
        loop {
            let is_at_end = reader.place == trace.len();
            if is_at_end && self.is(ReplayTrap::EndBeforeOutside) {
                return Reply::End { steps };
            }
            if !is_at_end && self.is(ReplayTrap::NumberBeforeOutside) {
                let mut ahead = Reader { bytes: trace, place: reader.place };
                if let Err(refusal) = self.next(&mut ahead) {
                    return Reply::StepRefused { refusal, steps };
                }
            }
            let is_asked = match self.trap {
                Some(ReplayTrap::StartPassedOver) => steps > 0,
                Some(ReplayTrap::OutsideAskedAtTheEnd) => is_at_end,
                _ => true,
            };
            let (is_inside, far) = self.followed();
            if is_asked && !is_inside {
                return Reply::Outside { steps, far };
            }
            if is_at_end && self.is(ReplayTrap::EndIsRefused) {
                return Reply::StepRefused { refusal: Refusal { number: 3, place: trace.len() }, steps };
            }
            if is_at_end {
                return Reply::End { steps };
            }
            let place = reader.place;
            let taken = self.next(&mut reader).and_then(|number| {
                let transition = &self.tables.transitions[number];
                self.take(transition).map_err(|number| Refusal { number, place })
            });
            match taken {
                Ok(()) => steps += 1,
                Err(Refusal { number: 5 | 14, .. }) if self.is(ReplayTrap::RefusedPassedOver) => {}
                Err(refusal) => {
                    let steps = steps + usize::from(self.is(ReplayTrap::RefusedStepCounted));
                    return Reply::StepRefused { refusal, steps };
                }
            }
        }
    }

    /// The next number of a transition.
    fn next(&self, reader: &mut Reader) -> Result<usize, Refusal> {
        let place = reader.place;
        let number = match (reader.number(), reader.bytes.get(place..place + 2)) {
            (Err(Refusal { number: 4, .. }), Some(&[first, 0])) if self.is(ReplayTrap::LongerFormRead) => {
                reader.place += 2;
                usize::from(first - 128)
            }
            (number, _) => number?,
        };
        if number < self.tables.transition_count {
            Ok(number)
        } else {
            Err(Refusal { number: 5, place })
        }
    }

    /// Whether the configuration is inside, and how many messages were taken until that was known.
    fn followed(&self) -> (bool, usize) {
        let machines = self.tables.machine_count;
        let order: Vec<usize> =
            if self.is(ReplayTrap::LastMachineFirst) { (0..machines).rev().collect() } else { (0..machines).collect() };
        let mut control_state = 0;
        for machine in order {
            control_state = control_state * usize::from(self.tables.states[machine]) + self.states[machine];
        }
        let mut state = self.tables.roots[control_state];
        let mut far = 0;
        for (queue, &received) in self.queues.iter().zip(&self.received) {
            let up_to_end =
                if self.is(ReplayTrap::AcrossUnasked) { QUEUE_ROOM - received % QUEUE_ROOM } else { queue.len() };
            for &message in queue.iter().take(up_to_end) {
                if state == 0 {
                    return (false, far);
                }
                // Memory as it was lent can hold what is no message.
                let is_message = usize::from(message) < MESSAGES;
                let place = (usize::from(state) - 1) * MESSAGES + usize::from(message);
                state = if is_message { self.tables.arcs[place] } else { 0 };
                far += usize::from(state > 0);
            }
        }
        (state > 0 && self.tables.finals[usize::from(state) - 1], far)
    }

    /// The messages of a word that are sent or received.
    fn word(&self, transition: &'t Transition) -> &'t [u8] {
        let word = transition.word();
        match self.trap {
            Some(ReplayTrap::FifteenTaken) => &word[..word.len().min(15)],
            Some(ReplayTrap::SixteenAreNone) => &word[..word.len() % WORD_LENGTH],
            _ => word,
        }
    }

    /// Takes a transition, or says by which number it is refused.
    fn take(&mut self, transition: &'t Transition) -> Result<(), u8> {
        let word = self.word(transition);
        let machine = usize::from(transition.machine);
        let queue = match (transition.kind, self.queues.iter().position(|queue| !queue.is_empty())) {
            (Kind::Receive, Some(first)) if self.is(ReplayTrap::ReceiveFromTheVeryFront) => first,
            _ => usize::from(transition.queue),
        };
        let is_in_state = self.states[machine] == usize::from(transition.from);
        let is_possible = is_in_state && (transition.kind != Kind::Receive || self.begins(queue, word));
        let passes = transition.kind == Kind::Send && self.passes(queue, word);
        let refusal = if passes && (is_possible || self.is(ReplayTrap::FullBeforeState)) {
            15
        } else if !is_possible {
            14
        } else {
            self.states[machine] = usize::from(transition.to);
            match transition.kind {
                Kind::Local => {}
                Kind::Send => self.send(queue, word),
                Kind::Receive => self.receive(queue, word),
            }
            return Ok(());
        };
        if is_in_state && self.is(ReplayTrap::RefusedStepMovesMachine) {
            self.states[machine] = usize::from(transition.to);
        }
        if refusal == 15 && self.is(ReplayTrap::RefusedWordFills) {
            let room = QUEUE_ROOM - self.queues[queue].len();
            self.queues[queue].extend(&word[..room]);
        }
        Err(refusal)
    }

    fn begins(&self, queue: usize, word: &[u8]) -> bool {
        let up_to_end = QUEUE_ROOM - self.received[queue] % QUEUE_ROOM;
        let behind_start = self.from_start[queue];
        let queue = &self.queues[queue];
        match self.trap {
            Some(ReplayTrap::ReceivedBehindTheStart) => queue[behind_start..].starts_with(word),
            Some(ReplayTrap::AcrossUncompared) => {
                queue.len() >= word.len() && queue.starts_with(&word[..word.len().min(up_to_end)])
            }
            Some(ReplayTrap::ReceiveFromTheBack) => queue.ends_with(word),
            Some(ReplayTrap::FirstMessageAsked) => {
                queue.len() >= word.len() && queue.starts_with(&word[..word.len().min(1)])
            }
            _ => queue.starts_with(word),
        }
    }

    fn passes(&self, queue: usize, word: &[u8]) -> bool {
        let waiting = self.queues[queue].len();
        let after = waiting + word.len();
        match self.trap {
            Some(ReplayTrap::FullQueueRefused) => after >= QUEUE_ROOM,
            Some(ReplayTrap::OneMoreTaken) => after > QUEUE_ROOM + 1,
            Some(ReplayTrap::RoomShared) => self.queues.iter().map(Vec::len).sum::<usize>() + word.len() > QUEUE_ROOM,
            Some(ReplayTrap::NothingRefused) => waiting == QUEUE_ROOM || after > QUEUE_ROOM,
            Some(ReplayTrap::StartTakesNoRoom) => after > QUEUE_ROOM + self.from_start[queue],
            Some(ReplayTrap::StartTakesRoomTwice) => after + self.from_start[queue] > QUEUE_ROOM,
            _ => after > QUEUE_ROOM,
        }
    }

    fn send(&mut self, queue: usize, word: &[u8]) {
        let at = match self.trap {
            Some(ReplayTrap::SendToTheFront) => 0,
            Some(ReplayTrap::SentBeforeTheStart) => self.queues[queue].len() - self.from_start[queue],
            _ => self.queues[queue].len(),
        };
        self.queues[queue].splice(at..at, word.iter().copied());
    }

    fn receive(&mut self, queue: usize, word: &[u8]) {
        self.received[queue] += word.len();
        let (waiting, from_start) = (self.queues[queue].len(), self.from_start[queue]);
        let at = match self.trap {
            Some(ReplayTrap::ReceiveFromTheBack) => waiting - word.len(),
            Some(ReplayTrap::ReceivedBehindTheStart) => from_start,
            _ => 0,
        };
        self.queues[queue].drain(at..at + word.len());
        // Those that wait from the start come first, but for the mistakes.
        self.from_start[queue] = match self.trap {
            Some(ReplayTrap::ReceivedBehindTheStart) => from_start,
            Some(ReplayTrap::SentBeforeTheStart) => from_start.min(waiting - word.len()),
            _ => from_start.saturating_sub(word.len()),
        };
    }

    fn record(&self, lent: &Record) -> Record {
        let mut record = if self.is(ReplayTrap::BeyondCountsKept) { *lent } else { Record::default() };
        for (machine, &state) in self.states.iter().enumerate() {
            record.states[machine] = state as u8;
        }
        for (queue, messages) in self.queues.iter().enumerate() {
            record.heads[queue] = if self.is(ReplayTrap::HeadsKept) { self.received[queue] % QUEUE_ROOM } else { 0 };
            record.lengths[queue] = messages.len();
        }
        record
    }

    fn memory(&self, lent: &[u8], is_refused: bool) -> Vec<u8> {
        let mut memory = lent.to_vec();
        let (rooms, past) = memory.split_at_mut(self.queues.len() * QUEUE_ROOM);
        if self.is(ReplayTrap::PastCleared) {
            past.fill(0);
        }
        let as_they_lie =
            self.is(ReplayTrap::LeftAsTheyLie) || (is_refused && self.is(ReplayTrap::LeftAsTheyLieAfterRefusal));
        for (queue, room) in rooms.chunks_mut(QUEUE_ROOM).enumerate() {
            let messages = &self.queues[queue];
            let begins = if as_they_lie { self.received[queue] } else { 0 };
            let kept = match self.trap {
                Some(ReplayTrap::StaleByte) => 1,
                Some(ReplayTrap::RestKept) => QUEUE_ROOM,
                _ => 0,
            };
            for place in 0..QUEUE_ROOM {
                let byte = &mut room[(begins + place) % QUEUE_ROOM];
                match messages.get(place) {
                    Some(&message) => *byte = message,
                    None if place < messages.len() + kept => {}
                    None => *byte = 0,
                }
            }
        }
        memory
    }
}
