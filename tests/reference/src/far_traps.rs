//! How far a word is followed, wrong on purpose: of contents that are asked, of a step that leaves, and of a replay that ends
//! outside. With no trap set this is another way to the number, over the list of arcs.

use crate::arcs::Arcs;
use crate::diagram::root;
use crate::read::{Kind, Tables, Transition};
use crate::replay::{Configuration, QUEUE_ROOM};
use crate::walk::control_state_after;

#[derive(Clone, Copy, Debug, PartialEq, Eq, PartialOrd, Ord)]
pub enum FarTrap {
    /// The message that there is no arc for counts too.
    OneMoreWhereLost,
    /// Of a word that is read to its end and not accepted, the last message does not count.
    OneLessAtTheEnd,
    /// Of a word that is read to its end and not accepted, nothing counts.
    NothingAtTheEnd,
    /// Where there is no root, every message counts.
    LengthWithoutRoot,
    /// Where there is no root, state 0 is taken for it.
    RootlessFromStateZero,
    /// Every message counts, whether it is taken or not.
    WholeLength,
    /// Those that are not taken count.
    MessagesLeft,
    /// Messages count up to the last final state that is passed.
    UpToFinal,
    /// A message counts only if a final state can still be reached.
    UpToDeadEnd,
    /// A message without an arc is passed over, and those behind it go on.
    LostPassedOver,
    /// Messages of the first queue alone count.
    FirstQueueAlone,
    /// Messages of the last queue alone count.
    LastQueueAlone,
    /// Counting begins anew with each queue.
    EachQueueAnew,
    /// The number is kept in a byte.
    InAByte,
    /// Of contents that belong nothing counts.
    YesWithoutLength,
    /// The diagram is that of the control state before the step.
    InSource,
    /// The contents are those before the step.
    ContentsBefore,
    /// The number of messages shown.
    LengthShown,
    /// The state that the machine goes to is taken for the control state.
    MachineStateAlone,
    /// A sent word is followed, but does not count.
    SentWordUncounted,
    /// A sent word counts as one message.
    SentWordAsOne,
    /// A sent word that is lost on its way does not count.
    SentWordWholeOrNot,
    /// Only the first four messages of a sent word are followed.
    FourSent,
    /// Only the first fifteen messages of a sent word are followed.
    FifteenSent,
    /// A sent word goes to the end of the whole word.
    SentAtTheVeryEnd,
    /// A sent word goes before what waits in its queue.
    SentInFront,
    /// A received word is taken from the front of the whole word.
    ReceivedFromTheVeryFront,
    /// A received word is taken from the end of its queue.
    ReceivedFromTheBack,
    /// A received word counts, though it is gone.
    ReceivedWordCounted,
    /// Messages before the step's place do not count.
    FromTheStepOn,
    /// Messages behind the step's place do not count.
    UpToTheStep,
    /// The configuration before the last step is asked.
    BeforeLastStep,
    /// Messages that lie past the end of their room, at its beginning, do not count.
    UpToTheRoomsEnd,
    /// The number is kept as a place in a room.
    InARoom,
    /// Of what waits at the start nothing counts.
    NothingAtTheStart,
}

impl FarTrap {
    /// Mistakes about any word that is followed.
    pub const OF_WORDS: [FarTrap; 14] = [
        FarTrap::OneMoreWhereLost,
        FarTrap::OneLessAtTheEnd,
        FarTrap::NothingAtTheEnd,
        FarTrap::LengthWithoutRoot,
        FarTrap::RootlessFromStateZero,
        FarTrap::WholeLength,
        FarTrap::MessagesLeft,
        FarTrap::UpToFinal,
        FarTrap::UpToDeadEnd,
        FarTrap::LostPassedOver,
        FarTrap::FirstQueueAlone,
        FarTrap::LastQueueAlone,
        FarTrap::EachQueueAnew,
        FarTrap::InAByte,
    ];

    pub const OF_MEMBERSHIP: [FarTrap; 1] = [FarTrap::YesWithoutLength];

    /// Mistakes about a step, of a verdict or the last one of a replay.
    pub const OF_STEPS: [FarTrap; 2] = [FarTrap::InSource, FarTrap::ContentsBefore];

    pub const OF_VERDICTS: [FarTrap; 14] = [
        FarTrap::LengthShown,
        FarTrap::MachineStateAlone,
        FarTrap::SentWordUncounted,
        FarTrap::SentWordAsOne,
        FarTrap::SentWordWholeOrNot,
        FarTrap::FourSent,
        FarTrap::FifteenSent,
        FarTrap::SentAtTheVeryEnd,
        FarTrap::SentInFront,
        FarTrap::ReceivedFromTheVeryFront,
        FarTrap::ReceivedFromTheBack,
        FarTrap::ReceivedWordCounted,
        FarTrap::FromTheStepOn,
        FarTrap::UpToTheStep,
    ];

    pub const OF_REPLAYS: [FarTrap; 4] =
        [FarTrap::BeforeLastStep, FarTrap::UpToTheRoomsEnd, FarTrap::InARoom, FarTrap::NothingAtTheStart];

    /// How many files, questions or replays must tell it. Large numbers are rare: they take long contents.
    pub fn asked(self) -> usize {
        match self {
            FarTrap::InAByte | FarTrap::InARoom => 10,
            _ => 30,
        }
    }

    pub fn of_questions() -> impl Iterator<Item = FarTrap> {
        Self::OF_WORDS.into_iter().chain(Self::OF_MEMBERSHIP)
    }

    pub fn of_verdicts() -> impl Iterator<Item = FarTrap> {
        Self::OF_WORDS.into_iter().chain(Self::OF_STEPS).chain(Self::OF_VERDICTS)
    }

    pub fn of_replays() -> impl Iterator<Item = FarTrap> {
        Self::OF_WORDS.into_iter().chain(Self::OF_STEPS).chain(Self::OF_REPLAYS)
    }
}

/// How far contents are followed in the diagram of a control state.
pub fn far_of_contents(tables: &Tables, control_state: usize, contents: &[u8], trap: Option<FarTrap>) -> usize {
    let following = Following::new(tables, root(tables, control_state), contents, trap);
    match trap {
        Some(FarTrap::YesWithoutLength) if following.is_accepted(tables) => 0,
        _ => following.number(tables, contents, trap),
    }
}

/// How far the contents after a step are followed, from those before it.
pub fn far_of_step(
    tables: &Tables,
    control_state: usize,
    step: &Transition,
    contents: &[u8],
    trap: Option<FarTrap>,
) -> usize {
    let queue = usize::from(step.queue);
    let begins = contents.iter().take_while(|&&message| tables.queue_of(message) < queue).count();
    let ends = contents.iter().take_while(|&&message| tables.queue_of(message) <= queue).count();
    let (earlier, own, later) = (&contents[..begins], &contents[begins..ends], &contents[ends..]);
    let word = match trap {
        Some(FarTrap::FourSent) => &step.word()[..step.word().len().min(4)],
        Some(FarTrap::FifteenSent) => &step.word()[..step.word().len().min(15)],
        _ => step.word(),
    };
    let after = match (step.kind, trap) {
        (Kind::Local, _) | (_, Some(FarTrap::ContentsBefore)) => contents.to_vec(),
        (Kind::Send, Some(FarTrap::SentAtTheVeryEnd)) => [earlier, own, later, word].concat(),
        (Kind::Send, Some(FarTrap::SentInFront)) => [earlier, word, own, later].concat(),
        (Kind::Send, _) => [earlier, own, word, later].concat(),
        (Kind::Receive, Some(FarTrap::ReceivedFromTheVeryFront)) => contents[step.word().len()..].to_vec(),
        (Kind::Receive, Some(FarTrap::ReceivedFromTheBack)) => {
            [earlier, &own[..own.len() - step.word().len()], later].concat()
        }
        (Kind::Receive, _) => [earlier, &own[step.word().len()..], later].concat(),
    };
    let led_to = match trap {
        Some(FarTrap::InSource) => control_state,
        Some(FarTrap::MachineStateAlone) => usize::from(step.to),
        _ => control_state_after(tables, control_state, step).expect("the step is possible"),
    };
    let far = Following::new(tables, root(tables, led_to), &after, trap).number(tables, &after, trap);
    // The step's place in the contents, and how many messages of a sent word are taken.
    let place = match step.kind {
        Kind::Local => 0,
        Kind::Send => ends,
        Kind::Receive => begins,
    };
    let sent = if step.kind == Kind::Send { far.saturating_sub(place).min(word.len()) } else { 0 };
    match (trap, step.kind) {
        (Some(FarTrap::LengthShown), _) => contents.len(),
        (Some(FarTrap::SentWordUncounted), Kind::Send) => far - sent,
        (Some(FarTrap::SentWordAsOne), Kind::Send) => far - sent + usize::from(sent == word.len()),
        (Some(FarTrap::SentWordWholeOrNot), Kind::Send) if sent < word.len() => far - sent,
        (Some(FarTrap::ReceivedWordCounted), Kind::Receive) if far >= place => far + word.len(),
        (Some(FarTrap::FromTheStepOn), Kind::Send | Kind::Receive) => far.saturating_sub(place),
        (Some(FarTrap::UpToTheStep), Kind::Send | Kind::Receive) => far.min(place),
        _ => far,
    }
}

/// How far the contents are followed that a replay ended with outside. Given the configurations before the last step and after
/// it, or the start alone, and how many messages were received from each queue.
pub fn far_of_replay(
    tables: &Tables,
    before: Option<&Configuration>,
    after: &Configuration,
    received: &[usize],
    trap: Option<FarTrap>,
) -> usize {
    if before.is_none() && trap == Some(FarTrap::NothingAtTheStart) {
        return 0;
    }
    let before = before.unwrap_or(after);
    let (of_diagram, of_contents) = match trap {
        Some(FarTrap::InSource) => (before, after),
        Some(FarTrap::ContentsBefore) => (after, before),
        Some(FarTrap::BeforeLastStep) => (before, before),
        _ => (after, after),
    };
    let contents = of_contents.queues.concat();
    let root = root(tables, of_diagram.control_state(tables));
    let far = Following::new(tables, root, &contents, trap).number(tables, &contents, trap);
    match trap {
        Some(FarTrap::InARoom) => far % QUEUE_ROOM,
        Some(FarTrap::UpToTheRoomsEnd) => {
            let lies_before_end = of_contents.queues.iter().zip(received).flat_map(|(queue, received)| {
                let first = received % QUEUE_ROOM;
                (first..first + queue.len()).map(|place| place < QUEUE_ROOM)
            });
            lies_before_end.take(far).filter(|&counts| counts).count()
        }
        _ => far,
    }
}

/// Where a word was followed to.
struct Following {
    /// None where it has nowhere to go.
    state: Option<usize>,
    /// The messages taken.
    taken: Vec<u8>,
    /// The message that has no arc, where there was a state to ask.
    lost: Option<u8>,
    /// How many messages were taken when a final state was passed last.
    up_to_final: usize,
}

impl Following {
    fn new(tables: &Tables, root: Option<usize>, word: &[u8], trap: Option<FarTrap>) -> Self {
        let arcs = Arcs::new(tables);
        // Where a mistake has it that only states count which lead to a final one.
        let alive = (trap == Some(FarTrap::UpToDeadEnd))
            .then(|| arcs.leading_to((0..tables.pool_state_count).filter(|&state| tables.finals[state]).collect()));
        let state = if trap == Some(FarTrap::RootlessFromStateZero) { root.or(Some(0)) } else { root };
        let mut following = Following { state, taken: vec![], lost: None, up_to_final: 0 };
        for &message in word {
            let Some(state) = following.state else { break };
            match arcs.0.iter().find(|arc| arc.source == state && arc.message == message) {
                Some(arc) if alive.as_ref().is_some_and(|alive| !alive.contains(&arc.target)) => break,
                Some(arc) => {
                    following.state = Some(arc.target);
                    following.taken.push(message);
                    if tables.finals[arc.target] {
                        following.up_to_final = following.taken.len();
                    }
                }
                None if trap == Some(FarTrap::LostPassedOver) => {}
                None => {
                    following.state = None;
                    following.lost = Some(message);
                }
            }
        }
        following
    }

    fn is_accepted(&self, tables: &Tables) -> bool {
        self.state.is_some_and(|state| tables.finals[state])
    }

    fn taken_of(&self, tables: &Tables, queue: usize) -> usize {
        self.taken.iter().filter(|&&message| tables.queue_of(message) == queue).count()
    }

    fn number(&self, tables: &Tables, word: &[u8], trap: Option<FarTrap>) -> usize {
        let far = self.taken.len();
        let is_rejected_at_the_end = self.state.is_some() && !self.is_accepted(tables);
        match trap {
            Some(FarTrap::OneMoreWhereLost) => far + usize::from(self.lost.is_some()),
            Some(FarTrap::OneLessAtTheEnd) if is_rejected_at_the_end => far.saturating_sub(1),
            Some(FarTrap::NothingAtTheEnd) if is_rejected_at_the_end => 0,
            Some(FarTrap::LengthWithoutRoot) if self.state.is_none() && self.lost.is_none() => word.len(),
            Some(FarTrap::WholeLength) => word.len(),
            Some(FarTrap::MessagesLeft) => word.len() - far,
            Some(FarTrap::UpToFinal) => self.up_to_final,
            Some(FarTrap::FirstQueueAlone) => self.taken_of(tables, 0),
            Some(FarTrap::LastQueueAlone) => self.taken_of(tables, tables.queue_count - 1),
            Some(FarTrap::EachQueueAnew) => {
                let last = self.lost.or(self.taken.last().copied());
                last.map_or(0, |message| self.taken_of(tables, tables.queue_of(message)))
            }
            Some(FarTrap::InAByte) => far % 256,
            _ => far,
        }
    }
}
