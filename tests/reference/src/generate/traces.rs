//! Traces made by walking a session with the reference's own steps, and then ended in every way.

use super::draft::encode;
use crate::random::Random;
use crate::read::{Kind, Refusal, Tables, Transition, WORD_LENGTH};
use crate::replay::{Configuration, Reply, QUEUE_ROOM};

/// What a walk would rather do next.
#[derive(Clone, Copy, Debug)]
pub enum Wish {
    Anything,
    /// Some messages to this queue.
    Send(usize),
    /// The empty word to this queue.
    SendNothing(usize),
    /// Some messages from this queue.
    Receive(usize),
}

impl Wish {
    fn is_met_by(self, transition: &Transition) -> bool {
        let (kind, queue, is_empty) = match self {
            Wish::Anything => return true,
            Wish::Send(queue) => (Kind::Send, queue, false),
            Wish::SendNothing(queue) => (Kind::Send, queue, true),
            Wish::Receive(queue) => (Kind::Receive, queue, false),
        };
        transition.kind == kind && usize::from(transition.queue) == queue && transition.word().is_empty() == is_empty
    }
}

/// Going up and down between two levels of what waits in a queue.
pub struct Waves {
    pub queue: usize,
    low: usize,
    high: usize,
    /// The level that it falls to; none while it rises.
    falls_to: Option<usize>,
    /// Steps since a wish was met.
    unmet: usize,
}

/// So many steps without meeting the wish, and the other direction is tried.
const PATIENCE: usize = 8;

impl Waves {
    pub fn new(queue: usize, low: usize, high: usize) -> Self {
        Waves { queue, low, high, falls_to: None, unmet: 0 }
    }

    fn wish(&mut self, waiting: usize, random: &mut Random) -> Wish {
        let is_stuck = self.unmet > PATIENCE;
        let turns = is_stuck || self.falls_to.map_or(waiting >= self.high, |level| waiting <= level);
        if turns {
            // Where the map lets no more be sent, the queue is emptied.
            let level = if is_stuck { 0 } else { self.low };
            self.falls_to = if self.falls_to.is_none() { Some(level) } else { None };
            self.unmet = 0;
        }
        match self.falls_to {
            _ if random.chance(10) => Wish::Anything,
            None => Wish::Send(self.queue),
            Some(_) => Wish::Receive(self.queue),
        }
    }

    fn learn(&mut self, is_met: bool) {
        self.unmet = if is_met { 0 } else { self.unmet + 1 };
    }
}

/// How a trace ends, and how a replay of it then does.
#[derive(Clone, Copy, Debug, PartialEq, Eq, PartialOrd, Ord)]
pub enum Ending {
    End,
    /// 3.
    InsideNumber,
    /// 4.
    Form,
    /// 5.
    NoTransition,
    /// 14, by the machine.
    OtherState,
    /// 14, by the queue.
    OtherFront,
    /// The same, by a word that the queue begins with most messages of.
    NearFront,
    /// 14, where 15 would hold too.
    OtherStateAndFull,
    /// 15.
    Full,
    /// A step to a configuration outside the map.
    Leaves,
}

impl Ending {
    /// Each once; `NearFront` is a case of `OtherFront`.
    pub const ALL: [Ending; 9] = [
        Ending::End,
        Ending::InsideNumber,
        Ending::Form,
        Ending::NoTransition,
        Ending::OtherState,
        Ending::OtherFront,
        Ending::OtherStateAndFull,
        Ending::Full,
        Ending::Leaves,
    ];
}

/// A walk, and the trace of its steps. Every number of a transition has one byte.
pub struct Walk<'t> {
    tables: &'t Tables,
    pub configuration: Configuration,
    pub trace: Vec<u8>,
    /// Messages received from each queue.
    pub received: Vec<usize>,
}

impl<'t> Walk<'t> {
    pub fn new(tables: &'t Tables) -> Self {
        let configuration = Configuration::start(tables);
        let received = vec![0; tables.queue_count];
        Walk { tables, configuration, trace: vec![], received }
    }

    /// Takes a step that stays inside the map, one that meets the wish if there is one. None if no step stays inside, else
    /// whether the wish was met.
    pub fn step(&mut self, random: &mut Random, wish: Wish) -> Option<bool> {
        // Long words first, mostly; where no step meets the wish, a local one may bring a machine to where one does.
        let by_length = random.chance(75);
        let mut ranked: Vec<_> = self
            .possible()
            .into_iter()
            .map(|number| {
                let transition = &self.tables.transitions[number];
                let is_unmet = !wish.is_met_by(transition);
                let missing = if by_length { WORD_LENGTH - transition.word().len() } else { 0 };
                (is_unmet, is_unmet && transition.kind != Kind::Local, missing, random.below(1 << 20), number)
            })
            .collect();
        ranked.sort_unstable();
        let taken = ranked.into_iter().find(|&(.., number)| self.take(number))?;
        Some(!taken.0)
    }

    /// Takes the step if it is possible and stays inside the map.
    pub fn take(&mut self, number: usize) -> bool {
        let Some(after) = self.after(number).ok().filter(|after| after.is_inside(self.tables)) else { return false };
        let transition = &self.tables.transitions[number];
        if transition.kind == Kind::Receive {
            self.received[usize::from(transition.queue)] += transition.word().len();
        }
        self.trace.push(u8::try_from(number).expect("transitions are at most 128"));
        self.configuration = after;
        true
    }

    fn after(&self, number: usize) -> Result<Configuration, u8> {
        self.configuration.after(&self.tables.transitions[number])
    }

    /// So many steps, or fewer where no step stays inside.
    pub fn wander(&mut self, random: &mut Random, steps: usize) {
        for _ in 0..steps {
            if self.step(random, Wish::Anything).is_none() {
                return;
            }
        }
    }

    /// So many steps with words of two messages at most, or fewer where none of them stays inside.
    pub fn creep(&mut self, random: &mut Random, steps: usize) {
        for _ in 0..steps {
            let mut numbers = self.possible();
            numbers.retain(|&number| self.tables.transitions[number].word().len() <= 2);
            random.shuffle(&mut numbers);
            if !numbers.into_iter().any(|number| self.take(number)) {
                return;
            }
        }
    }

    /// So many steps that go up and down with a queue, or fewer where no step stays inside.
    pub fn ride(&mut self, random: &mut Random, steps: usize, waves: &mut Waves) {
        for _ in 0..steps {
            let wish = waves.wish(self.configuration.queues[waves.queue].len(), random);
            match self.step(random, wish) {
                None => return,
                Some(is_met) => waves.learn(is_met),
            }
        }
    }

    /// Goes on up and down until more than a room of messages was received and something holds of the queue: given where
    /// its front lies in a room that is used round and round, and how many messages wait. Gives up after some steps.
    pub fn ride_until(&mut self, random: &mut Random, waves: &mut Waves, holds: impl Fn(usize, usize) -> bool) {
        for _ in 0..1_200 {
            let (received, waiting) = (self.received[waves.queue], self.configuration.queues[waves.queue].len());
            if received > QUEUE_ROOM && holds(received % QUEUE_ROOM, waiting) {
                return;
            }
            self.ride(random, 1, waves);
        }
    }

    /// Sends to a queue until so many messages wait in it, or so many steps are taken.
    pub fn fill(&mut self, random: &mut Random, queue: usize, level: usize, most_steps: usize) {
        for _ in 0..most_steps {
            let is_filled = self.configuration.queues[queue].len() >= level;
            if is_filled || self.step(random, Wish::Send(queue)).is_none() {
                return;
            }
        }
    }

    /// Sends to a queue as long as that stays inside the map, a few times at most.
    pub fn press(&mut self, random: &mut Random, queue: usize) {
        for _ in 0..10 {
            let mut numbers = self.possible();
            numbers.retain(|&number| Wish::Send(queue).is_met_by(&self.tables.transitions[number]));
            random.shuffle(&mut numbers);
            if !numbers.into_iter().any(|number| self.take(number)) {
                return;
            }
        }
    }

    /// Goes on until some step leads outside, so many steps at most.
    pub fn wander_to_the_border(&mut self, random: &mut Random, steps: usize) {
        for _ in 0..steps {
            if !self.leaving().is_empty() || self.step(random, Wish::Anything).is_none() {
                return;
            }
        }
    }

    /// The steps that lead outside.
    fn leaving(&self) -> Vec<usize> {
        let mut numbers = self.possible();
        numbers.retain(|&number| self.after(number).is_ok_and(|after| !after.is_inside(self.tables)));
        numbers
    }

    fn possible(&self) -> Vec<usize> {
        self.numbers(|walk, transition| {
            walk.is_in_state(transition) && walk.begins(transition) && walk.fits(transition)
        })
    }

    fn numbers(&self, is_wanted: impl Fn(&Self, &Transition) -> bool) -> Vec<usize> {
        let transitions = self.tables.used_transitions();
        (0..transitions.len()).filter(|&number| is_wanted(self, &transitions[number])).collect()
    }

    fn is_in_state(&self, transition: &Transition) -> bool {
        self.configuration.states[usize::from(transition.machine)] == transition.from
    }

    fn begins(&self, transition: &Transition) -> bool {
        transition.kind != Kind::Receive
            || self.configuration.queues[usize::from(transition.queue)].starts_with(transition.word())
    }

    fn fits(&self, transition: &Transition) -> bool {
        transition.kind != Kind::Send
            || self.configuration.queues[usize::from(transition.queue)].len() + transition.word().len() <= QUEUE_ROOM
    }

    /// Ends the trace, and says what a replay of it replies; none where the walk cannot be ended so from here.
    pub fn end(mut self, random: &mut Random, ending: Ending) -> Option<(Vec<u8>, Reply)> {
        let steps = self.trace.len();
        let refused = |number, place| Reply::StepRefused { refusal: Refusal { number, place }, steps };
        let (bytes, reply) = match ending {
            Ending::End => return Some((self.trace, Reply::End { steps })),
            Ending::InsideNumber => {
                self.trace.push(128 | random.byte());
                return Some((self.trace, refused(3, steps + 1)));
            }
            Ending::Form => {
                // Often the longer form of a step that is possible.
                let possible = random.pick(&self.possible()).map(|&number| number as u8);
                let first = possible.filter(|_| random.chance(70)).unwrap_or_else(|| random.byte());
                let second = if random.chance(50) { 0 } else { 128 | random.byte() };
                (vec![128 | first, second], refused(4, steps))
            }
            Ending::NoTransition => {
                let count = self.tables.transition_count;
                let number = match random.below(4) {
                    0 => count,
                    1 if count < 128 => random.between(count, 127),
                    2 => 128,
                    _ => random.between(128, 16_383),
                };
                (encode(number), refused(5, steps))
            }
            Ending::OtherState => {
                let numbers = self.numbers(|walk, transition| !walk.is_in_state(transition));
                (encode(*random.pick(&numbers)?), refused(14, steps))
            }
            Ending::OtherFront | Ending::NearFront => {
                let mut numbers =
                    self.numbers(|walk, transition| walk.is_in_state(transition) && !walk.begins(transition));
                if ending == Ending::NearFront {
                    let most = numbers.iter().map(|&number| self.shared(number)).max();
                    numbers.retain(|&number| Some(self.shared(number)) == most);
                } else {
                    self.keep_one_way(random, &mut numbers);
                }
                (encode(*random.pick(&numbers)?), refused(14, steps))
            }
            Ending::OtherStateAndFull => {
                let numbers = self.numbers(|walk, transition| !walk.is_in_state(transition) && !walk.fits(transition));
                (encode(*random.pick(&numbers)?), refused(14, steps))
            }
            Ending::Full => {
                let numbers = self.numbers(|walk, transition| walk.is_in_state(transition) && !walk.fits(transition));
                (encode(*random.pick(&numbers)?), refused(15, steps))
            }
            Ending::Leaves => {
                let number = *random.pick(&self.leaving())?;
                let far = self.after(number).map_or(0, |after| after.far(self.tables));
                (encode(number), Reply::Outside { steps: steps + 1, far })
            }
        };
        self.trace.extend(bytes);
        if random.chance(50) {
            let more = random.between(1, 5);
            self.trace.extend((0..more).map(|_| random.byte()));
        }
        Some((self.trace, reply))
    }

    /// How many messages of its word a receive's queue begins with.
    fn shared(&self, number: usize) -> usize {
        let transition = &self.tables.transitions[number];
        let waiting = &self.configuration.queues[usize::from(transition.queue)];
        transition.word().iter().zip(waiting).take_while(|(message, other)| message == other).count()
    }

    /// Keeps the receives that fail in one of the ways in which some do.
    fn keep_one_way(&self, random: &mut Random, numbers: &mut Vec<usize>) {
        let way = |number: usize| {
            let transition = &self.tables.transitions[number];
            let waiting = self.configuration.queues[usize::from(transition.queue)].len();
            let shared = self.shared(number);
            (waiting == 0, shared == waiting, shared == 0, shared + 1 == transition.word().len())
        };
        let mut ways: Vec<_> = numbers.iter().map(|&number| way(number)).collect();
        ways.sort_unstable();
        ways.dedup();
        let kept = random.pick(&ways).copied();
        numbers.retain(|&number| Some(way(number)) == kept);
    }
}
