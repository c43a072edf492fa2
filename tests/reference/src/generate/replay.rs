//! Replays: every end and refusal after short and long runs, queues that wrap around their room many times, and what is
//! lent in every length.

use super::disorder::add_some_harmless;
use super::document;
use super::plan::{fresh_plan, Action, Direction, Plan, PlannedTransition, Shape, RESUMING};
use super::running::{running_plan, with_all_transitions, Style};
use super::traces::{Ending, Walk, Waves, Wish};
use super::verdicts::Plans;
use crate::random::Random;
use crate::read::{read, Tables, QUEUES, TRANSITIONS};
use crate::replay::{Reply, QUEUE_ROOM};
use crate::stream::Replay;

#[derive(Clone, Debug)]
pub struct Case {
    pub kind: String,
    pub replay: Replay,
    /// What follows from how it was made; none where that is left to the replay.
    pub expected: Option<Reply>,
}

macro_rules! session {
    ($name:literal) => {
        ($name, include_bytes!(concat!("../../../../samples/", $name, ".session")))
    };
}

/// The sessions of the repository's samples.
pub const SESSIONS: [(&str, &[u8]); 11] = [
    session!("alternating-bit"),
    session!("half-duplex"),
    session!("logon-burst"),
    session!("logon-burst-leaves"),
    session!("producer-consumer"),
    session!("producer-consumer-bad"),
    session!("producer-consumer-leaves"),
    session!("relay"),
    session!("sliding-window"),
    session!("takeover-sequenced"),
    session!("takeover-two-feeds"),
];

pub fn replay_cases(seed: u64) -> Vec<Case> {
    let mut generator = Generator { random: Random::new(seed), resuming: 0, cases: vec![] };
    generator.document_files();
    generator.sessions();
    generator.random_sessions(seed);
    generator.short_runs();
    generator.other_fronts();
    generator.long_runs();
    generator.wrapped_queues();
    generator.full_queues();
    generator.left_maps();
    generator.disordered_maps();
    generator.all_transitions();
    generator.no_transitions();
    generator.random_traces();
    generator.long_traces();
    generator.refused_files(seed);
    generator.files_out_of_order(seed);
    generator.refused_traces();
    generator.refused_memory();
    generator.left_far();
    generator.resuming_runs(seed);
    generator.cases
}

/// Files with traces that mostly end outside.
pub fn random_runs(seed: u64, count: usize) -> impl Iterator<Item = (Vec<u8>, Vec<u8>)> {
    let mut generator = Generator { random: Random::new(seed), resuming: RESUMING, cases: vec![] };
    for _ in 0..count {
        generator.left_with_few();
    }
    generator.cases.into_iter().map(|case| (case.replay.file, case.replay.trace))
}

pub(super) struct Generator {
    pub(super) random: Random,
    /// Of a hundred plans so many resume.
    pub(super) resuming: usize,
    cases: Vec<Case>,
}

impl Generator {
    pub(super) fn add(
        &mut self,
        kind: &str,
        file: Vec<u8>,
        trace: Vec<u8>,
        memory_length: usize,
        expected: Option<Reply>,
    ) {
        let (memory_from, record_from) = (self.random.byte(), self.random.byte());
        let replay = Replay { file, trace, memory_length, memory_from, record_from };
        self.cases.push(Case { kind: kind.to_string(), replay, expected });
    }

    /// A case whose memory is long enough for its queues.
    pub(super) fn add_run(&mut self, kind: &str, file: &[u8], queues: usize, trace: Vec<u8>, expected: Option<Reply>) {
        let asked = queues * QUEUE_ROOM;
        let memory_length = match self.random.below(20) {
            0..=6 => asked,
            7..=10 => asked + self.random.between(1, 40),
            11..=14 => asked + self.random.between(1, QUEUE_ROOM),
            15..=18 => QUEUES * QUEUE_ROOM,
            _ => QUEUES * QUEUE_ROOM + self.random.between(1, 2_000),
        };
        self.add(kind, file.to_vec(), trace, memory_length, expected);
    }

    /// A walk that is ended in some way, if it can be.
    pub(super) fn add_walk(&mut self, kind: &str, file: &[u8], walk: Walk, ending: Ending) {
        let queues = walk.configuration.queues.len();
        if let Some((trace, reply)) = walk.end(&mut self.random, ending) {
            self.add_run(&format!("{kind}, {ending:?}"), file, queues, trace, Some(reply));
        }
    }

    fn ending(&mut self) -> Ending {
        *self.random.pick(&Ending::ALL).expect("there are endings")
    }

    fn document_files(&mut self) {
        for case in document::cases() {
            for trace in [vec![], vec![0], vec![1, 0], vec![0, 0, 0, 1]] {
                let queues = read(&case.bytes).map_or(QUEUES, |tables| tables.queue_count);
                self.add_run("document", &case.bytes, queues, trace, None);
            }
        }
        // As much memory as a stream can say.
        self.add("document", document::hex(document::R), vec![0, 0, 1], 65_535, Some(Reply::End { steps: 3 }));
    }

    fn sessions(&mut self) {
        for (name, file) in SESSIONS {
            let tables = read(file).expect("the samples are read");
            for round in 0..4 {
                for ending in Ending::ALL {
                    let mut walk = Walk::new(&tables);
                    let steps = self.random.between(0, [4, 30, 120, 300][round]);
                    walk.wander(&mut self.random, steps);
                    self.add_walk(name, file, walk, ending);
                }
            }
        }
    }

    /// Sessions with random maps, as they are and mended.
    fn random_sessions(&mut self, seed: u64) {
        let mut plans = Plans::fresh(seed + 4);
        for round in 0..1_200 {
            let plan = match round % 4 {
                0 => fresh_plan(&mut self.random, &Shape::SMALL),
                1 => plans.small(),
                2 => plans.disordered(),
                _ => plans.long_worded(),
            };
            let file = plan.bytes();
            let tables = read(&file).expect("plans are valid");
            let ending = self.ending();
            let mut walk = Walk::new(&tables);
            if !walk.configuration.is_inside(&tables) {
                self.add_outside_at_once("random session", &file, &tables);
                continue;
            }
            let steps = self.random.between(0, 40);
            walk.wander(&mut self.random, steps);
            self.add_walk("random session", &file, walk, ending);
        }
    }

    /// The trace does not matter: none, one with a refusal at once, or any.
    fn add_outside_at_once(&mut self, kind: &str, file: &[u8], tables: &Tables) {
        let trace = match self.random.below(3) {
            0 => vec![],
            1 => vec![255],
            _ => (0..self.random.between(1, 8)).map(|_| self.random.byte()).collect(),
        };
        self.add_run(kind, file, tables.queue_count, trace, Some(Reply::Outside { steps: 0, far: 0 }));
    }

    pub(super) fn plan_of(&mut self, style: Style) -> (Plan, Vec<u8>, Tables) {
        let plan = running_plan(&mut self.random, &style);
        let file = plan.bytes();
        let tables = read(&file).expect("plans are valid");
        (plan, file, tables)
    }

    /// Any queue, and often the last one.
    pub(super) fn queue_of(&mut self, tables: &Tables) -> usize {
        if self.random.chance(25) {
            tables.queue_count - 1
        } else {
            self.random.below(tables.queue_count)
        }
    }

    /// Waves of a queue with a high level between two ends, and any lower one.
    fn waves(&mut self, queue: usize, least: usize, most: usize) -> Waves {
        let high = self.random.between(least, most);
        Waves::new(queue, self.random.below(high), high)
    }

    fn short_runs(&mut self) {
        for _ in 0..80 {
            for ending in Ending::ALL {
                let style = Style::random(&mut self.random);
                let (_, file, tables) = self.plan_of(style);
                let mut walk = Walk::new(&tables);
                let steps = self.random.below(40);
                walk.wander(&mut self.random, steps);
                self.add_walk("short run", &file, walk, ending);
            }
        }
    }

    /// Receives whose word the queue's front is like, but not the same.
    fn other_fronts(&mut self) {
        for round in 0..140 {
            let style = Style { most_states: self.random.between(1, 2), ..Style::random(&mut self.random) };
            let (_, file, tables) = self.plan_of(style);
            let mut walk = Walk::new(&tables);
            let steps = self.random.below(3);
            walk.wander(&mut self.random, steps);
            for queue in 0..tables.queue_count {
                walk.step(&mut self.random, Wish::Send(queue));
            }
            let ending = [Ending::OtherFront, Ending::NearFront][round % 2];
            self.add_walk("other front", &file, walk, ending);
        }
    }

    fn long_runs(&mut self) {
        for _ in 0..30 {
            for ending in Ending::ALL {
                let style = Style::random(&mut self.random);
                let (_, file, tables) = self.plan_of(style);
                let mut walk = Walk::new(&tables);
                for _ in 0..self.random.between(2, 14) {
                    let queue = self.queue_of(&tables);
                    let mut waves = self.waves(queue, 1, 150);
                    let steps = self.random.between(5, 60);
                    walk.ride(&mut self.random, steps, &mut waves);
                }
                self.add_walk("long run", &file, walk, ending);
            }
        }
    }

    /// Many messages pass through a queue, so that kept in a room that is used round and round it lies across the room's
    /// end, and for a receive that is refused even the first messages do.
    fn wrapped_queues(&mut self) {
        let is_across = |front: usize, waiting: usize| front + waiting > QUEUE_ROOM;
        let begins_across = |front: usize, waiting: usize| front + 15 > QUEUE_ROOM && waiting > 15;
        for _ in 0..28 {
            for ending in Ending::ALL.into_iter().chain([Ending::Leaves, Ending::NearFront, Ending::NearFront]) {
                let style = match ending {
                    // With one queue the map holds some contents of just that.
                    Ending::Leaves => Style { is_tight: true, queues: 1, ..Style::filling(&mut self.random) },
                    Ending::OtherStateAndFull => Style { most_states: 2, ..Style::filling(&mut self.random) },
                    Ending::NearFront => Style { most_states: 1, queues: 1, ..Style::bulk(&mut self.random) },
                    _ => Style::bulk(&mut self.random),
                };
                let (_, file, tables) = self.plan_of(style);
                let mut walk = Walk::new(&tables);
                let queue = self.queue_of(&tables);
                let mut waves = self.waves(queue, 20, 500);
                match ending {
                    Ending::NearFront => walk.ride_until(&mut self.random, &mut waves, begins_across),
                    _ => walk.ride_until(&mut self.random, &mut waves, is_across),
                }
                match ending {
                    Ending::Full | Ending::OtherStateAndFull => walk.fill(&mut self.random, queue, QUEUE_ROOM, 200),
                    Ending::Leaves => walk.press(&mut self.random, queue),
                    _ => {}
                }
                self.add_walk("wrapped queue", &file, walk, ending);
            }
        }
        for round in 0..24 {
            let style = Style::bulk(&mut self.random);
            let (_, file, tables) = self.plan_of(style);
            let mut walk = Walk::new(&tables);
            let queue = self.queue_of(&tables);
            let mut waves = self.waves(queue, 100, 1_000);
            for _ in 0..3_000 {
                if walk.received[queue] < 5_000 {
                    walk.ride(&mut self.random, 1, &mut waves);
                }
            }
            walk.ride_until(&mut self.random, &mut waves, is_across);
            self.add_walk("queue wrapped many times", &file, walk, Ending::ALL[round % Ending::ALL.len()]);
        }
    }

    /// Queues of 1,024 messages, and what is asked of them then.
    fn full_queues(&mut self) {
        for round in 0..200 {
            let ending = match round % 8 {
                0..=4 => Ending::Full,
                5 | 6 => Ending::OtherStateAndFull,
                _ => self.ending(),
            };
            let mut style = Style::filling(&mut self.random);
            if ending == Ending::OtherStateAndFull {
                style.most_states = 3;
            }
            let (_, file, tables) = self.plan_of(style);
            let mut walk = Walk::new(&tables);
            let queue = self.queue_of(&tables);
            if self.random.chance(40) {
                walk.ride(&mut self.random, 100, &mut Waves::new(queue, 10, 300));
            }
            // Up to 1,024 messages, or to where a long word would pass them.
            let level = if self.random.chance(65) { QUEUE_ROOM } else { self.random.between(1_009, 1_023) };
            walk.fill(&mut self.random, queue, level, 400);
            // At the full queue more steps are taken, also sends of nothing.
            if self.random.chance(50) {
                walk.step(&mut self.random, Wish::SendNothing(queue));
            }
            if self.random.chance(20) {
                let other = self.queue_of(&tables);
                walk.fill(&mut self.random, other, QUEUE_ROOM, 150);
            }
            self.add_walk("full queue", &file, walk, ending);
        }
        // The same by one message at a time.
        let relay = SESSIONS.iter().find(|(name, _)| *name == "relay").expect("a sample").1;
        let tables = read(relay).expect("the sample is read");
        for received in 0..12 {
            let mut walk = Walk::new(&tables);
            walk.ride(&mut self.random, 5 * received, &mut Waves::new(0, 0, 1 + received));
            walk.fill(&mut self.random, 0, QUEUE_ROOM, 2_000);
            let ending = if received % 3 == 2 { Ending::End } else { Ending::Full };
            self.add_walk("full queue", relay, walk, ending);
        }
    }

    /// Maps that lack something: the run stays inside for a while, and then leaves or ends otherwise.
    fn left_maps(&mut self) {
        for round in 0..420 {
            let style = Style::tight(&mut self.random);
            let style = if round % 3 == 0 { Style { is_bulk: true, most_states: 2, ..style } } else { style };
            let (plan, file, tables) = self.plan_of(style);
            let mut walk = Walk::new(&tables);
            let queue = self.queue_of(&tables);
            let steps = self.random.below([5, 60, 200][round % 3]);
            let high = self.random.between(1, 100);
            walk.ride(&mut self.random, steps, &mut Waves::new(queue, 0, high));
            let ending = if self.random.chance(70) { Ending::Leaves } else { self.ending() };
            self.add_walk("left map", &file, walk, ending);
            if round % 6 == 0 {
                self.start_outside(plan);
            }
        }
    }

    /// Maps with parts out of order that change no set, so that a run goes as it would without them.
    fn disordered_maps(&mut self) {
        for round in 0..12 {
            for ending in Ending::ALL {
                let plan = self.disordered_map(round % 2 == 0, ending);
                if round % 4 == 0 {
                    self.start_outside(plan);
                }
            }
        }
        for _ in 0..80 {
            self.disordered_map(true, Ending::Leaves);
        }
    }

    fn disordered_map(&mut self, is_tight: bool, ending: Ending) -> Plan {
        let style = Style { queues: self.random.between(2, QUEUES), is_tight, ..Style::random(&mut self.random) };
        let (mut plan, _, _) = self.plan_of(style);
        add_some_harmless(&mut self.random, &mut plan);
        let file = plan.bytes();
        let tables = read(&file).expect("parts that change no set are read");
        let mut walk = Walk::new(&tables);
        let steps = self.random.below(40);
        walk.wander(&mut self.random, steps);
        self.add_walk("map out of order", &file, walk, ending);
        plan
    }

    /// The root of the start is taken away, or accepts nothing.
    fn start_outside(&mut self, mut plan: Plan) {
        if self.random.chance(50) {
            plan.pool[0].is_final = false;
        } else {
            plan.roots = vec![None; plan.roots.len()];
        }
        let file = plan.bytes();
        let tables = read(&file).expect("plans are valid");
        self.add_outside_at_once("start outside", &file, &tables);
    }

    /// Files with as many transitions as there can be: 127 is one, and 128 is none.
    fn all_transitions(&mut self) {
        const LAST: usize = TRANSITIONS - 1;
        for round in 0..120 {
            let style = Style { queues: 1 + round % 2, machines: 1 + round % 2, ..Style::random(&mut self.random) };
            let plan = running_plan(&mut self.random, &style);
            let mut plan = with_all_transitions(&mut self.random, plan);
            // A send of one message that is possible at the start.
            let machine = self.random.below(plan.states.len());
            let (from, word) = (plan.starts[machine], vec![plan.messages_of(0).start]);
            let action = Some(Action { direction: Direction::Send, queue: 0, word });
            plan.transitions[LAST] = PlannedTransition { machine, from, to: from, action };
            let file = plan.bytes();
            let tables = read(&file).expect("plans are valid");
            let mut walk = Walk::new(&tables);
            if self.random.chance(50) {
                walk.take(LAST);
            }
            let steps = self.random.below(25);
            walk.wander(&mut self.random, steps);
            let ending = match round % 6 {
                0 => [Ending::End, Ending::InsideNumber][self.random.below(2)],
                1 => Ending::Form,
                _ => Ending::NoTransition,
            };
            self.add_walk("all transitions", &file, walk, ending);
        }
    }

    fn no_transitions(&mut self) {
        for round in 0..44 {
            let style = Style::random(&mut self.random);
            let (mut plan, _, _) = self.plan_of(style);
            plan.transitions.clear();
            let file = plan.bytes();
            let tables = read(&file).expect("plans are valid");
            let ending = match round % 6 {
                0 => Ending::End,
                1 => Ending::InsideNumber,
                2 => Ending::Form,
                _ => Ending::NoTransition,
            };
            self.add_walk("no transitions", &file, Walk::new(&tables), ending);
        }
    }

    /// Any bytes, and any numbers of transitions.
    fn random_traces(&mut self) {
        for round in 0..240 {
            let style = Style { is_tight: round % 4 == 0, ..Style::random(&mut self.random) };
            let (_, file, tables) = self.plan_of(style);
            let length = self.random.between(1, 12);
            let byte = |random: &mut Random| match round % 2 {
                0 => random.byte(),
                _ => random.below(tables.transition_count) as u8,
            };
            let trace = (0..length).map(|_| byte(&mut self.random)).collect();
            self.add_run("random trace", &file, tables.queue_count, trace, None);
        }
    }
}
