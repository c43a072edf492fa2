//! Replays that begin with messages in the queues: these are received first, or refused, sent behind up to a full queue, or outside
//! at once.

use std::collections::BTreeMap;

use super::plan::{Action, Direction, Plan, PlannedState, PlannedTransition};
use super::replay::Generator;
use super::resume::{accepted_word, by_queue, messages_of, random_starting};
use super::resuming_files::form_files;
use super::running::{pool_of_everything, Style};
use super::traces::{Ending, Walk, Waves, Wish};
use super::verdicts::Plans;
use crate::read::{read, Refusal, QUEUES, STARTING, WORD_LENGTH};
use crate::replay::{Reply, LONGEST_TRACE, QUEUE_ROOM};
use crate::start_features::ENOUGH_OF_FORM;

/// What becomes of what waits at the start in the diagram there.
#[derive(Clone, Copy, Debug)]
enum Fate {
    NoRoot,
    Lost(usize),
    NotFinal,
}

impl Generator {
    pub(super) fn resuming_runs(&mut self, seed: u64) {
        self.runs_of_both_forms();
        self.resuming_walks();
        for length in 1..=STARTING {
            for round in 0..3 {
                self.waiting_words(length, round == 0);
            }
            for _ in 0..2 {
                self.filled_behind(length);
            }
        }
        for round in 0..80 {
            self.outside_with_what_waits(round);
        }
        self.resuming_sessions(seed);
        self.files_of_either_form(seed);
        self.refused_where_something_waits();
    }

    /// A running plan with something that its map holds waiting at the start.
    fn resuming_plan(&mut self, style: Style) -> Plan {
        loop {
            let (mut plan, _, _) = self.plan_of(style);
            if let Some(word) = accepted_word(&mut self.random, &plan, plan.start()) {
                plan.starting = by_queue(&plan, &word);
                return plan;
            }
        }
    }

    /// The same session and trace in both forms.
    fn runs_of_both_forms(&mut self) {
        for round in 0..24 {
            let style = Style::random(&mut self.random);
            let plan = self.resuming_plan(style);
            let fresh = Plan { starting: vec![], ..plan.clone() };
            let walked = if round % 2 == 0 { &plan } else { &fresh };
            let tables = read(&walked.bytes()).expect("plans are valid");
            let mut walk = Walk::new(&tables);
            let steps = self.random.below(12);
            walk.wander(&mut self.random, steps);
            let trace = walk.trace.clone();
            for plan in [&plan, &fresh] {
                self.add_run("both forms", &plan.bytes(), plan.queues.len(), trace.clone(), None);
            }
        }
    }

    /// Walks of every end, half of which receive first what waits, and some that go round the room.
    fn resuming_walks(&mut self) {
        for round in 0..12 {
            for ending in Ending::ALL.into_iter().chain([Ending::NearFront]) {
                let style = match (round % 4, ending) {
                    (_, Ending::Leaves) => Style::tight(&mut self.random),
                    (0, Ending::End | Ending::OtherFront | Ending::NearFront | Ending::Form) => {
                        Style::bulk(&mut self.random)
                    }
                    _ => Style::random(&mut self.random),
                };
                let plan = self.resuming_plan(style);
                let file = plan.bytes();
                let tables = read(&file).expect("plans are valid");
                let waiting: Vec<usize> =
                    (0..plan.queues.len()).filter(|&queue| !plan.starting[queue].is_empty()).collect();
                let queue = *self.random.pick(&waiting).expect("something waits");
                let mut walk = Walk::new(&tables);
                if round % 2 == 1 {
                    walk.step(&mut self.random, Wish::Receive(queue));
                }
                if style.is_bulk {
                    let is_across = |front: usize, waiting: usize| front + waiting > QUEUE_ROOM;
                    walk.ride_until(&mut self.random, &mut Waves::new(queue, 3, 200), is_across);
                } else if round % 3 > 0 {
                    let steps = self.random.below(14);
                    walk.wander(&mut self.random, steps);
                }
                self.add_walk("something waits", &file, walk, ending);
            }
        }
    }

    /// A session whose map holds everything. One queue starts with a word of this length.
    fn session_of_everything(&mut self, length: usize) -> (Plan, usize) {
        let queues = self.random.between(1, QUEUES);
        let queue = self.random.below(queues);
        let mut plan = Plan {
            states: vec![1],
            starts: vec![0],
            queues: (0..queues).map(|_| self.random.between(2, 4)).collect(),
            starting: vec![],
            transitions: vec![],
            pool: vec![],
            roots: vec![Some(0)],
            bad: vec![],
        };
        plan.pool = pool_of_everything(&plan);
        plan.starting =
            if self.random.chance(50) { random_starting(&mut self.random, &plan) } else { vec![vec![]; queues] };
        plan.starting[queue] = messages_of(&mut self.random, &plan, queue, length);
        (plan, queue)
    }

    /// What waits is received whole, in parts, with what is sent behind it, or not: one message more, or another one, refuses it.
    fn waiting_words(&mut self, length: usize, with_other_numbers: bool) {
        let (mut plan, queue) = self.session_of_everything(length);
        let word = plan.starting[queue].clone();
        let (&last, front) = word.split_last().expect("something waits");
        let own = plan.messages_of(queue);
        let more = self.random.between(own.start, own.end - 1);
        let other = own.start + (last - own.start + 1) % own.len();
        let of = |direction, word: &[usize]| {
            let action = Some(Action { direction, queue, word: word.to_vec() });
            PlannedTransition { machine: 0, from: 0, to: 0, action }
        };
        plan.transitions = vec![
            of(Direction::Receive, &word),
            of(Direction::Receive, &[&word[..], &[more]].concat()),
            of(Direction::Receive, &word[..1]),
            of(Direction::Receive, &[front, &[other]].concat()),
            of(Direction::Send, &[more]),
            of(Direction::Receive, &[&word[1..], &[more]].concat()),
            of(Direction::Receive, &[]),
        ];
        let end = |steps| Reply::End { steps };
        let refused = |number, place, steps| Reply::StepRefused { refusal: Refusal { number, place }, steps };
        let file = plan.bytes();
        let traces: [(&[u8], Reply); 10] = [
            (&[], end(0)),
            (&[0], end(1)),
            (&[1], refused(14, 0, 0)),
            (&[3], refused(14, 0, 0)),
            (&[0, 2], refused(14, 1, 1)),
            (&[4, 1], end(2)),
            (&[6, 1], refused(14, 1, 1)),
            (&[2, 4, 5], end(3)),
            (&[2, 5], refused(14, 1, 1)),
            (&[4, 3], refused(14, 1, 1)),
        ];
        for (trace, expected) in traces {
            self.add_run("what waits is received", &file, plan.queues.len(), trace.to_vec(), Some(expected));
        }
        let others: [(&[u8], Reply); 3] =
            [(&[128], refused(3, 1, 0)), (&[130, 0], refused(4, 0, 0)), (&[7], refused(5, 0, 0))];
        for (trace, expected) in others.into_iter().filter(|_| with_other_numbers) {
            self.add_run("something waits, another number", &file, plan.queues.len(), trace.to_vec(), Some(expected));
        }
    }

    /// Sends behind what waits until 1,024 messages are there, and one more.
    fn filled_behind(&mut self, length: usize) {
        let (mut plan, queue) = self.session_of_everything(length);
        let own = plan.messages_of(queue);
        let [one, sixteen] = [1, WORD_LENGTH].map(|length| vec![self.random.between(own.start, own.end - 1); length]);
        let front = plan.starting[queue][..1].to_vec();
        let step = |direction, word: Vec<usize>| {
            let action = Some(Action { direction, queue, word });
            PlannedTransition { machine: 0, from: 0, to: 0, action }
        };
        plan.transitions = vec![
            step(Direction::Send, sixteen),
            step(Direction::Send, one),
            step(Direction::Receive, front),
            step(Direction::Send, vec![]),
        ];
        let words = (QUEUE_ROOM - length) / WORD_LENGTH;
        let rest = (QUEUE_ROOM - length) % WORD_LENGTH;
        let nearly = vec![0; words];
        let full = [nearly.clone(), vec![1; rest]].concat();
        let file = plan.bytes();
        let mut add = |trace: &[u8], more: &[u8], number: Option<u8>| {
            let trace = [trace, more].concat();
            let steps = trace.len() - usize::from(number.is_some());
            let expected = match number {
                None => Reply::End { steps },
                Some(number) => Reply::StepRefused { refusal: Refusal { number, place: steps }, steps },
            };
            self.add_run("sent behind what waits", &file, plan.queues.len(), trace, Some(expected));
        };
        add(&full, &[], None);
        add(&full, &[1], Some(15));
        add(&full, &[3, 0], Some(15));
        add(&full, &[2, 1, 3], None);
        add(&full, &[2, 1, 1], Some(15));
        // Where as many wait as one word has, there is no room for less than one.
        add(&nearly, &[0], Some(15));
    }

    /// The diagram of the start reads so much of what waits, and no more.
    fn outside_with_what_waits(&mut self, round: usize) {
        let length = self.random.between(1, STARTING);
        let (mut plan, _) = self.session_of_everything(length);
        let word = plan.starting.concat();
        let begins_queue = |&place: &usize| plan.queue_of(word[place]) > plan.queue_of(word[place - 1]);
        let firsts: Vec<usize> = (1..word.len()).filter(begins_queue).collect();
        let fate = match (round % 8, self.random.pick(&firsts)) {
            (0, _) => Fate::NoRoot,
            (1, _) => Fate::NotFinal,
            (2, _) => Fate::Lost(0),
            (3, _) => Fate::Lost(word.len() - 1),
            (4 | 5, Some(&first)) => Fate::Lost(first),
            _ => Fate::Lost(self.random.below(word.len())),
        };
        let finals = [0, 50, 100][self.random.below(3)];
        let taken = if let Fate::Lost(place) = fate { place } else { word.len() };
        plan.pool = word[..taken]
            .iter()
            .enumerate()
            .map(|(place, &message)| PlannedState {
                is_final: self.random.chance(finals),
                arcs: BTreeMap::from([(message, place + 1)]),
            })
            .collect();
        plan.pool.push(PlannedState { is_final: matches!(fate, Fate::Lost(_)), arcs: BTreeMap::new() });
        let far = match fate {
            Fate::NoRoot => {
                plan.roots = vec![None];
                0
            }
            _ => taken,
        };
        let trace = match self.random.below(3) {
            0 => vec![],
            1 => vec![255],
            _ => (0..self.random.between(1, 4)).map(|_| self.random.byte()).collect(),
        };
        let expected = Some(Reply::Outside { steps: 0, far });
        self.add_run("what waits is outside", &plan.bytes(), plan.queues.len(), trace, expected);
    }

    /// Sessions with random maps.
    fn resuming_sessions(&mut self, seed: u64) {
        let mut plans = Plans::resuming(seed + 14);
        for _ in 0..80 {
            let plan = plans.any();
            let file = plan.bytes();
            let tables = read(&file).expect("plans are valid");
            let mut walk = Walk::new(&tables);
            if !walk.configuration.is_inside(&tables) {
                let far = walk.configuration.far(&tables);
                let expected = Some(Reply::Outside { steps: 0, far });
                self.add_run("random session that resumes", &file, tables.queue_count, vec![0], expected);
                continue;
            }
            let steps = self.random.between(0, 20);
            walk.wander(&mut self.random, steps);
            let ending = Ending::ALL[self.random.below(Ending::ALL.len())];
            self.add_walk("random session that resumes", &file, walk, ending);
        }
    }

    /// Files that tell the two forms apart, most of them refused.
    fn files_of_either_form(&mut self, seed: u64) {
        for (file, refusal) in form_files(seed + 15, ENOUGH_OF_FORM, Clone::clone) {
            let trace = (0..self.random.below(4)).map(|_| self.random.below(3) as u8).collect();
            let memory_length = if refusal.is_some() { [0, 1_023, 4_096][self.random.below(3)] } else { 4_096 };
            self.add("of either form", file, trace, memory_length, refusal.map(Reply::FileRefused));
        }
    }

    /// Memory that is too short, and a trace that is too long: what is lent stays, whatever waits.
    fn refused_where_something_waits(&mut self) {
        for round in 0..14 {
            let style = Style::random(&mut self.random);
            let plan = self.resuming_plan(style);
            let asked = plan.queues.len() * QUEUE_ROOM;
            let memory_length = [0, asked - 1, asked - QUEUE_ROOM][round % 3];
            let reply = Reply::MemoryRefused(Refusal { number: 2, place: 0 });
            self.add("something waits, short memory", plan.bytes(), vec![0], memory_length, Some(reply));
            if round == 0 {
                let reply = Reply::TraceRefused(Refusal { number: 1, place: LONGEST_TRACE });
                let trace = vec![0; LONGEST_TRACE + 1];
                self.add("something waits, trace of 16,385", plan.bytes(), trace, asked, Some(reply));
            }
        }
    }
}
