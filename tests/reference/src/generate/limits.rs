//! Replays at the limits of a trace and of the memory, and those of files that are refused.

use super::reading::{fresh_reading_cases, Expected};
use super::replay::Generator;
use super::row_9::refused_about_order;
use super::running::Style;
use super::traces::{Walk, Waves};
use crate::read::{read, Refusal, Tables};
use crate::replay::{Reply, LONGEST_TRACE, QUEUE_ROOM};

impl Generator {
    /// A walk of as many steps as a trace can have bytes, and more.
    fn long_walk(&mut self, steps: usize, high: usize) -> (Vec<u8>, Vec<u8>, Tables) {
        let style = Style { most_states: 2, ..Style::random(&mut self.random) };
        let (_, file, tables) = self.plan_of(style);
        let mut walk = Walk::new(&tables);
        while walk.trace.len() < steps {
            let queue = self.queue_of(&tables);
            let (before, at_once) = (walk.trace.len(), (steps - walk.trace.len()).min(500));
            walk.ride(&mut self.random, at_once, &mut Waves::new(queue, 0, high));
            assert!(walk.trace.len() == before + at_once, "runs of such plans can always go on");
        }
        (file, walk.trace, tables)
    }

    /// Traces of 16,384 bytes, taken to their end or refused at their last bytes.
    pub(super) fn long_traces(&mut self) {
        for round in 0..14 {
            let high = [20, 60, 200, 1_000][round % 4];
            let (file, mut trace, tables) = self.long_walk(LONGEST_TRACE, high);
            let refused = |number, place, steps| Reply::StepRefused { refusal: Refusal { number, place }, steps };
            let (last, but_one) = (LONGEST_TRACE - 1, LONGEST_TRACE - 2);
            let expected = match round % 5 {
                0 => {
                    trace[last] = 128;
                    refused(3, LONGEST_TRACE, last)
                }
                1 => {
                    trace[but_one..].copy_from_slice(&[255, 127]);
                    refused(5, but_one, but_one)
                }
                2 => {
                    trace[but_one..].copy_from_slice(&[255, 128]);
                    refused(4, but_one, but_one)
                }
                _ => Reply::End { steps: LONGEST_TRACE },
            };
            self.add_run("trace of 16,384", &file, tables.queue_count, trace, Some(expected));
        }
    }

    pub(super) fn refused_traces(&mut self) {
        let reply = Reply::TraceRefused(Refusal { number: 1, place: LONGEST_TRACE });
        let (mut file, mut trace, mut tables) = self.long_walk(LONGEST_TRACE + 1, 30);
        for round in 0..120 {
            // A walk serves four times, with other lengths of memory.
            if round % 4 == 0 {
                let length = match round {
                    12 => 20_000,
                    40 => LONGEST_TRACE + 2,
                    _ => LONGEST_TRACE + 1,
                };
                (file, trace, tables) = self.long_walk(length, 30);
            }
            let asked = tables.queue_count * QUEUE_ROOM;
            let (kind, memory_length) = match round % 4 {
                0 => ("trace of 16,385", asked),
                1 | 2 => ("trace of 16,385, short memory", self.random.below(asked)),
                _ => ("trace of 16,385", asked + self.random.between(0, 500)),
            };
            self.add(kind, file.clone(), trace.clone(), memory_length, Some(reply));
        }
    }

    /// Files refused by each row, with traces and memory that would be refused too.
    pub(super) fn refused_files(&mut self, seed: u64) {
        let mut taken = [0; 11];
        let (_, long_trace, _) = self.long_walk(LONGEST_TRACE + 1, 10);
        for case in fresh_reading_cases(seed + 5).cases.into_iter().rev() {
            let Expected::Refused(number, place) = case.expected else { continue };
            let count = &mut taken[usize::from(number)];
            let enough = if number == 1 { 2 } else { 20 };
            if *count == enough || (number != 1 && case.bytes.len() > 300) {
                continue;
            }
            *count += 1;
            let trace = match *count {
                5 => long_trace.clone(),
                6 if number < 7 => long_trace.clone(),
                _ => (0..self.random.below(6)).map(|_| self.random.byte()).collect(),
            };
            let memory_length = [0, 1_023, 2_048, 4_096][self.random.below(4)];
            let expected = Some(Reply::FileRefused(Refusal { number, place }));
            self.add("refused file", case.bytes, trace, memory_length, expected);
        }
    }

    /// The same for files that are out of order, whether 9 or what comes before it refuses them.
    pub(super) fn files_out_of_order(&mut self, seed: u64) {
        for (file, refusal) in refused_about_order(seed + 8, 10) {
            let trace = (0..self.random.below(6)).map(|_| self.random.byte()).collect();
            let memory_length = [0, 1_023, 2_048, 4_096][self.random.below(4)];
            self.add("refused about order", file, trace, memory_length, Some(Reply::FileRefused(refusal)));
        }
    }

    /// Memory that is too short by one byte, by a queue, or altogether.
    pub(super) fn refused_memory(&mut self) {
        for round in 0..150 {
            let style = Style { is_tight: round % 5 == 0, ..Style::random(&mut self.random) };
            let (mut plan, _, _) = self.plan_of(style);
            if round % 10 == 0 {
                plan.roots = vec![None; plan.roots.len()];
            }
            let file = plan.bytes();
            let tables = read(&file).expect("plans are valid");
            let asked = tables.queue_count * QUEUE_ROOM;
            let memory_length = match round % 5 {
                0 => 0,
                1 | 2 => asked - 1,
                3 => asked - QUEUE_ROOM,
                _ => self.random.below(asked),
            };
            let trace = (0..self.random.below(6)).map(|_| self.random.byte()).collect();
            let reply = Reply::MemoryRefused(Refusal { number: 2, place: 0 });
            self.add("short memory", file, trace, memory_length, Some(reply));
        }
    }
}
