//! Times of replaying, product and reference by turns. Not a test: nothing fails by being slow.
//!
//! The product is called as C programs call it, in the library that `bindings/library capi` writes. The reference is `rings`,
//! the product's algorithm in safe Rust, which is given what was read with `order`, the product's test of queue order. Each
//! trace is first replayed by both, and they must leave the same.

use std::collections::BTreeMap;
use std::hint::black_box;
use std::time::Duration;

use reference_checker::generate::document::{hex, R};
use reference_checker::generate::plan::{Action, Direction, Plan, PlannedState, PlannedTransition};
use reference_checker::read::{read_asking, Refusal, MESSAGES, QUEUES, WORD_LENGTH};
use reference_checker::replay::{Record, Reply, LONGEST_TRACE, QUEUE_ROOM};
use reference_checker::rings::replay_as_read;
use swarmbanner_bench::order::in_queue_order;
use swarmbanner_bench::{report, time_by_turns, Times};

/// What is timed, with the memory and the record that it is lent.
trait Subject {
    fn replays(&mut self, file: &[u8], trace: &[u8]) -> Reply;
    /// The record's numbers and the memory after the last replay.
    fn lent(&self) -> (Vec<usize>, &[u8]);
}

struct Reference {
    record: Record,
    memory: Vec<u8>,
}

impl Default for Reference {
    fn default() -> Self {
        Reference { record: Record::default(), memory: vec![0; QUEUES * QUEUE_ROOM] }
    }
}

impl Subject for Reference {
    fn replays(&mut self, file: &[u8], trace: &[u8]) -> Reply {
        let read = read_asking(black_box(file), in_queue_order);
        replay_as_read(&mut self.record, &read, black_box(trace), &mut self.memory)
    }

    fn lent(&self) -> (Vec<usize>, &[u8]) {
        (self.record.numbers().collect(), &self.memory)
    }
}

/// The product, by its C function.
struct Product {
    record: [usize; 12],
    memory: Vec<u8>,
}

impl Default for Product {
    fn default() -> Self {
        Product { record: [0; 12], memory: vec![0; QUEUES * QUEUE_ROOM] }
    }
}

extern "C" {
    fn swarmbanner_replay(
        file: *const u8,
        file_length: usize,
        trace: *const u8,
        trace_length: usize,
        memory: *mut u8,
        memory_length: usize,
        record: *mut usize,
        record_length: usize,
        reply: *mut usize,
        reply_length: usize,
    ) -> usize;
}

const FILE_REFUSED: usize = 4;
const END: usize = 9;
const LEFT: usize = 10;
const STEP_REFUSED: usize = 11;
const TRACE_REFUSED: usize = 12;
const MEMORY_REFUSED: usize = 13;

impl Subject for Product {
    fn replays(&mut self, file: &[u8], trace: &[u8]) -> Reply {
        let (file, trace) = (black_box(file), black_box(trace));
        let mut reply = [0; 4];
        // SAFETY: each pointer and length are of one slice; those that are written to are borrowed by this call alone.
        let kind = unsafe {
            swarmbanner_replay(
                file.as_ptr(),
                file.len(),
                trace.as_ptr(),
                trace.len(),
                self.memory.as_mut_ptr(),
                self.memory.len(),
                self.record.as_mut_ptr(),
                self.record.len(),
                reply.as_mut_ptr(),
                reply.len(),
            )
        };
        let refusal = Refusal { number: reply[0] as u8, place: reply[1] };
        match kind {
            END => Reply::End { steps: reply[0] },
            LEFT => Reply::Outside { steps: reply[0], far: reply[1] },
            STEP_REFUSED => Reply::StepRefused { refusal, steps: reply[2] },
            FILE_REFUSED => Reply::FileRefused(refusal),
            TRACE_REFUSED => Reply::TraceRefused(refusal),
            MEMORY_REFUSED => Reply::MemoryRefused(refusal),
            _ => panic!("a reply of kind {kind}"),
        }
    }

    fn lent(&self) -> (Vec<usize>, &[u8]) {
        (self.record.to_vec(), &self.memory)
    }
}

const ROUND: usize = MESSAGES / QUEUES;
/// A word is two rounds of its queue's messages.
const WORD: usize = 2 * ROUND;
const _: () = assert!(WORD == WORD_LENGTH);

/// Four queues of eight messages; the map holds each queue's messages in turn, from any of them on. A machine of two states
/// for each queue sends and receives one message, or a word of sixteen.
fn session() -> Plan {
    let step = |direction: Direction, queue: usize, word: Vec<usize>| {
        let action = Some(Action { direction, queue, word });
        PlannedTransition { machine: queue, from: 0, to: 0, action }
    };
    let messages = |queue: usize| queue * ROUND..(queue + 1) * ROUND;
    let mut transitions = vec![];
    for direction in [Direction::Send, Direction::Receive] {
        transitions.extend((0..MESSAGES).map(|message| step(direction, message / ROUND, vec![message])));
    }
    for direction in [Direction::Send, Direction::Receive] {
        let word = |queue| messages(queue).chain(messages(queue)).collect();
        transitions.extend((0..QUEUES).map(|queue| step(direction, queue, word(queue))));
    }
    // Behind the root there is a state for each message, where it was read last.
    let entries = |queues: std::ops::Range<usize>| -> BTreeMap<usize, usize> {
        queues.flat_map(messages).map(|message| (message, 1 + message)).collect()
    };
    let mut pool = vec![PlannedState { is_final: true, arcs: entries(0..QUEUES) }];
    for message in 0..MESSAGES {
        let queue = message / ROUND;
        let next = queue * ROUND + (message + 1) % ROUND;
        let mut arcs = entries(queue + 1..QUEUES);
        arcs.insert(next, 1 + next);
        pool.push(PlannedState { is_final: true, arcs });
    }
    let states = vec![2; QUEUES];
    Plan {
        starts: vec![0; QUEUES],
        roots: vec![Some(0); states.iter().product()],
        states,
        queues: vec![ROUND; QUEUES],
        starting: vec![],
        transitions,
        pool,
        bad: vec![],
    }
}

/// A trace of that session.
#[derive(Default)]
struct Trace {
    numbers: Vec<u8>,
    sent: [usize; QUEUES],
    received: [usize; QUEUES],
    /// Messages waiting in each configuration, together.
    followed: usize,
}

impl Trace {
    fn is_full(&self) -> bool {
        self.numbers.len() == LONGEST_TRACE
    }

    fn take(&mut self, number: usize) {
        if !self.is_full() {
            self.numbers.push(number as u8);
            self.followed += self.sent.iter().sum::<usize>() - self.received.iter().sum::<usize>();
        }
    }

    fn send(&mut self, queue: usize) {
        let message = queue * ROUND + self.sent[queue] % ROUND;
        self.sent[queue] += 1;
        self.take(message);
    }

    fn receive(&mut self, queue: usize) {
        let message = queue * ROUND + self.received[queue] % ROUND;
        self.received[queue] += 1;
        self.take(MESSAGES + message);
    }

    fn send_word(&mut self, queue: usize) {
        self.sent[queue] += WORD;
        self.take(2 * MESSAGES + queue);
    }

    fn receive_word(&mut self, queue: usize) {
        self.received[queue] += WORD;
        self.take(2 * MESSAGES + QUEUES + queue);
    }

    /// 1,000 messages wait in each queue, and one is received and one sent in each by turns.
    fn full_queues() -> Self {
        let mut trace = Trace::default();
        for queue in 0..QUEUES {
            (0..1_000 / WORD).for_each(|_| trace.send_word(queue));
            (0..1_000 % WORD).for_each(|_| trace.send(queue));
        }
        for queue in (0..QUEUES).cycle() {
            if trace.is_full() {
                break;
            }
            trace.receive(queue);
            trace.send(queue);
        }
        trace
    }

    /// One message waits, or two.
    fn few_messages() -> Self {
        let mut trace = Trace::default();
        trace.send(0);
        for queue in (0..QUEUES).cycle() {
            if trace.is_full() {
                break;
            }
            trace.send((queue + 1) % QUEUES);
            trace.receive(queue);
        }
        trace
    }

    /// A word waits, or two.
    fn words() -> Self {
        let mut trace = Trace::default();
        trace.send_word(0);
        for queue in (0..QUEUES).cycle() {
            if trace.is_full() {
                break;
            }
            trace.send_word((queue + 1) % QUEUES);
            trace.receive_word(queue);
        }
        trace
    }

    /// A word is sent and received message by message, over and over through one queue, where so many wait.
    fn receives(waiting: usize) -> Self {
        let mut trace = Trace::default();
        (0..waiting / WORD).for_each(|_| trace.send_word(QUEUES - 1));
        while !trace.is_full() {
            trace.send_word(QUEUES - 1);
            (0..WORD).for_each(|_| trace.receive(QUEUES - 1));
        }
        trace
    }
}

fn time_replay(name: &str, file: &[u8], trace: &[u8], followed: usize) {
    let (mut reference, mut product) = (Reference::default(), Product::default());
    let reply = reference.replays(file, trace);
    assert_eq!(product.replays(file, trace), reply, "product and reference reply otherwise to {name}");
    assert!(product.lent() == reference.lent(), "product and reference leave something else of {name}");
    assert_eq!(reply, Reply::End { steps: trace.len() }, "{name}");

    let [by_reference, by_product] = time_by_turns([
        &mut || {
            black_box(reference.replays(file, trace));
        },
        &mut || {
            black_box(product.replays(file, trace));
        },
    ]);
    for (subject, times) in [("reference", &by_reference), ("product", &by_product)] {
        report("replay", name, subject, times, &found(reply, times, trace.len(), followed));
    }
    let ratio = |product: Duration, reference: Duration| product.as_secs_f64() / reference.as_secs_f64();
    let medians = ratio(by_product.median, by_reference.median);
    let fastest = ratio(by_product.fastest, by_reference.fastest);
    println!("{:<6} {name:<28} {:<10} {medians:>12.2}    ({fastest:.2} fastest)", "replay", "ratio");
}

fn found(reply: Reply, times: &Times, steps: usize, followed: usize) -> String {
    let each = |time: Duration, of: usize| time.as_nanos() as f64 / of as f64;
    let of_steps = format!("{:.1} ns a step ({:.1})", each(times.median, steps), each(times.fastest, steps));
    let of_messages =
        format!("{:.2} ns a message followed ({:.2})", each(times.median, followed), each(times.fastest, followed));
    // With few messages the time is that of the steps.
    if followed < 4 * steps {
        format!("{reply}, {of_steps}")
    } else {
        format!("{reply}, {of_steps}, {of_messages}")
    }
}

fn main() {
    let file = session().bytes();
    let traces = [
        ("full queues", Trace::full_queues()),
        ("one or two messages", Trace::few_messages()),
        ("words of 16", Trace::words()),
        ("receives, up to 16 waiting", Trace::receives(0)),
        ("receives, 500 waiting", Trace::receives(500)),
    ];
    for (name, trace) in &traces {
        time_replay(name, &file, &trace.numbers, trace.followed);
    }
    time_replay("R, two steps", &hex(R), &[0, 1], 1);
}
