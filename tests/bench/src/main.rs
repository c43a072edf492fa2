//! Times of reading and checking. Not a test: nothing fails by being slow.
//!
//! Every subject is timed on the same files in the same run, so another implementation is compared by adding a
//! `Subject` to `subjects`. The program `replay` has the times of replaying, `writing` those of writing, `expression` those of drawing.
//!
//! The reference reads with `order`, the product's test of queue order in safe Rust.
//!
//! `bench` leaves out the files with the most steps, which take minutes; `bench --whole` has them.
//!
//! `bench --before` is for a library that reads words of four messages at most, or pools in queue order alone: it may refuse
//! the files that have longer words or other pools, and is timed on all others. The files are the same in every run.

use std::hint::black_box;
use std::time::{Duration, Instant};

use reference_checker::generate::document::{hex, R};
use reference_checker::generate::large;
use reference_checker::generate::plan::Direction;
use reference_checker::long_words::has_long_word;
use reference_checker::order_features::places_out_of_order;
use reference_checker::random::Random;
use reference_checker::read::{read, read_asking};
use reference_checker::verdict::Verdict;
use reference_checker::walk::{check_tables, Scratch};
use swarmbanner_bench::order::in_queue_order;
use swarmbanner_bench::{report, time, Times};

/// What is timed.
trait Subject {
    fn name(&self) -> &'static str;
    /// Whether the file is read. The tables must be made.
    fn reads(&mut self, file: &[u8]) -> bool;
    /// What checking finds; nothing where the subject only reads.
    fn checks(&mut self, file: &[u8]) -> Option<Checked>;
}

/// What a check found, so that subjects are seen to do the same work.
#[derive(Clone, Copy, Debug, PartialEq, Eq)]
enum Checked {
    Closed { pairs: u64 },
    Shown { messages: usize },
    Else,
}

struct Reference {
    scratch: Scratch,
}

impl Subject for Reference {
    fn name(&self) -> &'static str {
        "reference"
    }

    fn reads(&mut self, file: &[u8]) -> bool {
        black_box(read_asking(black_box(file), in_queue_order)).is_ok()
    }

    fn checks(&mut self, file: &[u8]) -> Option<Checked> {
        let Ok(tables) = read_asking(black_box(file), in_queue_order) else { return Some(Checked::Else) };
        Some(match check_tables(&tables, &mut self.scratch) {
            Verdict::Closed { pairs } => Checked::Closed { pairs },
            Verdict::Leaves { contents, .. } | Verdict::Bad { contents, .. } => {
                Checked::Shown { messages: black_box(contents).len() }
            }
            Verdict::Outside => Checked::Else,
        })
    }
}

/// The product, by the functions of crate `benchmark`, with the memory that it is lent.
struct Product {
    seen: Vec<u16>,
    queue: Vec<u16>,
    contents: Vec<u8>,
}

impl Default for Product {
    fn default() -> Self {
        Product { seen: vec![0; 32512], queue: vec![0; 32512], contents: vec![0; 32768] }
    }
}

extern "C" {
    fn measured_read(file: *const u8, length: usize, i: usize) -> usize;
    fn measured_check(
        file: *const u8,
        length: usize,
        seen: *mut u16,
        seen_length: usize,
        queue: *mut u16,
        queue_length: usize,
        contents: *mut u8,
        contents_length: usize,
    ) -> usize;
}

/// Added to the number of messages shown, so that it is no number of pairs.
const SHOWN: usize = 2_000_000_000;
const ELSE: usize = 3_000_000_000;

impl Subject for Product {
    fn name(&self) -> &'static str {
        "product"
    }

    fn reads(&mut self, file: &[u8]) -> bool {
        // SAFETY: the pointer and the length are of one slice, which the call only reads.
        let sampled = unsafe { measured_read(file.as_ptr(), file.len(), black_box(0)) };
        black_box(sampled) > 0
    }

    fn checks(&mut self, file: &[u8]) -> Option<Checked> {
        let file = black_box(file);
        // SAFETY: each pointer and length are of one slice; the three lent ones are borrowed by this call alone.
        let told = unsafe {
            measured_check(
                file.as_ptr(),
                file.len(),
                self.seen.as_mut_ptr(),
                self.seen.len(),
                self.queue.as_mut_ptr(),
                self.queue.len(),
                self.contents.as_mut_ptr(),
                self.contents.len(),
            )
        };
        Some(match told {
            ELSE => Checked::Else,
            SHOWN..ELSE => Checked::Shown { messages: told - SHOWN },
            pairs => Checked::Closed { pairs: pairs as u64 },
        })
    }
}

fn subjects() -> Vec<Box<dyn Subject>> {
    vec![Box::new(Reference { scratch: Scratch::default() }), Box::new(Product::default())]
}

/// What is timed, and whether it may refuse long words and pools that are out of order where it does not matter.
struct Bench {
    subjects: Vec<Box<dyn Subject>>,
    before: bool,
}

impl Bench {
    fn may_refuse(&self, file: &[u8]) -> bool {
        let is_new = |tables| has_long_word(&tables) || !places_out_of_order(&tables).is_empty();
        self.before && read(file).is_ok_and(is_new)
    }

    fn time_reading(&mut self, name: &str, file: &[u8]) {
        let may_refuse = self.may_refuse(file);
        for subject in &mut self.subjects {
            if may_refuse && !subject.reads(file) {
                report_refused("read", name, subject.name());
                continue;
            }
            assert!(subject.reads(file), "{} refuses {name}", subject.name());
            let times = time(|| {
                black_box(subject.reads(file));
            });
            report("read", name, subject.name(), &times, &format!("{} bytes", file.len()));
        }
    }

    fn time_checking(&mut self, name: &str, file: &[u8]) {
        self.check_all(name, file, |subject, _| {
            time(|| {
                black_box(subject.checks(file));
            })
        });
    }

    /// Long checks are run once.
    fn time_once(&mut self, name: &str, file: &[u8]) {
        self.check_all(name, file, |_, elapsed| Times { median: elapsed, fastest: elapsed });
    }

    /// Has every subject check the file once and find the same; the times are made from the subject or from that check.
    fn check_all(&mut self, name: &str, file: &[u8], times: impl Fn(&mut dyn Subject, Duration) -> Times) {
        let may_refuse = self.may_refuse(file);
        let mut first = None;
        for subject in &mut self.subjects {
            let start = Instant::now();
            let Some(checked) = subject.checks(file) else { continue };
            let elapsed = start.elapsed();
            if may_refuse && checked == Checked::Else {
                report_refused("check", name, subject.name());
                continue;
            }
            assert_eq!(*first.get_or_insert(checked), checked, "{} finds something else in {name}", subject.name());
            let times = times(subject.as_mut(), elapsed);
            report("check", name, subject.name(), &times, &found(checked, &times));
        }
    }
}

fn found(checked: Checked, times: &Times) -> String {
    match checked {
        Checked::Closed { pairs } => {
            let each = |time: Duration| time.as_nanos() as f64 / pairs as f64;
            format!("closed, {pairs} pairs, {:.1} ns a pair ({:.1})", each(times.median), each(times.fastest))
        }
        Checked::Shown { messages } => format!("{messages} messages shown"),
        Checked::Else => "neither closed nor shown".to_string(),
    }
}

fn report_refused(what: &str, name: &str, subject: &str) {
    println!("{what:<6} {name:<28} {subject:<10} refused");
}

/// Every file is made from here, so that files which differ in their words alone have the same pool.
fn random() -> Random {
    Random::new(1)
}

const WORD_LENGTHS: [usize; 2] = [4, 16];

fn main() {
    let has = |option: &str| std::env::args().skip(1).any(|argument| argument == option);
    let mut bench = Bench { subjects: subjects(), before: has("--before") };
    let maximal = WORD_LENGTHS.map(|length| large::maximal_closed_with_words(&mut random(), length).bytes());

    bench.time_reading("R", &hex(R));
    for (length, file) in WORD_LENGTHS.into_iter().zip(&maximal) {
        bench.time_reading(&format!("long file, words of {length}"), file);
    }
    bench.time_reading("longest test of queue order", &large::longest_test_of_order(&mut random()).bytes());
    bench.time_reading("longest file, longest test", &large::longest(&mut random()).bytes());

    bench.time_checking("R", &hex(R));
    let mut steps = vec![("local".to_string(), None)];
    for (name, direction) in [("send", Direction::Send), ("receive", Direction::Receive)] {
        steps.extend(WORD_LENGTHS.map(|length| (format!("{name} of {length}"), Some((direction, length)))));
    }
    for (name, step) in &steps {
        bench.time_checking(&format!("all arcs, {name}"), &large::dense(&mut random(), *step).bytes());
    }
    for length in WORD_LENGTHS {
        let behind = large::receive_behind_a_queue(&mut random(), length).bytes();
        bench.time_checking(&format!("two queues, receive of {length}"), &behind);
    }
    for (name, step) in &steps {
        bench.time_checking(&format!("half the arcs, {name}"), &large::with_holes(&mut random(), *step, 50).bytes());
    }
    bench.time_checking("long leaves, local", &large::long_local_leaves().bytes());
    bench.time_checking("long leaves, send", &large::long_send_leaves().bytes());

    for length in WORD_LENGTHS {
        let fewer = large::maximal_closed_with_fewer_steps(&mut random(), length).bytes();
        bench.time_once(&format!("8,192 steps, words of {length}"), &fewer);
    }
    if has("--whole") {
        for (length, file) in WORD_LENGTHS.into_iter().zip(&maximal) {
            bench.time_once(&format!("32,768 steps, words of {length}"), file);
        }
    }
}
