//! The library that C calls, beside the reference, on generated and damaged files and texts.

mod compare;
mod damage;
mod drawing;
mod files;
mod flat;
mod lend;
mod tally;
mod texts;
mod traces;
mod typed;
mod write;
mod writing;

use std::process::ExitCode;
use std::sync::atomic::{AtomicBool, AtomicU64, Ordering};
use std::sync::Mutex;
use std::thread;
use std::time::{Duration, Instant};

use reference_checker::generate::expression::expression_cases;
use reference_checker::generate::reading::reading_cases;
use reference_checker::generate::replay::replay_cases;
use reference_checker::generate::verdicts::verdict_cases;
use reference_checker::random::Random;

use compare::{Comparer, MEMORY_MOST};
use files::Files;
use tally::Tally;

const USAGE: &str = "\
usage: differential [--count N] [--seed S] [--from N] [--seconds N] [--threads N] [--generated-only]
  --count N         files to generate (1000000)
  --seed S          seed of all that is chosen (20261115)
  --from N          number of the first file (0), to try one file again
  --seconds N       stop after so many seconds (900)
  --threads N       files compared at a time (2)
  --generated-only  leave out the files that the reference keeps";

/// Runs of fewer files need not meet everything.
const ENOUGH_TO_MEET_ALL: u64 = 100_000;
/// The last of so many files brings replays with it. The number is odd, so that threads do it in turn.
const WITH_REPLAYS: u64 = 99_999;
const COMPLAINTS: usize = 10;

struct Options {
    count: u64,
    seed: u64,
    from: u64,
    seconds: u64,
    threads: u64,
    generated_only: bool,
}

fn options() -> Result<Options, String> {
    let mut options =
        Options { count: 1_000_000, seed: 20_261_115, from: 0, seconds: 900, threads: 2, generated_only: false };
    let mut words = std::env::args().skip(1);
    while let Some(word) = words.next() {
        let field = match word.as_str() {
            "--count" => &mut options.count,
            "--seed" => &mut options.seed,
            "--from" => &mut options.from,
            "--seconds" => &mut options.seconds,
            "--threads" => &mut options.threads,
            "--generated-only" => {
                options.generated_only = true;
                continue;
            }
            _ => return Err(USAGE.to_string()),
        };
        *field = words.next().and_then(|number| number.parse().ok()).ok_or(USAGE)?;
    }
    options.threads = options.threads.max(1);
    Ok(options)
}

/// What all threads share.
struct Run {
    options: Options,
    start: Instant,
    done: AtomicU64,
    is_over: AtomicBool,
    complaints: Mutex<Vec<String>>,
}

impl Run {
    fn complain(&self, which: &str, file: &[u8], why: &str) {
        let hex: String = file.iter().take(400).map(|byte| format!("{byte:02x} ")).collect();
        let mut complaints = self.complaints.lock().expect("no thread panics while it complains");
        complaints.push(format!("{which}: {why}\n  file of {} bytes: {hex}", file.len()));
        if complaints.len() >= COMPLAINTS {
            self.is_over.store(true, Ordering::Relaxed);
        }
    }

    fn is_late(&self) -> bool {
        self.start.elapsed().as_secs() >= self.options.seconds
    }

    /// Every so manieth file, beginning with one of the first.
    fn generated(&self, first: u64) -> Tally {
        let mut files = Files::new();
        let mut comparer = Comparer::new();
        let Options { count, seed, from, threads, .. } = self.options;
        for number in (from + first..from + count).step_by(threads as usize) {
            if self.is_over.load(Ordering::Relaxed) {
                break;
            }
            let (file, random) = files.file(seed, number);
            let which = format!("--seed {seed} --from {number}");
            if let Err(why) = comparer.compare(&file, random, true) {
                self.complain(&which, &file, &why);
            }
            if number % WITH_REPLAYS == WITH_REPLAYS - 1 {
                self.replays(&mut comparer, random.below(usize::MAX) as u64, random, &which);
            }
            self.done.fetch_add(1, Ordering::Relaxed);
        }
        comparer.tally
    }

    /// What the reference keeps: files at every boundary, of every verdict, and for every end of a replay, and texts. Returns how
    /// many.
    fn kept(&self, comparer: &mut Comparer) -> usize {
        let seed = self.options.seed;
        let mut random = Random::new(seed);
        // The longest files take a minute each to check.
        let reading = reading_cases(seed).cases.into_iter().map(|case| (case.bytes, case.kind != "valid maximal"));
        let verdicts = verdict_cases(seed).into_iter().map(|case| (case.bytes, true));
        let mut count = 0;
        for (file, checks) in reading.chain(verdicts) {
            if let Err(why) = comparer.compare(&file, &mut random, checks) {
                self.complain(&format!("kept file {count}"), &file, &why);
            }
            count += 1;
        }
        count + self.replays(comparer, seed, &mut random, "kept replay") + self.texts(comparer, &mut random)
    }

    /// The texts that the reference makes from a seed. Returns how many.
    fn texts(&self, comparer: &mut Comparer, random: &mut Random) -> usize {
        let cases = expression_cases(self.options.seed);
        for case in &cases {
            if let Err(why) = comparer.compare_drawing(&case.text, random) {
                self.complain(&format!("kept text, {}", case.kind), &case.text, &why);
            }
        }
        cases.len()
    }

    /// The replays that the reference makes from a seed: of every end, some of them long. Returns how many.
    fn replays(&self, comparer: &mut Comparer, seed: u64, random: &mut Random, which: &str) -> usize {
        let cases = replay_cases(seed);
        for case in &cases {
            let replay = &case.replay;
            let memory_length = replay.memory_length.min(MEMORY_MOST);
            if let Err(why) = comparer.compare_replaying(&replay.file, &replay.trace, memory_length, random) {
                self.complain(&format!("{which}, {}", case.kind), &replay.file, &why);
            }
        }
        cases.len()
    }

    fn show_progress(&self) {
        let mut shown = Instant::now();
        while !self.is_over.load(Ordering::Relaxed) {
            thread::sleep(Duration::from_millis(50));
            let done = self.done.load(Ordering::Relaxed);
            if done >= self.options.count || self.is_late() {
                self.is_over.store(true, Ordering::Relaxed);
            } else if shown.elapsed().as_secs() >= 10 {
                shown = Instant::now();
                eprintln!("  {done} of {} files, {} s", self.options.count, self.start.elapsed().as_secs());
            }
        }
    }
}

fn main() -> ExitCode {
    let options = match options() {
        Ok(options) => options,
        Err(complaint) => {
            eprintln!("{complaint}");
            return ExitCode::from(2);
        }
    };
    let run = Run {
        options,
        start: Instant::now(),
        done: AtomicU64::new(0),
        is_over: AtomicBool::new(false),
        complaints: Mutex::new(Vec::new()),
    };
    println!("seed {}", run.options.seed);
    let mut tally = Tally::default();
    let mut kept = 0;
    if !run.options.generated_only {
        let mut comparer = Comparer::new();
        kept = run.kept(&mut comparer);
        tally.add(comparer.tally);
    }
    thread::scope(|scope| {
        let run = &run;
        let workers: Vec<_> = (0..run.options.threads).map(|first| scope.spawn(move || run.generated(first))).collect();
        run.show_progress();
        for worker in workers {
            tally.add(worker.join().expect("a worker ends by itself"));
        }
    });
    report(&run, kept, &tally)
}

fn report(run: &Run, kept: usize, tally: &Tally) -> ExitCode {
    let done = run.done.load(Ordering::Relaxed);
    print!("{}", tally.report());
    let mut complaints = run.complaints.lock().expect("all threads are done").clone();
    if done >= ENOUGH_TO_MEET_ALL {
        complaints.extend(tally.missing().into_iter().map(|what| format!("never met: {what}")));
    }
    for complaint in &complaints {
        eprintln!("{complaint}");
    }
    let stopped = if done < run.options.count { ", stopped early" } else { "" };
    println!(
        "{done} generated files and {kept} kept ones in {} s{stopped}: {} complaints",
        run.start.elapsed().as_secs(),
        complaints.len()
    );
    if complaints.is_empty() {
        ExitCode::SUCCESS
    } else {
        ExitCode::FAILURE
    }
}
