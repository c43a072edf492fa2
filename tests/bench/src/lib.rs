//! Taking times, and the lines that report them.

pub mod order;
pub mod spelling;

use std::time::{Duration, Instant};

const RUNS: usize = 9;
const RUN_TIME: Duration = Duration::from_millis(40);

/// Of one call, over several runs. On a busy machine the fastest says more than the median.
pub struct Times {
    pub median: Duration,
    pub fastest: Duration,
}

pub fn time(mut call: impl FnMut()) -> Times {
    let [times] = time_by_turns([&mut call]);
    times
}

/// Of several calls, a run of each by turns, so that a machine whose speed changes is the same to all.
pub fn time_by_turns<const N: usize>(mut calls: [&mut dyn FnMut(); N]) -> [Times; N] {
    let mut runs = calls.each_mut().map(|call| (calls_in_a_run(call), Vec::new()));
    for _ in 0..RUNS {
        for (call, (count, times)) in calls.iter_mut().zip(&mut runs) {
            times.push(run(call, *count) / *count);
        }
    }
    runs.map(|(_, mut times)| {
        times.sort_unstable();
        Times { median: times[RUNS / 2], fastest: times[0] }
    })
}

/// As many as fill it.
fn calls_in_a_run(call: &mut dyn FnMut()) -> u32 {
    let mut calls = 1;
    while run(call, calls) < RUN_TIME && calls < 1 << 24 {
        calls *= 2;
    }
    calls
}

fn run(call: &mut dyn FnMut(), calls: u32) -> Duration {
    let start = Instant::now();
    for _ in 0..calls {
        call();
    }
    start.elapsed()
}

pub fn report(what: &str, name: &str, subject: &str, times: &Times, found: &str) {
    let (median, fastest) = (times.median.as_nanos(), times.fastest.as_nanos());
    println!("{what:<6} {name:<28} {subject:<10} {median:>12} ns ({fastest} fastest): {found}");
}
