//! Replays a trace on a session file, and prints how it ended, the state of each machine and what waits in each queue.
//! Exit status: 0 at the end of the trace; 1 outside the map; 2 refused; 3 wrong usage, a file that cannot be read, or an answer
//! that cannot be written.

use std::env;
use std::fs::File;
use std::io::{self, Read, Write};
use std::process::ExitCode;

use swarmbanner::{Replayed, Replayer};

fn main() -> ExitCode {
    let names: Vec<String> = env::args().skip(1).collect();
    let [file, trace] = &names[..] else {
        eprintln!("usage: replay FILE TRACE");
        return ExitCode::from(3);
    };
    let (Some(file), Some(trace)) = (read(file), read(trace)) else { return ExitCode::from(3) };
    let mut replayer = Replayer::new();
    let replayed = replayer.replay(&file, &trace);
    let mut lines = replayed.to_string();
    if let Some(last) = replayer.last() {
        lines += &format!("\n{last}");
    }
    if let Err(error) = writeln!(io::stdout(), "{lines}") {
        eprintln!("replay: standard output cannot be written to: {error}");
        return ExitCode::from(3);
    }
    ExitCode::from(grade(&replayed))
}

/// One byte more than a file or a trace may have is enough to see that it is too long. What cannot be read is said.
fn read(name: &str) -> Option<Vec<u8>> {
    let mut bytes = vec![];
    let outcome = File::open(name).and_then(|file| file.take(16_385).read_to_end(&mut bytes));
    match outcome {
        Ok(_) => Some(bytes),
        Err(error) => {
            eprintln!("replay: {name} cannot be read: {error}");
            None
        }
    }
}

fn grade(replayed: &Replayed) -> u8 {
    match replayed {
        Replayed::End { .. } => 0,
        Replayed::Outside { .. } => 1,
        _ => 2,
    }
}
