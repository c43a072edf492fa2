//! Makes a diagram state of a session file final, writes the file that this gives under another name, and says how many bytes it
//! has. Exit status: 0 written; 2 the file is refused, or no session file has what would be written; 3 wrong usage, a diagram
//! state that is not there, or a file that cannot be read or written.

use std::env;
use std::error::Error;
use std::fs::{self, File};
use std::io::{self, Read, Write};
use std::process::ExitCode;

use swarmbanner::Refusal;

fn main() -> ExitCode {
    let words: Vec<String> = env::args().skip(1).collect();
    let [from, state, to] = &words[..] else {
        eprintln!("usage: rewrite FILE STATE TO");
        return ExitCode::from(3);
    };
    match rewrite(from, state, to) {
        Ok(line) => say(&line, 0),
        Err(error) => match error.downcast_ref::<Refusal>() {
            Some(refusal) => say(&refusal.to_string(), 2),
            None => {
                eprintln!("rewrite: {error}");
                ExitCode::from(3)
            }
        },
    }
}

/// What was done, or why nothing was.
fn rewrite(from: &str, state: &str, to: &str) -> Result<String, Box<dyn Error>> {
    let file = read(from).map_err(|error| format!("{from} cannot be read: {error}"))?;
    let mut session = swarmbanner::read(&file)?;
    let number = state.parse().ok();
    let state =
        number.and_then(|number| session.state(number)).ok_or(format!("{from} has no diagram state {state}"))?;
    session.set_final(state, true)?;
    let file = session.write()?;
    fs::write(to, &file).map_err(|error| format!("{to} cannot be written to: {error}"))?;
    Ok(format!("written {}", file.len()))
}

/// One byte more than a file may have is enough to see that it is too long.
fn read(name: &str) -> io::Result<Vec<u8>> {
    let mut file = vec![];
    File::open(name)?.take(16_385).read_to_end(&mut file)?;
    Ok(file)
}

fn say(line: &str, status: u8) -> ExitCode {
    match writeln!(io::stdout(), "{line}") {
        Ok(()) => ExitCode::from(status),
        Err(error) => {
            eprintln!("rewrite: standard output cannot be written to: {error}");
            ExitCode::from(3)
        }
    }
}
