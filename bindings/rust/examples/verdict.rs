//! Prints the verdict on each session file named, with its name before it where there are several.
//! Exit status, the highest over all files: 0 closed; 1 outside, leaves or bad; 2 refused; 3 wrong usage, a file that cannot be
//! read, or a verdict that cannot be written.

use std::env;
use std::fs::File;
use std::io::{self, Read, Write};
use std::process::ExitCode;

use swarmbanner::{Checker, Reply};

fn main() -> ExitCode {
    let names: Vec<String> = env::args().skip(1).collect();
    if names.is_empty() {
        eprintln!("usage: verdict FILE..");
        return ExitCode::from(3);
    }
    let mut checker = Checker::new();
    let mut status = 0;
    for name in &names {
        let prefix = if names.len() > 1 { format!("{name}: ") } else { String::new() };
        status = status.max(match read(name) {
            Ok(file) => {
                let reply = checker.check(&file);
                if let Err(error) = writeln!(io::stdout(), "{prefix}{reply}") {
                    eprintln!("verdict: standard output cannot be written to: {error}");
                    return ExitCode::from(3);
                }
                grade(&reply)
            }
            Err(error) => {
                eprintln!("verdict: {name} cannot be read: {error}");
                3
            }
        });
    }
    ExitCode::from(status)
}

/// One byte more than a file may have is enough to see that it is too long.
fn read(name: &str) -> io::Result<Vec<u8>> {
    let mut file = vec![];
    File::open(name)?.take(16_385).read_to_end(&mut file)?;
    Ok(file)
}

fn grade(reply: &Reply) -> u8 {
    match reply {
        Reply::Closed { .. } => 0,
        Reply::Refused(_) => 2,
        _ => 1,
    }
}
