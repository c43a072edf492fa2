//! Makes the set of a control state the words of an expression, writes the file that this gives under another name, and says how
//! many bytes it has. Exit status: 0 written; 2 the file or the expression is refused, or no session file has what would be
//! written; 3 wrong usage, a control state or a message that is not there, no room in the pool, or a file that cannot be read or
//! written.

use std::env;
use std::ffi::{OsStr, OsString};
use std::fs::{self, File};
use std::io::{self, Read, Write};
use std::os::unix::ffi::OsStrExt;
use std::process::ExitCode;

use swarmbanner::{Refusal, SessionError};

/// What is said on standard output and the status, or why nothing was done.
type Outcome = Result<(String, u8), String>;

fn main() -> ExitCode {
    let words: Vec<OsString> = env::args_os().skip(1).collect();
    let [from, control, text, to] = &words[..] else {
        eprintln!("usage: expression FILE CONTROL TEXT TO");
        return ExitCode::from(3);
    };
    let said = change(from, control, text, to).and_then(|(line, status)| {
        let written = writeln!(io::stdout(), "{line}");
        written.map(|()| status).map_err(|error| format!("standard output cannot be written to: {error}"))
    });
    let status = said.unwrap_or_else(|why| {
        eprintln!("expression: {why}");
        3
    });
    ExitCode::from(status)
}

fn change(from: &OsStr, control: &OsStr, text: &OsStr, to: &OsStr) -> Outcome {
    let name = from.to_string_lossy();
    let file = read(from).map_err(|error| format!("{name} cannot be read: {error}"))?;
    let refused = |what: &str, refusal: Refusal| Ok((format!("{what}{refusal}"), 2));
    let told = |error: SessionError| format!("{name}: {error}");
    let mut session = match swarmbanner::read(&file) {
        Ok(session) => session,
        Err(refusal) => return refused("file ", refusal),
    };
    let diagram = match swarmbanner::expression(text.as_bytes()) {
        Ok(diagram) => diagram,
        Err(refusal) => return refused("text ", refusal),
    };
    let number = control.to_str().and_then(|control| control.parse().ok());
    let control = number.ok_or(format!("{} is no control state", control.to_string_lossy()))?;
    let root = session.add_diagram(&diagram).map_err(told)?;
    session.set_root(control, Some(root)).map_err(told)?;
    let file = match session.write() {
        Ok(file) => file,
        Err(refusal) => return refused("", refusal),
    };
    fs::write(to, &file).map_err(|error| format!("{} cannot be written to: {error}", to.to_string_lossy()))?;
    Ok((format!("written {}", file.len()), 0))
}

/// One byte more than a file may have is enough to see that it is too long.
fn read(name: &OsStr) -> io::Result<Vec<u8>> {
    let mut file = vec![];
    File::open(name)?.take(16_385).read_to_end(&mut file)?;
    Ok(file)
}
