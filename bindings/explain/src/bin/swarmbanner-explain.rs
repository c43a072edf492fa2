//! What `bin/swarmbanner --explain` and `--json` run: FORM PROGRAM WORD.., the words being those of the command.
//!
//! The line on a file is printed by the proved program, which gets the bytes that were read here, once. The words beside it are
//! of the library's reply on the same bytes, and nothing is said where the two should differ.

use std::ffi::{OsStr, OsString};
use std::io::Write;
use std::process::{self, ExitCode, Stdio};

use swarmbanner::{Checker, Reply};
use swarmbanner_explain::command::{files, read_once, reason, Command, NOT_TRIED, REFUSED};
use swarmbanner_explain::{explained, object};

fn main() -> ExitCode {
    let mut words = std::env::args_os().skip(1);
    let (Some(form), Some(program)) = (words.next(), words.next()) else {
        eprintln!("usage: swarmbanner-explain explain|json PROGRAM FILE..; bin/swarmbanner calls it");
        return ExitCode::from(NOT_TRIED);
    };
    let files = files(words);
    let mut command = Command::new("swarmbanner", files.len());
    let mut checker = Checker::new();
    for file in &files {
        match read_once(file) {
            Ok(bytes) => answer(&mut command, &mut checker, &form, &program, file, &bytes),
            Err(why) => command.unreadable(file, &why),
        }
    }
    ExitCode::from(command.status())
}

fn answer(command: &mut Command, checker: &mut Checker, form: &OsStr, program: &OsStr, file: &OsString, bytes: &[u8]) {
    let reply = checker.check(bytes);
    let line = match line_of(program, bytes) {
        Ok(line) if line == reply.to_string() => line,
        Ok(line) => return fail(command, file, &format!("the program says \"{line}\", the library \"{reply}\"")),
        Err(why) => return fail(command, file, &format!("{}: {why}", program.to_string_lossy())),
    };
    let status = grade(&reply);
    command.raise(status);
    if form == "json" {
        return command.say(object(file, bytes, &line, status, &reply).as_bytes());
    }
    let words = explained(bytes, &reply);
    command.answer(file, &[&[line][..], &words].concat().join("\n  "));
}

fn fail(command: &mut Command, file: &OsStr, why: &str) {
    command.complain(&format!("{}: {why}", file.to_string_lossy()));
    command.raise(NOT_TRIED);
}

fn grade(reply: &Reply) -> u8 {
    match reply {
        Reply::Closed { .. } => 0,
        Reply::Refused(_) => REFUSED,
        _ => 1,
    }
}

/// The line that the proved program prints for these bytes.
fn line_of(program: &OsStr, bytes: &[u8]) -> Result<String, String> {
    let told = |error: std::io::Error| reason(&error);
    let mut child =
        process::Command::new(program).stdin(Stdio::piped()).stdout(Stdio::piped()).spawn().map_err(told)?;
    // A pipe holds more than is read of a file, so this does not wait for the program. It is closed when it goes.
    child.stdin.take().expect("standard input is piped").write_all(bytes).map_err(told)?;
    let output = child.wait_with_output().map_err(told)?;
    let text = String::from_utf8(output.stdout).map_err(|error| error.to_string())?;
    match text.strip_suffix('\n') {
        Some(line) if output.status.success() => Ok(line.to_string()),
        _ => Err("the program gave no line".to_string()),
    }
}
