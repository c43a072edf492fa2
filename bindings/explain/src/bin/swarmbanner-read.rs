//! What `bin/swarmbanner-read` runs: says what each session file has in it, field by field or as lines, or why it is refused.

use std::ffi::{OsStr, OsString};
use std::os::unix::ffi::OsStrExt;
use std::process::ExitCode;

use swarmbanner_explain::command::{files, has_option, read_once, Command, REFUSED};
use swarmbanner_explain::{lines, listing, Refused};

fn main() -> ExitCode {
    let words: Vec<OsString> = std::env::args_os().skip(1).collect();
    let files = files(words.iter().cloned());
    let mut command = Command::new("swarmbanner-read", files.len());
    let as_lines = has_option(&words, "--lines");
    for file in &files {
        match read_once(file) {
            Ok(bytes) => answer(&mut command, file, &bytes, as_lines, files.len() > 1),
            Err(why) => command.unreadable(file, &why),
        }
    }
    ExitCode::from(command.status())
}

fn answer(command: &mut Command, file: &OsStr, bytes: &[u8], as_lines: bool, is_named: bool) {
    match swarmbanner::read(bytes) {
        Ok(session) if as_lines => {
            let name = if is_named { comment(file) } else { vec![] };
            command.say(&[name, lines(&session).join("\n").into_bytes()].concat());
        }
        Ok(session) => command.answer(file, &listing(bytes, &session).join("\n  ")),
        Err(refusal) => {
            command.raise(REFUSED);
            let words = [vec![refusal.to_string()], Refused::new(bytes, refusal).lines()].concat();
            command.answer(file, &words.join("\n  "));
        }
    }
}

/// The name of a file as a comment, of several lines where the name has them.
fn comment(file: &OsStr) -> Vec<u8> {
    file.as_bytes().split(|&byte| byte == b'\n').flat_map(|line| [b"# ", line, b"\n"].concat()).collect()
}
