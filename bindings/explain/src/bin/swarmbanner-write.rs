//! What `bin/swarmbanner-write` runs: OUT FILE, OUT being empty for standard output. Reads a session as lines and writes its file.

use std::ffi::{OsStr, OsString};
use std::os::unix::ffi::OsStrExt;
use std::path::Path;
use std::process::ExitCode;

use swarmbanner_explain::command::{reason, Command};
use swarmbanner_explain::{replace, Typed};

fn main() -> ExitCode {
    let words: Vec<OsString> = std::env::args_os().skip(1).collect();
    let mut command = Command::new("swarmbanner-write", 1);
    match &words[..] {
        [out, text] => write(&mut command, out, text),
        _ => command.untried(&[b"usage: swarmbanner-write OUT FILE; bin/swarmbanner-write calls it"]),
    }
    ExitCode::from(command.status())
}

fn write(command: &mut Command, out: &OsStr, name: &OsStr) {
    let Some(text) = command.text(name) else { return };
    match Typed::parse(&text).and_then(|typed| typed.write()) {
        Ok(file) => put(command, out, &file),
        Err(fault) => command.refuse(name, &fault),
    }
}

fn put(command: &mut Command, out: &OsStr, file: &[u8]) {
    if out.is_empty() {
        return command.put(file);
    }
    if let Err(error) = replace(Path::new(out), file) {
        command.untried(&[out.as_bytes(), b" cannot be written: ", reason(&error).as_bytes()]);
    }
}
