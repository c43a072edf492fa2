//! What the programs under `bin/` share: their words, reading a file once, speaking and ending.
//!
//! The shell commands have looked at the words before; here files are told from options and nothing is turned down.

use std::ffi::{OsStr, OsString};
use std::fs::File;
use std::io::{self, Read, Write};
use std::os::unix::ffi::OsStrExt;
use std::process::exit;

use crate::trace::Trace;
use crate::typed::Fault;

/// The exit status for a file that is refused.
pub const REFUSED: u8 = 2;
/// The exit status for what could not be tried.
pub const NOT_TRIED: u8 = 3;

/// What the shell says of a command that a closed pipe ended.
const PIPE_CLOSED: i32 = 141;

/// A file and a trace may have 16,384 bytes; one more shows that it is too long.
const BYTES_READ: u64 = 16_385;

/// A text that is typed may have so many bytes: for a trace some sixty for each number, for a session many times the longest.
const TEXT_MOST: u64 = 1_048_576;

/// The text of an expression may have 256 bytes; one more shows that it is too long.
const EXPRESSION_READ: usize = 257;

/// The files among words: all that does not begin with a dash, `-` itself, and what follows `--`.
pub fn files(words: impl Iterator<Item = OsString>) -> Vec<OsString> {
    let mut ended = false;
    let is_file = |word: &OsString| {
        if !ended && word == "--" {
            ended = true;
            return false;
        }
        ended || word == "-" || !word.as_bytes().starts_with(b"-")
    };
    words.filter(is_file).collect()
}

/// Whether an option is among words, before `--`.
pub fn has_option(words: &[OsString], option: &str) -> bool {
    words.iter().take_while(|word| *word != "--").any(|word| word == option)
}

/// The bytes of a file, or of standard input for `-`, no more than are looked at; else the system's reason.
pub fn read_once(name: &OsStr) -> Result<Vec<u8>, String> {
    read_up_to(name, BYTES_READ)
}

fn read_up_to(name: &OsStr, most: u64) -> Result<Vec<u8>, String> {
    let mut bytes = vec![];
    let outcome = match name == "-" {
        true => io::stdin().lock().take(most).read_to_end(&mut bytes),
        false => File::open(name).and_then(|file| file.take(most).read_to_end(&mut bytes)),
    };
    outcome.map(|_| bytes).map_err(|error| reason(&error))
}

/// The system's reason, without its number.
pub fn reason(error: &io::Error) -> String {
    let text = error.to_string();
    match text.find(" (os error") {
        Some(end) => text[..end].to_string(),
        None => text,
    }
}

/// A command that is running: its name, whether it names the files, and the status it will end with.
pub struct Command {
    name: &'static str,
    names_files: bool,
    status: u8,
}

impl Command {
    /// Names go before the answers where there are several files.
    pub fn new(name: &'static str, files: usize) -> Self {
        Command { name, names_files: files > 1, status: 0 }
    }

    /// The highest status so far.
    pub fn status(&self) -> u8 {
        self.status
    }

    /// Raises the status.
    pub fn raise(&mut self, status: u8) {
        self.status = self.status.max(status);
    }

    /// An answer about a file, with its name before it where there are several.
    pub fn answer(&self, file: &OsStr, text: &str) {
        let before = if self.names_files { [file.as_bytes(), b": "].concat() } else { vec![] };
        self.say(&[&before[..], text.as_bytes()].concat());
    }

    /// Lines on standard output.
    pub fn say(&self, text: &[u8]) {
        self.put(&[text, b"\n"].concat());
    }

    /// Bytes on standard output. What cannot be written ends the command, in silence where the reader has gone.
    pub fn put(&self, bytes: &[u8]) {
        let mut out = io::stdout().lock();
        let written = out.write_all(bytes).and_then(|()| out.flush());
        match written {
            Ok(()) => {}
            Err(error) if error.kind() == io::ErrorKind::BrokenPipe => exit(PIPE_CLOSED),
            Err(error) => {
                self.complain(&format!("standard output cannot be written to: {}", reason(&error)));
                exit(NOT_TRIED.into())
            }
        }
    }

    /// A line on standard error.
    pub fn complain(&self, text: &str) {
        self.complain_of(&[text.as_bytes()]);
    }

    /// A file that could not be read, and why.
    pub fn unreadable(&mut self, file: &OsStr, why: &str) {
        self.complain_of(&[file.as_bytes(), b" cannot be read: ", why.as_bytes()]);
        self.raise(NOT_TRIED);
    }

    /// A trace, as it is or typed. None where it could not be read, which is said.
    pub fn trace(&mut self, name: &OsStr, is_text: bool) -> Option<Trace> {
        if !is_text {
            return self.bytes(name, BYTES_READ).map(Trace::of);
        }
        let text = self.text(name)?;
        let told = |mistyped| self.untried(&[name.as_bytes(), format!(", {mistyped}").as_bytes()]);
        Trace::typed(&text).map_err(told).ok()
    }

    /// A text that somebody typed. None where it could not be read or is too long, which is said.
    pub fn text(&mut self, name: &OsStr) -> Option<Vec<u8>> {
        let text = self.bytes(name, TEXT_MOST + 1)?;
        if text.len() as u64 > TEXT_MOST {
            self.untried(&[name.as_bytes(), format!(" has more than {TEXT_MOST} bytes of text").as_bytes()]);
            return None;
        }
        Some(text)
    }

    /// The text of an expression: the word as it is, or standard input for `-`, without the newline at its end. None where that
    /// could not be read, which is said.
    pub fn expression(&mut self, word: &OsStr) -> Option<Vec<u8>> {
        let mut text = match word == "-" {
            true => self.bytes(word, EXPRESSION_READ as u64 + 1)?,
            false => word.as_bytes().to_vec(),
        };
        if word == "-" && text.ends_with(b"\n") {
            text.pop();
        }
        text.truncate(EXPRESSION_READ);
        Some(text)
    }

    fn bytes(&mut self, name: &OsStr, most: u64) -> Option<Vec<u8>> {
        read_up_to(name, most).map_err(|why| self.unreadable(name, &why)).ok()
    }

    /// A line of a text that is wrong, without the name of the command: editors look for the name of a file, the number of a line
    /// and what is wrong.
    pub fn refuse(&mut self, text: &OsStr, fault: &Fault) {
        complain_bare(&[text.as_bytes(), b":", fault.to_string().as_bytes()]);
        self.raise(REFUSED);
    }

    /// Something that could not be tried, and why.
    pub fn untried(&mut self, parts: &[&[u8]]) {
        self.complain_of(parts);
        self.raise(NOT_TRIED);
    }

    /// Names of files are bytes of any kind.
    pub fn complain_of(&self, parts: &[&[u8]]) {
        complain_bare(&[self.name.as_bytes(), b": ", &parts.concat()]);
    }
}

/// Where standard error cannot be written to, nobody is there to be told.
fn complain_bare(parts: &[&[u8]]) {
    let _ = io::stderr().write_all(&[&parts.concat()[..], b"\n"].concat());
}
