//! What `bin/swarmbanner-expression` runs: FORM WORD TEXT. FORM is `words`, `bytes`, `lines`, WORD being the number of states before
//! them, or `draw`, WORD being the folder for the picture.

use std::ffi::{OsStr, OsString};
use std::path::Path;
use std::process::ExitCode;

use swarmbanner::lent::POOL_STATES_MOST;
use swarmbanner::{Diagram, Refusal};
use swarmbanner_draw::{expression_picture, save};
use swarmbanner_explain::command::{Command, REFUSED};
use swarmbanner_explain::{described, field_4, state_lines, undrawn};

const USAGE: &[u8] =
    b"usage: swarmbanner-expression words|bytes|lines|draw WORD TEXT; bin/swarmbanner-expression calls it";

fn main() -> ExitCode {
    let words: Vec<OsString> = std::env::args_os().skip(1).collect();
    let mut command = Command::new("swarmbanner-expression", 1);
    match &words[..] {
        [form, word, text] => {
            if let Some(text) = command.expression(text) {
                answer(&mut command, form, word, &text);
            }
        }
        _ => command.untried(&[USAGE]),
    }
    ExitCode::from(command.status())
}

fn answer(command: &mut Command, form: &OsStr, word: &OsStr, text: &[u8]) {
    let diagram = match swarmbanner::expression(text) {
        Ok(diagram) => diagram,
        Err(refusal) => return refuse(command, form, text, refusal),
    };
    let lines = |lines: Vec<String>| lines.join("\n  ");
    match form.to_str() {
        Some("words") => command.say(lines([vec![diagram.to_string()], described(&diagram)].concat()).as_bytes()),
        Some("bytes") => command.say(hex(&field_4(&diagram)).as_bytes()),
        Some("lines") => say_lines(command, word, text, &diagram),
        Some("draw") => draw(command, Path::new(word), text, &diagram),
        _ => command.untried(&[USAGE]),
    }
}

/// Where standard output has bytes or lines for another program, a refusal is no part of them.
fn refuse(command: &mut Command, form: &OsStr, text: &[u8], refusal: Refusal) {
    let lines = undrawn(text, refusal).join("\n  ");
    command.raise(REFUSED);
    if form == "bytes" || form == "lines" {
        command.complain(&lines);
    } else {
        command.say(lines.as_bytes());
    }
}

fn hex(bytes: &[u8]) -> String {
    bytes.iter().map(|byte| format!("{byte:02x}")).collect::<Vec<_>>().join(" ")
}

fn say_lines(command: &mut Command, before: &OsStr, text: &[u8], diagram: &Diagram) {
    let count = diagram.states().len();
    let before_most = POOL_STATES_MOST - count;
    let before: Option<usize> = before.to_str().and_then(|before| before.parse().ok());
    match before.filter(|&before| before <= before_most) {
        Some(before) => command.say(state_lines(diagram, before, text).join("\n").as_bytes()),
        None => {
            let why = format!(
                "a session has up to {POOL_STATES_MOST} diagram states, so {before_most} at most can be before these {count}"
            );
            command.untried(&[why.as_bytes()]);
        }
    }
}

fn draw(command: &mut Command, folder: &Path, text: &[u8], diagram: &Diagram) {
    command.say(diagram.to_string().as_bytes());
    let picture = expression_picture(text, diagram);
    if let Err(complaint) = save(command, folder, OsStr::new(&picture.name), &picture) {
        command.untried(&[&complaint]);
    }
}
