//! What `bin/swarmbanner-draw` runs: DIR CONTROL FILE, CONTROL being empty where none is asked for; then for a replay `bytes` or
//! `text` and TRACE.

use std::ffi::{OsStr, OsString};
use std::path::Path;
use std::process::ExitCode;

use swarmbanner::{Refusal, Replayer};
use swarmbanner_draw::{pictures, replay_pictures, save, Complaint, Picture};
use swarmbanner_explain::command::{read_once, Command, NOT_TRIED, REFUSED};
use swarmbanner_explain::{Refused, Trace};

fn main() -> ExitCode {
    let words: Vec<OsString> = std::env::args_os().skip(1).collect();
    let mut command = Command::new("swarmbanner-draw", 1);
    let [folder, control, file, replay @ ..] = &words[..] else {
        return usage(command);
    };
    let replay = match replay {
        [] => None,
        [form, trace] => Some((form == "text", trace)),
        _ => return usage(command),
    };
    let bytes = read_once(file).map_err(|why| command.unreadable(file, &why)).unwrap_or_default();
    let trace = replay.and_then(|(is_text, trace)| command.trace(trace, is_text));
    if command.status() == NOT_TRIED {
        return ExitCode::from(NOT_TRIED);
    }
    let control = control.to_str().filter(|control| !control.is_empty());
    if let Err(complaint) = draw(&mut command, Path::new(folder), control, file, &bytes, trace.as_ref()) {
        command.untried(&[&complaint]);
    }
    ExitCode::from(command.status())
}

fn usage(mut command: Command) -> ExitCode {
    command.untried(&[b"usage: swarmbanner-draw DIR CONTROL FILE [bytes|text TRACE]; bin/swarmbanner-draw calls it"]);
    ExitCode::from(command.status())
}

fn draw(
    command: &mut Command,
    folder: &Path,
    control: Option<&str>,
    file: &OsStr,
    bytes: &[u8],
    trace: Option<&Trace>,
) -> Result<(), Complaint> {
    let told = match trace {
        None => of_verdict(bytes, control),
        Some(trace) => of_replay(bytes, control, trace),
    };
    match told? {
        Told::Refused(lines) => {
            command.raise(REFUSED);
            command.say(lines.join("\n  ").as_bytes());
            Ok(())
        }
        Told::Drawn(line, drawn) => {
            command.say(line.as_bytes());
            drawn.iter().try_for_each(|picture| save(command, folder, &named(file, picture), picture))
        }
    }
}

/// What is said of a file: why it is refused, or a line and the pictures.
enum Told {
    Refused(Vec<String>),
    Drawn(String, Vec<Picture>),
}

fn of_verdict(bytes: &[u8], control: Option<&str>) -> Result<Told, Complaint> {
    let reply = swarmbanner::check(bytes);
    let session = match swarmbanner::read(bytes) {
        Ok(session) => session,
        Err(refusal) => return Ok(refused(bytes, refusal.to_string(), refusal)),
    };
    let control = control.map(|control| within(control, session.control_states())).transpose()?;
    Ok(Told::Drawn(reply.to_string(), pictures(&session, &reply, control)))
}

fn of_replay(bytes: &[u8], control: Option<&str>, trace: &Trace) -> Result<Told, Complaint> {
    let mut replayer = Replayer::new();
    let replayed = replayer.replay(bytes, &trace.bytes);
    let session = match swarmbanner::read(bytes) {
        Ok(session) => session,
        Err(refusal) => return Ok(refused(bytes, replayed.to_string(), refusal)),
    };
    let control = control.map(|control| within(control, session.control_states())).transpose()?;
    Ok(match replayer.last() {
        Some(last) => {
            let drawn = replay_pictures(&session, &trace.bytes, &replayed, &last, control);
            Told::Drawn(replayed.to_string(), drawn)
        }
        None => Told::Refused(vec![replayed.to_string(), replayed.explain()]),
    })
}

fn refused(bytes: &[u8], line: String, refusal: Refusal) -> Told {
    Told::Refused([vec![line], Refused::new(bytes, refusal).lines()].concat())
}

/// A number of a control state that the file has.
fn within(control: &str, count: usize) -> Result<usize, Complaint> {
    let number = control.parse().ok().filter(|&number| number < count);
    number.ok_or_else(|| format!("there is no control state {control}, only 0 to {}", count - 1).into_bytes())
}

/// The name of the session file without its ending, then what the picture shows.
fn named(file: &OsStr, picture: &Picture) -> OsString {
    let stem = if file == "-" { OsStr::new("input") } else { Path::new(file).file_stem().unwrap_or_default() };
    let mut name = stem.to_os_string();
    name.push(format!("-{}", picture.name));
    name
}
