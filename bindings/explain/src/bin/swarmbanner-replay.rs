//! What `bin/swarmbanner-replay` runs: replays a trace on a session file, the words being those of the command.

use std::ffi::OsString;
use std::process::ExitCode;

use swarmbanner::{Replayed, Replayer};
use swarmbanner_explain::command::{files, has_option, read_once, Command, NOT_TRIED, REFUSED};
use swarmbanner_explain::{stepped, Refused, Trace};

fn main() -> ExitCode {
    let words: Vec<OsString> = std::env::args_os().skip(1).collect();
    let mut command = Command::new("swarmbanner-replay", 1);
    let names = files(words.iter().cloned());
    let [file, trace] = &names[..] else {
        command.untried(&[b"usage: swarmbanner-replay FILE TRACE; bin/swarmbanner-replay calls it"]);
        return ExitCode::from(command.status());
    };
    let bytes = read_once(file).map_err(|why| command.unreadable(file, &why)).ok();
    let trace = command.trace(trace, has_option(&words, "--text"));
    if let (Some(bytes), Some(trace)) = (bytes, trace) {
        replay(&mut command, &bytes, &trace, has_option(&words, "--steps"));
    }
    ExitCode::from(command.status())
}

fn replay(command: &mut Command, file: &[u8], trace: &Trace, with_steps: bool) {
    let mut replayer = Replayer::new();
    let replayed = replayer.replay(file, &trace.bytes);
    let mut lines = vec![replayed.to_string()];
    lines.extend(replayer.last().map(|last| last.to_string()));
    if with_steps {
        match in_words(file, trace, &replayed, &replayer) {
            Ok(words) => lines.extend(words.iter().map(|line| format!("  {line}"))),
            Err(why) => return command.untried(&[why.as_bytes()]),
        }
    }
    command.raise(grade(&replayed));
    command.say(lines.join("\n").as_bytes());
}

/// The steps and why they ended, or why there are none.
fn in_words(file: &[u8], trace: &Trace, replayed: &Replayed, replayer: &Replayer) -> Result<Vec<String>, String> {
    match (swarmbanner::read(file), replayer.last()) {
        (Ok(session), Some(last)) => stepped(&session, trace, replayed, &last),
        (Err(refusal), _) => Ok(Refused::new(file, refusal).lines()),
        (Ok(_), None) => Ok(vec![replayed.explain()]),
    }
}

fn grade(replayed: &Replayed) -> u8 {
    match replayed {
        Replayed::End { .. } => 0,
        Replayed::Outside { .. } => 1,
        Replayed::Refused { .. } | Replayed::FileRefused(_) | Replayed::TraceRefused(_) => REFUSED,
        // it lends memory for as many queues as there can be
        Replayed::MemoryRefused(_) => NOT_TRIED,
    }
}
