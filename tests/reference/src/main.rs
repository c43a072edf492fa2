//! Streams of records, which are files, questions, replays, writings and texts, and the lines that answer them.

use std::cell::Cell;
use std::io::{self, BufWriter, Read, Write};
use std::process::ExitCode;

use reference_checker::coverage::{
    expression_coverage, membership_coverage, reading_coverage, replay_coverage, verdict_coverage, writing_coverage,
    Coverage,
};
use reference_checker::decide::{decide, TooLarge};
use reference_checker::digest::{expression_line, reading_line, replay_line, writing_line};
use reference_checker::expression::{expression, Pool};
use reference_checker::generate::expression::expression_cases;
use reference_checker::generate::large::longest;
use reference_checker::generate::membership::questions;
use reference_checker::generate::reading::reading_cases;
use reference_checker::generate::replay::replay_cases;
use reference_checker::generate::verdicts::verdict_cases;
use reference_checker::generate::writing::writing_cases;
use reference_checker::membership::{membership, membership_line};
use reference_checker::random::Random;
use reference_checker::read::read;
use reference_checker::replay::replay;
use reference_checker::selftest::{
    selftest, selftest_expression, selftest_far, selftest_forms, selftest_order, selftest_writing, Agreement,
};
use reference_checker::stream::{put_record, Question, Record, Records};
use reference_checker::verdict::{line, Reply};
use reference_checker::walk::{check, Scratch};
use reference_checker::write::write as write_tables;

/// The seed of every stream that is kept.
const SEED: u64 = 20_261_115;

const USAGE: &str = "\
usage: reference COMMAND
  generate KIND..        write the stream of records of these kinds, kind after kind
  answer                 answer such a stream on standard input by its lines
  coverage KIND..        say what the records of these kinds hit, and which mistakes they would tell; fails if a row is hit too seldom
  selftest SEED COUNT    compare all ways to the verdict, to F, to row 9, to either form, to 16, and from a text to a pool
  check                  check one file on standard input, by walking
  maximal                write the longest file that is read
kinds: reading writing expression verdicts memory membership replay";

fn main() -> ExitCode {
    let arguments: Vec<String> = std::env::args().skip(1).collect();
    match run(&arguments) {
        Ok(()) => ExitCode::SUCCESS,
        Err(complaint) => {
            eprintln!("{complaint}");
            ExitCode::FAILURE
        }
    }
}

fn run(arguments: &[String]) -> Result<(), String> {
    let arguments: Vec<&str> = arguments.iter().map(String::as_str).collect();
    match arguments[..] {
        ["generate", ref kinds @ ..] if !kinds.is_empty() => {
            let mut stream = Vec::new();
            for kind in kinds {
                records(kind)?.iter().for_each(|record| put_record(&mut stream, record));
            }
            write(&stream)
        }
        ["answer"] => answer(),
        ["coverage", ref kinds @ ..] if !kinds.is_empty() => {
            for kind in kinds {
                tell(coverage(kind)?)?;
            }
            Ok(())
        }
        ["check"] => {
            let file = standard_input()?;
            println!("{}", line(&check(&file, &mut Scratch::default())));
            Ok(())
        }
        ["maximal"] => write(&longest(&mut Random::new(SEED)).bytes()),
        ["selftest", seed, count] => {
            let (seed, count) = (number(seed)?, number(count)? as usize);
            let agreement = selftest(seed, count);
            tell_agreement(&agreement);
            let of_far = selftest_far(seed, count);
            let (leaves, by_words, outside) = (of_far.leaves, of_far.by_words, of_far.outside);
            println!("how far: {leaves} leave, {by_words} files by words too, {outside} replays end outside");
            println!("disagreements: {}", of_far.disagreements.len());
            let of_order = selftest_order(seed, count);
            println!("row 9: {} in order, {} out of order", of_order.in_order, of_order.out_of_order);
            println!("disagreements: {}", of_order.disagreements.len());
            let of_forms = selftest_forms(seed, count);
            println!(
                "forms: {} read, {} of them resume, {} refused",
                of_forms.read, of_forms.resuming, of_forms.refused
            );
            println!("disagreements: {}", of_forms.disagreements.len());
            let of_writing = selftest_writing(seed, count);
            println!("tables: {} of a file, {} of none", of_writing.of_a_file, of_writing.of_none);
            println!("disagreements: {}", of_writing.disagreements.len());
            let of_texts = selftest_expression(seed, count);
            let (by_words, all_reached) = (of_texts.by_words, of_texts.all_reached);
            println!("texts: {} pools, {} refused", of_texts.pools, of_texts.refused);
            println!("pools by words: {by_words}, {all_reached} of them with all states reached");
            println!("disagreements: {}", of_texts.disagreements.len());
            let others = [of_far.disagreements, of_writing.disagreements, of_texts.disagreements].concat();
            let of_reading = [of_order.disagreements, of_forms.disagreements].concat();
            fail_on(&[agreement.disagreements, of_reading, others].concat())
        }
        _ => Err(USAGE.to_string()),
    }
}

/// A file that resumes and is closed, for the records of memory.
const RESUMING: [u8; 32] = [
    6, 1, 1, 0, 0, 1, 1, 2, 0, 0, 2, 0, 0, 0, 1, 0, 1, 0, 1, 0, 0, 2, 0, 1, 0, 1, 1, 1, 0, 0, 1, 0,
];

/// All records of a kind.
fn records(kind: &str) -> Result<Vec<Record>, String> {
    Ok(match kind {
        "reading" => reading_cases(SEED).cases.into_iter().map(|case| Record::Reading(case.bytes)).collect(),
        "verdicts" => verdict_cases(SEED).into_iter().map(|case| Record::Verdict(case.bytes)).collect(),
        "memory" => vec![Record::Memory(RESUMING.to_vec())],
        "membership" => questions(SEED).into_iter().map(|(_, question)| Record::Question(question)).collect(),
        "replay" => replay_cases(SEED).into_iter().map(|case| Record::Replay(case.replay)).collect(),
        "writing" => writing_cases(SEED).into_iter().map(|case| Record::Writing(case.writing)).collect(),
        "expression" => expression_cases(SEED).into_iter().map(|case| Record::Expression(case.text)).collect(),
        _ => return Err(format!("{kind} is no kind of record")),
    })
}

fn coverage(kind: &str) -> Result<Coverage, String> {
    match kind {
        "reading" => Ok(reading_coverage(&reading_cases(SEED))),
        "verdicts" => Ok(verdict_coverage(&verdict_cases(SEED))),
        "membership" => Ok(membership_coverage(&questions(SEED))),
        "replay" => Ok(replay_coverage(&replay_cases(SEED))),
        "writing" => Ok(writing_coverage(&writing_cases(SEED))),
        "expression" => Ok(expression_coverage(&expression_cases(SEED))),
        _ => Err(format!("nothing is asked of the records of {kind}")),
    }
}

/// The lines of a record.
fn lines_of(record: &Record, walked: &Cell<usize>) -> String {
    match record {
        Record::Reading(file) => reading_line(&read(file)),
        Record::Verdict(file) => line(&verdict(file, walked)),
        Record::Memory(file) => {
            let short = "refused 2 at 0";
            [&line(&verdict(file, walked)), short, short, short].join("\n")
        }
        Record::Expression(text) => expression_line(&expression(text).map(|states| Pool::of(&states))),
        Record::Question(Question { file, control_state, contents }) => {
            membership_line(&membership(file, *control_state, contents))
        }
        Record::Replay(asked) => replay_line(&replay(&asked.file, &asked.trace, &asked.lent())),
        Record::Writing(asked) => {
            let (flat, product) = asked.tables();
            let mut buffer = asked.buffer();
            let reply = write_tables(&flat, product, &mut buffer);
            writing_line(reply, &buffer)
        }
    }
}

fn tell_agreement(agreement: &Agreement) {
    for (verdict, files) in &agreement.verdicts {
        let long = agreement.verdicts_with_long_words.get(verdict).copied().unwrap_or(0);
        println!("{verdict}: {files}, with long words {long}");
    }
    let (too_large, long) = (agreement.too_large_for_words, agreement.too_large_with_long_words);
    println!("too large to decide by words: {too_large}, with long words {long}");
    println!("disagreements: {}", agreement.disagreements.len());
}

fn number(text: &str) -> Result<u64, String> {
    text.parse().map_err(|_| format!("{text} is not a number"))
}

/// By words, and by walking where there are too many.
fn verdict(file: &[u8], walked: &Cell<usize>) -> Reply {
    decide(file).unwrap_or_else(|TooLarge| {
        walked.set(walked.get() + 1);
        check(file, &mut Scratch::default())
    })
}

fn tell(coverage: Coverage) -> Result<(), String> {
    write(coverage.report.as_bytes())?;
    fail_on(&coverage.complaints)
}

fn fail_on(complaints: &[String]) -> Result<(), String> {
    if complaints.is_empty() {
        Ok(())
    } else {
        Err(complaints.join("\n"))
    }
}

fn answer() -> Result<(), String> {
    let stream = standard_input()?;
    let mut records = Records(&stream);
    let mut lines = BufWriter::new(io::stdout().lock());
    let walked = Cell::new(0);
    while let Some(record) = records.record() {
        writeln!(lines, "{}", lines_of(&record?, &walked)).map_err(|error| error.to_string())?;
    }
    if walked.get() > 0 {
        eprintln!("{} files were too large to be decided by words and were walked", walked.get());
    }
    lines.flush().map_err(|error| error.to_string())
}

fn standard_input() -> Result<Vec<u8>, String> {
    let mut bytes = Vec::new();
    io::stdin().lock().read_to_end(&mut bytes).map_err(|error| error.to_string())?;
    Ok(bytes)
}

fn write(bytes: &[u8]) -> Result<(), String> {
    io::stdout().lock().write_all(bytes).map_err(|error| error.to_string())
}
