//! Replays in words, and traces that are typed: on small files, and on generated ones with traces that walk through them.

mod resumed;

use reference_checker::generate::verdicts::Plans;
use reference_checker::random::Random;
use swarmbanner::{Configuration, Refusal, Replayed, Replayer, Session};
use swarmbanner_explain::{stepped, Mistyped, Trace};

use resumed::every_other;

const SEED: u64 = 20_261_115;
const FILES: usize = 4_000;

/// Transition 0 sends message 0, transition 1 receives it; any number may wait.
const R: &str = "02 01 01 00 00 01 01 02 00 00 00 01 00 01 00 01 00 00 02 00 01 00 01 01 01 00 00 01 00";
/// One machine of three states, two queues with messages 0, 1 and 2, 3. Transitions: 0 goes from 0 to 1 and sends 0 1, 1 from 1
/// to 2 and sends 3 2, 2 from 2 to 0 and receives 0 1, 3 from 0 to 0 and receives 3 3, 4 from 0 to 2, 5 from 1 to 1 and sends 3,
/// 6 from 1 to 0. Anything may wait in states 0 and 1, in state 2 a 0 and then anything; in state 1 just 0 1 is bad.
const M: &str = "01 03 00 02 02 02 07 00 00 01 01 00 02 00 01 00 01 02 01 01 02 03 02 00 02 00 02 00 02 00 01 \
                 00 00 00 02 01 02 03 03 00 00 02 00 00 01 01 01 01 01 03 00 01 00 00 \
                 06 01 04 00 00 01 00 02 01 03 01 01 02 02 01 03 01 00 01 00 03 00 01 01 04 01 00 00 01 00 00 \
                 01 01 06 01 01 02";

fn hex(text: &str) -> Vec<u8> {
    text.split_whitespace().map(|byte| u8::from_str_radix(byte, 16).expect("two hexadecimal digits")).collect()
}

fn told(file: &str, trace: &Trace) -> (String, Vec<String>) {
    let (file, mut replayer) = (hex(file), Replayer::new());
    let replayed = replayer.replay(&file, &trace.bytes);
    let session = swarmbanner::read(&file).expect("it is a session file");
    let last = replayer.last().expect("it was replayed");
    (replayed.to_string(), stepped(&session, trace, &replayed, &last).expect("the steps lead there"))
}

/// The line, and the last words.
fn last_words(file: &str, trace: &[u8]) -> (String, String) {
    let (line, lines) = told(file, &Trace::of(trace.to_vec()));
    (line, lines.last().expect("there are words").clone())
}

#[test]
fn steps_to_the_end() {
    let (line, lines) = told(M, &Trace::of(vec![0, 1]));
    assert_eq!(line, "end 2");
    assert_eq!(
        lines,
        [
            "start: machine 0 in state 0; queue 0: -; queue 1: -",
            "step 1: transition 0: machine 0 goes from state 0 to state 1 and puts 0 1 at the end of queue 0; queue 0: 0 1; \
             queue 1: -; listed as bad by entry 0",
            "step 2: transition 1: machine 0 goes from state 1 to state 2 and puts 3 2 at the end of queue 1; queue 0: 0 1; \
             queue 1: 3 2",
            "inside: the set of control state 2 takes all 4 messages, from diagram state 5 to 1, which is final",
            "end: the trace has no more numbers",
        ]
    );
}

/// R with two messages that wait at the start, one of which is received.
#[test]
fn steps_from_a_start_with_messages() {
    let file = "06 01 01 00 00 01 01 02 00 00 02 00 00 00 01 00 01 00 01 00 00 02 00 01 00 01 01 01 00 00 01 00";
    let (line, lines) = told(file, &Trace::of(vec![1]));
    assert_eq!(line, "end 1");
    assert_eq!(
        lines,
        [
            "start: machine 0 in state 0, machine 1 in state 0; queue 0: 0 0",
            "step 1: transition 1: machine 1 goes from state 0 to state 0 and takes 0 from the front of queue 0; queue 0: 0",
            "inside: the set of control state 0 takes the one message, from diagram state 0 to 0, which is final",
            "end: the trace has no more numbers",
        ]
    );
    let (line, last) = last_words(file, &[1, 1, 1]);
    assert_eq!(line, "refused 14 at 2 after 2");
    assert!(last.ends_with("; but queue 0 is empty"), "{last}");
}

/// The start is bad where what waits then is listed.
#[test]
fn a_start_that_is_bad_or_outside() {
    // 0 and 0 0 are inside, and 0 0 is bad
    let starting = |bytes: &str| format!("05 01 00 01 01 {bytes} 00 03 00 01 00 01 01 01 00 02 01 00 01 01 00 01");
    let (line, lines) = told(&starting("01 00"), &Trace::of(vec![]));
    assert_eq!(
        (&line[..], &lines[0][..]),
        ("end 0", "start: machine 0 in state 0; queue 0: 0; listed as bad by entry 0")
    );
    let (line, lines) = told(&starting("03 00 00 00"), &Trace::of(vec![0]));
    assert_eq!(line, "outside 0 2");
    assert_eq!(
        lines[1..],
        ["outside: the set of control state 0 takes the first 2 of 3 messages, from diagram state 0 to 2, which has no arc for the \
          next one: message 0, number 3 in queue 0"]
    );
}

#[test]
fn an_end_that_is_bad() {
    let (line, lines) = told(M, &Trace::of(vec![0]));
    assert_eq!(line, "end 1");
    assert_eq!(
        lines[2..],
        [
            "inside: the set of control state 1 takes all 2 messages, from diagram state 0 to 0, which is final",
            "bad: the diagram of bad entry 0 takes all 2 messages, from diagram state 2 to 4, which is final",
            "end: the trace has no more numbers",
        ]
    );
}

#[test]
fn a_configuration_outside() {
    let (line, lines) = told(M, &Trace::of(vec![4, 0, 0]));
    assert_eq!(line, "outside 1 0");
    assert_eq!(
        lines,
        [
            "start: machine 0 in state 0; queue 0: -; queue 1: -",
            "step 1: transition 4: machine 0 goes from state 0 to state 2 and touches no queue; queue 0: -; queue 1: -",
            "outside: the set of control state 2 begins in diagram state 5, which is not final",
        ]
    );
}

/// Transitions 0 and 1 of M send 0 1 and 3 2; in state 2 nothing may wait behind 0 1 3.
#[test]
fn a_configuration_that_is_lost_on_the_way() {
    let (head, _) = M.split_once(" 06 01 04").expect("M has a pool of six states");
    let file = format!("{head} 04 01 01 00 01 00 01 01 02 01 01 03 03 00 00 01 01 01 00");
    let (line, lines) = told(&file, &Trace::of(vec![0, 1, 2]));
    assert_eq!(line, "outside 2 3");
    assert_eq!(
        lines[3..],
        ["outside: the set of control state 2 takes the first 3 of 4 messages, from diagram state 0 to 3, which has no arc for the \
          next one: message 2, number 2 in queue 1"]
    );
}

/// Transition 3 wants 3 3 at the front of queue 1.
const TAKES: &str = "transition 3: machine 0 goes from state 0 to state 0 and takes 3 3 from the front of queue 1";

#[test]
fn steps_that_are_refused() {
    let impossible = |trace: &[u8], line: &str, words: &str| {
        assert_eq!(last_words(M, trace), (line.to_string(), words.to_string()));
    };
    let from_0 = "transition 0: machine 0 goes from state 0 to state 1 and puts 0 1 at the end of queue 0";
    impossible(&[0, 0], "refused 14 at 1 after 1", &format!("refused: step 2: {from_0}; but machine 0 is in state 1"));
    impossible(&[3], "refused 14 at 0 after 0", &format!("refused: step 1: {TAKES}; but queue 1 is empty"));
    impossible(
        &[0, 5, 6, 3],
        "refused 14 at 3 after 3",
        &format!("refused: step 4: {TAKES}; but queue 1 holds 3 alone"),
    );
    impossible(
        &[0, 1, 2, 3, 0],
        "refused 14 at 3 after 3",
        &format!("refused: step 4: {TAKES}; but queue 1 begins with 3 2"),
    );
    impossible(
        &[0, 7],
        "refused 5 at 1 after 1",
        "refused: step 2: 7 is no transition, as the file has transitions 0 to 6",
    );
    impossible(
        &[0, 255, 127],
        "refused 5 at 1 after 1",
        "refused: step 2: 16383 is no transition, as the file has transitions 0 to 6",
    );
    impossible(
        &[0, 128],
        "refused 3 at 2 after 1",
        "refused: step 2: byte 1 is 80 (hex), which announces another, and the trace ends",
    );
    impossible(
        &[0, 129, 0],
        "refused 4 at 1 after 1",
        "refused: step 2: bytes 1 and 2 are 81 00 (hex), but a number has one byte up to 127, else two of which the second is 1 to \
         127",
    );
    assert_eq!(
        last_words(R, &[0; 1025]),
        (
            "refused 15 at 1024 after 1024".to_string(),
            "refused: step 1025: transition 0: machine 0 goes from state 0 to state 0 and puts 0 at the end of queue 0; but queue \
             0 holds 1024, and with 1 message more it would pass 1024"
                .to_string()
        )
    );
}

#[test]
fn a_file_of_few_transitions() {
    let none = "01 01 00 01 01 00 01 01 00 01 00";
    assert_eq!(last_words(none, &[3]).1, "refused: step 1: 3 is no transition, as the file has none");
    let one = "01 01 00 01 01 01 00 00 00 00 01 01 00 01 00";
    assert_eq!(last_words(one, &[3]).1, "refused: step 1: 3 is no transition, as the file has transition 0 alone");
}

#[test]
fn long_queues_are_shown_by_their_ends() {
    // 0 to 31 in one queue, sent by sixteen at a time
    let mut file = hex("01 01 00 01 20 02");
    for half in [0, 16] {
        file.extend([0, 0, 0, 1, 0, 16]);
        file.extend(half..half + 16);
    }
    file.extend([1, 1, 32]);
    file.extend((0..32).flat_map(|message| [message, 0]));
    file.extend([1, 0]);
    let text: Vec<String> = file.iter().map(|byte| format!("{byte:02x}")).collect();
    let (_, lines) = told(&text.join(" "), &Trace::of(vec![0, 1]));
    assert!(lines[1].ends_with("; queue 0: 0 1 2 3 4 5 6 7 8 9 10 11 12 13 14 15"), "{}", lines[1]);
    assert!(lines[2].ends_with("; queue 0: 0 1 2 3 4 5 6 7 .. 24 25 26 27 28 29 30 31 (32 messages)"), "{}", lines[2]);
}

#[test]
fn a_line_of_the_text_is_named() {
    let trace = Trace::typed(b"# a comment\n0 1\n\n2 # and one more\n3").expect("it is typed well");
    let (line, lines) = told(M, &trace);
    assert_eq!(line, "refused 14 at 3 after 3");
    let wanted = format!("refused: step 4 (line 5 of the text): {TAKES}; but queue 1 begins with 3 2");
    assert_eq!(lines.last(), Some(&wanted));
}

#[test]
fn typed_traces() {
    let bytes = |text: &[u8]| Trace::typed(text).expect("it is typed well").bytes;
    assert_eq!(bytes(b""), []);
    assert_eq!(bytes(b"# nothing\n  # 1 2 3"), []);
    assert_eq!(bytes(b"0 1 2"), [0, 1, 2]);
    assert_eq!(bytes(b"\t0\r\n1\x0c2 \n\n3#4\n5"), [0, 1, 2, 3, 5]);
    assert_eq!(bytes(b"127 128 129 200 16383"), [127, 128, 1, 129, 1, 200, 1, 255, 127]);
    assert_eq!(bytes(b"007 000"), [7, 0]);
    let lines = Trace::typed(b"0 1\n2\n\n3 4 5").expect("it is typed well");
    assert_eq!(
        (0..7).map(|number| lines.line_of(number)).collect::<Vec<_>>(),
        [Some(1), Some(1), Some(2), Some(4), Some(4), Some(4), None]
    );
}

#[test]
fn words_that_are_no_numbers() {
    let mistyped = |text: &[u8]| Trace::typed(text).expect_err("it is mistyped").to_string();
    assert_eq!(mistyped(b"0 1\n2 x7 3"), "line 2: x7 is no number");
    assert_eq!(mistyped(b"0,1"), "line 1: 0,1 is no number");
    assert_eq!(mistyped(b"-1"), "line 1: -1 is no number");
    assert_eq!(mistyped(b"+1"), "line 1: +1 is no number");
    assert_eq!(mistyped(b"1.0"), "line 1: 1.0 is no number");
    assert_eq!(mistyped(b"\n\n\xff\x00"), "line 3: \\xff\\x00 is no number");
    assert_eq!(mistyped("1 ٣".as_bytes()), "line 1: \\xd9\\xa3 is no number");
    let too_large = "cannot be written in a trace, whose numbers go up to 16383";
    for number in ["16384", "99999", "18446744073709551617", "00016384"] {
        assert_eq!(mistyped(format!("0\n{number}").as_bytes()), format!("line 2: {number} {too_large}"));
    }
    assert_eq!(mistyped(&[b'x'; 60]), format!("line 1: {}.. (60 bytes) is no number", "x".repeat(40)));
    assert_eq!(Trace::typed(b"16384"), Err(Mistyped { line: 1, word: "16384".to_string(), is_number: true }));
}

/// Where the library should reply something else than the steps lead to, nothing is said of them.
#[test]
fn another_reply_is_noticed() {
    let session = swarmbanner::read(&hex(R)).expect("it is a session file");
    let trace = Trace::of(vec![0, 0]);
    let tried = |replayed: Replayed, states: &[usize], queue: &[u8]| {
        stepped(&session, &trace, &replayed, &Configuration { states, queues: vec![queue] })
    };
    let end = Replayed::End { steps: 2 };
    assert!(tried(end, &[0, 0], &[0, 0]).is_ok());
    let refused = Replayed::Refused { refusal: Refusal { number: 14, place: 1 }, steps: 1 };
    for replayed in [Replayed::End { steps: 1 }, Replayed::Outside { steps: 2, followed: 2 }, refused] {
        let why = tried(replayed, &[0, 0], &[0, 0]).expect_err("it is another");
        assert_eq!(why, format!("the library says \"{replayed}\", its steps lead to \"end 2\""));
    }
    for (states, queue) in [(&[0, 1][..], &[0, 0][..]), (&[0], &[0, 0]), (&[0, 0], &[0]), (&[0, 0], &[0, 1])] {
        assert!(tried(end, states, queue).is_err(), "{states:?} {queue:?}");
    }
    assert!(stepped(&session, &trace, &end, &Configuration { states: &[0, 0], queues: vec![] }).is_err());
}

/// So it is where the tables do not have as many arcs in turn as the library says were followed.
#[test]
fn a_way_that_is_not_there_is_noticed() {
    // one 0 may wait
    let file = "02 01 01 00 00 01 01 02 00 00 00 01 00 01 00 01 00 00 02 00 01 00 02 01 01 00 01 01 00 01 00";
    let session = swarmbanner::read(&hex(file)).expect("it is a session file");
    let last = Configuration { states: &[0, 0], queues: vec![&[0, 0]] };
    let tried = |followed| stepped(&session, &Trace::of(vec![0, 0]), &Replayed::Outside { steps: 2, followed }, &last);
    assert!(tried(1).is_ok());
    for followed in [2, 3] {
        let why = format!("the library says \"outside 2 {followed}\", and the tables of the file have no such way");
        assert_eq!(tried(followed), Err(why));
    }
}

/// Transitions that can be taken, and often after them something that is turned away: any transition, none that the file has, a
/// form that is not allowed, a number that has no end.
fn walk(random: &mut Random, session: &Session) -> Vec<u8> {
    let (mut trace, mut control, mut contents) = (vec![], session.start(), session.starting());
    for _ in 0..random.below(60) {
        let taken = (0..session.transitions().len()).filter_map(|number| {
            let after = session.step(control, number, &contents)?;
            Some((number, after))
        });
        let possible: Vec<_> = taken.collect();
        let Some((number, after)) = random.pick(&possible) else { break };
        trace.push(*number as u8);
        (control, contents) = after.clone();
    }
    let count = session.transitions().len() as u8;
    match random.below(6) {
        0 => trace.push(random.byte() % count.max(1)),
        1 => trace.push(count + random.byte() % (128 - count)),
        2 => trace.extend([128 + random.byte() % 128, if random.chance(50) { 0 } else { 128 }]),
        3 => trace.push(128 + random.byte() % 128),
        _ => {}
    }
    trace
}

/// The steps lead where the library says, on files of many shapes; else `stepped` fails.
#[test]
fn generated_files() {
    let mut plans = Plans::new(SEED);
    let mut replayer = Replayer::new();
    let mut met = std::collections::BTreeMap::new();
    for _ in 0..FILES {
        let plan = plans.small().bytes();
        let file = every_other(&mut plans.random, plan);
        let session = swarmbanner::read(&file).expect("plans are session files");
        let trace = Trace::of(walk(&mut plans.random, &session));
        let replayed = replayer.replay(&file, &trace.bytes);
        let last = replayer.last().expect("it was replayed");
        let lines = stepped(&session, &trace, &replayed, &last).expect("the steps lead there");
        let steps = replayed.steps().expect("it was replayed");
        assert_eq!(lines.iter().filter(|line| line.starts_with("step ")).count(), steps);
        let control = session.control_of(last.states).expect("states of the machines");
        let is_inside = swarmbanner::member(&file, control, &last.contents()) == Ok(true);
        assert_eq!(lines.iter().any(|line| line.starts_with("inside: ")), is_inside);
        if !session.starting().is_empty() && steps > 0 {
            *met.entry("from a start with messages".to_string()).or_insert(0) += 1;
        }
        let (name, begins) = match replayed {
            Replayed::End { .. } => ("end".to_string(), "end: "),
            Replayed::Outside { .. } => ("outside".to_string(), "outside: "),
            Replayed::Refused { refusal, .. } => (refusal.number.to_string(), "refused: step "),
            _ => panic!("{replayed} of a session file"),
        };
        assert!(lines.last().expect("there are words").starts_with(begins), "{lines:?}");
        *met.entry(name).or_insert(0) += 1;
    }
    println!("{met:?}");
    for name in ["end", "outside", "3", "4", "5", "14", "from a start with messages"] {
        assert!(met.get(name).is_some_and(|&count| count > 20), "too few ends of a kind: {met:?}");
    }
}
