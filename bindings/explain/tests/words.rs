//! Verdicts in words and as JSON: on the cases of document 01, and on generated files.

mod resumed;

use std::ffi::OsStr;

use reference_checker::generate::document;
use reference_checker::generate::verdicts::Plans;
use swarmbanner::{membership, Checker, Membership, Reply, Session};
use swarmbanner_explain::{explained, listing, object};

use resumed::every_other;

const FILES: usize = 6_000;
const SEED: u64 = 20_261_115;

fn lines(name: &str) -> Vec<String> {
    let case = document::cases().into_iter().find(|case| case.name == name).expect("the document has the case");
    explained(&case.bytes, &swarmbanner::check(&case.bytes))
}

#[test]
fn a_closed_file() {
    assert_eq!(
        lines("a"),
        [
            "the start is inside, no step leads out, and nothing that is listed as bad is inside",
            "this holds for queues of any length",
            "1 of 1 control state with a root, 2 transitions, 0 bad entries; pairs compared: 4",
        ]
    );
}

#[test]
fn a_step_that_has_nowhere_to_go() {
    assert_eq!(
        lines("c"),
        [
            "before: control state 0: machine 0 in state 0, machine 1 in state 0",
            "  queue 0 holds 1 message: 0",
            "inside: the set of control state 0 takes the one message, from diagram state 0 to 1, which is final",
            "step: transition 0: machine 0 goes from state 0 to state 0 and puts 0 at the end of queue 0",
            "after: control state 0: machine 0 in state 0, machine 1 in state 0",
            "  queue 0 holds 2 messages: 0 0",
            "outside: the set of control state 0 takes the first of 2 messages, from diagram state 0 to 1, which has no arc for \
             the next one: message 0, number 2 in queue 0",
        ]
    );
}

#[test]
fn a_start_that_is_outside() {
    assert_eq!(
        lines("d"),
        [
            "start: control state 0: machine 0 in state 0, machine 1 in state 0",
            "  queue 0 is empty",
            "outside: the set of control state 0 begins in diagram state 0, which is not final",
        ]
    );
}

/// Two queues, of message 0 and of 1; inside are 0 and 0 1. It starts with what these bytes say.
fn starting(bytes: &[u8]) -> Vec<u8> {
    [&[5, 1, 0, 2, 1, 1], bytes, &[0, 3, 0, 1, 0, 1, 1, 1, 1, 2, 1, 0, 1, 0]].concat()
}

#[test]
fn a_start_with_messages_that_is_outside() {
    let told = |bytes: &[u8]| {
        let file = starting(bytes);
        let reply = swarmbanner::check(&file);
        assert_eq!(reply, Reply::Outside);
        (explained(&file, &reply), object(OsStr::new("f"), &file, "outside", 1, &reply))
    };
    let (words, json) = told(&[1, 0, 2, 1, 1]);
    assert_eq!(
        words,
        [
            "start: control state 0: machine 0 in state 0",
            "  queue 0 holds 1 message: 0",
            "  queue 1 holds 2 messages: 1 1",
            "outside: the set of control state 0 takes the first 2 of 3 messages, from diagram state 0 to 2, which has no arc for \
             the next one: message 1, number 2 in queue 1",
        ]
    );
    assert_eq!(
        json,
        "{\"file\":\"f\",\"line\":\"outside\",\"verdict\":\"outside\",\"status\":1,\"control\":0,\"machines\":[0],\
         \"contents\":[0,1,1],\"queues\":[[0],[1,1]],\"lost\":{\"why\":\"no arc\",\"read\":2,\"states\":[0,1,2],\"message\":1,\
         \"queue\":1}}"
    );
    let (words, _) = told(&[0, 1, 1]);
    assert_eq!(
        words[1..],
        [
            "  queue 0 is empty",
            "  queue 1 holds 1 message: 1",
            "outside: the set of control state 0 takes none of 1 message: its root, diagram state 0, has no arc for the first one: \
             message 1, number 1 in queue 1",
        ]
    );
    assert_eq!(swarmbanner::check(&starting(&[1, 0, 1, 1])), Reply::Closed { pairs: 0 });
}

/// It is listed with its place where there is something, and else nothing is said.
#[test]
fn a_listing_has_what_waits_at_the_start() {
    let listed = |bytes: &[u8]| {
        let file = starting(bytes);
        listing(&file, &swarmbanner::read(&file).expect("it is a session file"))
    };
    let lines = listed(&[2, 0, 0, 1, 1]);
    assert_eq!(
        lines[0],
        "1 machine, 1 control state, 2 queues, 2 messages, 0 transitions, 3 diagram states, 0 bad entries, 3 messages at the start"
    );
    assert_eq!(
        lines[3..7],
        [
            "field 2, byte 3: queues",
            "  queue 0: message 0; at the start, byte 6: 0 0",
            "  queue 1: message 1; at the start, byte 9: 1",
            "field 3, byte 11: transitions: none",
        ]
    );
    let lines = listed(&[0, 1, 1]);
    assert!(lines[0].ends_with(", 0 bad entries, 1 message at the start"), "{}", lines[0]);
    assert_eq!(lines[4..6], ["  queue 0: message 0", "  queue 1: message 1; at the start, byte 7: 1"]);
}

#[test]
fn contents_that_are_bad() {
    assert_eq!(
        lines("e"),
        [
            "configuration: control state 0: machine 0 in state 0, machine 1 in state 0",
            "  queue 0 is empty",
            "inside: the set of control state 0 begins in diagram state 0, which is final",
            "bad: the diagram of bad entry 0 begins in diagram state 0, which is final",
        ]
    );
}

/// Where contents are lost: after a send of 0 1 to queue 0 while 2 3 waits in queue 1, by pools of other arcs.
#[test]
fn where_contents_are_lost() {
    let last = |file: &[u8], line: &str| {
        let reply = swarmbanner::check(file);
        assert_eq!(reply.to_string(), line);
        explained(file, &reply).pop().expect("there are words")
    };
    let model = [1, 3, 2, 2, 2, 2, 1, 0, 0, 1, 1, 0, 2, 0, 1];
    // in state 0 just 2 3 waits, and in state 2, the start, nothing
    let before = [0, 1, 2, 1, 0, 1, 3, 2, 1, 0];
    let lost = |count: u8, states: &[u8], root: u8, line: &str| {
        last(&[&model[..], &[3 + count], &before, states, &[1, root, 3, 0]].concat(), line)
    };
    assert_eq!(
        lost(0, &[], 0, "leaves 0 0 2 0: 2 3"),
        "outside: the set of control state 1 has no root, so nothing is in it"
    );
    assert_eq!(
        lost(1, &[1, 0], 4, "leaves 0 0 2 0: 2 3"),
        "outside: the set of control state 1 takes none of 4 messages: its root, diagram state 3, has no arc for the first one: \
         message 0, number 1 in queue 0"
    );
    assert_eq!(
        lost(2, &[1, 1, 0, 4, 1, 0], 4, "leaves 0 0 2 1: 2 3"),
        "outside: the set of control state 1 takes the first of 4 messages, from diagram state 3 to 4, which has no arc for the \
         next one: message 1, number 2 in queue 0"
    );
    assert_eq!(
        lost(2, &[1, 3, 0, 3, 1, 3, 2, 4, 1, 0], 4, "leaves 0 0 2 3: 2 3"),
        "outside: the set of control state 1 takes the first 3 of 4 messages, from diagram state 3 to 4, which has no arc for the \
         next one: message 3, number 2 in queue 1"
    );
    assert_eq!(
        lost(2, &[1, 3, 0, 3, 1, 3, 2, 4, 0, 1, 3, 4], 4, "leaves 0 0 2 4: 2 3"),
        "outside: the set of control state 1 takes all 4 messages, from diagram state 3 to 4, which is not final"
    );
}

/// Messages 0 to 15 are received in state 1 where they wait alone, and nothing may wait after them there.
fn sixteen_received() -> Vec<u8> {
    let mut file = vec![1, 2, 0, 1, 16, 1, 0, 1, 1, 2, 0, 16];
    file.extend(0..16);
    file.extend([18, 1, 0]);
    file.extend((0..16).flat_map(|message| [0, 1, message, message + 2]));
    file.extend([1, 0, 1, 2, 0]);
    file
}

#[test]
fn a_received_word_of_sixteen() {
    let file = sixteen_received();
    let reply = swarmbanner::check(&file);
    assert_eq!(
        explained(&file, &reply),
        [
            "before: control state 1: machine 0 in state 1",
            "  queue 0 holds 16 messages: 0 1 2 3 4 5 6 7 8 9 10 11 12 13 14 15",
            "inside: the set of control state 1 takes all 16 messages, from diagram state 1 to 17, which is final",
            "step: transition 0: machine 0 goes from state 1 to state 1 and takes 0 1 2 3 4 5 6 7 8 9 10 11 12 13 14 15 from \
             the front of queue 0",
            "after: control state 1: machine 0 in state 1",
            "  queue 0 is empty",
            "outside: the set of control state 1 begins in diagram state 1, which is not final",
        ]
    );
    let word = "[0,1,2,3,4,5,6,7,8,9,10,11,12,13,14,15]";
    assert_eq!(
        object(OsStr::new("f"), &file, &reply.to_string(), 1, &reply),
        format!(
            "{{\"file\":\"f\",\"line\":\"leaves 1 0 16 0: 0 1 2 3 4 5 6 7 8 9 10 11 12 13 14 15\",\"verdict\":\"leaves\",\
             \"status\":1,\"control\":1,\"machines\":[1],\"contents\":{word},\"queues\":[{word}],\
             \"transition\":{{\"number\":0,\"machine\":0,\"from\":1,\"to\":1,\"kind\":\"receive\",\"queue\":0,\"word\":{word}}},\
             \"after\":{{\"control\":1,\"machines\":[1],\"contents\":[],\"queues\":[[]]}},\"followed\":0,\
             \"lost\":{{\"why\":\"not final\",\"read\":0,\"states\":[1]}}}}"
        )
    );
}

#[test]
fn a_listing_has_the_whole_word() {
    let file = sixteen_received();
    let lines = listing(&file, &swarmbanner::read(&file).expect("it is a session file"));
    let transition =
        "  0, byte 6: machine 0 goes from state 1 to state 1 and takes 0 1 2 3 4 5 6 7 8 9 10 11 12 13 14 15 from \
                      the front of queue 0";
    assert!(lines.iter().any(|line| line == transition), "{lines:?}");
    assert!(lines.iter().any(|line| line == "field 4, byte 28: diagram states"), "{lines:?}");
}

/// The words that name the message at a place of contents.
fn named(session: &Session, contents: &[u8], place: usize) -> String {
    let queue = session.queue_of(contents[place]).expect("it is a message of a queue");
    let begin = session.split(contents).expect("they are in order")[..queue].concat().len();
    format!("message {}, number {} in queue {queue}", contents[place], place - begin + 1)
}

/// What membership, asked of the library, says of the configuration after a step agrees with the words.
#[test]
fn generated_files() {
    let mut plans = Plans::new(SEED);
    let mut checker = Checker::new();
    let (mut no_root, mut no_arc, mut not_final) = (0, 0, 0);
    let mut start_lost = 0;
    for _ in 0..FILES {
        let plan = plans.small().bytes();
        let file = every_other(&mut plans.random, plan);
        let reply = checker.check(&file);
        let lines = explained(&file, &reply);
        let json = object(OsStr::new("f"), &file, &reply.to_string(), 0, &reply);
        assert!(!json.contains('\n') && json.starts_with('{') && json.ends_with('}'));
        let last = lines.last().expect("every verdict has words");
        start_lost += usize::from(reply == Reply::Outside && is_said_of_the_start(&file, last));
        let Reply::Leaves { control, transition, contents, followed } = &reply else { continue };
        let session = swarmbanner::read(&file).expect("plans are session files");
        let (target, after) = session.step(*control, *transition, contents).expect("the step can be taken");
        assert_eq!(swarmbanner::member(&file, *control, contents), Ok(true));
        assert_eq!(membership(&file, target, &after), Ok(Membership { is_inside: false, followed: *followed }));
        assert!(json.contains(&format!("\"followed\":{followed},\"lost\":{{\"why\":")), "{json}");
        assert!(json.contains(&format!(",\"read\":{followed},\"states\":")), "{json}");
        if session.root(target).is_some() && *followed < after.len() {
            assert!(last.ends_with(&named(&session, &after, *followed)), "{last}");
        }
        assert!(last.starts_with(&format!("outside: the set of control state {target} ")), "{last}");
        no_root += usize::from(last.ends_with("has no root, so nothing is in it"));
        no_arc += usize::from(last.contains(" has no arc for the "));
        not_final += usize::from(last.ends_with("which is not final"));
    }
    println!(
        "{no_root} without a root, {no_arc} without an arc, {not_final} not final; {start_lost} lost at the start"
    );
    assert!(no_root > 50 && no_arc > 50 && not_final > 50 && start_lost > 50, "too few files of some kind");
}

/// Whether messages wait at a start that is outside. The words are then as membership, asked of the library, says.
fn is_said_of_the_start(file: &[u8], last: &str) -> bool {
    let session = swarmbanner::read(file).expect("plans are session files");
    let (start, waiting) = (session.start(), session.starting());
    let said = membership(file, start, &waiting).expect("the start is one of the file");
    assert!(!said.is_inside && last.starts_with(&format!("outside: the set of control state {start} ")), "{last}");
    if session.root(start).is_some() && said.followed < waiting.len() {
        assert!(last.ends_with(&named(&session, &waiting, said.followed)), "{last}");
    }
    !waiting.is_empty()
}

#[test]
fn names_of_files_in_json() {
    use std::os::unix::ffi::OsStrExt;
    let file = [2, 1, 1, 0, 0, 1, 1, 2, 0, 0, 0, 1, 0, 1, 0, 1, 0, 0, 2, 0, 1, 0, 1, 1, 1, 0, 0, 1, 0];
    let told = |name: &[u8]| object(OsStr::from_bytes(name), &file, "closed 4", 0, &swarmbanner::check(&file));
    let rest = "\"line\":\"closed 4\",\"verdict\":\"closed\",\"status\":0,\"pairs\":4}";
    assert_eq!(told(b"a\"b\\c\n"), format!("{{\"file\":\"a\\\"b\\\\c\\u000a\",{rest}"));
    assert_eq!(told("ü".as_bytes()), format!("{{\"file\":\"ü\",{rest}"));
    assert_eq!(told(b"\xff"), format!("{{\"file\":\"\u{fffd}\",\"file_bytes\":[255],{rest}"));
}
