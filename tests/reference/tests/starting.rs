//! Sessions that resume, against files, replays and tables worked by hand from request 8.

use std::collections::BTreeSet;

use reference_checker::decide::decide;
use reference_checker::flat::{Flat, Part};
use reference_checker::form_traps::{read_form_with, FormTrap};
use reference_checker::generate::document::{cases, hex, R, S};
use reference_checker::membership::{membership, membership_line};
use reference_checker::read::{read, Refusal, Tables};
use reference_checker::replay::{replay, Answer, Lent, Record};
use reference_checker::replay_traps::{replay_with, ReplayTrap};
use reference_checker::rings::replay_in_rings;
use reference_checker::selftest::selftest_forms;
use reference_checker::starting::{starting_with, Mistaken};
use reference_checker::traps::{verdict_with, Trap};
use reference_checker::verdict::line;
use reference_checker::walk::{check, Scratch};
use reference_checker::write::{faults, write, Fault};

/// R up to its queue, with another first number, and behind it.
const R_FRONT: &str = "06 01 01 00 00 01 01";
const R_REST: &str = "02 00 00 00 01 00 01 00 01 00 00 02 00 01 00 01 01 01 00 00 01 00";
/// One machine of one state, and queues of the messages 0, 1 2 and 3.
const THREE: &str = "05 01 00 03 01 02 01";
/// No transitions, a pool of one state that is final and without arcs, a root, no bad entries.
const NOTHING_MORE: &str = "00 01 01 00 01 00";

/// By both ways to read.
fn reading(text: &str) -> Result<Tables, Refusal> {
    let file = hex(text);
    let reply = read(&file);
    assert_eq!(read_form_with(&file, None), reply, "{text}");
    reply
}

fn refusal(text: &str) -> (u8, usize) {
    let Refusal { number, place } = reading(text).expect_err(text);
    (number, place)
}

fn tables(text: &str) -> Tables {
    reading(text).unwrap_or_else(|refusal| panic!("{text} was {refusal}"))
}

/// By all ways to a verdict.
fn verdict(text: &str) -> String {
    let file = hex(text);
    let checked = line(&check(&file, &mut Scratch::default()));
    assert_eq!(line(&decide(&file).expect("small files are decided by words")), checked, "{text}");
    if let Ok(tables) = reading(text) {
        assert_eq!(verdict_with(&tables, None).to_string(), checked, "{text}");
    }
    checked
}

#[test]
fn case_j_is_a_file_of_one_machine() {
    let case = cases().into_iter().find(|case| case.name == "j").expect("a lettered case");
    // One machine of one state cannot start in 1.
    assert_eq!(case.bytes[..3], [5, 1, 1]);
    assert_eq!(case.line, "refused 5 at 2");
    assert_eq!(read(&case.bytes), Err(Refusal { number: 5, place: 2 }));
}

#[test]
fn what_waits_is_kept_queue_by_queue() {
    let read = tables(&format!("{THREE} 02 00 00  00  01 03  {NOTHING_MORE}"));
    assert_eq!(read.machine_count, 1);
    assert_eq!(read.starting_lengths, [2, 0, 1, 0]);
    let mut messages = [0; 32];
    messages[16] = 3;
    assert_eq!(read.starting_messages, messages);
    assert_eq!((read.starting(0), read.starting(1), read.starting(2)), (&[0, 0][..], &[][..], &[3][..]));
    let read = tables(&format!("{THREE} 00  08 01 02 01 02 02 02 01 01  00  {NOTHING_MORE}"));
    assert_eq!(read.starting_lengths, [0, 8, 0, 0]);
    assert_eq!(read.starting_messages[8..16], [1, 2, 1, 2, 2, 2, 1, 1]);
    assert_eq!(read.starting_messages.iter().filter(|&&message| message > 0).count(), 8);
}

#[test]
fn all_else_is_as_in_the_first_form() {
    for (new, first) in [
        (format!("{R_FRONT} 02 00 00 {R_REST}"), R.to_string()),
        (format!("{THREE} 00 01 02 00 {NOTHING_MORE}"), format!("01 01 00 03 01 02 01 {NOTHING_MORE}")),
        // Four machines of two states and one, four control states, and four queues.
        (
            "08 02 01 02 01 01 00 00 00 04 01 01 01 01 01 00 00 00 01 03 00 01 01 00 01 01 01 01 00".to_string(),
            "04 02 01 02 01 01 00 00 00 04 01 01 01 01 00 01 01 00 01 01 01 01 00".to_string(),
        ),
    ] {
        let (mut read, first) = (tables(&new), tables(&first));
        assert!(read.resumes() && !first.resumes());
        read.starting_lengths = [0; 4];
        read.starting_messages = [0; 32];
        assert_eq!(read, first);
    }
}

#[test]
fn first_numbers() {
    for first in ["00", "09", "0a", "0b", "10", "7f", "80 01", "85 01", "85 02", "ff 7f"] {
        assert_eq!(refusal(first), (5, 0), "{first}");
        assert_eq!(refusal(&format!("{first} 01 00 01 01 01 00 {NOTHING_MORE}")), (5, 0), "{first}");
    }
    for first in ["05", "06", "07", "08"] {
        assert_eq!(refusal(first), (3, 1));
        assert_eq!(refusal(&format!("{first} 00")), (5, 1));
        assert_eq!(refusal(&format!("{first} 11")), (5, 1));
    }
    assert_eq!(refusal("85"), (3, 1));
    assert_eq!(refusal("85 00"), (4, 0));
    assert_eq!(refusal("85 80"), (4, 0));
    assert_eq!(refusal("07 10 10 02"), (6, 3));
    // 8 is four machines: the fifth number of states is a starting state.
    assert_eq!(refusal("08 01 01 01 01 01"), (5, 5));
    assert_eq!(refusal("08 01 01 01 01 00 00 00 00 05"), (5, 9));
}

#[test]
fn lengths() {
    // The length stands at 7.
    let to = |rest: &str| format!("{R_FRONT} {rest}");
    assert_eq!(refusal(R_FRONT), (3, 7));
    assert_eq!(refusal(&to("80")), (3, 8));
    assert_eq!(refusal(&to("81 00")), (4, 7));
    assert_eq!(refusal(&to("88 80")), (4, 7));
    for far in ["09", "0a", "10", "7f", "88 01", "88 02", "ff 7f"] {
        assert_eq!(refusal(&to(far)), (5, 7), "{far}");
        assert_eq!(refusal(&to(&format!("{far} 00 00 00 00 00 00 00 00 00 {R_REST}"))), (5, 7), "{far}");
    }
    assert_eq!(refusal(&to("89 00")), (4, 7));
    for length in 1..=8 {
        let waiting = "00 ".repeat(length);
        let read = tables(&to(&format!("{length:02x} {waiting} {R_REST}")));
        assert_eq!(read.starting(0), vec![0; length]);
        for cut in 0..length {
            assert_eq!(refusal(&to(&format!("{length:02x} {}", "00 ".repeat(cut)))), (3, 8 + cut));
        }
        assert_eq!(refusal(&to(&format!("{length:02x} {waiting}"))), (3, 8 + length));
    }
}

#[test]
fn messages() {
    // Queue 0 has the message 0, queue 1 has 1 and 2, queue 2 has 3. The first length stands at 7.
    let to = |rest: &str| format!("{THREE} {rest}");
    assert_eq!(refusal(&to("01 01")), (7, 8));
    assert_eq!(refusal(&to("01 03")), (7, 8));
    assert_eq!(refusal(&to("01 04")), (5, 8));
    assert_eq!(refusal(&to("01 80")), (3, 9));
    assert_eq!(refusal(&to("01 80 00")), (4, 8));
    assert_eq!(refusal(&to("02 00 01")), (7, 9));
    assert_eq!(refusal(&to("00 01 00")), (7, 9));
    assert_eq!(refusal(&to("00 01 03")), (7, 9));
    assert_eq!(refusal(&to("00 01 04")), (5, 9));
    assert_eq!(refusal(&to("00 03 01 02 03 00")), (7, 11));
    assert_eq!(refusal(&to("00 00 01 02")), (7, 10));
    assert_eq!(refusal(&to("00 00 01 04")), (5, 10));
    assert_eq!(refusal(&to("00 00 01 7f")), (5, 10));
    assert_eq!(refusal(&to("00 00 01 80 01")), (5, 10));
    for place in 0..8 {
        let mut word = ["02", "01", "01", "02", "01", "02", "02", "01"];
        word[place] = "03";
        assert_eq!(refusal(&to(&format!("00 08 {}", word.join(" ")))), (7, 9 + place));
        word[place] = "00";
        assert_eq!(refusal(&to(&format!("00 08 {}", word.join(" ")))), (7, 9 + place));
        word[place] = "04";
        assert_eq!(refusal(&to(&format!("00 08 {}", word.join(" ")))), (5, 9 + place));
        word[place] = "82 00";
        assert_eq!(refusal(&to(&format!("00 08 {}", word.join(" ")))), (4, 9 + place));
    }
}

#[test]
fn nothing_waits_in_the_new_form() {
    assert_eq!(refusal(&format!("{R_FRONT} 00 {R_REST}")), (23, 0));
    // Whatever is behind it, and only once all lengths are read.
    for rest in ["", "00", "ff", "ff ff", "81 00", "81 01", "7f"] {
        assert_eq!(refusal(&format!("{R_FRONT} 00 {rest}")), (23, 0), "{rest}");
        assert_eq!(refusal(&format!("{THREE} 00 00 00 {rest}")), (23, 0), "{rest}");
    }
    assert_eq!(refusal(&format!("{THREE} 00 00")), (3, 9));
    assert_eq!(refusal(&format!("{THREE} 00 00 80 00")), (4, 9));
    assert_eq!(refusal(&format!("{THREE} 00 00 09")), (5, 9));
    assert_eq!(refusal(&format!("{THREE} 00 00 01")), (3, 10));
    assert_eq!(refusal(&format!("{THREE} 00 00 01 00")), (7, 10));
    tables(&format!("{THREE} 00 00 01 03 {NOTHING_MORE}"));
    // In the first form nothing waits, and that is that.
    tables(&format!("01 01 00 03 01 02 01 {NOTHING_MORE}"));
}

#[test]
fn places_behind_are_counted_with_what_waits() {
    let to = |rest: &str| format!("{THREE} 00 02 01 02 00 {rest}");
    assert_eq!(refusal(&to("81 01")), (5, 12));
    assert_eq!(refusal(&to("00 00")), (5, 13));
    assert_eq!(refusal(&to("00 01 01 00 01")), (3, 17));
    assert_eq!(refusal(&to("00 01 01 00 01 00 05")), (10, 18));
    // The only state is final and reads 3 and then 0.
    assert_eq!(refusal(&to("00 01 01 02 00 00 03 00 01 00")), (9, 22));
}

/// What waits, then a pool whose root is its first state.
fn session(waiting: &str, pool: &str) -> String {
    format!("05 01 00 02 01 01 {waiting} 00 {pool} 01 00")
}

#[test]
fn the_start_is_asked_with_what_waits() {
    // State 0 reads 0 and leads to 1, which reads 1 and leads to 2, which is final: 0 1 alone is inside.
    let pool = "03 00 01 00 01 00 01 01 02 01 00";
    assert_eq!(verdict(&session("01 00 01 01", pool)), "closed 0");
    assert_eq!(verdict(&session("01 00 00", pool)), "outside");
    assert_eq!(verdict(&session("00 01 01", pool)), "outside");
    assert_eq!(verdict(&session("02 00 00 01 01", pool)), "outside");
    assert_eq!(verdict(&session("01 00 02 01 01", pool)), "outside");
    assert_eq!(verdict(&format!("01 01 00 02 01 01 00 {pool} 01 00")), "outside");
    // Without a root it is outside, and with a set that holds nothing but empty queues, too.
    assert_eq!(verdict(&format!("05 01 00 02 01 01 01 00 00 00 {pool} 00 00")), "outside");
    assert_eq!(verdict(&session("01 00 00", "01 01 00")), "outside");
    assert_eq!(verdict("01 01 00 02 01 01 00 01 01 00 01 00"), "closed 0");
}

#[test]
fn the_starting_control_state_is_asked() {
    // A machine of two states that starts in 1; message 0 is inside there, and nothing in state 0.
    let file = |start: &str| format!("05 02 {start} 01 01 01 00 00 02 01 00 00 01 00 00 01 02 00");
    assert_eq!(verdict(&file("01")), "closed 0");
    assert_eq!(verdict(&file("00")), "outside");
}

#[test]
fn steps_are_judged_as_ever() {
    // Case c: at most one message is inside. The step leaves from contents that the file does not start with.
    let pool = "02 01 01 00 01 01 00 01 00";
    let steps = &R_REST[..R_REST.len() - " 01 01 01 00 00 01 00".len()];
    assert_eq!(verdict(&format!("02 01 01 00 00 01 01 {steps} {pool}")), "leaves 0 0 1 1: 0");
    assert_eq!(verdict(&format!("{R_FRONT} 01 00 {steps} {pool}")), "leaves 0 0 1 1: 0");
    assert_eq!(verdict(&format!("{R_FRONT} 02 00 00 {steps} {pool}")), "outside");
    for waiting in ["01 00", "08 00 00 00 00 00 00 00 00"] {
        assert_eq!(verdict(&format!("{R_FRONT} {waiting} {R_REST}")), "closed 4");
    }
    // A bad entry that accepts just one message.
    let bad = "03 01 01 00 00 00 01 00 02 01 00 01 01 00 01";
    assert_eq!(verdict(&format!("{R_FRONT} 01 00 {steps} {bad}")), "bad 0 1: 0");
    assert_eq!(verdict(&format!("{R_FRONT} 02 00 00 {steps} {bad}")), "bad 0 1: 0");
}

#[test]
fn membership_asks_of_no_start() {
    let asked = |file: &str, contents: &[u8]| membership_line(&membership(&hex(file), 0, contents));
    let pool = "03 00 01 00 01 00 01 01 02 01 00";
    for waiting in ["01 00 01 01", "01 00 00", "00 08 01 01 01 01 01 01 01 01"] {
        assert_eq!(asked(&session(waiting, pool), &[]), "no 0");
        assert_eq!(asked(&session(waiting, pool), &[0]), "no 1");
        assert_eq!(asked(&session(waiting, pool), &[0, 1]), "yes 2");
    }
    assert_eq!(asked(&session("00 00", pool), &[0, 1]), "refused 23 at 0");
}

/// What is lent is dirty, and nothing in it is 0.
fn lent(memory_length: usize) -> Lent {
    let record = Record { states: [251, 252, 253, 254], heads: [1, 2, 3, 4], lengths: [5_000, 6, 7, 8] };
    Lent { record, memory: (0..memory_length).map(|i| (i % 255) as u8 + 1).collect() }
}

/// By every way to replay. Asserts what the queues hold at the end.
fn assert_replay(file: &str, trace: &[u8], expected: &str, queues: &[&[u8]]) {
    let (file, lent) = (hex(file), lent(5_000));
    let answer = replay(&file, trace, &lent);
    assert_eq!(replay_with(&file, trace, &lent, None), answer, "in place");
    let mut in_rings = lent.clone();
    let reply = replay_in_rings(&mut in_rings.record, &file, trace, &mut in_rings.memory);
    assert_eq!(Answer { reply, lent: in_rings }, answer, "in rings");
    assert_eq!(answer.reply.to_string(), expected);
    let Lent { record, memory } = answer.lent;
    let (rooms, past) = memory.split_at(1_024 * queues.len());
    assert_eq!(past, &lent.memory[1_024 * queues.len()..]);
    for (queue, room) in rooms.chunks(1_024).enumerate() {
        let waiting = queues[queue];
        assert_eq!((record.heads[queue], record.lengths[queue]), (0, waiting.len()), "{expected}");
        assert_eq!(&room[..waiting.len()], waiting, "{expected}");
        assert!(room[waiting.len()..].iter().all(|&byte| byte == 0), "{expected}");
    }
}

#[test]
fn a_replay_begins_with_what_waits() {
    let r = format!("{R_FRONT} 02 00 00 {R_REST}");
    assert_replay(&r, &[], "end 0", &[&[0, 0]]);
    assert_replay(&r, &[1], "end 1", &[&[0]]);
    assert_replay(&r, &[1, 1], "end 2", &[&[]]);
    assert_replay(&r, &[1, 1, 1], "refused 14 at 2 after 2", &[&[]]);
    assert_replay(&r, &[0, 1, 1, 1], "end 4", &[&[]]);
    assert_replay(&r, &[2], "refused 5 at 0 after 0", &[&[0, 0]]);
    assert_replay(&r, &[129, 0], "refused 4 at 0 after 0", &[&[0, 0]]);
    assert_replay(&r, &[128], "refused 3 at 1 after 0", &[&[0, 0]]);
    assert_replay(&r, &vec![0; 1_022], "end 1022", &[&[0; 1_024]]);
    assert_replay(&r, &vec![0; 1_023], "refused 15 at 1022 after 1022", &[&[0; 1_024]]);
}

/// One machine, queues of the messages 0 1 and 2, everything inside. It starts with 0 1 1 and 2. 0: receive 0 1. 1: receive
/// 0 1 1 0. 2: receive 1 0. 3: send 0. 4: receive 2 2.
const WAITING: &str = "05 01 00 02 02 01  03 00 01 01  01 02  05
    00 00 00 02 00 02 00 01  00 00 00 02 00 04 00 01 01 00  00 00 00 02 00 02 01 00  00 00 00 01 00 01 00
    00 00 00 02 01 02 02 02
    02 01 03 00 00 01 00 02 01 01 01 02 01  01 00";

#[test]
fn what_waits_is_received_in_its_order() {
    assert_replay(WAITING, &[], "end 0", &[&[0, 1, 1], &[2]]);
    assert_replay(WAITING, &[0], "end 1", &[&[1], &[2]]);
    assert_replay(WAITING, &[2], "refused 14 at 0 after 0", &[&[0, 1, 1], &[2]]);
    // More than waits, and then just as much.
    assert_replay(WAITING, &[1], "refused 14 at 0 after 0", &[&[0, 1, 1], &[2]]);
    assert_replay(WAITING, &[3, 1], "end 2", &[&[], &[2]]);
    assert_replay(WAITING, &[4], "refused 14 at 0 after 0", &[&[0, 1, 1], &[2]]);
    // The last message that waits goes with one sent behind it.
    assert_replay(WAITING, &[0, 3, 2], "end 3", &[&[], &[2]]);
    assert_replay(WAITING, &[0, 2], "refused 14 at 1 after 1", &[&[1], &[2]]);
}

#[test]
fn what_waits_can_be_outside_at_once() {
    // State 0 reads 0 to 1, which reads 0 to 2, which reads 1 to 3; 3 is not final and reads nothing.
    let pool = "04 01 01 00 01 01 01 00 02 01 01 01 03 00 00";
    for trace in [&[][..], &[0], &[128]] {
        assert_replay(&session("01 00 01 01", pool), trace, "outside 0 1", &[&[0], &[1]]);
        assert_replay(&session("03 00 00 00 00", pool), trace, "outside 0 2", &[&[0, 0, 0], &[]]);
        assert_replay(&session("02 00 00 01 01", pool), trace, "outside 0 3", &[&[0, 0], &[1]]);
        assert_replay(&session("02 00 00 03 01 01 01", pool), trace, "outside 0 3", &[&[0, 0], &[1, 1, 1]]);
        assert_replay(&session("00 02 01 01", pool), trace, "outside 0 0", &[&[], &[1, 1]]);
        let rootless = format!("05 01 00 02 01 01 02 00 00 00 00 {pool} 00 00");
        assert_replay(&rootless, trace, "outside 0 0", &[&[0, 0], &[]]);
    }
    assert_replay(&session("02 00 00 00", pool), &[], "end 0", &[&[0, 0], &[]]);
}

#[test]
fn refused_files_leave_what_is_lent() {
    for (file, expected) in [
        (format!("{R_FRONT} 00 {R_REST}"), "file refused 23 at 0"),
        (format!("{R_FRONT} 01 01 {R_REST}"), "file refused 5 at 8"),
        (format!("{R_FRONT} 09 {R_REST}"), "file refused 5 at 7"),
        (format!("{THREE} 01 01"), "file refused 7 at 8"),
    ] {
        let lent = lent(5_000);
        let answer = replay(&hex(&file), &[0], &lent);
        assert_eq!((answer.reply.to_string(), answer.lent), (expected.to_string(), lent));
    }
    let lent = lent(1_023);
    let answer = replay(&hex(&format!("{R_FRONT} 01 00 {R_REST}")), &[0], &lent);
    assert_eq!((answer.reply.to_string(), answer.lent), ("memory refused 2 at 0".to_string(), lent));
}

const NO_FILE: Result<usize, Refusal> = Err(Refusal { number: 16, place: 0 });

fn written(flat: &Flat) -> (Result<usize, Refusal>, Vec<u8>) {
    let mut buffer = vec![9; 60];
    let reply = write(flat, flat.product(), &mut buffer);
    buffer.truncate(reply.unwrap_or(0));
    (reply, buffer)
}

fn with(flat: &Flat, edits: &[(usize, u8)]) -> Flat {
    let mut flat = flat.clone();
    for &(place, value) in edits {
        flat.0[place] = value;
    }
    flat
}

#[test]
fn both_forms_are_written() {
    // Lengths stand from 18 on, messages from 22 on, eight for each queue.
    let r = Flat::of(&tables(R));
    let file = |text: String| (Ok(hex(&text).len()), hex(&text));
    assert_eq!(written(&r), file(R.to_string()));
    assert_eq!(written(&with(&r, &[(18, 1)])), file(format!("{R_FRONT} 01 00 {R_REST}")));
    assert_eq!(written(&with(&r, &[(18, 8)])), file(format!("{R_FRONT} 08 00 00 00 00 00 00 00 00 {R_REST}")));
    let s = Flat::of(&tables(S));
    let with_one = |waiting: &str| file(format!("05 {} {waiting} {}", &S[3..17], &S[18..]));
    assert_eq!(written(&with(&s, &[(19, 2), (30, 1), (31, 1)])), with_one("00 02 01 01"));
    assert_eq!(written(&with(&s, &[(18, 1), (19, 1), (30, 1)])), with_one("01 00 01 01"));
    let resuming = Flat::of(&tables(&format!("{R_FRONT} 03 00 00 00 {R_REST}")));
    assert_eq!(resuming, with(&r, &[(18, 3)]));
    assert_eq!(written(&with(&resuming, &[(18, 0)])), file(R.to_string()));
}

#[test]
fn what_no_file_starts_with_is_refused_by_16() {
    let s = Flat::of(&tables(S));
    let eight: Vec<(usize, u8)> = (30..38).map(|place| (place, 1)).chain([(19, 8)]).collect();
    let s = with(&s, &eight);
    assert_eq!(written(&s).0, Ok(37));
    let alone = [
        (19, 9, Fault::StartingLength),
        (19, 255, Fault::StartingLength),
        (19, 7, Fault::StartingPast),
        (37, 0, Fault::StartingOfAnotherQueue),
        (30, 2, Fault::StartingMessage),
        (30, 255, Fault::StartingMessage),
        (22, 1, Fault::StartingPast),
        (29, 1, Fault::StartingPast),
        (20, 1, Fault::StartingLengthsPast),
        (21, 8, Fault::StartingLengthsPast),
        (38, 1, Fault::StartingRoomsPast),
        (53, 1, Fault::StartingRoomsPast),
    ];
    for (place, value, fault) in alone {
        let damaged = with(&s, &[(place, value)]);
        assert_eq!(faults(&damaged, 1), BTreeSet::from([fault]), "{value} at {place}");
        assert_eq!(written(&damaged), (NO_FILE, vec![]), "{value} at {place}");
    }
    // Where nothing waits the entries are asked, too.
    let r = Flat::of(&tables(R));
    for (place, value) in [(19, 1), (22, 1), (30, 1), (53, 255)] {
        assert_eq!(written(&with(&r, &[(place, value)])), (NO_FILE, vec![]), "{value} at {place}");
    }
    // As many machines as a first number of the new form would say.
    assert_eq!(written(&with(&r, &[(0, 6)])), (NO_FILE, vec![]));
    assert_eq!(written(&with(&r, &[(0, 6), (18, 1)])), (NO_FILE, vec![]));
}

#[test]
fn entries_are_of_their_parts() {
    let s = with(&Flat::of(&tables(S)), &[(19, 2), (30, 1), (31, 1)]);
    for (place, part) in [
        (17, Part::MessagesPast),
        (18, Part::StartingLength),
        (19, Part::StartingLength),
        (20, Part::StartingLengthPast),
        (21, Part::StartingLengthPast),
        (22, Part::StartingPast),
        (29, Part::StartingPast),
        (30, Part::Starting),
        (31, Part::Starting),
        (32, Part::StartingPast),
        (37, Part::StartingPast),
        (38, Part::StartingRoomPast),
        (53, Part::StartingRoomPast),
        (54, Part::Machine),
    ] {
        assert_eq!(Part::of(place, &s), part, "{place}");
    }
}

#[test]
fn mistakes_about_the_forms_change_what_is_worked_by_hand() {
    let files = [
        format!("{R_FRONT} 02 00 00 {R_REST}"),
        format!("{R_FRONT} 08 00 00 00 00 00 00 00 00 {R_REST}"),
        format!("{R_FRONT} 09 00 00 00 00 00 00 00 00 00 {R_REST}"),
        format!("{R_FRONT} 81 00 00 {R_REST}"),
        format!("{R_FRONT} 00 {R_REST}"),
        format!("{R_FRONT} 00 ff"),
        format!("{R_FRONT} 00 {R_REST} 00"),
        R.to_string(),
        format!("{THREE} 00 09"),
        format!("{THREE} 01 01"),
        format!("{THREE} 00 01 04"),
        format!("{THREE} 00 02 01 00"),
        format!("{THREE} 01 00 02 02 01 01 03 {NOTHING_MORE}"),
        format!("{THREE} 00 02 02 01 00 {NOTHING_MORE}"),
        format!("09 01 00 01 01 {NOTHING_MORE}"),
    ];
    for trap in FormTrap::all() {
        let tells = |file: &String| read_form_with(&hex(file), Some(trap)) != read(&hex(file));
        assert!(files.iter().any(tells), "{trap:?}");
    }
    // 23 is asked just before field 3, of files of the new form alone.
    let empty = &files[4];
    for trap in [FormTrap::Unasked, FormTrap::PlaceBehind, FormTrap::PlaceOfTheFirstLength, FormTrap::FiveForEmpty] {
        assert_ne!(read_form_with(&hex(empty), Some(trap)), read(&hex(empty)), "{trap:?}");
    }
    let replies = [FormTrap::PlaceBehind, FormTrap::PlaceOfTheFirstLength, FormTrap::FiveForEmpty]
        .map(|trap| read_form_with(&hex(empty), Some(trap)).expect_err("it is refused").to_string());
    assert_eq!(replies, ["refused 23 at 8", "refused 23 at 7", "refused 5 at 0"]);
    let asked_late = read_form_with(&hex(&files[5]), Some(FormTrap::AskedBehindField3));
    assert_eq!(asked_late, Err(Refusal { number: 3, place: 9 }));
    let asked_last = read_form_with(&hex(&files[6]), Some(FormTrap::AskedAtTheEnd));
    assert_eq!(asked_last, Err(Refusal { number: 10, place: 30 }));
}

#[test]
fn mistakes_about_what_waits_change_what_is_worked_by_hand() {
    let read = tables(WAITING);
    let taken = |mistaken| starting_with(&read, Some(mistaken));
    assert_eq!(starting_with(&read, None), [vec![0, 1, 1], vec![2]]);
    assert_eq!(taken(Mistaken::Empty), [vec![], vec![]]);
    assert_eq!(taken(Mistaken::Backwards), [vec![1, 1, 0], vec![2]]);
    assert_eq!(taken(Mistaken::QueuesExchanged), [vec![2], vec![0, 1, 1]]);
    assert_eq!(taken(Mistaken::FirstQueueAlone), [vec![0, 1, 1], vec![]]);
    assert_eq!(taken(Mistaken::LastQueueAlone), [vec![], vec![2]]);
    assert_eq!(taken(Mistaken::FirstLeftOut), [vec![1, 1], vec![]]);
    assert_eq!(taken(Mistaken::LastLeftOut), [vec![0, 1], vec![]]);
    assert_eq!(taken(Mistaken::WholeRooms), [vec![0, 1, 1, 0, 0, 0, 0, 0], vec![2, 0, 0, 0, 0, 0, 0, 0]]);
    let lent = lent(5_000);
    for trap in ReplayTrap::of_starting() {
        let tells =
            |trace: &[u8]| replay_with(&hex(WAITING), trace, &lent, Some(trap)) != replay(&hex(WAITING), trace, &lent);
        let full = vec![3; 1_022];
        assert!([&[][..], &[3], &[0], &full].into_iter().any(tells), "{trap:?}");
    }
    // 0 1 alone is inside; or empty queues, 0 and 0 1.
    let pools = ["03 00 01 00 01 00 01 01 02 01 00", "03 01 01 00 01 01 01 01 02 01 00"];
    let files: Vec<Tables> = ["01 00 01 01", "02 00 00 00", "01 00 00", "01 00 02 01 01", "00 01 01"]
        .iter()
        .flat_map(|waiting| pools.map(|pool| tables(&session(waiting, pool))))
        .collect();
    for mistaken in Mistaken::ALL.into_iter().filter(|&mistaken| mistaken != Mistaken::Backwards) {
        let tells = |tables: &Tables| verdict_with(tables, Some(Trap::Starts(mistaken))) != verdict_with(tables, None);
        assert!(files.iter().any(tells), "{mistaken:?}");
    }
    for trap in [Trap::StartNeedNotBeFinal, Trap::EmptyStartToo, Trap::EmptyStartEnough] {
        let tells = |tables: &Tables| verdict_with(tables, Some(trap)) != verdict_with(tables, None);
        assert!(files.iter().any(tells), "{trap:?}");
    }
}

#[test]
fn both_ways_to_read_agree_on_damaged_files() {
    let agreement = selftest_forms(19, 30_000);
    assert!(agreement.disagreements.is_empty(), "{}", agreement.disagreements.join("\n"));
    assert!(agreement.resuming > 3_000 && agreement.refused > 10_000);
}
