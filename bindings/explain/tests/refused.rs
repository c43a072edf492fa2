//! What is said of a refusal, held to the proved library: what is called allowed at a place is accepted there, and nothing else.

use std::collections::BTreeMap;

use reference_checker::generate::draft::encode;
use reference_checker::generate::reading::reading_cases;
use swarmbanner::Refusal;
use swarmbanner_explain::{listing, Fields, Refused};

const SEED: u64 = 20_261_115;

fn refused_files() -> Vec<(Vec<u8>, Refusal)> {
    let refused = |bytes: Vec<u8>| swarmbanner::read(&bytes).err().map(|refusal| (bytes, refusal));
    reading_cases(SEED).cases.into_iter().filter_map(|case| refused(case.bytes)).collect()
}

/// Numbers at both ends of what is allowed, of the field and of a byte, and some between.
fn candidates(told: &Refused) -> Vec<usize> {
    let ends = told.allowed.map_or(vec![], |(least, most)| vec![least, most]);
    let near = ends.into_iter().flat_map(|end| [end.saturating_sub(1), end, end + 1]);
    let mut all: Vec<usize> =
        near.chain([0, 1, 2, 4, 5, 16, 17, 31, 32, 64, 65, 127, 128, 129, 255, 256, 16_383]).collect();
    all.sort_unstable();
    all.dedup();
    all
}

#[test]
fn what_is_allowed_is_accepted_and_nothing_else() {
    let mut tried = BTreeMap::new();
    for (file, refusal) in refused_files() {
        // A longer number must not make the file too long.
        if !(3..=8).contains(&refusal.number) || file.len() > 16_000 {
            continue;
        }
        let told = Refused::new(&file, refusal);
        let end = if refusal.number == 3 { file.len() } else { refusal.place + told.stands.len() };
        let begin = end - told.stands.len();
        for number in candidates(&told) {
            let replaced = [&file[..begin], &encode(number), &file[end..]].concat();
            let is_refused =
                swarmbanner::read(&replaced).is_err_and(|next| next.place == begin && (5..=8).contains(&next.number));
            let is_allowed = told.allowed.is_some_and(|(least, most)| (least..=most).contains(&number));
            assert_eq!(is_refused, !is_allowed, "{number} in the place of {told:?}");
        }
        *tried.entry(refusal.number).or_insert(0) += 1;
    }
    println!("files by refusal: {tried:?}");
    assert!((3..=8).all(|number| tried[&number] >= 50), "too few files of some refusal: {tried:?}");
}

#[test]
fn every_refusal_has_its_lines() {
    for (file, refusal) in refused_files() {
        let told = Refused::new(&file, refusal);
        let lines = told.lines();
        assert_eq!(lines[0], refusal.cause());
        assert_eq!(told.field.is_some(), refusal.number != 1);
        let wanted = match refusal.number {
            1 => 1,
            9 | 23 => 2,
            _ => 4,
        };
        assert_eq!(lines.len(), wanted, "{lines:?}");
        assert!(refusal.number != 9 || lines[1].contains(", which accepts "), "{lines:?}");
    }
}

#[test]
fn the_places_of_a_file_that_is_read() {
    let mut read = 0;
    for case in reading_cases(SEED).cases {
        let Ok(session) = swarmbanner::read(&case.bytes) else { continue };
        let fields = Fields::of(&case.bytes);
        assert_eq!(fields.fields.len(), 6);
        assert_eq!(fields.transitions.len(), session.transitions().len());
        assert_eq!(fields.pool.len(), session.pool().len());
        assert_eq!(fields.bad.len(), session.bad_entries().len());
        let lines = listing(&case.bytes, &session);
        let parts = session.machines().len() + session.queues().len() + session.transitions().len();
        let more = session.pool().len() + session.control_states() + session.bad_entries().len();
        assert_eq!(lines.len(), 7 + parts + more);
        read += 1;
    }
    assert!(read > 500, "{read} files");
}

/// Bytes of docs/FORMAT.md, "Refusals", and the last lines that explain them.
const TOLD: [(&str, &[&str]); 18] = [
    (
        "02 01 01 00 00 01 01 02 00 00 00 01",
        &[
            "field 3, byte 12: the queue of transition 0",
            "there stands nothing: the file ends before the number",
            "allowed there: 0",
        ],
    ),
    (
        "02 01 01 00 00 01 81",
        &[
            "field 2, byte 7: the number of messages of queue 0",
            "there stands 81 (hex), which announces another byte, and the file ends",
            "allowed there: 1 to 32",
        ],
    ),
    (
        "82 00 01 01",
        &[
            "there stands 82 00 (hex)",
            "allowed there: 1 to 8, in one byte up to 127, else in two of which the second is 1 to 127",
        ],
    ),
    (
        "02 81 80",
        &[
            "field 1, byte 1: the number of states of machine 0",
            "there stands 81 80 (hex)",
            "allowed there: 1 to 16, in one byte up to 127, else in two of which the second is 1 to 127",
        ],
    ),
    (
        "09",
        &[
            "field 1, byte 0: the number of machines, or 4 more where messages wait at the start",
            "there stands 09 (hex), the number 9",
            "allowed there: 1 to 8",
        ],
    ),
    (
        "05 01 00 01 01",
        &[
            "field 2, byte 5: the number of messages that queue 0 starts with",
            "there stands nothing: the file ends before the number",
            "allowed there: 0 to 8",
        ],
    ),
    (
        "05 01 00 02 01 01 00 09",
        &[
            "field 2, byte 7: the number of messages that queue 1 starts with",
            "there stands 09 (hex), the number 9",
            "allowed there: 0 to 8",
        ],
    ),
    (
        "05 01 00 02 01 02 00 03 01 02 00",
        &[
            "a message of a transition, or one that waits at the start, is in another queue",
            "field 2, byte 10: message 3 of 3 that queue 1 starts with",
            "there stands 00 (hex), the number 0",
            "allowed there: 1 to 2: these are the messages of queue 1, where it waits",
        ],
    ),
    (
        "06 01 01 00 00 01 01 00",
        &[
            "messages are to wait at the start, and all queues start empty",
            "field 1, byte 0: the first number, 6; without the starting length at byte 7, which is 0, it is 2",
        ],
    ),
    (
        "05 01 00 02 01 01 00 00 ff 81",
        &["field 1, byte 0: the first number, 5; without the starting lengths from byte 6 on, which are 0, it is 1"],
    ),
    (
        "02 01 01 01 00",
        &[
            "field 1, byte 3: the starting state of machine 0",
            "there stands 01 (hex), the number 1",
            "allowed there: 0",
        ],
    ),
    (
        "01 01 00 01 01 01 00 00 00 01 00 11",
        &[
            "a number is outside its field's range",
            "field 3, byte 11: the length of the word of transition 0",
            "there stands 11 (hex), the number 17",
            "allowed there: 0 to 16",
        ],
    ),
    (
        "03 10 10 02",
        &[
            "field 1, byte 3: the number of states of machine 2",
            "there stands 02 (hex), the number 2",
            "allowed there: 1: the product of the states is 256 before it and may be 256 with it",
        ],
    ),
    (
        "01 01 00 02 10 11",
        &[
            "field 2, byte 5: the number of messages of queue 1",
            "there stands 11 (hex), the number 17",
            "allowed there: 1 to 16: the queues before it have 16 messages, and all together may have 32",
        ],
    ),
    (
        "01 01 00 02 01 01 01 00 00 00 01 00 01 01",
        &[
            "field 3, byte 13: message 1 of 1 in the word of transition 0",
            "there stands 01 (hex), the number 1",
            "allowed there: 0: these are the messages of queue 0, which the transition names",
        ],
    ),
    (
        "01 01 00 02 01 01 00 01 01 02 01 00 00 00",
        &[
            "field 4, byte 12: the message of arc 2 of 2 of diagram state 0",
            "there stands 00 (hex), the number 0",
            "allowed there: nothing: the arc before it has message 1, and they ascend",
        ],
    ),
    (
        "01 01 00 02 01 01 00 01 01 02 00 00 01 00 01 00",
        &["field 6, byte 16: the end of the last field: control state 0 has root 0, which accepts 1 0, where message 0 of \
           queue 0 comes after message 1 of queue 1"],
    ),
    (
        "02 01 01 00 00 01 01 02 00 00 00 01 00 01 00 01 00 00 02 00 01 00 01 01 01 00 00 01 00 00",
        &[
            "field 6, byte 29: the end of the last field, with 1 byte after it",
            "there stands 00 (hex)",
            "allowed there: nothing",
        ],
    ),
];

#[test]
fn lines_of_the_page() {
    for (bytes, told) in TOLD {
        let file: Vec<u8> = bytes.split(' ').map(|byte| u8::from_str_radix(byte, 16).expect("two digits")).collect();
        let refusal = swarmbanner::read(&file).expect_err("it is refused");
        let lines = Refused::new(&file, refusal).lines();
        assert_eq!(lines[lines.len() - told.len()..], *told, "{bytes}");
    }
}
