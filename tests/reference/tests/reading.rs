//! Reading, against files worked by hand from the document.

use reference_checker::coverage::reading_coverage;
use reference_checker::digest::{digest, reading_line};
use reference_checker::generate::document::{cases, hex, R, S};
use reference_checker::generate::reading::reading_cases;
use reference_checker::read::{read, BadEntry, Kind, Refusal, Tables, Transition, MESSAGES};

fn refusal(text: &str) -> (u8, usize) {
    match read(&hex(text)) {
        Ok(_) => panic!("{text} was read"),
        Err(Refusal { number, place }) => (number, place),
    }
}

fn tables(text: &str) -> Tables {
    read(&hex(text)).unwrap_or_else(|refusal| panic!("{text} was {refusal}"))
}

#[test]
fn file_r() {
    let mut expected = Tables::empty();
    expected.machine_count = 2;
    expected.states[..2].copy_from_slice(&[1, 1]);
    expected.control_state_count = 1;
    expected.queue_count = 1;
    expected.messages[0] = 1;
    expected.message_sum = 1;
    expected.transition_count = 2;
    expected.transitions[0] = Transition { kind: Kind::Send, length: 1, ..Transition::default() };
    expected.transitions[1] = Transition { machine: 1, kind: Kind::Receive, length: 1, ..Transition::default() };
    expected.pool_state_count = 1;
    expected.finals[0] = true;
    expected.arcs[0] = 1;
    expected.roots[0] = 1;
    assert_eq!(tables(R), expected);
}

#[test]
fn file_s() {
    let mut expected = Tables::empty();
    expected.machine_count = 1;
    expected.states[0] = 1;
    expected.control_state_count = 1;
    expected.queue_count = 2;
    expected.messages[..2].copy_from_slice(&[1, 1]);
    expected.message_sum = 2;
    expected.transition_count = 1;
    expected.transitions[0] = Transition { kind: Kind::Send, length: 1, ..Transition::default() };
    expected.pool_state_count = 2;
    expected.finals[..2].copy_from_slice(&[true, true]);
    // State 0 reads 0 and stays, reads 1 and leads to state 1, which reads 1 only.
    expected.arcs[0] = 1;
    expected.arcs[1] = 2;
    expected.arcs[MESSAGES + 1] = 2;
    expected.roots[0] = 1;
    assert_eq!(tables(S), expected);
}

/// R with two messages waiting, and S with 0 in its first queue and 1 1 1 in its second.
const R_WITH_TWO: &str =
    "06 01 01 00 00 01 01 02 00 00 02 00 00 00 01 00 01 00 01 00 00 02 00 01 00 01 01 01 00 00 01 00";
const S_WITH_BOTH: &str =
    "05 01 00 02 01 01 01 00 03 01 01 01 01 00 00 00 01 00 01 00 02 01 02 00 00 01 01 01 01 01 01 01 00";

/// Worked outside of this crate from the order of the entries.
#[test]
fn digests() {
    assert_eq!(digest(&Tables::empty()), 14_297_238);
    assert_eq!(digest(&tables(R)), 4_145_412);
    assert_eq!(digest(&tables(S)), 11_614_945);
    assert_eq!(digest(&tables(R_WITH_TWO)), 12_624_223);
    assert_eq!(digest(&tables(S_WITH_BOTH)), 6_252_122);
    assert_eq!(reading_line(&read(&hex(S))), "read 1 1 2 2 1 2 0 11614945");
    assert_eq!(reading_line(&read(&[])), "refused 3 at 0 14297238");
}

#[test]
fn every_table_has_its_place() {
    // Machines of 2 and 3 states starting in 1 and 2; queues of 1 and 2 messages; machine 1 receives 2 1 from queue 1;
    // a pool of two states; roots for control states 0 and 5 of 6; a bad entry for control state 5 with root 1.
    let read = tables(
        "02 02 03 01 02  02 01 02  01 01 02 01 02 01 02 02 01  02 00 00 01 01 02 01  01 00 00 00 00 02  01 05 01",
    );
    assert_eq!(read.starts, [1, 2, 0, 0]);
    assert_eq!(read.control_state_count, 6);
    assert_eq!(read.messages, [1, 2, 0, 0]);
    let mut receive =
        Transition { machine: 1, from: 2, to: 1, kind: Kind::Receive, queue: 1, length: 2, messages: [0; 16] };
    receive.messages[..2].copy_from_slice(&[2, 1]);
    assert_eq!(read.transitions[0], receive);
    assert_eq!(read.finals[..2], [false, true]);
    assert_eq!(read.arcs[MESSAGES + 2], 2);
    assert_eq!(read.arcs.iter().filter(|&&arc| arc > 0).count(), 1);
    assert_eq!(read.roots[..6], [1, 0, 0, 0, 0, 2]);
    assert_eq!(read.bad[0], BadEntry { control_state: 5, root: 1 });
}

#[test]
fn lettered_cases_are_read_or_refused_as_their_line_says() {
    for case in cases() {
        let reply = read(&case.bytes);
        if case.line.starts_with("refused") {
            assert_eq!(reply.unwrap_err().to_string(), case.line, "case {}", case.name);
        } else {
            assert!(reply.is_ok(), "case {}", case.name);
        }
    }
}

#[test]
fn numbers() {
    assert_eq!(refusal("80"), (3, 1));
    assert_eq!(refusal("80 00"), (4, 0));
    assert_eq!(refusal("81 80"), (4, 0));
    assert_eq!(refusal("ff ff"), (4, 0));
    assert_eq!(refusal("ff 7f"), (5, 0));
    assert_eq!(refusal("80 01"), (5, 0));
    assert_eq!(refusal("01 01 00 01 01 80"), (3, 6));
    // 128 transitions, none of which follows; 129 transitions.
    assert_eq!(refusal("01 01 00 01 01 80 01"), (3, 7));
    assert_eq!(refusal("01 01 00 01 01 81 01"), (5, 5));
}

#[test]
fn length() {
    assert_eq!(read(&[0; 16_384]).unwrap_err(), Refusal { number: 5, place: 0 });
    assert_eq!(read(&[0; 16_385]).unwrap_err(), Refusal { number: 1, place: 16_384 });
    assert_eq!(read(&[0; 40_000]).unwrap_err(), Refusal { number: 1, place: 16_384 });
}

#[test]
fn machines() {
    assert_eq!(refusal("00"), (5, 0));
    assert_eq!(refusal("01 00"), (5, 1));
    assert_eq!(refusal("01 11"), (5, 1));
    assert_eq!(refusal("02 10 10"), (3, 3));
    assert_eq!(refusal("02 10 11"), (5, 2));
    assert_eq!(refusal("03 10 10 02"), (6, 3));
    assert_eq!(refusal("03 10 10 11"), (5, 3));
    assert_eq!(refusal("03 10 10 82 00"), (4, 3));
    assert_eq!(refusal("01 02 02"), (5, 2));
    assert_eq!(refusal("02 02 03 01 03"), (5, 4));
}

#[test]
fn queues() {
    assert_eq!(refusal("01 01 00 00"), (5, 3));
    assert_eq!(refusal("01 01 00 05"), (5, 3));
    assert_eq!(refusal("01 01 00 01 00"), (5, 4));
    assert_eq!(refusal("01 01 00 01 20"), (3, 5));
    assert_eq!(refusal("01 01 00 01 21"), (5, 4));
    assert_eq!(refusal("01 01 00 02 1f 01"), (3, 6));
    assert_eq!(refusal("01 01 00 02 1f 02"), (6, 5));
    assert_eq!(refusal("01 01 00 02 1f 21"), (5, 5));
}

#[test]
fn transitions() {
    // One machine of two states, queues of one and two messages, one transition.
    let to = |rest: &str| format!("01 02 00 02 01 02 01 {rest}");
    assert_eq!(refusal(&to("01")), (5, 7));
    assert_eq!(refusal(&to("00 02")), (5, 8));
    assert_eq!(refusal(&to("00 01 02")), (5, 9));
    assert_eq!(refusal(&to("00 01 01 03")), (5, 10));
    assert_eq!(refusal(&to("00 01 01 02 02")), (5, 11));
    assert_eq!(refusal(&to("00 01 01 02 01 11")), (5, 12));
    assert_eq!(refusal(&to("00 01 01 02 01 04 01 02 01 02")), (3, 17));
    assert_eq!(refusal(&to("00 01 01 02 01 01 03")), (5, 13));
    assert_eq!(refusal(&to("00 01 01 02 01 01 00")), (7, 13));
    assert_eq!(refusal(&to("00 01 01 01 00 02 00 01")), (7, 14));
}

/// Sixteen messages of queue 1, the queues having one and two.
const SIXTEEN: &str = "02 01 01 02 01 02 02 02 01 01 02 01 01 01 02 01";

#[test]
fn a_word_has_up_to_sixteen_messages() {
    // One machine of one state; the only transition receives from queue 1. Its length stands at 12.
    let to =
        |length: &str, word: &str| format!("01 01 00  02 01 02  01 00 00 00 02 01 {length} {word} 01 01 00  01  00");
    let sixteen = tables(&to("10", SIXTEEN));
    assert_eq!(sixteen.transitions[0].length, 16);
    assert_eq!(sixteen.transitions[0].messages, [2, 1, 1, 2, 1, 2, 2, 2, 1, 1, 2, 1, 1, 1, 2, 1]);
    let words: Vec<&str> = SIXTEEN.split(' ').collect();
    for length in 0..=16 {
        let read = tables(&to(&format!("{length:02x}"), &words[..length].join(" ")));
        assert_eq!(read.transitions[0].word(), &sixteen.transitions[0].messages[..length]);
        assert!(read.transitions[0].messages[length..].iter().all(|&message| message == 0));
    }
    let seventeen = format!("{SIXTEEN} 02");
    assert_eq!(refusal(&to("11", &seventeen)), (5, 12));
    assert_eq!(refusal(&to("11", SIXTEEN)), (5, 12));
    // 18, 127, 144, whose low group is 16, 272, whose low byte is 16, and the largest number.
    for far in ["12", "7f", "90 01", "90 02", "ff 7f"] {
        assert_eq!(refusal(&to(far, &seventeen)), (5, 12));
    }
    assert_eq!(refusal(&to("91 00", &seventeen)), (4, 12));
    assert_eq!(refusal("01 01 00  02 01 02  01 00 00 00 02 01 11"), (5, 12));
    assert_eq!(refusal("01 01 00  02 01 02  01 00 00 00 02 01 10"), (3, 13));
}

#[test]
fn every_message_of_a_long_word_is_tested() {
    let to = |word: &str| format!("01 01 00  02 01 02  01 00 00 00 02 01 10 {word}");
    for place in 0..16 {
        let mut words: Vec<&str> = SIXTEEN.split(' ').collect();
        assert_eq!(refusal(&to(&words[..place].join(" "))), (3, 13 + place));
        // Message 0 is of queue 0, and 3 is not below the sum.
        words[place] = "00";
        assert_eq!(refusal(&to(&words.join(" "))), (7, 13 + place));
        words[place] = "03";
        assert_eq!(refusal(&to(&words.join(" "))), (5, 13 + place));
        words[place] = "81 00";
        assert_eq!(refusal(&to(&words.join(" "))), (4, 13 + place));
    }
}

#[test]
fn a_long_word_in_a_later_transition() {
    // The second transition sends to queue 1. Its length stands at 34.
    let to = |rest: &str| {
        format!("01 01 00  02 01 02  02 00 00 00 02 01 10 {SIXTEEN}  00 00 00 01 01 {rest}  01 01 00  01  00")
    };
    let read = tables(&to(&format!("10 {SIXTEEN}")));
    assert_eq!(read.transitions[1].word(), read.transitions[0].word());
    assert_eq!(read.transitions[1].kind, Kind::Send);
    assert_eq!(refusal(&to(&format!("11 {SIXTEEN} 01"))), (5, 34));
    assert_eq!(refusal(&to("ff 7f")), (5, 34));
}

#[test]
fn pool() {
    // Queues of one and two messages, no transitions.
    let to = |rest: &str| format!("01 01 00 02 01 02 00 {rest}");
    assert_eq!(refusal(&to("00")), (5, 7));
    assert_eq!(refusal(&to("7f")), (3, 8));
    assert_eq!(refusal(&to("80 01")), (5, 7));
    assert_eq!(refusal(&to("01 02")), (5, 8));
    assert_eq!(refusal(&to("01 01 03")), (3, 10));
    assert_eq!(refusal(&to("01 01 04")), (5, 9));
    assert_eq!(refusal(&to("01 01 01 03")), (5, 10));
    assert_eq!(refusal(&to("01 01 01 02 01")), (5, 11));
    assert_eq!(refusal(&to("01 01 02 01 00 01")), (8, 12));
    assert_eq!(refusal(&to("01 01 02 02 00 01 7f")), (8, 12));
    assert_eq!(refusal(&to("01 01 02 02 00 03")), (5, 12));
    // Messages begin anew in each state.
    assert_eq!(refusal(&to("02 01 01 01 01 00 01 01 00")), (3, 16));
}

/// One control state, queues of one and two messages, no transitions.
fn with_pool(rest: &str) -> String {
    format!("01 01 00 02 01 02 00 {rest}")
}

#[test]
fn queue_order() {
    // State 1 is entered by message 1 of queue 1 and left by message 0 of queue 0.
    let pool = "02 01 01 01 01 01 01 00 00";
    assert_eq!(refusal(&with_pool(&format!("{pool} 01 00"))), (9, 18));
    assert_eq!(refusal(&with_pool(&format!("{pool} 02 00"))), (9, 18));
    // Without a root nothing is accepted, and through a bad root it is, though the control state has no root.
    tables(&with_pool(&format!("{pool} 00 00")));
    assert_eq!(refusal(&with_pool(&format!("{pool} 00 01 00 00"))), (9, 20));
    // Left by message 2 of the same queue instead, or by 1 after 2.
    tables(&with_pool("02 01 01 01 01 01 01 02 01 01 00"));
    tables(&with_pool("02 01 01 02 01 01 01 01 01 01 00"));
}

#[test]
fn words_that_are_not_accepted_may_be_out_of_order() {
    // Root 0 accepts nothing and 1; behind 1 and 0 is state 2.
    let pool = |is_final: &str| with_pool(&format!("03 01 01 01 01 01 01 00 02 {is_final} 00"));
    tables(&format!("{} 01 00", pool("00")));
    assert_eq!(refusal(&format!("{} 01 00", pool("01"))), (9, 20));
    // From state 1 on there is one message only, and from state 2 none.
    tables(&format!("{} 02 00", pool("01")));
    tables(&format!("{} 03 01 00 01", pool("01")));
    assert_eq!(refusal(&format!("{} 03 01 00 00", pool("01"))), (9, 22));
    // A cycle of 1 and 0 that no final state is in, or that is.
    let cycle = |is_final: &str| with_pool(&format!("03 01 01 02 01 {is_final} 01 01 02 00 01 00 01 01 00"));
    tables(&cycle("00"));
    assert_eq!(refusal(&cycle("01")), (9, 22));
}

#[test]
fn queue_order_is_asked_between_field_6_and_the_end() {
    let pool = "02 01 01 01 01 01 01 00 00";
    assert_eq!(refusal(&with_pool(pool)), (3, 16));
    assert_eq!(refusal(&with_pool(&format!("{pool} ff ff"))), (4, 16));
    assert_eq!(refusal(&with_pool(&format!("{pool} 03 00"))), (5, 16));
    assert_eq!(refusal(&with_pool(&format!("{pool} 01"))), (3, 17));
    assert_eq!(refusal(&with_pool(&format!("{pool} 01 41"))), (5, 17));
    assert_eq!(refusal(&with_pool(&format!("{pool} 01 01 00"))), (3, 19));
    assert_eq!(refusal(&with_pool(&format!("{pool} 01 01 00 02"))), (5, 19));
    assert_eq!(refusal(&with_pool(&format!("{pool} 01 01 00 01 00"))), (9, 20));
    assert_eq!(refusal(&with_pool(&format!("{pool} 01 00 00"))), (9, 18));
    assert_eq!(refusal(&with_pool(&format!("{pool} 00 00 00"))), (10, 18));
    // The order of field 4 itself comes first.
    assert_eq!(refusal(&with_pool("03 01 01 01 01 01 01 00 00 00 02 01 01 01 01")), (8, 20));
}

#[test]
fn map_and_bad_entries() {
    // Two control states, one queue of one message, a pool of one state.
    let to = |rest: &str| format!("01 02 00 01 01 00 01 01 00 {rest}");
    assert_eq!(refusal(&to("01")), (3, 10));
    assert_eq!(refusal(&to("02")), (5, 9));
    assert_eq!(refusal(&to("01 00")), (3, 11));
    assert_eq!(refusal(&to("01 00 40")), (3, 12));
    assert_eq!(refusal(&to("01 00 41")), (5, 11));
    assert_eq!(refusal(&to("01 00 01 02 00")), (5, 12));
    assert_eq!(refusal(&to("01 00 01 01 01")), (5, 13));
    assert_eq!(tables(&to("01 00 01 01 00")).bad_count, 1);
    assert_eq!(refusal(&to("01 00 01 01 00 00")), (10, 14));
}

#[test]
fn generated_files_are_refused_as_they_were_made() {
    let mut generator = reading_cases(7);
    let coverage = reading_coverage(&generator);
    assert!(coverage.complaints.is_empty(), "{}", coverage.complaints.join("\n"));
    let has_13 = |tables: Tables| tables.used_transitions().iter().any(|transition| transition.length == 13);
    generator.cases.retain(|case| case.kind != "row 5: a word of 17" && !read(&case.bytes).is_ok_and(has_13));
    generator.cases.retain(|case| case.kind != "row 9: before 10");
    let mut complaints = reading_coverage(&generator).complaints;
    // A file that resumes may have had such a word.
    complaints.retain(|complaint| !complaint.starts_with("start: a length"));
    let asked = [
        "a word of 13 is hit only 0 times",
        "row 5: a word of 17 is hit only 0 times",
        "row 9: before 10 is hit only 0 times",
        "only 0 files tell AskedAfterTheEnd",
    ];
    assert_eq!(complaints, asked);
}
