//! Membership, against questions worked by hand from the document.

use reference_checker::coverage::membership_coverage;
use reference_checker::generate::document::{hex, R, S};
use reference_checker::generate::membership::questions;
use reference_checker::membership::{membership, membership_line};
use reference_checker::stream::{put_question, Question, Records};

fn answer(file: &str, control_state: usize, contents: &[u8]) -> String {
    membership_line(&membership(&hex(file), control_state, contents))
}

#[test]
fn in_s() {
    assert_eq!(answer(S, 0, &[]), "yes 0");
    assert_eq!(answer(S, 0, &[0, 1]), "yes 2");
    assert_eq!(answer(S, 0, &[0, 0, 1, 1]), "yes 4");
    assert_eq!(answer(S, 0, &[1, 0]), "refused 13 at 1");
    assert_eq!(answer(S, 0, &[0, 2]), "refused 12 at 1");
    assert_eq!(answer(S, 1, &[1, 0]), "refused 11 at 0");
}

#[test]
fn refusals_do_not_end_with_the_walk() {
    // Two queues of one message; the only state has no arcs, and control state 1 no root.
    let file = "01 02 00  02 01 01  00  01 01 00  01 00  00";
    assert_eq!(answer(file, 0, &[]), "yes 0");
    assert_eq!(answer(file, 0, &[0]), "no 0");
    assert_eq!(answer(file, 0, &[0, 0, 0, 2]), "refused 12 at 3");
    assert_eq!(answer(file, 0, &[1, 1, 0]), "refused 13 at 2");
    assert_eq!(answer(file, 1, &[]), "no 0");
    assert_eq!(answer(file, 1, &[2]), "refused 12 at 0");
    assert_eq!(answer(file, 1, &[1, 0, 2]), "refused 13 at 1");
    assert_eq!(answer(file, 2, &[2]), "refused 11 at 0");
}

#[test]
fn the_file_comes_first() {
    assert_eq!(answer(&R[..R.len() - 3], 9, &[9]), "refused 3 at 28");
    assert_eq!(answer(R, 0, &[0, 0]), "yes 2");
    assert_eq!(answer(R, 0, &[1]), "refused 12 at 0");
}

#[test]
fn how_far_contents_are_followed() {
    // Two queues of the messages 0 1 and 2. Control state 0 holds 0 0 2, control state 1 has no root, and what begins with 0 in
    // control state 2 is read and never belongs.
    let file =
        "01 03 00  02 02 01  00  06 00 01 00 01 00 01 00 02 00 01 02 03 01 00 00 01 00 05 00 01 00 05  01 00 05  00";
    assert_eq!(answer(file, 0, &[0, 0, 2]), "yes 3");
    // Read to their end.
    assert_eq!(answer(file, 0, &[]), "no 0");
    assert_eq!(answer(file, 0, &[0]), "no 1");
    assert_eq!(answer(file, 0, &[0, 0]), "no 2");
    assert_eq!(answer(file, 2, &[0, 0, 0]), "no 3");
    // Lost at the first message, on the way, at the last message, and behind all that is read.
    assert_eq!(answer(file, 0, &[1, 0, 2]), "no 0");
    assert_eq!(answer(file, 0, &[0, 1, 2]), "no 1");
    assert_eq!(answer(file, 0, &[0, 2, 2]), "no 1");
    assert_eq!(answer(file, 0, &[0, 0, 1]), "no 2");
    assert_eq!(answer(file, 0, &[0, 0, 2, 2]), "no 3");
    assert_eq!(answer(file, 2, &[0, 0, 2]), "no 2");
    // No root.
    assert_eq!(answer(file, 1, &[]), "no 0");
    assert_eq!(answer(file, 1, &[0, 0, 2]), "no 0");
    let many = |lost: &[u8]| answer(file, 2, &[&[0; 40_000][..], lost].concat());
    assert_eq!(many(&[]), "no 40000");
    assert_eq!(many(&[1, 0]), "no 40000");
}

#[test]
fn contents_are_in_order_whatever_the_arcs() {
    // Root 0 accepts nothing and 1; behind it 0 leads to a dead end.
    let file = |is_final: &str| format!("01 01 00  02 01 01  00  03 01 01 01 01 01 01 00 02 {is_final} 00  01  00");
    assert_eq!(answer(&file("00"), 0, &[1]), "yes 1");
    assert_eq!(answer(&file("00"), 0, &[1, 0]), "refused 13 at 1");
    assert_eq!(answer(&file("00"), 1, &[1, 0]), "refused 11 at 0");
    assert_eq!(answer(&file("01"), 1, &[1, 0]), "refused 9 at 20");
}

#[test]
fn streams_of_questions_are_read_back() {
    let asked: Vec<Question> = questions(3).into_iter().map(|(_, question)| question).collect();
    let mut stream = Vec::new();
    for question in &asked {
        put_question(&mut stream, question);
    }
    let mut records = Records(&stream);
    for question in &asked {
        assert_eq!(records.question().expect("a record is left").as_ref(), Ok(question));
    }
    assert!(records.question().is_none());
    let mut cut = Records(&stream[..2]);
    assert!(cut.question().expect("two bytes are left").is_err());
}

#[test]
fn generated_questions_are_answered_as_they_were_made() {
    let coverage = membership_coverage(&questions(5));
    assert!(coverage.complaints.is_empty(), "{}", coverage.complaints.join("\n"));
}
