//! The numbers of this crate are those of `include/swarmbanner.h`.

use swarmbanner::lent::{self, at};

const HEADER: &str = include_str!("../../../include/swarmbanner.h");

const NUMBERS: [(&str, usize); 55] = [
    ("CLOSED", lent::CLOSED),
    ("OUTSIDE", lent::OUTSIDE),
    ("LEAVES", lent::LEAVES),
    ("BAD", lent::BAD),
    ("REFUSED", lent::REFUSED),
    ("NO_ROOM", lent::NO_ROOM),
    ("READ", lent::READ),
    ("YES", lent::YES),
    ("NO", lent::NO),
    ("END", lent::END),
    ("LEFT", lent::LEFT),
    ("STEP_REFUSED", lent::STEP_REFUSED),
    ("TRACE_REFUSED", lent::TRACE_REFUSED),
    ("MEMORY_REFUSED", lent::MEMORY_REFUSED),
    ("WRITTEN", lent::WRITTEN),
    ("DRAWN", lent::DRAWN),
    ("LAYOUT", lent::LAYOUT),
    ("REPLY_LEAST", lent::REPLY_LEAST),
    ("SPACE_LEAST", lent::SPACE_LEAST),
    ("TABLE_LEAST", lent::TABLE_LEAST),
    ("CONTENTS_LEAST", lent::CONTENTS_LEAST),
    ("RECORD_LEAST", lent::RECORD_LEAST),
    ("QUEUE_LEAST", lent::QUEUE_LEAST),
    ("POOL_LEAST", lent::POOL_LEAST),
    ("FILE_MOST", lent::FILE_MOST),
    ("TRACE_MOST", lent::TRACE_MOST),
    ("TEXT_MOST", lent::TEXT_MOST),
    ("DEPTH_MOST", lent::DEPTH_MOST),
    ("OCCURRENCES_MOST", lent::OCCURRENCES_MOST),
    ("MACHINES_MOST", lent::MACHINES_MOST),
    ("CONTROL_STATES_MOST", lent::CONTROL_STATES_MOST),
    ("QUEUES_MOST", lent::QUEUES_MOST),
    ("MESSAGES_MOST", lent::MESSAGES_MOST),
    ("STARTING_MOST", lent::STARTING_MOST),
    ("TRANSITIONS_MOST", lent::TRANSITIONS_MOST),
    ("WORD_MOST", lent::WORD_MOST),
    ("POOL_STATES_MOST", lent::POOL_STATES_MOST),
    ("BAD_ENTRIES_MOST", lent::BAD_ENTRIES_MOST),
    ("AT_COUNTS", at::COUNTS),
    ("AT_STATES", at::STATES),
    ("AT_STARTS", at::STARTS),
    ("AT_MESSAGES", at::MESSAGES),
    ("AT_LENGTHS", at::LENGTHS),
    ("AT_CONTENTS", at::CONTENTS),
    ("AT_TRANSITIONS", at::TRANSITIONS),
    ("AT_FINALS", at::FINALS),
    ("AT_ARCS", at::ARCS),
    ("AT_ROOTS", at::ROOTS),
    ("AT_BAD", at::BAD),
    ("TRANSITION_WORD", at::TRANSITION_WORD),
    ("COUNTS", at::STATES - at::COUNTS),
    ("BAD_ROW", at::BAD_ROW),
    ("RECORD_STATES", lent::RECORD_STATES),
    ("RECORD_HEADS", lent::RECORD_HEADS),
    ("RECORD_LENGTHS", lent::RECORD_LENGTHS),
];

/// The number that a name is defined as, or that the table of places lists for it.
fn in_header(name: &str) -> Option<usize> {
    let number = |rest: &str| rest.split_whitespace().next()?.trim_end_matches('u').parse().ok();
    let defined = HEADER.lines().find_map(|line| number(line.strip_prefix(&format!("#define SWARMBANNER_{name} "))?));
    defined.or_else(|| HEADER.lines().find_map(|line| number(line.strip_prefix(&format!(" *   {name} "))?)))
}

#[test]
fn numbers_of_the_header() {
    for (name, number) in NUMBERS {
        assert_eq!(in_header(name), Some(number), "{name}");
    }
}
