//! Verdicts, against the document's cases, files of protocols and files worked by hand, by every way of deciding.

use reference_checker::coverage::verdict_coverage;
use reference_checker::decide::{confirm, decide};
use reference_checker::generate::document::{cases, hex, samples};
use reference_checker::generate::large;
use reference_checker::generate::plan::Direction;
use reference_checker::generate::verdicts::verdict_cases;
use reference_checker::random::Random;
use reference_checker::read::read;
use reference_checker::selftest::selftest;
use reference_checker::traps::{verdict_with, Trap};
use reference_checker::verdict::{line, Verdict};
use reference_checker::walk::{check, Scratch};

/// Control state 1 holds 0 1, and message 1 is received from queue 1. Control state 2 has no root.
const RECEIVE_BEHIND_ANOTHER_QUEUE: &str =
    "01 03 00  02 01 01  01 00 01 02 02 01 01 01  03 00 01 00 01 00 01 01 02 01 00  03 01 00  00";

/// Asserts the line of a file by words, by walking and by plain search, and that walking clears its tables.
fn assert_line(name: &str, bytes: &[u8], expected: &str) {
    let by_words = decide(bytes).unwrap_or_else(|_| panic!("{name} is too large"));
    assert_eq!(line(&by_words), expected, "{name} by words");
    let mut scratch = Scratch::default();
    assert_eq!(line(&check(bytes, &mut scratch)), expected, "{name} by walking");
    assert!(scratch.is_clear(), "{name} leaves the tables marked");
    let plain = read(bytes).map(|tables| verdict_with(&tables, None));
    assert_eq!(line(&plain), expected, "{name} by plain search");
}

#[test]
fn lettered_cases() {
    for case in cases() {
        assert_line(case.name, &case.bytes, case.line);
    }
}

#[test]
fn protocols() {
    for sample in samples() {
        assert_line(sample.name, &sample.bytes, sample.line);
    }
}

#[test]
fn empty_words_have_pairs_on_both_sides() {
    let to = |transition: &str| hex(&format!("01 01 00  01 01  01 {transition}  01 01 01 00 00  01  00"));
    assert_line("local", &to("00 00 00 00"), "closed 1");
    assert_line("send of nothing", &to("00 00 00 01 00 00"), "closed 2");
    assert_line("receive of nothing", &to("00 00 00 02 00 00"), "closed 2");
}

#[test]
fn pairs_go_by_reading() {
    // The source cannot follow the word, so there is a pair before the step and none after it.
    let stuck = "01 01 00  01 01  01 00 00 00 02 00 01 00  01 01 00  01  00";
    assert_line("stuck receive", &hex(stuck), "closed 1");
    // Control state 1 accepts nothing and control state 2 has no root.
    let rootless = "01 03 00  01 01  01 00 01 02 01 00 01 00  02 01 00 00 01 00 01  01 02 00  00";
    assert_line("target without a root", &hex(rootless), "closed 2");
    // The step's own control state has no root, and so counts nothing.
    let unrooted = "01 02 00  01 01  01 00 01 00 01 00 01 00  01 01 01 00 00  01 00  00";
    assert_line("source without a root", &hex(unrooted), "closed 0");
}

#[test]
fn pairs_go_by_words_in_any_order() {
    // Root 0 and state 1 accept; 1 leads from one to the other, and then 0 to state 2, which is a dead end. The words of
    // state 3 are out of order, but no root leads to it.
    let to = |transition: &str| {
        hex(&format!("01 01 00  02 01 01  01 {transition}  04 01 01 01 01 01 01 00 02 00 00 01 02 00 00 01 01  01  00"))
    };
    assert_line("local", &to("00 00 00 00"), "closed 3");
    // Before the step, and after it, both roots have read nothing, 1, or 1 and 0.
    assert_line("send of nothing to queue 1", &to("00 00 00 01 01 00"), "closed 6");
    // Before the step they have read nothing, and after it nothing or 1.
    assert_line("send of nothing to queue 0", &to("00 00 00 01 00 00"), "closed 3");
    assert_line("receive of nothing from queue 0", &to("00 00 00 02 00 00"), "closed 4");
    assert_line("receive from queue 1", &to("00 00 00 02 01 01 01"), "closed 2");
    assert_line("send to queue 1", &to("00 00 00 01 01 01 01"), "leaves 0 0 1 1: 1");
}

#[test]
fn bad_entries() {
    let to = |bad: &str| hex(&format!("01 02 00  01 01  00  02 01 01 00 01 00 01 00 00  01 00  {bad}"));
    // State 0 accepts the words of even length, state 1 those of odd length.
    assert_line("the other state", &to("01 00 01"), "closed 2");
    assert_line("control state without a root", &to("01 01 00"), "closed 0");
    assert_line("the second entry", &to("02 00 01 00 00"), "bad 1 0:");
    let later = hex("01 01 00  01 02  00  02 01 01 01 01 01 01 01 00  01  02 00 01 00 00");
    assert_line("the first of two", &later, "bad 0 0:");
}

#[test]
fn lowest_contents_are_shown() {
    // Control state 1 holds 0 (queue 0) or 1 (queue 1); control state 2 has no root.
    let competing = "01 03 00  02 01 01  01 00 01 02 01 00 00  02 00 02 00 01 01 01 01 00  02 01 00  00";
    assert_line("send of nothing", &hex(competing), "leaves 1 0 1 0: 0");
}

#[test]
fn contents_of_a_receive_have_its_word() {
    assert_line("receive", &hex(RECEIVE_BEHIND_ANOTHER_QUEUE), "leaves 1 0 2 0: 0 1");
}

#[test]
fn machine_0_is_most_significant() {
    // Machines of 2 and 3 states; only control states 0 and 5 have a root.
    let file = "02 02 03 00 00  01 01  01 00 01 00 00  01 01 00  01 00 00 00 00 01  00";
    assert_line("control state 5", &hex(file), "leaves 5 0 0 0:");
}

#[test]
fn words_that_lead_alike_may_fare_differently() {
    // 0 3 and 1 0 lead from each state to the same one, but what is sent to queue 0 goes before the 3 and behind the 0.
    let file = "02 02 01 00 00  03 02 01 01  02 00 00 01 01 00 01 00 00 01 00 01 01 01 02 \
                03 01 01 03 00 01 03 00 00 01 01 03 00 01 04 00 02 01 01 02 00 03 00  03 03  03 01 00 01 01 00 02";
    assert_line("alike", &hex(file), "leaves 0 0 2 2: 1 0");
}

/// A word of queue 1, whose messages are 1 and 2. It begins with 1.
const WORD: [u8; 16] = [1, 2, 2, 1, 1, 1, 2, 1, 2, 2, 2, 1, 1, 2, 1, 2];

/// States from `first` on that read a word one after the other; the last one is final. At the place given, if any, the
/// arc is missing.
fn chain(first: usize, word: &[u8], missing: Option<usize>) -> Vec<u8> {
    let mut states = Vec::new();
    for (place, &message) in word.iter().enumerate() {
        if missing == Some(place) {
            states.extend([0, 0]);
        } else {
            states.extend([0, 1, message, (first + place + 1) as u8]);
        }
    }
    states.extend([1, 0]);
    states
}

/// One machine of three states, starting in 0, and queues of messages 0, 1 2 and 3. A step of `WORD` from state 1 to 2
/// on queue 1. State 0 of the pool is final without arcs and the start's root. The sets of the other two control states
/// are what their chains read.
fn step_between(kind: u8, source: &[u8], target: &[u8], missing: Option<usize>) -> Vec<u8> {
    let target_root = 1 + source.len() + 1;
    let states = target_root + target.len() + 1;
    let (of_source, of_target) = if kind == 1 { (None, missing) } else { (missing, None) };
    [
        &hex("01 03 00  03 01 02 01")[..],
        &[1, 0, 1, 2, kind, 1, 16],
        &WORD,
        &[states as u8, 1, 0],
        &chain(1, source, of_source),
        &chain(target_root, target, of_target),
        &[1, 1 + 1, 1 + target_root as u8, 0],
    ]
    .concat()
}

fn with_word(before: &[u8], after: &[u8]) -> Vec<u8> {
    [before, &WORD, after].concat()
}

#[test]
fn a_received_word_of_sixteen_is_shown_inside_contents() {
    let before = with_word(&[0, 0], &[2, 3]);
    // Control state 2 holds 0 2 3, but the step leaves 0 0 2 3.
    let shown = |far: usize| format!("leaves 1 0 20 {far}: 0 0 1 2 2 1 1 1 2 1 2 2 2 1 1 2 1 2 2 3");
    assert_line("lost before the word", &step_between(2, &before, &[0, 2, 3], None), &shown(1));
    // The end of the queue is not final.
    assert_line("not final", &step_between(2, &before, &[0, 0, 2, 3, 3], None), &shown(4));
    let alone = "leaves 1 0 16 0: 1 2 2 1 1 1 2 1 2 2 2 1 1 2 1 2";
    assert_line("the word alone", &step_between(2, &WORD, &[3], None), alone);
}

#[test]
fn steps_of_sixteen_messages_count_pairs() {
    // Before the step: both at their roots, and after 0. After it: after 0 and the word, after 2, and after 3.
    assert_line("receive", &step_between(2, &with_word(&[0], &[2, 3]), &[0, 2, 3], None), "closed 5");
    // Before the step: at the roots, after 0, after 0 2. After it: the word loses the target at the root and after 0,
    // and not after 0 2; then after 3.
    assert_line("send", &step_between(1, &[0, 2, 3], &with_word(&[0, 2], &[3]), None), "closed 7");
}

#[test]
fn a_word_is_lost_at_any_place() {
    for place in 0..16 {
        let lost = step_between(1, &[0, 2, 3], &with_word(&[0, 2], &[3]), Some(2 + place));
        assert_line(&format!("target lost at {place}"), &lost, &format!("leaves 1 0 3 {}: 0 2 3", 2 + place));
        // The pairs are at the roots and after 0; nothing can be received.
        let stuck = step_between(2, &with_word(&[0], &[2, 3]), &[0, 2, 3], Some(1 + place));
        assert_line(&format!("source lost at {place}"), &stuck, "closed 2");
    }
}

#[test]
fn seventeen_messages_are_refused_at_their_length() {
    let mut file = step_between(1, &[0, 2, 3], &with_word(&[0, 2], &[3]), None);
    // Machines and queues have 7 bytes, then come the transitions' number and five numbers of the only one.
    assert_eq!(file[13], 16);
    file[13] = 17;
    assert_line("17 for 16", &file, "refused 5 at 13");
    file.insert(14, 1);
    assert_line("17 messages", &file, "refused 5 at 13");
    file.remove(14);
    file[13] = 16;
    assert_line("16 messages", &file, "closed 7");
}

#[test]
fn long_contents() {
    let lengths = [(large::long_local_leaves(), 4_031, 4_031), (large::long_send_leaves(), 1_983, 1_984)];
    for (plan, expected, expected_far) in lengths {
        let reply = check(&plan.bytes(), &mut Scratch::default());
        let Ok(Verdict::Leaves { control_state: 1, transition: 0, contents, far }) = &reply else {
            panic!("{reply:?}")
        };
        assert_eq!((contents.len(), *far), (expected, expected_far));
        let tables = read(&plan.bytes()).expect("the plan is valid");
        assert!(confirm(&tables, reply.as_ref().expect("it leaves"), 3));
    }
}

#[test]
fn full_tables() {
    let mut scratch = Scratch::default();
    for length in [4, 16] {
        let dense = large::dense(&mut Random::new(1), Some((Direction::Send, length)));
        // Every pair of 127 states before the step and after it.
        assert_eq!(line(&check(&dense.bytes(), &mut scratch)), "closed 32258");
        assert!(scratch.is_clear());
    }
}

#[test]
fn words_are_followed_from_many_pairs() {
    for length in [4, 16] {
        let file = large::receive_behind_a_queue(&mut Random::new(1), length).bytes();
        let reply = check(&file, &mut Scratch::default());
        // Before the step both stand among 63 states, after it the source among the other 64.
        let Ok(Verdict::Closed { pairs }) = reply else { panic!("{reply:?}") };
        assert!((63 * 63..=63 * 63 + 64 * 127).contains(&pairs), "{pairs} pairs");
    }
}

#[test]
fn the_last_items_of_all() {
    assert_line("last step", &large::last_step_leaves().bytes(), "leaves 255 127 0 0:");
    assert_line("last entry", &large::last_entry_is_bad().bytes(), "bad 63 2: 0 0");
}

#[test]
fn the_longest_file_is_read() {
    let longest = large::longest(&mut Random::new(1)).bytes();
    assert_eq!(longest.len(), 11_700);
    assert!(read(&longest).is_ok());
    let fresh = large::longest_fresh(&mut Random::new(1)).bytes();
    assert_eq!(fresh.len(), 11_664);
    assert!(read(&fresh).is_ok());
    let of_one_queue = large::maximal_closed(&mut Random::new(1)).bytes();
    assert_eq!(of_one_queue.len(), 11_661);
    assert!(read(&of_one_queue).is_ok());
    let with_words_of_4 = large::maximal_closed_with_words(&mut Random::new(1), 4).bytes();
    assert_eq!(with_words_of_4.len(), 10_125);
    assert!(read(&with_words_of_4).is_ok());
}

#[test]
fn all_ways_agree_on_random_files() {
    let agreement = selftest(11, 6_000);
    assert!(agreement.disagreements.is_empty(), "{}", agreement.disagreements.join("\n"));
    for verdict in ["closed", "outside", "leaves", "bad"] {
        for verdicts in [&agreement.verdicts, &agreement.verdicts_with_long_words] {
            assert!(verdicts.get(verdict).is_some_and(|&files| files > 100), "few are {verdict}");
        }
    }
    assert!(agreement.too_large_for_words < 10, "{} are not decided by words", agreement.too_large_for_words);
}

#[test]
fn confirming_can_fail() {
    let case = |name: &str| cases().into_iter().find(|case| case.name == name).expect("a lettered case");
    let tables = read(&case("c").bytes).expect("case c is read");
    let leaves =
        |contents: &[u8], far| Verdict::Leaves { control_state: 0, transition: 0, contents: contents.to_vec(), far };
    assert!(confirm(&tables, &leaves(&[0], 1), 3));
    assert!(!confirm(&tables, &leaves(&[0], 0), 3));
    assert!(!confirm(&tables, &leaves(&[0], 2), 3));
    assert!(!confirm(&tables, &leaves(&[], 0), 3));
    assert!(!confirm(&tables, &leaves(&[0, 0, 0, 0], 1), 3));
    // Contents that are longer than the words looked at.
    assert!(confirm(&tables, &leaves(&[0], 1), 0));
    assert!(!confirm(&tables, &leaves(&[0], 2), 0));
    assert!(!confirm(&tables, &Verdict::Closed { pairs: 4 }, 3));
    assert!(!confirm(&tables, &Verdict::Outside, 3));
}

#[test]
fn traps_of_the_document_change_lines() {
    let changes = |bytes: &[u8], trap: Trap| {
        let tables = read(bytes).expect("the file is read");
        verdict_with(&tables, Some(trap)) != verdict_with(&tables, None)
    };
    let case = |name: &str| cases().into_iter().find(|case| case.name == name).expect("a lettered case").bytes;
    assert!(changes(&case("f"), Trap::AppendAtTheVeryEnd));
    assert!(changes(&case("b"), Trap::DropLostTarget));
    assert!(changes(&case("f"), Trap::OneSide));
    // Case g has 3 pairs with this mistake too, so it takes a file whose contents begin with another queue.
    assert!(!changes(&case("g"), Trap::ReceiveFromTheVeryFront));
    assert!(changes(&hex(RECEIVE_BEHIND_ANOTHER_QUEUE), Trap::ReceiveFromTheVeryFront));
}

#[test]
fn traps_of_long_words_change_lines() {
    let changes = |bytes: &[u8], trap: Trap| {
        let tables = read(bytes).expect("the file is read");
        verdict_with(&tables, Some(trap)) != verdict_with(&tables, None)
    };
    let sends = step_between(1, &[0], &with_word(&[0], &[]), None);
    let receives = step_between(2, &WORD, &[], None);
    for trap in [Trap::FourFollowed, Trap::FifteenTaken, Trap::SixteenAreNone] {
        assert!(changes(&sends, trap), "{trap:?} of a send");
        assert!(changes(&receives, trap), "{trap:?} of a receive");
    }
    let leaves = step_between(2, &with_word(&[0], &[3]), &[3], None);
    assert!(changes(&leaves, Trap::FourShown));
    assert!(changes(&leaves, Trap::LongWordShownBackwards));
    let stuck = |place: usize| step_between(2, &WORD, &[2], Some(place));
    assert!(changes(&stuck(4), Trap::LostSourceStops) && !changes(&stuck(3), Trap::LostSourceStops));
    // The source holds nothing; the target reads up to five times 0 and accepts all of it. The word has one 1.
    let lost = |word: &str| {
        let pool = "07 01 00 01 01 00 02 01 01 00 03 01 01 00 04 01 01 00 05 01 01 00 06 01 00";
        hex(&format!("01 03 00  01 02  01 00 01 02 01 00 06 {word}  {pool}  01 01 02  00"))
    };
    assert_line("lost at the fifth message", &lost("00 00 00 00 01 00"), "leaves 1 0 0 4:");
    for trap in [Trap::LostTargetStays, Trap::LostTargetStops, Trap::LostMessagePassedOver] {
        assert!(changes(&lost("00 00 00 00 01 00"), trap), "{trap:?}");
        assert!(!changes(&lost("00 00 00 01 00 00"), trap), "{trap:?} of a short beginning");
    }
}

#[test]
fn generated_files_hit_everything() {
    let mut cases = verdict_cases(5);
    let coverage = verdict_coverage(&cases);
    assert!(coverage.complaints.is_empty(), "{}", coverage.complaints.join("\n"));
    // Without the files made for long words and those out of order their features are missed.
    cases.retain(|case| case.kind != "long words" && case.kind != "out of order");
    let complaints = verdict_coverage(&cases).complaints.join("\n");
    cases.retain(|case| !case.kind.starts_with("lost"));
    let complaints = complaints + &verdict_coverage(&cases).complaints.join("\n");
    for missed in [
        "leaves, lost after 1,000 or more",
        "leaves, send, lost inside the sent word, after 100 or more",
        "FifteenSent",
        "bad, receive of 11",
        "leaves, send of a full word that is lost at 09",
        "FifteenTaken",
        "bad, out of order: dead ends",
        "WordsInOrderOnly",
    ] {
        assert!(complaints.contains(missed), "not asked: {missed}");
    }
}
