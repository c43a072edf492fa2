//! Diagrams from expressions, against texts worked by hand from the document, and against every short text and word.

use std::collections::BTreeMap;

use reference_checker::coverage::expression_coverage;
use reference_checker::derivatives::State;
use reference_checker::digest::expression_line;
use reference_checker::endings::reached_by_words;
use reference_checker::expression::{expression, parse, within_limits, Pool};
use reference_checker::expression_traps::{expression_with, ExpressionTrap};
use reference_checker::generate::expression::{expression_cases, texts_of_signs};
use reference_checker::positions::pool_of;
use reference_checker::read::Refusal;
use reference_checker::selftest::selftest_expression;
use reference_checker::stream::{put_file, put_record, Record, Records};

/// A state: whether it is final, and its arcs.
type Drawn<'d> = (bool, &'d [(u8, usize)]);

fn drawn(states: &[Drawn]) -> Result<Vec<State>, Refusal> {
    let state = |&(is_final, arcs): &Drawn| State { is_final, arcs: arcs.iter().copied().collect() };
    Ok(states.iter().map(state).collect())
}

fn refused(number: u8, place: usize) -> Result<Vec<State>, Refusal> {
    Err(Refusal { number, place })
}

/// By derivatives, and the same by positions.
fn of(text: &str) -> Result<Vec<State>, Refusal> {
    let reply = expression(text.as_bytes());
    assert_eq!(pool_of(text.as_bytes()), reply.clone().map(|states| Pool::of(&states)), "{text:?}");
    reply
}

fn assert_all_refused(number: u8, texts: &[(&str, usize)]) {
    for &(text, place) in texts {
        assert_eq!(of(text), refused(number, place), "{text:?}");
    }
}

#[test]
fn the_example_of_the_document() {
    let states: [Drawn; 4] = [
        (false, &[(0, 1), (1, 2), (2, 3)]),
        (false, &[(0, 1), (1, 2), (2, 3)]),
        (false, &[(0, 1), (1, 2), (2, 3)]),
        (true, &[]),
    ];
    assert_eq!(of("(0|1)* 2"), drawn(&states));
}

#[test]
fn the_start_is_never_one_of_the_sets() {
    assert_eq!(of("0*"), drawn(&[(true, &[(0, 1)]), (true, &[(0, 1)])]));
    assert_eq!(of("(7)*"), drawn(&[(true, &[(7, 1)]), (true, &[(7, 1)])]));
}

#[test]
fn nothing_but_the_empty_word() {
    for text in ["", " ", "|", "||", "()", "()*", "(|)*", "((()|)*)*", " ( ) * "] {
        assert_eq!(of(text), drawn(&[(true, &[])]), "{text:?}");
    }
}

#[test]
fn states_are_sets_of_occurrences() {
    // 0 ends on the first and the last occurrence, 0 0 on the second.
    assert_eq!(of("0 0|0"), drawn(&[(false, &[(0, 1)]), (true, &[(0, 2)]), (true, &[])]));
    // The two occurrences of 1 are apart, although nothing comes after either.
    let states: [Drawn; 5] =
        [(false, &[(0, 1), (2, 2)]), (false, &[(1, 3)]), (false, &[(1, 4)]), (true, &[]), (true, &[])];
    assert_eq!(of("0 1|2 1"), drawn(&states));
    // 0 ends on the first two occurrences, and 0 0 on all three.
    assert_eq!(of("0*0 0*"), drawn(&[(false, &[(0, 1)]), (true, &[(0, 2)]), (true, &[(0, 2)])]));
}

#[test]
fn states_are_numbered_by_shortest_and_lowest_words() {
    // The words 1, 5, 1 2, 5 0, 1 2 3, whatever their order in the text.
    let states: [Drawn; 6] = [
        (false, &[(1, 1), (5, 2)]),
        (false, &[(2, 3)]),
        (false, &[(0, 4)]),
        (false, &[(3, 5)]),
        (true, &[]),
        (true, &[]),
    ];
    assert_eq!(of("5 0|1 2 3"), drawn(&states));
    assert_eq!(of("1 2 3|5 0"), drawn(&states));
}

#[test]
fn stars_bind_one_item_and_bars_none() {
    assert_eq!(of("0 1*"), drawn(&[(false, &[(0, 1)]), (true, &[(1, 2)]), (true, &[(1, 2)])]));
    assert_eq!(of("0|1 2"), drawn(&[(false, &[(0, 1), (1, 2)]), (true, &[]), (false, &[(2, 3)]), (true, &[])]));
    assert_eq!(of("0|"), drawn(&[(true, &[(0, 1)]), (true, &[])]));
    assert_eq!(of("0*1*2"), of("(0 *) (1*) (2)"));
    assert_eq!(of("10 1 0"), of("10(1(0))"));
    assert_ne!(of("10"), of("1 0"));
}

#[test]
fn texts_outside_the_grammar() {
    let leading_zeros = [("01", 1), ("00", 1), ("0 00", 3), ("1 01*", 3), ("(0123)", 2)];
    let stars = [("*", 0), ("**", 0), ("0**", 2), ("0 * *", 4), ("(*0)", 1), ("0|*", 2), ("0 *0 **", 6), ("(0*)**", 5)];
    let groups = [("(", 1), ("(0", 2), ("((0) ", 5), (")", 0), ("0)", 1), ("(0))", 3), ("( 12", 4), ("0|)", 2)];
    let bytes =
        [("0,1", 1), ("a", 0), ("0 1\t", 3), ("\n", 0), ("+0", 0), ("-1", 0), ("0\u{e9}", 1), ("0?", 1), ("1.", 1)];
    for texts in [&leading_zeros[..], &stars, &groups, &bytes] {
        assert_all_refused(19, texts);
    }
}

#[test]
fn numbers_from_32_on() {
    assert_eq!(of("31").map(|states| states.len()), Ok(2));
    assert_all_refused(5, &[("32", 0), (" 32", 1), ("0 (1|100)*", 5), ("256", 0), ("4294967296", 0), ("1 32 33", 2)]);
    assert_all_refused(5, &[("18446744073709551616", 0), (&"9".repeat(256), 0), (&format!("1{}", "0".repeat(255)), 0)]);
}

#[test]
fn levels_and_occurrences() {
    let nested = |levels: usize| "(".repeat(levels) + &")".repeat(levels);
    assert_eq!(of(&nested(8)), drawn(&[(true, &[])]));
    assert_eq!(of(&nested(8).repeat(3)), drawn(&[(true, &[])]));
    assert_all_refused(20, &[(&nested(9), 8), (&nested(128), 8), (&format!("0 {}", nested(9)), 10)]);
    let in_a_row = |count: usize| vec!["3"; count].join(" ");
    assert_eq!(of(&in_a_row(32)).map(|states| states.len()), Ok(33));
    assert_all_refused(21, &[(&in_a_row(33), 64), (&in_a_row(128), 64), (&format!("({}|3)", in_a_row(32)), 65)]);
}

#[test]
fn the_leftmost_offender_counts() {
    let nested = "(".repeat(9) + &")".repeat(9);
    let in_a_row = vec!["3"; 32].join(" ");
    assert_all_refused(
        5,
        &[(&format!("32 {nested}"), 0), (&format!("32 {in_a_row} 3"), 0), (&format!("{in_a_row} 32"), 64)],
    );
    assert_all_refused(20, &[(&format!("{nested} 32"), 8), (&format!("{nested}{in_a_row} 3 3"), 8)]);
    assert_all_refused(21, &[(&format!("{in_a_row} 3 32"), 64), (&format!("{in_a_row} 3 {nested}"), 64)]);
}

#[test]
fn the_grammar_comes_before_offenders() {
    let nested = "(".repeat(9) + &")".repeat(9);
    let in_a_row = vec!["3"; 33].join(" ");
    assert_all_refused(19, &[("32)", 2), (&format!("{nested})"), 18), (&format!("{in_a_row}**"), 66)]);
    assert_all_refused(19, &[(&"(".repeat(256), 256), (&"(".repeat(9), 9), ("99 01", 4)]);
}

#[test]
fn lengths() {
    let spaces = |count: usize| " ".repeat(count);
    assert_eq!(of(&spaces(256)), drawn(&[(true, &[])]));
    assert_all_refused(18, &[(&spaces(257), 256), (&"*".repeat(257), 256), (&"(".repeat(500), 256)]);
    assert_all_refused(19, &[(&"0".repeat(256), 1), (&(spaces(255) + "*"), 255)]);
}

#[test]
fn states_up_to_127() {
    // A set tells the last message, and which of the five before it were 0: 2 times 32, and the start.
    let window = "(0|1)*0(0|1)(0|1)(0|1)(0|1)(0|1)";
    assert_eq!(of(window).map(|states| states.len()), Ok(65));
    // After a last 0 it tells the seventh message from the end, too: 64 and 32.
    let longer = format!("{window}0");
    assert_eq!(of(&longer).map(|states| states.len()), Ok(97));
    let others = format!("{longer}|(2|3)*2(2|3)(2|3)(2|3)");
    assert_eq!(of(&others).map(|states| states.len()), Ok(1 + 96 + 16));
    let most = format!("{others}|(4|5)*4(4|5)(4|5)4 5");
    assert_eq!(of(&most).map(|states| states.len()), Ok(127));
    assert_eq!(of(&format!("{others}|(4|5)*4(4|5)(4|5)(4|5)")), refused(22, 0));
    assert_eq!(of(&format!("{window}(0|1)")), refused(22, 0));
}

/// Whether a text is in the grammar, by rewriting: a number and a group in brackets become `n`, an item with its star `s`.
fn is_in_grammar(text: &[u8]) -> bool {
    let mut text: String = text.iter().map(|&byte| char::from(byte)).collect();
    let mut runs = text.split(|sign: char| !sign.is_ascii_digit());
    if runs.any(|run| run.len() > 1 && run.starts_with('0')) || text.contains(|sign| !"0123456789()|* ".contains(sign))
    {
        return false;
    }
    text = text.replace(|sign: char| sign.is_ascii_digit(), "d");
    while text.contains("dd") {
        text = text.replace("dd", "d");
    }
    text = text.replace(' ', "").replace('d', "n");
    loop {
        text = text.replace("n*", "s");
        let Some(close) = text.find(')') else { break };
        let Some(open) = text[..close].rfind('(') else { return false };
        if text[open + 1..close].contains('*') {
            return false;
        }
        text.replace_range(open..=close, "n");
    }
    !text.contains(['(', '*'])
}

/// Whether some text of the grammar begins so, by trying what can come behind: up to one sign, and then closing brackets.
fn is_beginning(text: &[u8]) -> bool {
    let count = |sign: u8| text.iter().filter(|&&byte| byte == sign).count();
    let open = count(b'(').saturating_sub(count(b')'));
    let closes = open.saturating_sub(2)..=open + 2;
    closes.into_iter().any(|closed| {
        texts_of_signs(1).iter().any(|sign| is_in_grammar(&[text, &sign[..], &vec![b')'; closed]].concat()))
    })
}

#[test]
fn short_texts_are_in_the_grammar_as_rewriting_says() {
    for text in texts_of_signs(6) {
        assert_eq!(parse(&text).is_ok(), is_in_grammar(&text), "{:?}", text.escape_ascii());
    }
}

#[test]
fn places_of_19_are_the_longest_beginnings_of_all_short_texts() {
    let texts = texts_of_signs(5);
    let is_beginning: BTreeMap<&[u8], bool> = texts.iter().map(|text| (&text[..], is_beginning(text))).collect();
    for text in &texts {
        let longest = (0..=text.len()).rev().find(|&end| is_beginning[&text[..end]]);
        assert!(longest.is_some());
        if let Err(place) = parse(text) {
            assert_eq!(Some(place), longest, "{:?}", text.escape_ascii());
        }
    }
}

#[test]
fn places_of_19_are_the_longest_beginnings_of_generated_texts() {
    for case in expression_cases(4).into_iter().filter(|case| case.text.len() > 5) {
        let text = case.text;
        if let Err(Refusal { number: 19, place }) = expression(&text) {
            let is_longest = place == text.len() || !is_beginning(&text[..=place]);
            assert!(is_beginning(&text[..place]) && is_longest, "{:?}", text.escape_ascii());
            assert!(!is_in_grammar(&text));
        }
    }
}

#[test]
fn short_texts_have_the_states_that_words_reach() {
    for text in texts_of_signs(6) {
        let reply = expression(&text);
        assert_eq!(pool_of(&text), reply.clone().map(|states| Pool::of(&states)));
        assert_eq!(expression_with(&text, None), reply);
        if let Ok(states) = reply {
            let alternatives = within_limits(&text).expect("a pool");
            let reached = reached_by_words(&states, &alternatives, 4);
            assert_eq!(reached, Ok(states.len()), "{:?}", text.escape_ascii());
        }
    }
}

#[test]
fn words_tell_other_states() {
    let text = b"(0|1)* 2";
    let alternatives = parse(text).expect("a text of the grammar");
    let right = expression(text).expect("a pool");
    assert_eq!(reached_by_words(&right, &alternatives, 3), Ok(4));
    let wrong = |change: &dyn Fn(&mut Vec<State>)| {
        let mut states = right.clone();
        change(&mut states);
        reached_by_words(&states, &alternatives, 3)
    };
    assert!(wrong(&|states| states[1].is_final = true).is_err());
    assert!(wrong(&|states| states[1].arcs.extend([(0, 2)])).is_err());
    assert!(wrong(&|states| states[3].arcs.extend([(5, 0)])).is_err());
    assert!(wrong(&|states| states[2].arcs.clear()).is_err());
}

#[test]
fn mistakes_change_what_is_worked_by_hand() {
    let nine = "(".repeat(9) + &")".repeat(9);
    let twos = |count: usize| vec!["2"; count].join(" ");
    let told = [
        (ExpressionTrap::StarTwice, "0**"),
        (ExpressionTrap::EmptyAlternativeRefused, "0|"),
        (ExpressionTrap::NinthLevelTaken, &nine),
        (ExpressionTrap::ThirtyThirdTaken, &twos(33)),
        (ExpressionTrap::TwentyOneBeforeFive, &(twos(32) + " 32")),
        (ExpressionTrap::LostFromFirst, "(0|1)*"),
        (ExpressionTrap::LostFromLast, "(0|1)*"),
        (ExpressionTrap::MessagesDescending, "0|1 2"),
        (ExpressionTrap::StartMerged, "0*"),
        (ExpressionTrap::Minimised, "0*"),
        (ExpressionTrap::LeadingZeroTaken, "01"),
        (ExpressionTrap::SpacesInNumbers, "1 2"),
        (ExpressionTrap::NoSpaceBeforeStar, "0 *"),
        (ExpressionTrap::UnclosedAtFirstBracket, "0(1"),
    ];
    for (trap, text) in told {
        let text = text.as_bytes();
        assert_eq!(expression_with(text, None), expression(text));
        assert_ne!(expression_with(text, Some(trap)), expression(text), "{trap:?}");
    }
}

/// H over the entries in turn, by the formula of the page.
fn digest(entries: &[u8]) -> u64 {
    entries.iter().fold(0, |h: u64, &entry| (h * 257 + u64::from(entry) + 1) % 16_777_213)
}

#[test]
fn lines_have_the_states_the_root_and_the_digest_of_the_pool() {
    let line = |text: &str| expression_line(&of(text).map(|states| Pool::of(&states)));
    let mut entries = vec![0; 1 + 127 + 4_064];
    entries[0] = 1;
    entries[1] = 1;
    assert_eq!(line(""), format!("pool 1 0 {}", digest(&entries)));
    entries[0] = 2;
    entries[2] = 1;
    entries[128 + 5] = 2;
    entries[128 + 32 + 5] = 2;
    assert_eq!(line("5*"), format!("pool 2 0 {}", digest(&entries)));
    assert_eq!(line("(5"), "refused 19 at 2");
}

#[test]
fn texts_are_put_like_files() {
    let mut stream = Vec::new();
    put_file(&mut stream, b"(0|1)* 2");
    put_file(&mut stream, b"");
    assert_eq!(stream, b"\x08\0\0(0|1)* 2\0\0\0");
}

#[test]
fn records_say_what_they_are() {
    let records = [Record::Reading(b"a".to_vec()), Record::Expression(b"0".to_vec()), Record::Memory(Vec::new())];
    let mut stream = Vec::new();
    records.iter().for_each(|record| put_record(&mut stream, record));
    assert_eq!(stream, b"r\x01\0\0ae\x01\0\x000s\0\0\0");
    let mut taken = Records(&stream);
    for record in &records {
        assert_eq!(taken.record().expect("some bytes are left").as_ref(), Ok(record));
    }
    assert!(taken.record().is_none());
    for broken in [&b"q\0\0\0"[..], b"r", b"r\x01\0\0"] {
        assert!(Records(broken).record().expect("some bytes are left").is_err());
    }
}

#[test]
fn kept_texts_have_the_same_pools_by_positions() {
    let stream = std::fs::read(concat!(env!("CARGO_MANIFEST_DIR"), "/../../crates/vectors_tables/stdin"))
        .expect("the stream is kept");
    let mut records = Records(&stream);
    let mut count = 0;
    while let Some(record) = records.record() {
        let Record::Expression(text) = record.expect("a whole record") else { continue };
        assert_eq!(pool_of(&text), expression(&text).map(|states| Pool::of(&states)), "{:?}", text.escape_ascii());
        count += 1;
    }
    assert!(count > 20_000);
}

#[test]
fn all_ways_agree_on_random_texts() {
    let agreement = selftest_expression(3, 6_000);
    assert!(agreement.disagreements.is_empty(), "{}", agreement.disagreements.join("\n"));
    assert!(agreement.pools > 3_000 && agreement.refused > 1_000);
    assert!(agreement.all_reached > 1_000 && agreement.all_reached == agreement.by_words);
}

#[test]
fn generated_texts_fare_as_they_were_made() {
    let coverage = expression_coverage(&expression_cases(5));
    assert!(coverage.complaints.is_empty(), "{}", coverage.complaints.join("\n"));
}
