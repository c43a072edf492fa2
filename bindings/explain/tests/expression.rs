//! Diagrams of expressions in words, as bytes and as lines; texts that are refused, with the mark under the place.

use swarmbanner::{expression, Machine, Session};
use swarmbanner_explain::{described, field_4, state_lines, undrawn, Typed};

/// Texts of all kinds, the last of 127 states.
const TEXTS: [&str; 8] = [
    "",
    " | ",
    "0",
    "(0|1)* 2",
    "1 0|0 1",
    "((0|1)2*)*",
    "(31|30) 29*",
    "(0|1)*1(0|1)(0|1)1(0|1)(0|1)0*1 1(0|1)* 2 2 2 2 2 2",
];

fn drawn(text: &str) -> swarmbanner::Diagram {
    expression(text.as_bytes()).expect(text)
}

#[test]
fn states_in_words() {
    assert_eq!(described(&drawn("")), ["state 0, the root: final; no arcs"]);
    let words = [
        "state 0, the root: not final; 0 to 1, 1 to 2",
        "state 1, after 0: not final; 1 to 3",
        "state 2, after 1: not final; 0 to 4",
        "state 3, after 0 1: final; no arcs",
        "state 4, after 1 0: final; no arcs",
    ];
    assert_eq!(described(&drawn("1 0|0 1")), words);
    for text in TEXTS {
        assert_eq!(described(&drawn(text)).len(), drawn(text).states().len(), "{text}");
    }
}

/// A machine of one state and one queue of 32 messages.
fn session() -> Session {
    Session::new(&[Machine { states: 1, start: 0 }], &[32]).expect("it is within its ranges")
}

#[test]
fn field_4_as_it_is_in_a_file() {
    for text in TEXTS {
        let mut session = session();
        session.set_pool(&drawn(text)).expect("all messages are there");
        let file = session.write().expect("no word is accepted, as there is no root");
        // fields 1 to 3 have six bytes: 1 1 0, 1 32, 0; fields 5 and 6 have two
        assert_eq!(field_4(&drawn(text)), file[6..file.len() - 2], "{text}");
    }
    assert_eq!(field_4(&drawn("0 0*")), [3, 0, 1, 0, 1, 1, 1, 0, 2, 1, 1, 0, 2]);
}

#[test]
fn lines_behind_others() {
    for text in TEXTS {
        let diagram = drawn(text);
        for before in [0, 1, 5, 127 - diagram.states().len()] {
            if before + diagram.states().len() > 127 {
                continue;
            }
            let head = ["machine states 1 start 0", "queue messages 32"].map(str::to_string);
            let others = std::iter::repeat_n("state 31>0".to_string(), before);
            let lines = head.into_iter().chain(others).chain(state_lines(&diagram, before, text.as_bytes()));
            let typed = lines.collect::<Vec<_>>().join("\n");
            let file = Typed::parse(typed.as_bytes()).and_then(|typed| typed.write()).expect("the lines are a session");
            let read = swarmbanner::read(&file).expect("it is a session file");
            let mut expected = session();
            for _ in 1..before {
                expected.add_state(false).expect("there is room");
            }
            let root = if before == 0 { expected.set_pool(&diagram) } else { expected.add_diagram(&diagram) };
            assert_eq!(root.map(|root| root.index()), Ok(before), "{text}");
            assert_eq!(read.pool()[before..], expected.pool()[before..], "{text} behind {before}");
        }
    }
    let lines = [
        "state 0>4 1>5 2>6  # state 3, the root: (0|1)* 2",
        "state 0>4 1>5 2>6  # state 4",
        "state 0>4 1>5 2>6  # state 5",
        "state final        # state 6",
    ];
    assert_eq!(state_lines(&drawn("(0|1)* 2"), 3, b"(0|1)* 2"), lines);
    assert_eq!(state_lines(&drawn("  "), 7, b"  "), ["state final  # state 7, the root: the empty word"]);
}

/// What is said of a text, after the line of the refusal: the cause and the mark.
fn said(text: &[u8]) -> (String, String) {
    let lines = undrawn(text, expression(text).expect_err("it is refused"));
    let [_, cause, shown, mark] = &lines[..] else { panic!("{lines:?}") };
    assert_eq!(shown.chars().count(), text.len(), "a character for each byte");
    (cause.clone(), mark.clone())
}

#[test]
fn texts_outside_the_grammar() {
    let cases: [(&[u8], &str, &str); 12] = [
        (b"01", "a number has no leading zero", " ^"),
        (b"3 (00)", "a number has no leading zero", "    ^"),
        (b"(0", "it ends inside a group", "  ^"),
        (b"0)", "no group is open here", " ^"),
        (b"0**", "an item has one star at most", "  ^"),
        (b"(0)* *", "an item has one star at most", "     ^"),
        (b"*0", "a star stands behind a number or a group", "^"),
        (b"0|*", "a star stands behind a number or a group", "  ^"),
        (b"0+", "+ is no sign of one", " ^"),
        (b"0\t1", "the byte 09 (hex) is no sign of one", " ^"),
        ("0 é".as_bytes(), "the byte c3 (hex) is no sign of one", "  ^"),
        (&[0x30, 0, 0x1b, 0x7f, 0xff], "the byte 00 (hex) is no sign of one", " ^"),
    ];
    for (text, why, mark) in cases {
        assert_eq!(said(text), (format!("the text is no expression: {why}"), mark.to_string()), "{text:?}");
    }
}

#[test]
fn texts_that_pass_a_limit() {
    let cases: [(&str, &str, &str); 5] = [
        ("0 100 1", "a number is 32 or more, so it is no message's", "  ^~~"),
        ("(((((((((0)))))))))", "more than eight groups lie in one another", "        ^"),
        (&"0 ".repeat(33), "more than 32 numbers stand in the text", &format!("{}^", " ".repeat(64))),
        (
            &format!("{}31*", "0 ".repeat(32)),
            "more than 32 numbers stand in the text",
            &format!("{}^~", " ".repeat(64)),
        ),
        (&" ".repeat(257), "the text has more than 256 bytes", &format!("{}^", " ".repeat(256))),
    ];
    for (text, cause, mark) in cases {
        assert_eq!(said(text.as_bytes()), (cause.to_string(), mark.to_string()), "{text}");
    }
    let text = format!("{} 2", TEXTS[7]);
    let mark = format!("^{}", "~".repeat(text.len() - 1));
    assert_eq!(said(text.as_bytes()), ("the diagram has more than 127 states".to_string(), mark));
}
