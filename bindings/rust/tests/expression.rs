//! Diagrams from expressions: states worked out by hand, every refusal, the words of texts made at random, and diagrams in
//! sessions.

use std::collections::BTreeSet;

use swarmbanner::lent::{self, at, DEPTH_MOST, OCCURRENCES_MOST, POOL_LEAST, POOL_STATES_MOST, TEXT_MOST};
use swarmbanner::{expression, read, Diagram, Machine, PoolState, Refusal, Session, SessionError};

/// Of 121 states; each number of a message of its own that follows adds one.
const LARGE: &str = "(0|1)*1(0|1)(0|1)1(0|1)(0|1)0*1 1(0|1)*";

/// The states as `swarmbanner-read --lines` has them.
fn lines(diagram: &Diagram) -> Vec<String> {
    let line = |state: &PoolState| {
        let arcs = state.arcs.iter().map(|arc| format!(" {}>{}", arc.message, arc.target.index()));
        format!("{}{}", if state.is_final { "final" } else { "" }, arcs.collect::<String>())
    };
    diagram.states().iter().map(line).collect()
}

fn drawn(text: &str) -> Diagram {
    expression(text.as_bytes()).unwrap_or_else(|refusal| panic!("{text}: {refusal}"))
}

#[test]
fn states_worked_out_by_hand() {
    let cases: [(&str, &[&str]); 20] = [
        ("", &["final"]),
        ("   ", &["final"]),
        ("|", &["final"]),
        ("()", &["final"]),
        ("( () | )*", &["final"]),
        ("0", &[" 0>1", "final"]),
        ("31", &[" 31>1", "final"]),
        // the start is a state of its own
        ("0*", &["final 0>1", "final 0>1"]),
        ("0 *", &["final 0>1", "final 0>1"]),
        ("(0*)*", &["final 0>1", "final 0>1"]),
        // and so is each number, also where they read alike
        ("0 0*", &[" 0>1", "final 0>2", "final 0>2"]),
        ("0|0", &[" 0>1", "final"]),
        ("(0|1)* 2", &[" 0>1 1>2 2>3", " 0>1 1>2 2>3", " 0>1 1>2 2>3", "final"]),
        // a run of digits is one number
        ("1 2", &[" 1>1", " 2>2", "final"]),
        ("12", &[" 12>1", "final"]),
        ("(1)(2)", &[" 1>1", " 2>2", "final"]),
        // numbered by the lowest word, not by the place in the text
        ("1 0|0 1", &[" 0>1 1>2", " 1>3", " 0>4", "final", "final"]),
        ("0 0|0 1", &[" 0>1", " 0>2 1>3", "final", "final"]),
        ("(|0)(|1)", &["final 0>1 1>2", "final 1>2", "final"]),
        // both 0s are one state
        ("(0|1)*0 2", &[" 0>1 1>2", " 0>1 1>2 2>3", " 0>1 1>2", "final"]),
    ];
    for (text, states) in cases {
        let diagram = drawn(text);
        assert_eq!(lines(&diagram), states, "{text:?}");
        assert_eq!(diagram.to_string(), format!("drawn {}", states.len()));
        assert_eq!(diagram.root().index(), 0);
    }
}

fn refused(text: &str) -> (u8, usize) {
    let refusal = expression(text.as_bytes()).expect_err(text);
    (refusal.number, refusal.place)
}

#[test]
fn texts_outside_the_grammar() {
    let cases = [
        ("01", 1),
        ("00", 1),
        ("1 007", 3),
        ("(", 1),
        ("(0", 2),
        ("(0|(1)", 6),
        ("((((((((((", 10),
        (")", 0),
        ("0)", 1),
        ("(0))", 3),
        ("*", 0),
        ("(*", 1),
        ("0|*", 2),
        ("0**", 2),
        ("0* *", 3),
        ("(0*)**", 5),
        ("0+1", 1),
        ("0\t1", 1),
        ("a", 0),
        ("-1", 0),
        ("0 1\n", 3),
        // told before what passes a limit
        ("32 01", 4),
        ("99999999999999999999999 x", 24),
        ("(((((((((0))))))))", 18),
    ];
    for (text, place) in cases {
        assert_eq!(refused(text), (19, place), "{text:?}");
    }
    assert_eq!(expression(&[b'0', 0]).map_err(|refusal| refusal.place), Err(1));
    assert_eq!(expression(&[255]).map_err(|refusal| refusal.place), Err(0));
}

fn nested(levels: usize) -> String {
    format!("{}0{}", "(".repeat(levels), ")".repeat(levels))
}

#[test]
fn limits_and_what_is_beyond_them() {
    assert_eq!(refused("32"), (5, 0));
    assert_eq!(refused("0 (31|100)*"), (5, 6));
    assert_eq!(refused("18446744073709551616"), (5, 0), "2 to the 64");
    assert_eq!(drawn(&nested(DEPTH_MOST)).states().len(), 2);
    assert_eq!(refused(&nested(DEPTH_MOST + 1)), (20, 8));
    assert_eq!(refused(&format!("() {}", nested(DEPTH_MOST + 3))), (20, 11));
    let many = |count| "0 ".repeat(count);
    assert_eq!(drawn(&many(OCCURRENCES_MOST)).states().len(), 33);
    assert_eq!(refused(&many(OCCURRENCES_MOST + 1)), (21, 64));
    // the leftmost of them, and 5 before 21 at the same place
    assert_eq!(refused(&format!("{}32", many(OCCURRENCES_MOST))), (5, 64));
    assert_eq!(refused(&format!("{}0 32", many(OCCURRENCES_MOST))), (21, 64));
    assert_eq!(refused(&format!("{} 32", nested(DEPTH_MOST + 1))), (20, 8));
    assert_eq!(refused(&format!("32 {}", nested(DEPTH_MOST + 1))), (5, 0));
    assert_eq!(drawn(&" ".repeat(TEXT_MOST)).states().len(), 1);
    assert_eq!(refused(&" ".repeat(TEXT_MOST + 1)), (18, 256));
    assert_eq!(refused(&"x".repeat(TEXT_MOST + 1)), (18, 256), "told before all else");
}

#[test]
fn as_many_states_as_there_can_be() {
    assert_eq!(drawn(LARGE).states().len(), 121);
    let most = drawn(&format!("{LARGE} 2 2 2 2 2 2"));
    assert_eq!(most.states().len(), POOL_STATES_MOST);
    assert_eq!(most.states().iter().filter(|state| state.is_final && state.arcs.is_empty()).count(), 1, "the last 2");
    assert_eq!(refused(&format!("{LARGE} 2 2 2 2 2 2 2")), (22, 0));
    // 2 to the 12 and more
    assert_eq!(refused("(0|1)*0(0|1)(0|1)(0|1)(0|1)(0|1)(0|1)(0|1)(0|1)(0|1)(0|1)(0|1)(0|1)"), (22, 0));
}

#[test]
fn every_refusal_in_words() {
    let explained = |text: &str| expression(text.as_bytes()).expect_err(text).explain_in_text();
    assert_eq!(explained("32"), "a number is 32 or more, so it is no message's (at byte 0 of the text)");
    assert_eq!(explained(&" ".repeat(257)), "the text has more than 256 bytes (at byte 256 of the text)");
    assert_eq!(explained("01"), "the text is no expression (at byte 1 of the text)");
    assert_eq!(explained(&nested(9)), "more than eight groups lie in one another (at byte 8 of the text)");
    assert_eq!(explained(&"0 ".repeat(33)), "more than 32 numbers stand in the text (at byte 64 of the text)");
    assert_eq!(explained(&format!("{LARGE} 2 2 2 2 2 2 2")), "the diagram has more than 127 states");
}

/// What the call does to a pool and a reply of these lengths, which are full of dirt.
fn call(text: &[u8], pool_length: usize, reply_length: usize) -> (usize, Vec<u8>, Vec<usize>) {
    let (mut pool, mut reply) = (vec![0xaa; pool_length], vec![7; reply_length]);
    let kind = lent::expression(text, &mut pool, &mut reply);
    (kind, pool, reply)
}

#[test]
fn pools_of_any_length() {
    let mut expected = vec![0; POOL_LEAST];
    expected[1] = 1;
    expected[at::ARCS - at::FINALS + 3] = 2;
    assert_eq!(call(b"3", POOL_LEAST, 4), (lent::DRAWN, expected.clone(), vec![0, 2, 0, 0]));
    expected.extend([0xaa; 40]);
    assert_eq!(call(b"3", POOL_LEAST + 40, 6), (lent::DRAWN, expected, vec![0, 2, 0, 0, 7, 7]));
    for text in [&b"3"[..], b"03", b"32", &[b' '; 257]] {
        for (pool_length, reply_length) in [(0, 0), (POOL_LEAST - 1, 4), (POOL_LEAST, 3), (POOL_LEAST + 1, 0), (0, 9)] {
            let untouched = (lent::NO_ROOM, vec![0xaa; pool_length], vec![7; reply_length]);
            assert_eq!(call(text, pool_length, reply_length), untouched, "no room is told before a refusal");
        }
    }
    assert_eq!(call(b"03", POOL_LEAST, 5), (lent::REFUSED, vec![0xaa; POOL_LEAST], vec![19, 1, 0, 0, 7]));
    assert_eq!(call(b"32", POOL_LEAST, 4), (lent::REFUSED, vec![0xaa; POOL_LEAST], vec![5, 0, 0, 0]));
}

/// splitmix64
struct Random(u64);

impl Random {
    fn below(&mut self, count: usize) -> usize {
        self.0 = self.0.wrapping_add(0x9e37_79b9_7f4a_7c15);
        let mut z = self.0;
        z = (z ^ (z >> 30)).wrapping_mul(0xbf58_476d_1ce4_e5b9);
        z = (z ^ (z >> 27)).wrapping_mul(0x94d0_49bb_1331_11eb);
        ((z ^ (z >> 31)) % count as u64) as usize
    }
}

/// Messages of texts made at random, and the length of the words that are asked about.
const MESSAGES: u8 = 3;
const WORD_MOST: usize = 4;

type Words = BTreeSet<Vec<u8>>;

fn joined(fronts: &Words, backs: &Words) -> Words {
    let pairs = fronts.iter().flat_map(|front| backs.iter().map(move |back| [&front[..], back].concat()));
    pairs.filter(|word| word.len() <= WORD_MOST).collect()
}

/// Alternatives at random, with their words; groups lie in so many others.
fn alternatives(random: &mut Random, depth: usize, text: &mut String) -> Words {
    let mut words = Words::new();
    for number in 0..1 + random.below(3) {
        if number > 0 {
            text.push('|');
        }
        words.extend(alternative(random, depth, text));
    }
    words
}

fn alternative(random: &mut Random, depth: usize, text: &mut String) -> Words {
    let mut words = Words::from([vec![]]);
    for _ in 0..random.below(4) {
        words = joined(&words, &item(random, depth, text));
    }
    words
}

fn item(random: &mut Random, depth: usize, text: &mut String) -> Words {
    text.push_str(&" ".repeat(random.below(2)));
    let words = if depth < DEPTH_MOST && random.below(3) == 0 {
        text.push('(');
        let words = alternatives(random, depth + 1, text);
        text.push(')');
        words
    } else {
        if text.ends_with(|last: char| last.is_ascii_digit()) {
            text.push(' ');
        }
        let message = random.below(MESSAGES.into()) as u8;
        text.push_str(&message.to_string());
        Words::from([vec![message]])
    };
    text.push_str(&" ".repeat(random.below(2)));
    if random.below(3) > 0 {
        return words;
    }
    text.push('*');
    (0..WORD_MOST).fold(Words::from([vec![]]), |sum, _| &joined(&sum, &words) | &sum)
}

fn every_word() -> Vec<Vec<u8>> {
    let mut every = vec![vec![]];
    let mut next = 0;
    while every[next].len() < WORD_MOST {
        for message in 0..MESSAGES {
            every.push([&every[next][..], &[message]].concat());
        }
        next += 1;
    }
    every
}

/// Each state by the first word that leads to it, of words in their order.
fn is_numbered_by_words(diagram: &Diagram) -> bool {
    let targets = diagram.states().iter().flat_map(|state| state.arcs.iter().map(|arc| arc.target.index()));
    let mut first_met: Vec<usize> = vec![0];
    for target in targets {
        if !first_met.contains(&target) {
            first_met.push(target);
        }
    }
    first_met.iter().copied().eq(0..diagram.states().len())
}

#[test]
fn just_the_words_of_texts_made_at_random() {
    let (mut random, every) = (Random(20_261_117), every_word());
    let [mut drawn, mut turned_away] = [0; 2];
    for _ in 0..3_000 {
        let mut text = String::new();
        let words = alternatives(&mut random, 0, &mut text);
        match expression(text.as_bytes()) {
            Ok(diagram) => {
                for word in &every {
                    assert_eq!(diagram.accepts(word), words.contains(word), "{text}: {word:?}");
                }
                assert!(is_numbered_by_words(&diagram), "{text}");
                drawn += 1;
            }
            Err(refusal) => {
                assert!([18, 21, 22].contains(&refusal.number), "{text}: {refusal}");
                turned_away += 1;
            }
        }
    }
    assert!(drawn > 2_000 && turned_away > 20, "{drawn} {turned_away}");
}

const R: [u8; 29] = [2, 1, 1, 0, 0, 1, 1, 2, 0, 0, 0, 1, 0, 1, 0, 1, 0, 0, 2, 0, 1, 0, 1, 1, 1, 0, 0, 1, 0];

/// One machine, queues of two messages and one.
fn small() -> Session {
    Session::new(&[Machine { states: 1, start: 0 }], &[2, 1]).expect("it is within its ranges")
}

#[test]
fn a_diagram_behind_the_states_of_a_session() {
    let mut session = read(&R).expect("it is a session file");
    let first = session.add_diagram(&drawn("| 0 | 0 0")).expect("there is room for it");
    let second = session.add_diagram(&drawn("0*")).expect("there is room for it");
    assert_eq!((first.index(), second.index()), (1, 4));
    let state = |number| session.state(number).expect("the pool has the state");
    let arcs = |number: usize| session.arc(state(number), 0).map(|target| target.index());
    assert_eq!([0, 1, 2, 3, 4, 5].map(arcs), [Some(0), Some(2), Some(3), None, Some(5), Some(5)]);
    assert_eq!(session.root(0).map(|root| root.index()), Some(0), "roots are as they were");
    for (root, verdict) in [(first, "leaves 0 0 2 2: 0 0"), (second, "closed 7")] {
        session.set_root(0, Some(root)).expect("it is a state");
        let file = session.write().expect("words are in queue order");
        assert_eq!(swarmbanner::check(&file).to_string(), verdict);
        assert_eq!(read(&file).as_ref(), Ok(&session));
    }
}

#[test]
fn a_diagram_in_the_place_of_a_pool() {
    let mut session = small();
    let most = drawn(&format!("{LARGE} 2 2 2 2 2 2"));
    let root = session.set_pool(&most).expect("no state is named, and all messages are there");
    assert_eq!(session.pool(), most.states());
    session.set_root(0, Some(root)).expect("it is a state");
    assert_eq!(read(&session.write().expect("words are in queue order")), Ok(session.clone()));
    // the root stays where the new pool has it
    assert_eq!(session.set_pool(&drawn("2 0")).map(|root| root.index()), Ok(0));
    assert_eq!(session.pool().len(), 3);
    assert_eq!(session.write(), Err(Refusal { number: 16, place: 0 }), "2 0 is out of queue order");
}

fn refuses(session: &Session, error: SessionError, change: impl FnOnce(&mut Session) -> Result<(), SessionError>) {
    let mut changed = session.clone();
    assert_eq!(change(&mut changed), Err(error));
    assert_eq!(&changed, session, "{error}");
}

#[test]
fn diagrams_that_a_session_has_no_place_for() {
    let session = small();
    let most = drawn(&format!("{LARGE} 2 2 2 2 2 2"));
    refuses(&session, SessionError::PoolFull, |session| session.add_diagram(&most).map(drop));
    let mut nearly = session.clone();
    assert!(nearly.add_diagram(&drawn(&format!("{LARGE} 2 2 2 2 2"))).is_ok(), "there is room for 126");
    refuses(&nearly, SessionError::PoolFull, |session| session.add_diagram(&drawn("")).map(drop));
    let no_message = SessionError::NoMessage { message: 3 };
    refuses(&session, no_message, |session| session.add_diagram(&drawn("0 (3|1)")).map(drop));
    refuses(&session, no_message, |session| session.set_pool(&drawn("0 (3|1)")).map(drop));
    // a state that a root or a bad entry names must stay
    let last = nearly.state(126).expect("the pool has the state");
    let gone = SessionError::NoState { state: last };
    let mut rooted = nearly.clone();
    rooted.set_root(0, Some(last)).expect("it is a state");
    refuses(&rooted, gone, |session| session.set_pool(&drawn("0")).map(drop));
    let mut bad = nearly;
    bad.add_bad_entry(swarmbanner::BadEntry { control: 0, root: last }).expect("it is a state");
    refuses(&bad, gone, |session| session.set_pool(&drawn("0")).map(drop));
}
