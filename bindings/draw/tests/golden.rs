//! Pictures of small files and replays, held to the DOT kept in `tests/golden`.

use swarmbanner::{expression, Configuration, Replayed, Replayer, Reply};
use swarmbanner_draw::{expression_picture, pictures, replay_pictures, Picture};

/// Case c of document 01: `leaves 0 0 1 1: 0`. One 0 may wait, so a second send is lost.
const C: &str = "02 01 01 00 00 01 01 02 00 00 00 01 00 01 00 01 00 00 02 00 01 00 02 01 01 00 01 01 00 01 00";
/// Case e: `bad 0 0:`.
const E: &str = "02 01 01 00 00 01 01 02 00 00 00 01 00 01 00 01 00 00 02 00 01 00 01 01 01 00 00 01 01 00 00";
/// File S: `closed 3`.
const S: &str = "01 01 00 02 01 01 01 00 00 00 01 00 01 00 02 01 02 00 00 01 01 01 01 01 01 01 00";

/// Words of 16 sent and received, of 9 and of 8; the first step leaves, as nothing is inside in state 1.
const W: &str = "01 02 00 01 20 04 \
                 00 00 01 01 00 10 10 11 12 13 14 15 16 17 18 19 1a 1b 1c 1d 1e 1f \
                 00 00 01 02 00 10 00 01 02 03 04 05 06 07 08 09 0a 0b 0c 0d 0e 0f \
                 00 00 01 01 00 09 00 01 02 03 04 05 06 07 08 \
                 00 01 00 02 00 08 00 01 02 03 04 05 06 07 \
                 01 01 00 01 00 00";

/// A word of 16 is received that takes two arcs in turn: `leaves 0 0 16 0: 0 1 0 1 ..`.
const T: &str = "01 02 00 01 02 01 00 00 01 02 00 10 00 01 00 01 00 01 00 01 00 01 00 01 00 01 00 01 \
                 02 01 01 00 01 00 01 01 00 01 00 00";

/// R with two messages that wait at the start, of which one alone may wait: `outside`.
const Q: &str = "06 01 01 00 00 01 01 02 00 00 02 00 00 00 01 00 01 00 01 00 00 02 00 01 00 02 01 01 00 01 01 00 01 00";

fn hex(text: &str) -> Vec<u8> {
    text.split_whitespace().map(|byte| u8::from_str_radix(byte, 16).expect("two hexadecimal digits")).collect()
}

fn drawn(file: &str, control: Option<usize>) -> Vec<Picture> {
    let bytes = hex(file);
    let session = swarmbanner::read(&bytes).expect("it is a session file");
    pictures(&session, &swarmbanner::check(&bytes), control)
}

fn replayed(file: &str, trace: &[u8], line: &str) -> Vec<Picture> {
    let (bytes, mut replayer) = (hex(file), Replayer::new());
    let session = swarmbanner::read(&bytes).expect("it is a session file");
    let replayed = replayer.replay(&bytes, trace);
    assert_eq!(replayed.to_string(), line);
    let last = replayer.last().expect("it was replayed");
    replay_pictures(&session, trace, &replayed, &last, None)
}

fn assert_drawn(file: &str, control: Option<usize>, expected: &[(&str, &str)]) {
    assert_pictures(&drawn(file, control), expected);
}

fn assert_pictures(drawn: &[Picture], expected: &[(&str, &str)]) {
    let names: Vec<&str> = drawn.iter().map(|picture| &picture.name[..]).collect();
    assert_eq!(names, expected.iter().map(|(name, _)| *name).collect::<Vec<_>>());
    for (picture, (name, dot)) in drawn.iter().zip(expected) {
        assert_eq!(picture.dot, *dot, "{name}");
        assert_eq!(picture.arrows, dot.matches(" -> ").count(), "{name}");
    }
}

#[test]
fn a_step_that_leaves() {
    let machines = include_str!("golden/c-machines.dot");
    let leaves = include_str!("golden/c-leaves-0-0.dot");
    assert_drawn(C, None, &[("machines", machines), ("leaves-0-0", leaves)]);
}

#[test]
fn a_bad_entry_and_a_control_state() {
    let machines = include_str!("golden/e-machines.dot");
    let bad = include_str!("golden/e-bad-0.dot");
    let control = include_str!("golden/e-control-0.dot");
    assert_drawn(E, Some(0), &[("machines", machines), ("bad-0", bad), ("control-0", control)]);
}

#[test]
fn nothing_fails() {
    let machines = include_str!("golden/s-machines.dot");
    let control = include_str!("golden/s-control-0.dot");
    assert_drawn(S, None, &[("machines", machines), ("control-0", control)]);
}

/// What waits at the start stands above the machines and above the set, with its way, which is lost here.
#[test]
fn a_start_with_messages() {
    let machines = include_str!("golden/q-machines.dot");
    let control = include_str!("golden/q-control-0.dot");
    assert_drawn(Q, None, &[("machines", machines), ("control-0", control)]);
    // one message, which is inside: the way ends in a final state
    let one = Q.replacen(" 02 00 00 02", " 01 00 02", 1);
    let drawn = drawn(&one, Some(0));
    let set = drawn.last().expect("the control state is drawn");
    assert!(set.dot.contains("label=\"control state 0 = (0, 0)\\nat the start   q0: 0\";"), "{}", set.dot);
    assert!(set.dot.contains("a1 [label=\"1\", shape=\"doublecircle\", color=\"#1f5fbf\""), "{}", set.dot);
}

#[test]
fn words_of_sixteen() {
    let machines = include_str!("golden/w-machines.dot");
    let leaves = include_str!("golden/w-leaves-0-0.dot");
    assert_drawn(W, None, &[("machines", machines), ("leaves-0-0", leaves)]);
}

#[test]
fn a_word_of_sixteen_on_two_arcs() {
    let machines = include_str!("golden/t-machines.dot");
    let leaves = include_str!("golden/t-leaves-0-0.dot");
    assert_drawn(T, None, &[("machines", machines), ("leaves-0-0", leaves)]);
}

#[test]
fn a_replay_that_ends_outside() {
    let machines = include_str!("golden/c-outside-replay-machines.dot");
    let replay = include_str!("golden/c-outside-replay-0.dot");
    let drawn = replayed(C, &[0, 1, 0, 0], "outside 4 1");
    assert_pictures(&drawn, &[("replay-machines", machines), ("replay-0", replay)]);
}

#[test]
fn a_replay_that_ends_where_nothing_is_inside() {
    let machines = include_str!("golden/w-outside-replay-machines.dot");
    let replay = include_str!("golden/w-outside-replay-1.dot");
    assert_pictures(&replayed(W, &[0], "outside 1 0"), &[("replay-machines", machines), ("replay-1", replay)]);
}

#[test]
fn a_replay_with_a_refused_step() {
    let machines = include_str!("golden/c-refused-replay-machines.dot");
    let replay = include_str!("golden/c-refused-replay-0.dot");
    let drawn = replayed(C, &[0, 1, 1], "refused 14 at 2 after 2");
    assert_pictures(&drawn, &[("replay-machines", machines), ("replay-0", replay)]);
}

#[test]
fn a_replay_that_ends_with_its_trace() {
    let machines = include_str!("golden/s-end-replay-machines.dot");
    let replay = include_str!("golden/s-end-replay-0.dot");
    assert_pictures(&replayed(S, &[0, 0], "end 2"), &[("replay-machines", machines), ("replay-0", replay)]);
}

/// A picture loses contents where the reply says, and does not look for the place: in C the second of 0 0 has no arc, and the first
/// has none where none was followed.
#[test]
fn contents_are_lost_where_the_reply_says() {
    let session = swarmbanner::read(&hex(C)).expect("it is a session file");
    let at = |followed: usize| {
        let reply = Reply::Leaves { control: 0, transition: 0, contents: vec![0], followed };
        let replayed = Replayed::Outside { steps: 2, followed };
        let last = Configuration { states: &[0, 0], queues: vec![&[0, 0]] };
        let lost = |picture: &Picture, arrow: &str| picture.dot.matches(arrow).count();
        (
            lost(
                &pictures(&session, &reply, None)[1],
                &format!("b{followed} -> b_nowhere [label=\"q0: 0 [{}]\"", followed + 1),
            ),
            lost(
                &replay_pictures(&session, &[0, 0], &replayed, &last, None)[1],
                &format!("a{followed} -> a_nowhere [label=\"q0: 0 [{}]\"", followed + 1),
            ),
        )
    };
    assert_eq!((at(0), at(1)), ((1, 1), (1, 1)));
}

/// Below the set stands the diagram that lists what waits as bad, and the states are red, also at the end of a trace. A number
/// that is no transition has no arrow to be marked.
#[test]
fn a_replay_that_ends_at_something_bad() {
    let machines = include_str!("golden/e-bad-replay-machines.dot");
    let replay = include_str!("golden/e-bad-replay-0.dot");
    let drawn = replayed(E, &[0, 2], "refused 5 at 1 after 1");
    assert_pictures(&drawn, &[("replay-machines", machines), ("replay-0", replay)]);
    let replay = replay.replace("refused 5 at 1 after 1", "end 1");
    assert_pictures(&replayed(E, &[0], "end 1"), &[("replay-machines", machines), ("replay-0", &replay)]);
}

/// Messages stand alone, as an expression has no queues.
#[test]
fn expressions() {
    let picture = |text: &str| expression_picture(text.as_bytes(), &expression(text.as_bytes()).expect(text));
    let golden = include_str!("golden/expression.dot");
    assert_pictures(&[picture("(0|1)* 2")], &[("expression", golden)]);
    let golden = include_str!("golden/expression-empty.dot");
    assert_pictures(&[picture("")], &[("expression", golden)]);
    assert!(picture(&" 0".repeat(32)).dot.contains("label=\" 0 0 0"), "a text of up to 100 bytes has one line");
    let long = picture(&format!("{}0", " ".repeat(255)));
    assert!(
        long.dot.contains(&format!("label=\"{0}\\n{0}\\n{1}0\";", " ".repeat(100), " ".repeat(55))),
        "{}",
        long.dot
    );
}
