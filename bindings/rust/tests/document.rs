//! The cases that document 01 gives, and words of sixteen messages, by the types of this crate.

use std::path::Path;

use swarmbanner::{check, lent, member, membership, read, Checker, Kind, Membership, Refusal, Reply};

const R: &str = "02 01 01 00 00 01 01 02 00 00 00 01 00 01 00 01 00 00 02 00 01 00 01 01 01 00 00 01 00";
const S: &str = "01 01 00 02 01 01 01 00 00 00 01 00 01 00 02 01 02 00 00 01 01 01 01 01 01 01 00";

const LETTERED: [(&str, &str); 14] = [
    (R, "closed 4"),
    ("02 01 01 00 00 01 01 02 00 00 00 01 00 01 00 01 00 00 02 00 01 00 01 01 00 01 00", "leaves 0 0 0 0:"),
    (
        "02 01 01 00 00 01 01 02 00 00 00 01 00 01 00 01 00 00 02 00 01 00 02 01 01 00 01 01 00 01 00",
        "leaves 0 0 1 1: 0",
    ),
    ("02 01 01 00 00 01 01 02 00 00 00 01 00 01 00 01 00 00 02 00 01 00 01 00 01 00 00 01 00", "outside"),
    ("02 01 01 00 00 01 01 02 00 00 00 01 00 01 00 01 00 00 02 00 01 00 01 01 01 00 00 01 01 00 00", "bad 0 0:"),
    (S, "closed 3"),
    ("01 01 00 02 01 01 01 00 00 00 02 01 01 01 02 01 02 00 00 01 01 01 01 01 01 01 00", "closed 3"),
    ("", "refused 3 at 0"),
    ("82 00 01 01 00 00 01 01 02 00 00 00 01 00 01 00 01 00 00 02 00 01 00 01 01 01 00 00 01 00", "refused 4 at 0"),
    ("05 01 01 00 00 01 01 02 00 00 00 01 00 01 00 01 00 00 02 00 01 00 01 01 01 00 00 01 00", "refused 5 at 2"),
    ("02 01 01 00 00 01 01 02 00 00 00 01 00 01 00 01 00 00 02 00 01 00 01 01 01 00 00 01 00 00", "refused 10 at 29"),
    ("02 01 01 00 00 01 01 02 00 00 00 01 00 01 00 01 00 00 02 00 01 00 01 01 01 00 00 01", "refused 3 at 28"),
    ("01 01 00 02 01 01 01 00 00 00 01 00 01 00 01 01 02 00 00 01 00 01 00", "refused 9 at 23"),
    ("03 10 10 02", "refused 6 at 3"),
];

fn hex(text: &str) -> Vec<u8> {
    text.split_whitespace().map(|byte| u8::from_str_radix(byte, 16).expect("two hexadecimal digits")).collect()
}

#[test]
fn lettered_cases_print_their_lines() {
    let mut checker = Checker::new();
    for (file, line) in LETTERED {
        assert_eq!(check(&hex(file)).to_string(), line);
        assert_eq!(checker.check(&hex(file)).to_string(), line, "with memory that was used before");
    }
}

#[test]
fn reading_refuses_what_checking_refuses() {
    for (file, _) in LETTERED {
        let refused = match check(&hex(file)) {
            Reply::Refused(refusal) => Some(refusal),
            _ => None,
        };
        assert_eq!(read(&hex(file)).err(), refused, "{file}");
    }
}

#[test]
fn lettered_cases_are_written_back() {
    let read_ones = LETTERED.iter().filter_map(|(file, _)| Some((hex(file), read(&hex(file)).ok()?)));
    let written: Vec<bool> = read_ones.map(|(file, session)| session.write() == Ok(file)).collect();
    assert_eq!(written, [true; 7]);
}

#[test]
fn yes_or_no() {
    let refused = |number, place| Err(Refusal { number, place });
    assert_eq!(member(&hex(S), 0, &[0, 1]), Ok(true));
    assert_eq!(member(&hex(S), 0, &[]), Ok(true));
    assert_eq!(member(&hex(S), 0, &[1, 0]), refused(13, 1));
    assert_eq!(member(&hex(S), 0, &[0, 2]), refused(12, 1));
    assert_eq!(member(&hex(S), 1, &[2]), refused(11, 0));
    assert_eq!(member(&hex(S), usize::MAX, &[]), refused(11, 0));
    assert_eq!(member(&[], 0, &[]), refused(3, 0));
    assert_eq!(member(&hex(LETTERED[1].0), 0, &[0]), Ok(false));
}

/// Of a yes all messages are followed; of a no those before the one that has no arc, all where the end is not final, none where there
/// is no root.
#[test]
fn messages_followed() {
    let followed =
        |file: &str, control, contents: &[u8]| membership(&hex(file), control, contents).map(|said| said.to_string());
    let said = |line: &str| Ok(line.to_string());
    assert_eq!(followed(S, 0, &[]), said("yes 0"));
    assert_eq!(followed(S, 0, &[0, 0, 0, 1, 1]), said("yes 5"));
    assert_eq!(followed(S, 0, &[1, 0]), Err(Refusal { number: 13, place: 1 }));
    assert_eq!(followed(LETTERED[1].0, 0, &[0]), said("no 0"));
    assert_eq!(followed(LETTERED[2].0, 0, &[0, 0, 0]), said("no 1"));
    assert_eq!(followed(LETTERED[3].0, 0, &[0, 0, 0]), said("no 3"));
    assert_eq!(followed(LETTERED[3].0, 0, &[]), said("no 0"));
    assert_eq!(followed(NO_ROOT, 1, &[0, 0]), said("no 0"));
    assert_eq!(membership(&hex(R), 0, &[0]), Ok(Membership { is_inside: true, followed: 1 }));
    assert_eq!(membership(&hex(LETTERED[2].0), 0, &[0, 0]), Ok(Membership { is_inside: false, followed: 1 }));
}

/// One state, and 0 1 2 is sent.
const SENT: &str = "01 01 00 01 03 01 00 00 00 01 00 03 00 01 02";
/// Of three states 0 goes to 1 with 0 0 in the queue, and 2 is the start.
const LOCAL: &str = "01 03 02 01 01 01 00 00 01 00 03 00 01 00 01 00 01 00 02 01 00";
const NO_ROOT: &str = "01 03 02 01 01 01 00 00 01 00 03 00 01 00 01 00 01 00 02 01 00 01 00 03 00";

/// What is followed after a step is said of the contents after it, in the set that it leads to: membership says the same of them.
#[test]
fn messages_followed_after_a_step() {
    let lines = [
        (format!("{SENT} 03 01 01 00 01 00 01 01 02 00 00 01 00"), "leaves 0 0 0 2:"),
        (format!("{SENT} 04 01 01 00 01 00 01 01 02 00 01 02 03 00 00 01 00"), "leaves 0 0 0 3:"),
        (NO_ROOT.to_string(), "leaves 0 0 2 0: 0 0"),
        (format!("{LOCAL} 01 02 03 00"), "leaves 0 0 2 1: 0 0"),
        (LETTERED[1].0.to_string(), "leaves 0 0 0 0:"),
        (LETTERED[2].0.to_string(), "leaves 0 0 1 1: 0"),
    ];
    for (file, line) in lines {
        let (file, session) = (hex(&file), read(&hex(&file)).expect(line));
        let reply = check(&file);
        assert_eq!(reply.to_string(), line);
        let Reply::Leaves { control, transition, contents, followed } = reply else { panic!("{line}") };
        let (target, after) = session.step(control, transition, &contents).expect("the step can be taken");
        assert_eq!(membership(&file, target, &after), Ok(Membership { is_inside: false, followed }), "{line}");
    }
}

#[test]
fn long_files_are_refused_before_short_memory() {
    let mut reply = [7; 4];
    assert_eq!(lent::check(&[1; 16_385], &mut [], &mut [], &mut [], &mut reply), lent::REFUSED);
    assert_eq!(reply, [1, 16_384, 0, 0]);
    assert_eq!(check(&[1; 16_385]).to_string(), "refused 1 at 16384");
}

#[test]
fn memory_that_is_just_enough_and_one_short() {
    let lend = |seen: usize, queue: usize, contents: usize| {
        let mut reply = [7; 4];
        let (mut seen, mut queue, mut contents) = (vec![1; seen], vec![1; queue], vec![1; contents]);
        let kind = lent::check(&hex(R), &mut seen, &mut queue, &mut contents, &mut reply);
        (kind, reply, seen.iter().chain(&queue).all(|&entry| entry == 0))
    };
    assert_eq!(lend(32_512, 32_512, 32_768), (lent::CLOSED, [4, 0, 0, 0], true));
    for (seen, queue, contents) in [(32_511, 32_512, 32_768), (32_512, 32_511, 32_768), (32_512, 32_512, 32_767)] {
        assert_eq!(lend(seen, queue, contents), (lent::REFUSED, [2, 0, 0, 0], false));
    }
}

#[test]
fn no_room_touches_nothing() {
    let mut reply = [9; 3];
    assert_eq!(lent::read(&hex(R), &mut [5; 7445], &mut reply), lent::NO_ROOM);
    assert_eq!(lent::member(&hex(R), 0, &[], &mut reply), lent::NO_ROOM);
    assert_eq!(lent::check(&hex(R), &mut [], &mut [], &mut [], &mut reply), lent::NO_ROOM);
    assert_eq!(lent::write(&[], &mut [], &mut reply), lent::NO_ROOM);
    assert_eq!(reply, [9; 3]);
    let (mut space, mut reply) = ([5; 7444], [9; 4]);
    assert_eq!(lent::read(&hex(R), &mut space, &mut reply), lent::NO_ROOM);
    assert_eq!((space, reply), ([5; 7444], [9; 4]));
}

/// Two states, messages 1 to 16 in queue 1.
const LONG_HEAD: [u8; 6] = [1, 2, 0, 2, 1, 16];

/// Words of this length from message 1 on, sent in that order and received in the other. Messages past the sixteenth are 1.
fn with_words(sent: u8, received: u8) -> Vec<u8> {
    let up = |length: u8| (1..=length).map(|message| if message > 16 { 1 } else { message });
    let mut file = LONG_HEAD.to_vec();
    file.extend([2, 0, 0, 1, 1, 1, sent]);
    file.extend(up(sent));
    file.extend([0, 1, 0, 2, 1, received]);
    file.extend(up(received).rev());
    file.extend([1, 1, 0, 1, 0, 0]);
    file
}

#[test]
fn rows_of_words_of_sixteen() {
    let (mut space, mut reply) = ([5; lent::SPACE_LEAST + 1], [9; 4]);
    assert_eq!(lent::read(&with_words(16, 16), &mut space, &mut reply), lent::READ);
    let sent = [0, 0, 1, 1, 1, 16, 1, 2, 3, 4, 5, 6, 7, 8, 9, 10, 11, 12, 13, 14, 15, 16];
    let received = [0, 1, 0, 2, 1, 16, 16, 15, 14, 13, 12, 11, 10, 9, 8, 7, 6, 5, 4, 3, 2, 1];
    let rows = &space[lent::at::TRANSITIONS..];
    assert_eq!(rows[..22], sent);
    assert_eq!(rows[22..44], received);
    // a transition that is not there; the mark of pool state 0, after all rows; the space's rest
    assert_eq!((rows[44], rows[128 * 22], space[lent::SPACE_LEAST]), (0, 1, 5));
    let session = read(&with_words(16, 16)).expect("it is a session file");
    let kinds: Vec<&Kind> = session.transitions().iter().map(|transition| &transition.kind).collect();
    let word: Vec<u8> = (1..=16).collect();
    let reversed: Vec<u8> = (1..=16).rev().collect();
    assert_eq!(kinds, [&Kind::Send { queue: 1, word: word.clone() }, &Kind::Receive { queue: 1, word: reversed }]);
    assert_eq!(session.step(0, 0, &[0]), Some((1, [&[0], &word[..]].concat())));
}

#[test]
fn seventeen_messages_are_refused_at_the_length() {
    for (sent, received, place) in [(17, 16, 12), (16, 17, 34), (17, 17, 12)] {
        let refused = Refusal { number: 5, place };
        assert_eq!(read(&with_words(sent, received)), Err(refused));
        assert_eq!(check(&with_words(sent, received)), Reply::Refused(refused));
    }
    for length in 0..=16 {
        let file = with_words(length, 16 - length);
        assert_eq!(read(&file).and_then(|session| session.write()), Ok(file), "{length}");
    }
}

/// In state 1 the queues hold 0 and then 1 to 16, of which the receive leaves 0.
#[test]
fn contents_that_hold_a_received_word_of_sixteen() {
    let mut file = LONG_HEAD.to_vec();
    file.extend([1, 0, 1, 1, 2, 1, 16]);
    file.extend(1..=16);
    file.extend([19, 1, 0]);
    file.extend((0..17).flat_map(|message| [0, 1, message, message + 2]));
    file.extend([1, 0, 1, 2, 0]);
    let contents: Vec<u8> = (0..=16).collect();
    let reply = check(&file);
    assert_eq!(reply, Reply::Leaves { control: 1, transition: 0, contents: contents.clone(), followed: 1 });
    assert_eq!(reply.to_string(), "leaves 1 0 17 1: 0 1 2 3 4 5 6 7 8 9 10 11 12 13 14 15 16");
    let session = read(&file).expect("it is a session file");
    assert_eq!(session.step(1, 0, &contents), Some((1, vec![0])));
    assert_eq!((member(&file, 1, &contents), member(&file, 1, &[0])), (Ok(true), Ok(false)));
}

#[test]
fn the_session_of_s() {
    let session = read(&hex(S)).expect("S is a session file");
    assert_eq!(session.control_states(), 1);
    assert_eq!((session.start(), session.control_of(&[0]), session.machine_states(0)), (0, Some(0), Some(vec![0])));
    assert_eq!((session.control_of(&[1]), session.control_of(&[]), session.machine_states(1)), (None, None, None));
    assert_eq!(session.queues().iter().map(|queue| queue.messages.clone()).collect::<Vec<_>>(), [0..1, 1..2]);
    assert_eq!((session.queue_of(0), session.queue_of(1), session.queue_of(2)), (Some(0), Some(1), None));
    assert_eq!(session.transitions()[0].kind, Kind::Send { queue: 0, word: vec![0] });
    assert_eq!(session.pool().len(), 2);
    assert!(session.bad_entries().is_empty());
    let root = session.root(0).expect("S has a root");
    let later = session.arc(root, 1).expect("1 may follow");
    assert_ne!(root, later);
    assert_eq!((session.arc(root, 0), session.arc(later, 1), session.arc(later, 0)), (Some(root), Some(later), None));
    assert_eq!(session.split(&[1, 0]), Err(Refusal { number: 13, place: 1 }));
    assert_eq!(session.split(&[0, 2]), Err(Refusal { number: 12, place: 1 }));
    assert_eq!(session.step(0, 0, &[0, 1]), Some((0, vec![0, 0, 1])));
    assert_eq!((session.step(0, 1, &[]), session.step(1, 0, &[]), session.step(0, 0, &[1, 0])), (None, None, None));
}

#[test]
fn samples() {
    let folder = Path::new(env!("CARGO_MANIFEST_DIR")).join("../../samples");
    let sample = |name: &str| std::fs::read(folder.join(name)).expect("the sample is there");
    let lines = [
        ("relay", "closed 4"),
        ("half-duplex", "closed 48"),
        ("alternating-bit", "closed 180"),
        ("producer-consumer", "closed 190"),
        ("producer-consumer-leaves", "leaves 1 16 1 2: 0"),
        ("producer-consumer-bad", "bad 0 1: 4"),
        ("takeover-two-feeds", "bad 0 4: 0 1 3 2"),
        ("takeover-sequenced", "closed 173"),
        ("takeover-resumes", "closed 54"),
        ("takeover-resumes-flawed", "bad 6 1: 0"),
        ("sliding-window", "closed 1080"),
        ("logon-burst", "closed 97"),
        ("logon-burst-leaves", "leaves 3 1 11 11: 0 1 2 3 4 5 6 7 8 9 10"),
    ];
    for (name, line) in lines {
        assert_eq!(check(&sample(&format!("{name}.session"))).to_string(), line, "{name}");
    }
    let takeover = read(&sample("takeover-two-feeds.session")).expect("it is a session file");
    assert_eq!(takeover.machine_states(15), Some(vec![3, 3, 0, 0]));
    assert_eq!(takeover.split(&[0, 1, 3, 2]), Ok(vec![&[0, 1][..], &[3, 2]]));
}

#[test]
fn every_cause_is_explained() {
    let causes: std::collections::HashSet<&str> = (1..=23).map(|number| Refusal { number, place: 0 }.cause()).collect();
    assert_eq!(causes.len(), 23);
    assert_eq!(Refusal { number: 11, place: 0 }.explain(), "the file has no such control state");
    assert_eq!(Refusal { number: 16, place: 0 }.explain(), "no session file is read into these tables");
    assert_eq!(Refusal { number: 17, place: 0 }.explain(), "the buffer is shorter than the file");
    assert_eq!(
        Refusal { number: 23, place: 0 }.explain(),
        "messages are to wait at the start, and all queues start empty"
    );
    let error: Box<dyn std::error::Error> = Box::new(Refusal { number: 5, place: 7 });
    assert_eq!(error.to_string(), "refused 5 at 7");
}
