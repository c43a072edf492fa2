//! Sessions that start with messages in their queues, by the types of this crate: both forms of a file, and what is refused where.

use swarmbanner::lent::{self, at};
use swarmbanner::{check, member, membership, read, Membership, Refusal, Replayer, Reply, Session};

/// File R, in which one machine sends message 0 and another receives it; any number may wait.
const R: &str = "02 01 01 00 00 01 01 02 00 00 00 01 00 01 00 01 00 00 02 00 01 00 01 01 01 00 00 01 00";
/// R, and two messages wait at the start.
const R_TWO: &str = "06 01 01 00 00 01 01 02 00 00 02 00 00 00 01 00 01 00 01 00 00 02 00 01 00 01 01 01 00 00 01 00";

/// One machine of one state, queue 0 with messages 0 and 1, queue 1 with 2; fields 3 to 6 after what the queues start with: 0 is
/// received and 2 sent, and inside are 0, 0 2 and 0 2 2.
const MODEL: &str = "05 01 00 02 02 01";
const REST: &str = "02 00 00 00 02 00 01 00 00 00 00 01 01 01 02 04 00 01 00 01 01 01 02 02 01 01 02 03 01 00 01 00";

fn hex(text: &str) -> Vec<u8> {
    text.split_whitespace().map(|byte| u8::from_str_radix(byte, 16).expect("two hexadecimal digits")).collect()
}

/// The file whose queues start with what these bytes say.
fn starting(bytes: &str) -> Vec<u8> {
    hex(&format!("{MODEL} {bytes} {REST}"))
}

#[test]
fn what_waits_is_read() {
    let session = read(&starting("01 00 02 02 02")).expect("it is a session file");
    assert_eq!(session.machines().len(), 1);
    assert_eq!(session.queues()[0].starting, [0]);
    assert_eq!(session.queues()[1].starting, [2, 2]);
    assert_eq!(session.starting(), [0, 2, 2]);
    assert_eq!(session.split(&session.starting()), Ok(vec![&[0][..], &[2, 2]]));
    assert!(read(&hex(R)).expect("R is a session file").starting().is_empty());
}

/// The machines are those that the first number says, less 4.
#[test]
fn up_to_four_machines() {
    for machines in 1..=4 {
        let model = |first: usize| [vec![first as u8], vec![1; machines], vec![0; machines], vec![1, 1]].concat();
        let rest = [0, 1, 1, 1, 0, 0, 1, 0];
        let (old, new) =
            ([model(machines), rest.to_vec()].concat(), [model(machines + 4), vec![1, 0], rest.to_vec()].concat());
        assert_eq!(read(&new).map(|session| session.machines().len()), Ok(machines));
        let mut session = read(&old).expect("it is a session file");
        session.set_starting(0, &[0]).expect("it is a message of the queue");
        assert_eq!(session.write(), Ok(new));
    }
}

#[test]
fn places_in_the_tables() {
    let (mut space, mut reply) = ([5; lent::SPACE_LEAST + 1], [9; 4]);
    assert_eq!(lent::read(&starting("08 00 01 00 01 01 00 00 01 01 02"), &mut space, &mut reply), lent::READ);
    assert_eq!((at::LENGTHS, at::CONTENTS, at::TRANSITIONS), (18, 22, 54));
    assert_eq!(space[14..22], [2, 1, 0, 0, 8, 1, 0, 0]);
    assert_eq!(space[22..38], [0, 1, 0, 1, 1, 0, 0, 1, 2, 0, 0, 0, 0, 0, 0, 0]);
    assert_eq!(space[38..54], [0; 16]);
    assert_eq!((&space[54..61], space[lent::SPACE_LEAST]), (&[0, 0, 0, 2, 0, 1, 0][..], 5));
    assert_eq!(lent::read(&hex(R), &mut space, &mut reply), lent::READ);
    assert_eq!(space[18..54], [0; 36], "nothing is left of another file");
}

/// The start is judged with what waits then, and nothing else of the verdict changes.
#[test]
fn verdicts() {
    for (bytes, line) in [
        ("01 00 00", "leaves 0 0 1 0: 0"),
        ("01 00 02 02 02", "leaves 0 0 1 0: 0"),
        ("01 00 03 02 02 02", "outside"),
        ("02 00 00 00", "outside"),
        ("01 01 00", "outside"),
        ("00 01 02", "outside"),
    ] {
        let file = starting(bytes);
        assert_eq!(check(&file).to_string(), line, "{bytes}");
        let start = read(&file).expect("it is a session file").starting();
        assert_eq!(member(&file, 0, &start), Ok(line != "outside"), "{bytes}");
    }
    assert_eq!(check(&hex(R_TWO)).to_string(), "closed 4");
}

/// Membership is asked about contents, and does not go by the start.
#[test]
fn membership_is_as_without_them() {
    let (one, other) = (starting("01 00 00"), starting("00 08 02 02 02 02 02 02 02 02"));
    for contents in [&[][..], &[0], &[0, 2], &[0, 2, 2], &[0, 2, 2, 2], &[2], &[2, 0], &[3]] {
        assert_eq!(membership(&one, 0, contents), membership(&other, 0, contents));
    }
    assert_eq!(membership(&one, 0, &[0, 2, 2, 2]), Ok(Membership { is_inside: false, followed: 3 }));
}

#[test]
fn replays_begin_with_them() {
    let mut replayer = Replayer::new();
    for (file, trace, line, lines) in [
        (hex(R_TWO), &[][..], "end 0", "states: 0 0\nqueue 0 2: 0 0"),
        (hex(R_TWO), &[1, 1, 0], "end 3", "states: 0 0\nqueue 0 1: 0"),
        (hex(R_TWO), &[1, 1, 1], "refused 14 at 2 after 2", "states: 0 0\nqueue 0 0:"),
        (starting("01 00 00"), &[1, 1, 1], "outside 3 3", "states: 0\nqueue 0 1: 0\nqueue 1 3: 2 2 2"),
        (starting("01 00 01 02"), &[0], "outside 1 0", "states: 0\nqueue 0 0:\nqueue 1 1: 2"),
        (starting("01 00 03 02 02 02"), &[0], "outside 0 3", "states: 0\nqueue 0 1: 0\nqueue 1 3: 2 2 2"),
        (starting("03 00 01 00 00"), &[], "outside 0 1", "states: 0\nqueue 0 3: 0 1 0\nqueue 1 0:"),
    ] {
        assert_eq!(replayer.replay(&file, trace).to_string(), line);
        assert_eq!(replayer.last().expect("something was replayed").to_string(), lines);
    }
    // there is room for as many as a queue takes less those that wait
    assert_eq!(replayer.replay(&hex(R_TWO), &[0; 1022]).to_string(), "end 1022");
    assert_eq!(replayer.replay(&hex(R_TWO), &[0; 1023]).to_string(), "refused 15 at 1022 after 1022");
}

#[test]
fn the_form_goes_by_what_waits() {
    let mut session = read(&hex(R)).expect("R is a session file");
    session.set_starting(0, &[0, 0]).expect("it is a message of the queue");
    assert_eq!(session.write(), Ok(hex(R_TWO)));
    assert_eq!(read(&hex(R_TWO)), Ok(session.clone()));
    session.set_starting(0, &[]).expect("a queue may start empty");
    assert_eq!(session.write(), Ok(hex(R)));
    for bytes in ["01 00 00", "00 01 02", "08 01 01 01 01 01 01 01 01 08 02 02 02 02 02 02 02 02"] {
        let file = starting(bytes);
        assert_eq!(read(&file).and_then(|session| session.write()), Ok(file), "{bytes}");
    }
}

/// What is refused, and where: at each number 3, 4, 5 and 7 in this order, from left to right; 23 once all are read, and before all
/// that follows.
#[test]
fn refusals() {
    for (file, line) in [
        ("00", "refused 5 at 0"),
        ("09", "refused 5 at 0"),
        ("80 01", "refused 5 at 0"),
        ("85 00", "refused 4 at 0"),
        ("05", "refused 3 at 1"),
        ("08 01 01 01 01 00 00 00", "refused 3 at 8"),
        ("07 10 10 02", "refused 6 at 3"),
        // the length: missing, cut, in a longer form, too large; so of the second queue
        ("05 01 00 02 02 01", "refused 3 at 6"),
        ("05 01 00 02 02 01 88", "refused 3 at 7"),
        ("05 01 00 02 02 01 88 00", "refused 4 at 6"),
        ("05 01 00 02 02 01 09", "refused 5 at 6"),
        ("05 01 00 02 02 01 80 01", "refused 5 at 6"),
        ("05 01 00 02 02 01 02 00 01", "refused 3 at 9"),
        ("05 01 00 02 02 01 02 00 01 09", "refused 5 at 9"),
        // a message: the same, of another queue after it and before it
        ("05 01 00 02 02 01 01", "refused 3 at 7"),
        ("05 01 00 02 02 01 01 80", "refused 3 at 8"),
        ("05 01 00 02 02 01 01 81 00", "refused 4 at 7"),
        ("05 01 00 02 02 01 02 00 03", "refused 5 at 8"),
        ("05 01 00 02 02 01 02 00 02", "refused 7 at 8"),
        ("05 01 00 02 02 01 00 01 01", "refused 7 at 8"),
        ("05 01 00 02 02 01 00 01 03", "refused 5 at 8"),
        // the first that is wrong
        ("05 01 00 02 02 01 02 02 03", "refused 7 at 7"),
        ("05 01 00 02 02 01 00 09", "refused 5 at 7"),
        // nothing waits: at once where there is more, or nothing more
        ("05 01 00 02 02 01 00 00", "refused 23 at 0"),
        ("05 01 00 02 02 01 00 00 ff ff ff", "refused 23 at 0"),
        ("08 01 01 01 01 00 00 00 00 04 01 01 01 01 00 00 00 00", "refused 23 at 0"),
        ("08 01 01 01 01 00 00 00 00 04 01 01 01 01 00 00 00", "refused 3 at 17"),
        // field 3 after it
        ("05 01 00 02 02 01 00 01 02", "refused 3 at 9"),
        ("05 01 00 02 02 01 00 01 02 82 01", "refused 5 at 9"),
    ] {
        let file = hex(file);
        let refusal = read(&file).expect_err(line);
        assert_eq!(refusal.to_string(), line);
        assert_eq!(check(&file), Reply::Refused(refusal));
        assert_eq!(member(&file, 0, &[]), Err(refusal));
        assert_eq!(Replayer::new().replay(&file, &[]).to_string(), format!("file {line}"));
    }
}

/// 1 and 2 come before 23, and tables are kept after it.
#[test]
fn an_empty_start_beside_other_refusals() {
    let file = hex("05 01 00 01 01 00");
    let (mut space, mut reply) = ([5; lent::SPACE_LEAST], [9; 4]);
    assert_eq!(lent::read(&file, &mut space, &mut reply), lent::REFUSED);
    assert_eq!((reply, space), ([23, 0, 0, 0], [5; lent::SPACE_LEAST]));
    assert_eq!(lent::check(&file, &mut [], &mut [], &mut [], &mut reply), lent::REFUSED);
    assert_eq!(reply, [2, 0, 0, 0]);
    let mut long = file.clone();
    long.resize(16_385, 0);
    assert_eq!(read(&long), Err(Refusal { number: 1, place: 16_384 }));
    long.pop();
    assert_eq!(read(&long), Err(Refusal { number: 23, place: 0 }));
}

/// Tables that say something of a start that no file has.
#[test]
fn starts_that_no_file_has() {
    let (mut tables, mut reply) = ([0; lent::SPACE_LEAST], [9; 4]);
    assert_eq!(lent::read(&starting("01 00 01 02"), &mut tables, &mut reply), lent::READ);
    let write = |place: usize, entry: u8| {
        let (mut damaged, mut buffer, mut reply) = (tables, vec![0xaa; 60], [9; 4]);
        damaged[place] = entry;
        let kind = lent::write(&damaged, &mut buffer, &mut reply);
        (kind, reply, buffer.iter().all(|&byte| byte == 0xaa))
    };
    for (place, entry) in [
        (at::LENGTHS, 9),
        (at::LENGTHS, 255),
        (at::LENGTHS + 1, 0),
        (at::LENGTHS + 1, 2),
        (at::LENGTHS + 2, 1),
        (at::LENGTHS + 3, 1),
        (at::CONTENTS, 2),
        (at::CONTENTS, 3),
        (at::CONTENTS + 1, 1),
        (at::CONTENTS + 7, 1),
        (at::CONTENTS + 8, 1),
        (at::CONTENTS + 9, 2),
        (at::CONTENTS + 16, 1),
        (at::CONTENTS + 31, 1),
    ] {
        assert_eq!(write(place, entry), (lent::REFUSED, [16, 0, 0, 0], true), "{entry} at {place}");
    }
    // and some that one has; message 0 beyond a length is like nothing
    for (place, entry) in [(at::LENGTHS, 0), (at::LENGTHS, 2), (at::LENGTHS, 8), (at::CONTENTS, 1)] {
        assert_eq!(write(place, entry).0, lent::WRITTEN, "{entry} at {place}");
    }
}

/// A session without the messages that it starts with is another one.
#[test]
fn sessions_are_told_apart() {
    let session = |bytes: &str| -> Session { read(&starting(bytes)).expect("it is a session file") };
    assert_ne!(session("01 00 00"), session("02 00 00 00"));
    assert_ne!(session("02 00 01 00"), session("02 01 00 00"));
    assert_ne!(session("01 00 00"), session("01 00 01 02"));
}
