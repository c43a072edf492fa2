//! Replays that follow from document 02 and the files of document 01, by the types of this crate.

use std::collections::VecDeque;
use std::path::Path;

use swarmbanner::{lent, read, replay, Record, Refusal, Replayed, Replayer};

/// Transition 0 sends message 0, transition 1 receives it; any number may wait.
const R: &str = "02 01 01 00 00 01 01 02 00 00 00 01 00 01 00 01 00 00 02 00 01 00 01 01 01 00 00 01 00";
/// R with another pool: only empty queues, at most one message, nothing at all (cases b, c and d).
const B: &str = "02 01 01 00 00 01 01 02 00 00 00 01 00 01 00 01 00 00 02 00 01 00 01 01 00 01 00";
const C: &str = "02 01 01 00 00 01 01 02 00 00 00 01 00 01 00 01 00 00 02 00 01 00 02 01 01 00 01 01 00 01 00";
const D: &str = "02 01 01 00 00 01 01 02 00 00 00 01 00 01 00 01 00 00 02 00 01 00 01 00 01 00 00 01 00";
/// Queue 0 has message 0, queue 1 message 1; transition 0 sends 0.
const S: &str = "01 01 00 02 01 01 01 00 00 00 01 00 01 00 02 01 02 00 00 01 01 01 01 01 01 01 00";
/// S with a transition that receives 1 (case g).
const G: &str = "01 01 00 02 01 01 01 00 00 00 02 01 01 01 02 01 02 00 00 01 01 01 01 01 01 01 00";
/// One machine of three states, two queues with messages 0, 1 and 2, 3; anything may wait. 0: from 0 to 1, sends 0 1. 1: from 1
/// to 2, sends 3 2. 2: from 2 to 0, receives 0. 3: from 0 to 0, receives 1. 4: from 0 to 0, receives 3 2. 5: from 0 to 2,
/// local. 6: from 0 to 0, receives nothing from queue 1.
const M: &str = "01 03 00 02 02 02 07 00 00 01 01 00 02 00 01 00 01 02 01 01 02 03 02 00 02 00 02 00 01 00 \
                 00 00 00 02 00 01 01 00 00 00 02 01 02 03 02 00 00 02 00 00 00 00 02 01 00 \
                 02 01 04 00 00 01 00 02 01 03 01 01 02 02 01 03 01 01 01 01 00";
/// Transitions 0 and 1 send messages 0 and 1, transitions 2 and 3 receive them.
const TWO: &str =
    "01 01 00 01 02 04 00 00 00 01 00 01 00 00 00 00 01 00 01 01 00 00 00 02 00 01 00 00 00 00 02 00 01 01 \
                   01 01 02 00 00 01 00 01 00";
/// Messages 1 to 16 of queue 1 are sent in one step, from state 0 to 1, where nothing is inside.
const SIXTEEN: &str =
    "01 02 00 02 01 10 01 00 00 01 01 01 10 01 02 03 04 05 06 07 08 09 0a 0b 0c 0d 0e 0f 10 01 01 00 01 00 00";

/// File, trace, and the lines of the command.
const WORKED: [(&str, &str, &str, &str); 38] = [
    (R, "", "end 0", "states: 0 0\nqueue 0 0:"),
    (R, "00", "end 1", "states: 0 0\nqueue 0 1: 0"),
    (R, "00 00 01", "end 3", "states: 0 0\nqueue 0 1: 0"),
    (R, "00 01", "end 2", "states: 0 0\nqueue 0 0:"),
    // a queue that does not begin with the word
    (R, "01", "refused 14 at 0 after 0", "states: 0 0\nqueue 0 0:"),
    (R, "00 00 01 01 01", "refused 14 at 4 after 4", "states: 0 0\nqueue 0 0:"),
    (R, "00 01 01 00", "refused 14 at 2 after 2", "states: 0 0\nqueue 0 0:"),
    // a number that is no transition: 2, 127, 128, 16,383
    (R, "02", "refused 5 at 0 after 0", "states: 0 0\nqueue 0 0:"),
    (R, "00 7f", "refused 5 at 1 after 1", "states: 0 0\nqueue 0 1: 0"),
    (R, "00 80 01", "refused 5 at 1 after 1", "states: 0 0\nqueue 0 1: 0"),
    (R, "ff 7f", "refused 5 at 0 after 0", "states: 0 0\nqueue 0 0:"),
    // bytes that end inside a number; a form that is not allowed, first byte and all
    (R, "80", "refused 3 at 1 after 0", "states: 0 0\nqueue 0 0:"),
    (R, "00 00 ff", "refused 3 at 3 after 2", "states: 0 0\nqueue 0 2: 0 0"),
    (R, "80 00", "refused 4 at 0 after 0", "states: 0 0\nqueue 0 0:"),
    (R, "00 81 00", "refused 4 at 1 after 1", "states: 0 0\nqueue 0 1: 0"),
    (R, "00 80 80 01", "refused 4 at 1 after 1", "states: 0 0\nqueue 0 1: 0"),
    (R, "82 80", "refused 4 at 0 after 0", "states: 0 0\nqueue 0 0:"),
    // outside is asked before the next number and before the end
    (B, "", "end 0", "states: 0 0\nqueue 0 0:"),
    (B, "00", "outside 1 0", "states: 0 0\nqueue 0 1: 0"),
    (B, "00 80", "outside 1 0", "states: 0 0\nqueue 0 1: 0"),
    (B, "01", "refused 14 at 0 after 0", "states: 0 0\nqueue 0 0:"),
    (C, "00 01 00 01 00", "end 5", "states: 0 0\nqueue 0 1: 0"),
    (C, "00 01 00 00 01", "outside 4 1", "states: 0 0\nqueue 0 2: 0 0"),
    (D, "", "outside 0 0", "states: 0 0\nqueue 0 0:"),
    (D, "80", "outside 0 0", "states: 0 0\nqueue 0 0:"),
    (D, "00 01", "outside 0 0", "states: 0 0\nqueue 0 0:"),
    (S, "00 00", "end 2", "states: 0\nqueue 0 2: 0 0\nqueue 1 0:"),
    (G, "00", "refused 14 at 0 after 0", "states: 0\nqueue 0 0:\nqueue 1 0:"),
    // two queues, words of two, words that are empty, states that move
    (M, "00 01", "end 2", "states: 2\nqueue 0 2: 0 1\nqueue 1 2: 3 2"),
    (M, "00 01 02 03 04", "end 5", "states: 0\nqueue 0 0:\nqueue 1 0:"),
    (M, "00 01 02 04 03 06 06", "end 7", "states: 0\nqueue 0 0:\nqueue 1 0:"),
    (M, "00 01 02 00", "end 4", "states: 1\nqueue 0 3: 1 0 1\nqueue 1 2: 3 2"),
    (M, "00 00", "refused 14 at 1 after 1", "states: 1\nqueue 0 2: 0 1\nqueue 1 0:"),
    (M, "05 02", "refused 14 at 1 after 1", "states: 2\nqueue 0 0:\nqueue 1 0:"),
    (M, "00 01 02 00 01 02", "refused 14 at 5 after 5", "states: 2\nqueue 0 3: 1 0 1\nqueue 1 4: 3 2 3 2"),
    (M, "05 05", "refused 14 at 1 after 1", "states: 2\nqueue 0 0:\nqueue 1 0:"),
    (SIXTEEN, "00", "outside 1 0", "states: 1\nqueue 0 0:\nqueue 1 16: 1 2 3 4 5 6 7 8 9 10 11 12 13 14 15 16"),
    (TWO, "00 01 03", "refused 14 at 2 after 2", "states: 0\nqueue 0 2: 0 1"),
];

fn hex(text: &str) -> Vec<u8> {
    text.split_whitespace().map(|byte| u8::from_str_radix(byte, 16).expect("two hexadecimal digits")).collect()
}

#[test]
fn worked_cases_print_their_lines() {
    let mut replayer = Replayer::new();
    for (file, trace, line, lines) in WORKED {
        assert_eq!(replayer.replay(&hex(file), &hex(trace)).to_string(), line, "{trace}");
        let last = replayer.last().expect("something was replayed");
        assert_eq!(last.to_string(), lines, "{trace}");
    }
}

/// Dirt in memory and record does not matter, what lies after the queues of the file is kept, and heads are 0.
#[test]
fn memory_and_record() {
    let mut replayer = Replayer::new();
    for (file, trace, line, _) in WORKED {
        let (file, trace) = (hex(file), hex(trace));
        let (mut memory, mut record) = ([7; 5000], Record { states: [9; 4], heads: [9; 4], lengths: [9; 4] });
        assert_eq!(replay(&file, &trace, &mut memory, &mut record).to_string(), line);
        replayer.replay(&file, &trace);
        let last = replayer.last().expect("something was replayed");
        let (mut states, mut lengths, mut bytes) = ([0; 4], [0; 4], vec![]);
        states[..last.states.len()].copy_from_slice(last.states);
        for (queue, messages) in last.queues.iter().enumerate() {
            lengths[queue] = messages.len();
            bytes.extend(*messages);
            bytes.resize(1024 * (queue + 1), 0);
        }
        assert_eq!(record, Record { states, heads: [0; 4], lengths });
        bytes.resize(5000, 7);
        assert_eq!(memory[..], bytes[..], "{trace:?}");
    }
}

#[test]
fn a_queue_of_1024_and_one_more() {
    let mut replayer = Replayer::new();
    assert_eq!(replayer.replay(&hex(R), &[0; 1024]).to_string(), "end 1024");
    assert_eq!(replayer.last().expect("it ran").queues, [&[0; 1024][..]]);
    for length in [1025, 2000, 16_384] {
        let replayed = replayer.replay(&hex(R), &vec![0; length]);
        assert_eq!(replayed.to_string(), "refused 15 at 1024 after 1024");
        assert_eq!(replayer.last().expect("it ran").queues, [&[0; 1024][..]]);
    }
    // one is taken, and there is room again; 14 comes before 15, and a receive asks for no room
    let mut trace = vec![0; 1024];
    trace.extend([1, 0, 0]);
    assert_eq!(replayer.replay(&hex(R), &trace).to_string(), "refused 15 at 1026 after 1026");
}

/// A word of sixteen is turned away whole where it has no room, and taken where it has just enough.
#[test]
fn a_word_without_room() {
    // 0 sends 0 once, 1 sends it sixteen times, anything may wait
    let mut file = hex("01 01 00 01 01 02 00 00 00 01 00 01 00 00 00 00 01 00 10");
    file.extend([0; 16]);
    file.extend(hex("01 01 01 00 00 01 00"));
    let mut replayer = Replayer::new();
    assert_eq!(replayer.replay(&file, &[1; 64]).to_string(), "end 64");
    assert_eq!(replayer.last().expect("it ran").queues[0].len(), 1024);
    assert_eq!(replayer.replay(&file, &[1; 65]).to_string(), "refused 15 at 64 after 64");
    let with_one = [&[0][..], &[1; 64]].concat();
    assert_eq!(replayer.replay(&file, &with_one).to_string(), "refused 15 at 64 after 64");
    assert_eq!(replayer.last().expect("it ran").queues[0].len(), 1009);
}

/// Long traces over a queue that goes round its bytes many times, beside a queue of the standard library. The last number of the
/// longest trace receives a message that is not the oldest.
#[test]
fn a_queue_that_goes_round() {
    for waiting in [1, 2, 700, 1023, 1024] {
        let (mut trace, mut queue, mut noise) = (vec![], VecDeque::new(), 7u32);
        while trace.len() < 16_383 {
            noise = noise.wrapping_mul(1_103_515_245).wrapping_add(12_345);
            if queue.len() < waiting {
                let message = (noise >> 16) as u8 % 2;
                trace.push(message);
                queue.push_back(message);
            } else {
                trace.push(2 + queue.pop_front().expect("it is full"));
            }
        }
        let mut replayer = Replayer::new();
        assert_eq!(replayer.replay(&hex(TWO), &trace), Replayed::End { steps: 16_383 });
        assert_eq!(replayer.last().expect("it ran").queues, [queue.make_contiguous() as &[u8]], "{waiting}");
        trace.push(3 - queue.front().expect("a message waits"));
        let refused = Replayed::Refused { refusal: Refusal { number: 14, place: 16_383 }, steps: 16_383 };
        assert_eq!(replayer.replay(&hex(TWO), &trace), refused, "{waiting}");
        assert_eq!(replayer.last().expect("it ran").queues, [queue.make_contiguous() as &[u8]], "{waiting}");
    }
}

#[test]
fn a_trace_that_is_too_long() {
    let to_and_fro: Vec<u8> = (0..16_385).map(|step| step % 2).map(|number: u16| number as u8).collect();
    let mut replayer = Replayer::new();
    assert_eq!(replayer.replay(&hex(R), &to_and_fro[..16_384]).to_string(), "end 16384");
    assert_eq!(replayer.replay(&hex(R), &to_and_fro).to_string(), "trace refused 1 at 16384");
    assert_eq!(replayer.last(), None);
    assert_eq!(replayer.replay(&hex(D), &[0x80; 20_000]).to_string(), "trace refused 1 at 16384");
}

/// The file's refusal is told before the trace's, and that before the memory's; after each record and memory are as before.
#[test]
fn refusals_in_turn() {
    let dirty = Record { states: [1, 2, 3, 4], heads: [5, 6, 7, 8], lengths: [9, 10, 11, 12] };
    let told = |file: &str, trace: usize, length: usize| {
        let (mut memory, mut record) = (vec![7; length], dirty);
        let replayed = replay(&hex(file), &vec![0; trace], &mut memory, &mut record);
        assert_eq!((record, memory), (dirty, vec![7; length]));
        assert_eq!(replayed.steps(), None);
        replayed.to_string()
    };
    assert_eq!(told("", 16_385, 0), "file refused 3 at 0");
    assert_eq!(told("09", 0, 4096), "file refused 5 at 0");
    assert_eq!(told("05 01 00 01 01 00", 16_385, 0), "file refused 23 at 0");
    assert_eq!(told(&R[..84], 16_385, 0), "file refused 3 at 28");
    assert_eq!(told(R, 16_385, 0), "trace refused 1 at 16384");
    assert_eq!(told(R, 16_385, 4096), "trace refused 1 at 16384");
    // 1,024 bytes for each queue of the file; the start of D is outside, which is not looked at
    for (file, queues) in [(R, 1), (D, 1), (S, 2), (M, 2)] {
        for length in [0, 1, 1023, 1024 * queues - 1] {
            assert_eq!(told(file, 1, length), "memory refused 2 at 0", "{length}");
        }
        let (mut memory, mut record) = (vec![7; 1024 * queues], dirty);
        assert!(replay(&hex(file), &[], &mut memory, &mut record).steps().is_some());
    }
    let long = vec![1; 16_385];
    let (mut memory, mut record) = ([7; 10], dirty);
    assert_eq!(replay(&long, &long, &mut memory, &mut record).to_string(), "file refused 1 at 16384");
    assert_eq!((memory, record), ([7; 10], dirty));
}

#[test]
fn no_room_touches_nothing() {
    for (record_length, reply_length) in (0..12).map(|length| (length, 4)).chain((0..4).map(|length| (12, length))) {
        let (mut memory, mut record, mut reply) = ([7; 1024], vec![8; record_length], vec![9; reply_length]);
        let kind = lent::replay(&hex(R), &[0], &mut memory, &mut record, &mut reply);
        assert_eq!(kind, lent::NO_ROOM);
        assert_eq!((memory, record, reply), ([7; 1024], vec![8; record_length], vec![9; reply_length]));
        let kind = lent::replay(&[], &[0; 16_385], &mut [], &mut vec![8; record_length], &mut vec![9; reply_length]);
        assert_eq!(kind, lent::NO_ROOM, "before all else");
    }
}

#[test]
fn entries_after_the_least_are_kept() {
    let (mut memory, mut record, mut reply) = ([7; 1030], [8; 15], [9; 6]);
    assert_eq!(lent::replay(&hex(R), &[0, 0], &mut memory, &mut record, &mut reply), lent::END);
    assert_eq!(record, [0, 0, 0, 0, 0, 0, 0, 0, 2, 0, 0, 0, 8, 8, 8]);
    assert_eq!(reply, [2, 0, 0, 0, 9, 9]);
    assert_eq!((&memory[..1024], &memory[1024..]), (&[0; 1024][..], &[7; 6][..]));
    for (trace, kind, front) in
        [(&[0, 1, 1][..], lent::STEP_REFUSED, [14, 2, 2, 0]), (&[0; 16_385], 12, [1, 16_384, 0, 0])]
    {
        assert_eq!(lent::replay(&hex(R), trace, &mut memory, &mut record, &mut reply), kind);
        assert_eq!((&reply[..4], &reply[4..]), (&front[..], &[9, 9][..]));
    }
    assert_eq!(lent::replay(&hex(B), &[0], &mut memory, &mut record, &mut reply), lent::LEFT);
    assert_eq!(reply, [1, 0, 0, 0, 9, 9]);
    assert_eq!(lent::replay(&hex(B), &[0], &mut [], &mut record, &mut reply), lent::MEMORY_REFUSED);
    assert_eq!(reply, [2, 0, 0, 0, 9, 9]);
    assert_eq!(lent::replay(&[], &[0], &mut [], &mut record, &mut reply), lent::REFUSED);
    assert_eq!(reply, [3, 0, 0, 0, 9, 9]);
}

/// What was replayed is what the session's own steps give, on the traces kept beside the samples.
#[test]
fn samples() {
    let folder = Path::new(env!("CARGO_MANIFEST_DIR")).join("../../samples");
    let sample = |name: &str| std::fs::read(folder.join(name)).expect("the sample is there");
    let lines = [
        ("takeover-two-feeds", "end 4", "states: 3 3 0 0\nqueue 0 2: 0 1\nqueue 1 2: 3 2"),
        ("takeover-sequenced", "end 8", "states: 4 0 0\nqueue 0 0:\nqueue 1 0:"),
        ("takeover-resumes", "end 8", "states: 2 2\nqueue 0 0:\nqueue 1 0:"),
        ("takeover-resumes-flawed", "end 3", "states: 2 1\nqueue 0 1: 0\nqueue 1 0:"),
        ("producer-consumer-leaves", "outside 3 2", "states: 0 1\nqueue 0 2: 0 1\nqueue 1 0:\nqueue 2 0:"),
    ];
    let mut replayer = Replayer::new();
    for (name, line, lines) in lines {
        let (file, trace) = (sample(&format!("{name}.session")), sample(&format!("{name}.trace")));
        assert_eq!(replayer.replay(&file, &trace).to_string(), line, "{name}");
        let last = replayer.last().expect("something was replayed");
        assert_eq!(last.to_string(), lines, "{name}");
        let session = read(&file).expect("it is a session file");
        let start = (session.start(), session.starting());
        let stepped = trace.iter().fold(start, |(control, contents), &number| {
            session.step(control, number.into(), &contents).expect("the step can be taken")
        });
        assert_eq!((session.control_of(last.states), last.contents()), (Some(stepped.0), stepped.1), "{name}");
    }
}

#[test]
fn ends_in_words() {
    let mut replayer = Replayer::new();
    let mut told = |file: &str, trace: &[u8]| replayer.replay(&hex(file), trace).explain();
    assert_eq!(told(R, &[0]), "the trace is at its end, and every configuration is inside the map");
    assert_eq!(told(B, &[0]), "the last configuration is outside the map; its set follows 0 messages of what waits");
    assert_eq!(told(C, &[0, 0]), "the last configuration is outside the map; its set follows 1 message of what waits");
    assert_eq!(told(R, &[0, 128]), "the bytes end inside a number (at byte 2 of the trace)");
    assert_eq!(told(R, &[2]), "a number is no transition of the file (at byte 0 of the trace)");
    assert_eq!(
        told(R, &[0, 1, 1]),
        "the machine is in another state, or the queue does not begin with the word (at byte 2 of the trace)"
    );
    assert_eq!(told(R, &[0; 1025]), "a queue would pass 1,024 messages (at byte 1024 of the trace)");
    assert_eq!(told("", &[]), "the bytes end before a number or inside one (at byte 0 of the file)");
    assert_eq!(told(R, &[0; 16_385]), "the trace has more than 16,384 bytes");
    let short = replay(&hex(R), &[], &mut [], &mut Record::default());
    assert_eq!(short.explain(), "the queues of the file want 1,024 bytes of memory each");
    assert_eq!(Refusal { number: 14, place: 3 }.to_string(), "refused 14 at 3");
    assert!(Refusal { number: 15, place: 3 }.explain().ends_with("(at byte 3 of the trace)"));
}

#[test]
fn a_replayer_before_and_between() {
    let mut replayer = Replayer::new();
    assert_eq!(replayer.last(), None, "nothing was replayed");
    replayer.replay(&hex(M), &[0]);
    assert_eq!(
        format!("{replayer:?}"),
        "Replayer { last: Some(Configuration { states: [1], queues: [[0, 1], []] }), .. }"
    );
    replayer.replay(&[], &[0]);
    assert_eq!(replayer.last(), None, "the file was refused");
    replayer.replay(&hex(R), &[0]);
    assert_eq!(replayer.last().expect("it ran").to_string(), "states: 0 0\nqueue 0 1: 0");
}
