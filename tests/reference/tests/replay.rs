//! Replays, against traces worked by hand from the documents.

use reference_checker::coverage::replay_coverage;
use reference_checker::digest::{memory_digest, replay_line};
use reference_checker::generate::document::{cases, hex, R, S};
use reference_checker::generate::replay::{replay_cases, Case, SESSIONS};
use reference_checker::read::read;
use reference_checker::replay::{replay, Answer, Configuration, Lent, Record, Reply};
use reference_checker::replay_traps::{replay_with, ReplayTrap};
use reference_checker::rings::replay_in_rings;
use reference_checker::stream::{put_replay, Records, Replay};
use reference_checker::verdict::Verdict;
use reference_checker::walk::{check, Scratch};

/// Two machines of two states that start in 1 and 0, two queues of the messages 0, 1 and 2, 3, and everything inside.
/// 0: the first machine sends 0 1 and goes to 0. 1: the second receives 0 and goes to 1. 2: it receives 0 1 and stays
/// in 0. 3: the first machine goes from 0 to 1 by itself. 4: it sends 3 in state 1. 5: the second receives nothing from
/// queue 1 in state 1 and goes to 0. 6: the first sends nothing to queue 0 in state 1.
const TWO_AND_TWO: &str = "02 02 02 01 00  02 02 02  07
    00 01 00 01 00 02 00 01  01 00 01 02 00 01 00  01 00 00 02 00 02 00 01  00 00 01 00
    00 01 01 01 01 01 03  01 01 00 02 01 00  00 01 01 01 00 00
    02 01 04 00 00 01 00 02 01 03 01 01 02 02 01 03 01  01 01 01 01  00";

/// One machine and one queue of the message 0. 0: it sends a word of sixteen. 1: it sends one message. 2: it receives a
/// word of sixteen. 3: it receives one message. 4: it sends nothing.
const SIXTEEN: &str = "01 01 00  01 01  05
    00 00 00 01 00 10 00 00 00 00 00 00 00 00 00 00 00 00 00 00 00 00
    00 00 00 01 00 01 00
    00 00 00 02 00 10 00 00 00 00 00 00 00 00 00 00 00 00 00 00 00 00
    00 00 00 02 00 01 00
    00 00 00 01 00 00
    01 01 01 00 00  01  00";

/// One machine and one queue of the messages 0, 1, 2. 0, 1, 2: it sends one of them. 3: it receives 0 1. 4: it receives
/// nothing.
const ONE_BY_ONE: &str = "01 01 00  01 03  05
    00 00 00 01 00 01 00  00 00 00 01 00 01 01  00 00 00 01 00 01 02
    00 00 00 02 00 02 00 01  00 00 00 02 00 00  01 01 03 00 00 01 00 02 00  01  00";

/// The set of the one control state has at most two messages. 0 sends one, 1 receives one.
const AT_MOST_TWO: &str = "01 01 00  01 01  02  00 00 00 01 00 01 00  00 00 00 02 00 01 00
    03 01 01 00 01 01 01 00 02 01 00  01  00";

/// What is lent is dirty, and nothing in it is 0.
fn lent(memory_length: usize) -> Lent {
    let record = Record { states: [251, 252, 253, 254], heads: [1, 2, 3, 4], lengths: [5_000, 6, 7, 8] };
    Lent { record, memory: (0..memory_length).map(|i| (i % 255) as u8 + 1).collect() }
}

/// By every way to replay.
fn answer_with(file: &[u8], trace: &[u8], lent: &Lent) -> Answer {
    let answer = replay(file, trace, lent);
    assert_eq!(replay_with(file, trace, lent, None), answer, "in place");
    let mut in_rings = lent.clone();
    let reply = replay_in_rings(&mut in_rings.record, file, trace, &mut in_rings.memory);
    assert_eq!(Answer { reply, lent: in_rings }, answer, "in rings");
    answer
}

fn answer(file: &str, trace: &[u8]) -> Answer {
    answer_with(&hex(file), trace, &lent(5_000))
}

fn reply(file: &str, trace: &[u8]) -> String {
    answer(file, trace).reply.to_string()
}

/// Asserts the reply, that the record and the queues are in the form of the end, and that the memory past them is kept.
fn assert_replay(file: &str, trace: &[u8], expected: &str, states: &[u8], queues: &[&[u8]]) {
    let Answer { reply, lent: Lent { record, memory } } = answer(file, trace);
    assert_eq!(reply.to_string(), expected);
    let mut ended = Record::default();
    ended.states[..states.len()].copy_from_slice(states);
    for (length, queue) in ended.lengths.iter_mut().zip(queues) {
        *length = queue.len();
    }
    assert_eq!(record, ended, "{expected}");
    let (rooms, past) = memory.split_at(1_024 * queues.len());
    for (room, queue) in rooms.chunks(1_024).zip(queues) {
        assert_eq!(&room[..queue.len()], *queue, "{expected}");
        assert!(room[queue.len()..].iter().all(|&byte| byte == 0), "{expected}");
    }
    assert_eq!(past, &lent(5_000).memory[1_024 * queues.len()..], "{expected}");
}

/// Asserts the reply, and that what is lent stays.
fn assert_untouched(file: &[u8], trace: &[u8], memory_length: usize, expected: &str) {
    let lent = lent(memory_length);
    let answer = answer_with(file, trace, &lent);
    assert_eq!(answer.reply.to_string(), expected);
    assert_eq!(answer.lent, lent, "{expected}");
}

#[test]
fn runs_to_the_end() {
    assert_replay(R, &[], "end 0", &[0, 0], &[&[]]);
    assert_replay(R, &[0], "end 1", &[0, 0], &[&[0]]);
    assert_replay(R, &[0, 0, 1, 0], "end 4", &[0, 0], &[&[0, 0]]);
    assert_replay(S, &[0, 0], "end 2", &[0], &[&[0, 0], &[]]);
    assert_replay(TWO_AND_TWO, &[], "end 0", &[1, 0], &[&[], &[]]);
    assert_replay(TWO_AND_TWO, &[0, 3, 4, 4], "end 4", &[1, 0], &[&[0, 1], &[3, 3]]);
    assert_replay(TWO_AND_TWO, &[4, 0, 3, 0, 2, 1], "end 6", &[0, 1], &[&[1], &[3]]);
}

#[test]
fn empty_words_move_machines() {
    assert_replay(TWO_AND_TWO, &[0, 1, 5], "end 3", &[0, 0], &[&[1], &[]]);
    assert_replay(TWO_AND_TWO, &[6, 6], "end 2", &[1, 0], &[&[], &[]]);
}

#[test]
fn outside_the_map() {
    assert_replay(AT_MOST_TWO, &[0, 0, 0, 1], "outside 3 2", &[0], &[&[0, 0, 0]]);
    assert_replay(AT_MOST_TWO, &[0, 0, 1, 0, 0, 0], "outside 5 2", &[0], &[&[0, 0, 0]]);
    // Before the end, and before the next number is read.
    assert_replay(AT_MOST_TWO, &[0, 0, 0], "outside 3 2", &[0], &[&[0, 0, 0]]);
    for next in [&[128][..], &[128, 0], &[255, 255], &[2], &[0]] {
        assert_replay(AT_MOST_TWO, &[&[0, 0, 0], next].concat(), "outside 3 2", &[0], &[&[0, 0, 0]]);
    }
}

#[test]
fn outside_at_the_start() {
    // Case d: the only state is not final. Then a file whose control state has no root.
    let not_final = "02 01 01 00 00 01 01 02 00 00 00 01 00 01 00 01 00 00 02 00 01 00 01 00 01 00 00 01 00";
    let rootless = "02 01 01 00 00 01 01 02 00 00 00 01 00 01 00 01 00 00 02 00 01 00 01 01 01 00 00 00 00";
    for file in [not_final, rootless] {
        for trace in [&[][..], &[0], &[9], &[128], &[128, 0]] {
            assert_replay(file, trace, "outside 0 0", &[0, 0], &[&[]]);
        }
    }
}

#[test]
fn the_control_state_is_asked() {
    // Machines of two and three states. Only control state 5, which is (1, 2), and the start have a root.
    let file = "02 02 03 00 00  01 01  03  00 00 01 00  01 00 01 00  01 01 02 00  01 01 00";
    let reply_with = |roots: &str, trace: &[u8]| reply(&format!("{file}  {roots}  00"), trace);
    assert_eq!(reply_with("01 00 00 00 00 01", &[0]), "outside 1 0");
    assert_eq!(reply_with("01 01 01 00 00 01", &[1, 2, 0]), "end 3");
    assert_eq!(reply_with("01 01 01 00 01 00", &[1, 2, 0]), "outside 3 0");
    assert_eq!(reply_with("01 01 00 01 00 01", &[1, 2, 0]), "outside 2 0");
}

#[test]
fn queues_are_followed_in_their_order() {
    // The set is 0 and then 1, or nothing: with 1 alone or 0 alone the run is outside.
    let file = "01 01 00  02 01 01  02  00 00 00 01 00 01 00  00 00 00 01 01 01 01";
    let with_pool = |pool: &str, trace: &[u8]| reply(&format!("{file}  {pool}  01  00"), trace);
    let both_or_none = "03 01 01 00 01  00 01 01 02  01 00";
    assert_eq!(with_pool(both_or_none, &[0]), "outside 1 1");
    let all_final = "03 01 02 00 01 01 02  01 01 01 02  01 00";
    assert_eq!(with_pool(all_final, &[1, 0]), "end 2");
    assert_eq!(with_pool(all_final, &[0, 1]), "end 2");
    assert_eq!(with_pool(all_final, &[0, 1, 1]), "outside 3 2");
}

#[test]
fn how_far_the_contents_outside_are_followed() {
    // Two queues of the messages 0 and 1. 0 sends sixteen 0s, 1 sends 1, 2 receives 0, 3 leads to control state 1, 4 to control
    // state 2, 5 to control state 3, 6 to control state 4.
    let file = "01 05 00  02 01 01  07
        00 00 00 01 00 10 00 00 00 00 00 00 00 00 00 00 00 00 00 00 00 00  00 00 00 01 01 01 01  00 00 00 02 00 01 00
        00 00 01 00  00 00 02 00  00 00 03 00  00 00 04 00";
    // Control state 0 holds everything, 1 has no root, 2 reads everything and accepts nothing, 3 reads the 0s alone and
    // accepts them, 4 reads nothing.
    let map = "06 01 02 00 00 01 01 01 01 01 01 00 02 00 02 01 03 00 01 01 03 01 01 00 04 01 00  01 00 03 05 06  00";
    let outside = |trace: &[u8]| reply(&format!("{file}  {map}"), trace);
    assert_eq!(outside(&[0, 1, 3]), "outside 3 0");
    assert_eq!(outside(&[4]), "outside 1 0");
    assert_eq!(outside(&[0, 1, 1, 4]), "outside 4 18");
    assert_eq!(outside(&[0, 2, 1, 1, 4]), "outside 5 17");
    assert_eq!(outside(&[0, 1, 5, 9]), "outside 3 16");
    assert_eq!(outside(&[1, 1, 5]), "outside 3 0");
    assert_eq!(outside(&[0, 1, 6]), "outside 3 0");
    assert_eq!(outside(&[6]), "end 1");
    // Full queues, and one that lies across the end of its room.
    let full = [&[0; 64][..], &[1; 1_024]].concat();
    assert_eq!(outside(&[&full[..], &[4]].concat()), "outside 1089 2048");
    assert_eq!(outside(&[&full[..], &[5]].concat()), "outside 1089 1024");
    assert_eq!(outside(&[&full[..], &[3]].concat()), "outside 1089 0");
    let across = [&[0; 64][..], &[2; 20], &[0, 1]].concat();
    assert_eq!(outside(&[&across[..], &[4]].concat()), "outside 87 1021");
    assert_eq!(outside(&[&across[..], &[5]].concat()), "outside 87 1020");
}

#[test]
fn refused_steps() {
    let (states, queues): (&[u8], [&[u8]; 2]) = (&[0, 0], [&[0, 1], &[]]);
    let refused = |trace: &[u8], expected: &str| assert_replay(TWO_AND_TWO, trace, expected, states, &queues);
    refused(&[0, 128], "refused 3 at 2 after 1");
    refused(&[0, 255], "refused 3 at 2 after 1");
    refused(&[0, 128, 0], "refused 4 at 1 after 1");
    refused(&[0, 129, 0, 1], "refused 4 at 1 after 1");
    refused(&[0, 131, 128], "refused 4 at 1 after 1");
    refused(&[0, 255, 255, 1], "refused 4 at 1 after 1");
    refused(&[0, 7], "refused 5 at 1 after 1");
    refused(&[0, 127, 128], "refused 5 at 1 after 1");
    refused(&[0, 128, 1], "refused 5 at 1 after 1");
    refused(&[0, 255, 127, 0], "refused 5 at 1 after 1");
    // The first machine is in 0, the second in 0.
    refused(&[0, 0], "refused 14 at 1 after 1");
    refused(&[0, 4, 3], "refused 14 at 1 after 1");
    refused(&[0, 5], "refused 14 at 1 after 1");
}

#[test]
fn the_end_of_the_trace_is_not_refused() {
    assert_eq!(reply(R, &[]), "end 0");
    assert_eq!(reply(R, &[0, 1]), "end 2");
    assert_eq!(reply(R, &[200]), "refused 3 at 1 after 0");
}

#[test]
fn a_receive_asks_for_its_whole_word() {
    let file = ONE_BY_ONE;
    assert_replay(file, &[3], "refused 14 at 0 after 0", &[0], &[&[]]);
    assert_replay(file, &[0, 3], "refused 14 at 1 after 1", &[0], &[&[0]]);
    assert_replay(file, &[0, 2, 3], "refused 14 at 2 after 2", &[0], &[&[0, 2]]);
    assert_replay(file, &[1, 0, 3], "refused 14 at 2 after 2", &[0], &[&[1, 0]]);
    assert_replay(file, &[2, 0, 1, 3], "refused 14 at 3 after 3", &[0], &[&[2, 0, 1]]);
    assert_replay(file, &[0, 1, 2, 3], "end 4", &[0], &[&[2]]);
    assert_replay(file, &[4, 0, 1, 0, 1, 3, 4], "end 7", &[0], &[&[0, 1]]);
}

#[test]
fn a_queue_takes_1024_messages() {
    let zeros = [0; 1_024];
    assert_replay(SIXTEEN, &[0; 64], "end 64", &[0], &[&zeros]);
    assert_replay(SIXTEEN, &[1; 1_024], "end 1024", &[0], &[&zeros]);
    assert_replay(SIXTEEN, &[1; 1_025], "refused 15 at 1024 after 1024", &[0], &[&zeros]);
    assert_replay(SIXTEEN, &[0; 65], "refused 15 at 64 after 64", &[0], &[&zeros]);
    // What fits of the word is not sent, the empty word is, and there is room again after a receive.
    assert_replay(SIXTEEN, &[&[0; 63][..], &[1, 0]].concat(), "refused 15 at 64 after 64", &[0], &[&zeros[..1_009]]);
    assert_replay(SIXTEEN, &[&[0; 64][..], &[4, 4]].concat(), "end 66", &[0], &[&zeros]);
    assert_replay(SIXTEEN, &[&[0; 64][..], &[2, 0, 3, 1]].concat(), "end 68", &[0], &[&zeros]);
    assert_replay(SIXTEEN, &[&[0; 64][..], &[3, 0]].concat(), "refused 15 at 65 after 65", &[0], &[&zeros[..1_023]]);
}

#[test]
fn each_queue_has_its_own_room() {
    let one_machine = "01 01 00  02 01 01  02  00 00 00 01 00 01 00  00 00 00 01 01 01 01
        02 01 02 00 00 01 01 01 01 01 01  01  00";
    let trace = [&[0; 1_024][..], &[1; 1_024]].concat();
    assert_replay(one_machine, &trace, "end 2048", &[0], &[&[0; 1_024], &[1; 1_024]]);
    let more = [&trace[..], &[1]].concat();
    assert_replay(one_machine, &more, "refused 15 at 2048 after 2048", &[0], &[&[0; 1_024], &[1; 1_024]]);
}

#[test]
fn refused_by_14_before_15() {
    // The machine has two states and sends in both; 0 sends sixteen in 0, 1 sends one in 1, 2 leads from 0 to 1.
    let file = "01 02 00  01 01  03  00 00 00 01 00 10 00 00 00 00 00 00 00 00 00 00 00 00 00 00 00 00
        00 01 01 01 00 01 00  00 00 01 00  01 01 01 00 00  01 01  00";
    let full = [0; 64];
    assert_replay(file, &[&full[..], &[1]].concat(), "refused 14 at 64 after 64", &[0], &[&[0; 1_024]]);
    assert_replay(file, &[&full[..], &[2, 1]].concat(), "refused 15 at 65 after 65", &[1], &[&[0; 1_024]]);
    assert_replay(file, &[&full[..], &[2, 0]].concat(), "refused 14 at 65 after 65", &[1], &[&[0; 1_024]]);
}

#[test]
fn queues_that_wrap_are_laid_out_from_their_oldest_message() {
    // Message 1 is sent after each word of sixteen 0s and received before each.
    let file = "01 01 00  01 02  04
        00 00 00 01 00 10 00 00 00 00 00 00 00 00 00 00 00 00 00 00 00 00  00 00 00 01 00 01 01
        00 00 00 02 00 10 00 00 00 00 00 00 00 00 00 00 00 00 00 00 00 00  00 00 00 02 00 01 01
        01 01 02 00 00 01 00  01  00";
    let filled = [0, 1].repeat(60);
    let block = [&[0; 16][..], &[1]].concat();
    // 1,020 messages wait; each round of receives and sends moves them on by 17.
    let mut trace = filled;
    for round in 1..=300 {
        trace.extend([2, 3, 0, 1]);
        if round % 60 == 1 || round == 300 {
            assert_replay(file, &trace, &format!("end {}", 120 + 4 * round), &[0], &[&block.repeat(60)]);
            let refused = [&trace[..], &[3]].concat();
            let steps = 120 + 4 * round;
            let expected = format!("refused 14 at {steps} after {steps}");
            assert_replay(file, &refused, &expected, &[0], &[&block.repeat(60)]);
            let odd = [&trace[..], &[2, 0]].concat();
            let moved = [&[1][..], &block.repeat(59), &[0; 16]].concat();
            assert_replay(file, &odd, &format!("end {}", steps + 2), &[0], &[&moved]);
        }
    }
}

#[test]
fn traces_of_16384_bytes_are_replayed() {
    let longest = [0, 1].repeat(8_192);
    assert_replay(R, &longest, "end 16384", &[0, 0], &[&[]]);
    let last = |bytes: &[u8]| [&longest[..16_384 - bytes.len()], bytes].concat();
    assert_replay(R, &last(&[200]), "refused 3 at 16384 after 16383", &[0, 0], &[&[0]]);
    assert_replay(R, &last(&[200, 200]), "refused 4 at 16382 after 16382", &[0, 0], &[&[]]);
    assert_replay(R, &last(&[0]), "end 16384", &[0, 0], &[&[0, 0]]);
    for length in [16_385, 16_386, 40_000] {
        let trace = [0, 1].repeat(20_000)[..length].to_vec();
        assert_untouched(&hex(R), &trace, 1_024, "trace refused 1 at 16384");
    }
    assert_untouched(&hex(R), &[255; 16_385], 1_024, "trace refused 1 at 16384");
}

#[test]
fn memory_is_asked_for_the_queues_of_the_file() {
    let one = hex(R);
    let two = hex(TWO_AND_TWO);
    for (file, asked) in [(&one, 1_024), (&two, 2_048)] {
        for length in [0, 1, asked - 1_024, asked - 1] {
            assert_untouched(file, &[0], length, "memory refused 2 at 0");
            assert_untouched(file, &[255], length, "memory refused 2 at 0");
        }
        for length in [asked, asked + 1, 3_000, 4_096, 70_000] {
            let lent = lent(length);
            let answer = answer_with(file, &[0], &lent);
            assert_eq!(answer.reply, Reply::End { steps: 1 });
            assert_eq!(answer.lent.memory[asked..], lent.memory[asked..], "{length}");
            assert_eq!(answer.lent.memory[..3], [0, if asked == 1_024 { 0 } else { 1 }, 0]);
        }
    }
    // Memory is asked before the map is.
    let rootless = hex("01 01 00  01 01  00  01 01 00  00  00");
    assert_untouched(&rootless, &[], 1_023, "memory refused 2 at 0");
}

#[test]
fn file_trace_and_memory_are_refused_in_this_order() {
    let refused = hex(&R[..R.len() - 3]);
    assert_untouched(&refused, &[0], 1_024, "file refused 3 at 28");
    assert_untouched(&refused, &[0; 16_385], 0, "file refused 3 at 28");
    assert_untouched(&hex(R), &[0; 16_385], 0, "trace refused 1 at 16384");
    assert_untouched(&hex(R), &[0; 16_384], 0, "memory refused 2 at 0");
    for case in cases() {
        if let Err(refusal) = read(&case.bytes) {
            assert_untouched(&case.bytes, &[0], 4_096, &format!("file {refusal}"));
        }
    }
    assert_untouched(&[0; 16_385], &[0], 4_096, "file refused 1 at 16384");
}

#[test]
fn lines() {
    let lent = Lent { record: Record::default(), memory: vec![1; 1_026] };
    let answer = replay(&hex(R), &[0, 0, 1, 0, 128], &lent);
    // h = 0, then h = h * 257 + byte + 1: the bytes are 0 0 0 .. 0 1 1.
    let digest = answer.lent.memory.iter().fold(0, |h: u64, &byte| (h * 257 + u64::from(byte) + 1) % 16_777_213);
    assert_eq!(memory_digest(&answer.lent.memory), digest);
    assert_eq!(replay_line(&answer), format!("refused 3 at 5 after 4 | 0 0 0 0 0 0 0 0 2 0 0 0 | {digest}"));
    assert_eq!(memory_digest(&[]), 0);
    assert_eq!(memory_digest(&[2, 0]), 3 * 257 + 1);
}

#[test]
fn streams_of_replays_are_read_back() {
    let asked = [
        Replay { file: hex(R), trace: vec![], memory_length: 1_024, memory_from: 0, record_from: 0 },
        Replay { file: vec![], trace: vec![7; 20_000], memory_length: 65_535, memory_from: 250, record_from: 255 },
        Replay { file: vec![1; 17_000], trace: vec![0, 255], memory_length: 0, memory_from: 1, record_from: 2 },
    ];
    let mut stream = Vec::new();
    for replay in &asked {
        put_replay(&mut stream, replay);
    }
    assert_eq!(stream[..4], [29, 0, 0, 2]);
    assert_eq!(stream[32..39], [0, 0, 0, 0, 4, 0, 0]);
    let mut records = Records(&stream);
    for replay in &asked {
        assert_eq!(records.replay().expect("a record is left").as_ref(), Ok(replay));
    }
    assert!(records.replay().is_none());
    for length in [2, 20, 31, 33, 36, 38] {
        assert!(Records(&stream[..length]).replay().expect("some bytes are left").is_err(), "{length}");
    }
    let Lent { record, memory } = asked[1].lent();
    assert_eq!(record.states, [255, 0, 1, 2]);
    assert_eq!(record.heads, [255_000, 255_001, 255_002, 255_003]);
    assert_eq!(record.lengths, [510_000, 510_001, 510_002, 510_003]);
    assert_eq!(memory[..3], [250, 1, 8]);
    assert_eq!(memory[300], ((250 + 7 * 300) % 256) as u8);
    assert_eq!(memory.len(), 65_535);
}

#[test]
fn traps_change_replays_worked_by_hand() {
    let changes = |file: &str, trace: &[u8], trap: ReplayTrap| {
        let (file, lent) = (hex(file), lent(4_096));
        replay_with(&file, trace, &lent, Some(trap)) != replay(&file, trace, &lent)
    };
    assert!(changes(TWO_AND_TWO, &[0, 1], ReplayTrap::ReceiveFromTheBack));
    assert!(changes(ONE_BY_ONE, &[0, 1, 2], ReplayTrap::SendToTheFront));
    assert!(!changes(ONE_BY_ONE, &[0, 0, 0], ReplayTrap::SendToTheFront));
    assert!(changes(ONE_BY_ONE, &[0, 2, 3], ReplayTrap::FirstMessageAsked));
    assert!(changes(AT_MOST_TWO, &[0, 0, 0, 1], ReplayTrap::OutsideAskedAtTheEnd));
    assert!(changes(AT_MOST_TWO, &[0, 0, 0], ReplayTrap::EndBeforeOutside));
    assert!(!changes(AT_MOST_TWO, &[0, 0, 0, 1], ReplayTrap::EndBeforeOutside));
    assert!(changes(R, &[], ReplayTrap::StaleByte));
    assert!(changes(SIXTEEN, &[0; 64], ReplayTrap::FullQueueRefused));
    assert!(!changes(SIXTEEN, &[0; 64], ReplayTrap::OneMoreTaken));
    assert!(changes(SIXTEEN, &[1; 1_025], ReplayTrap::OneMoreTaken));
    assert!(changes(SIXTEEN, &[1, 3], ReplayTrap::HeadsKept));
}

#[test]
fn closed_sessions_are_not_left() {
    let mut scratch = Scratch::default();
    let mut closed = 0;
    for Case { replay: asked, .. } in replay_cases(7) {
        if asked.file.len() > 200 {
            continue;
        }
        if let Ok(Verdict::Closed { .. }) = check(&asked.file, &mut scratch) {
            closed += 1;
            let answer = replay(&asked.file, &asked.trace, &asked.lent());
            assert!(!matches!(answer.reply, Reply::Outside { .. }), "{asked:?}");
        }
    }
    assert!(closed > 200, "{closed} are closed");
}

#[test]
fn all_ways_agree_on_generated_replays() {
    for Case { replay: asked, .. } in replay_cases(6) {
        answer_with(&asked.file, &asked.trace, &asked.lent());
    }
}

#[test]
fn samples_start_inside() {
    for (name, file) in SESSIONS {
        let tables = read(file).expect("the samples are read");
        assert!(Configuration::start(&tables).is_inside(&tables), "{name}");
    }
}

#[test]
fn generated_replays_hit_everything() {
    let mut cases = replay_cases(5);
    let coverage = replay_coverage(&cases);
    assert!(coverage.complaints.is_empty(), "{}", coverage.complaints.join("\n"));
    // Without the replays made for full and wrapped queues and for long traces their features are missed.
    cases.retain(|case| !["full", "wrapped", "16,38", "sent behind"].iter().any(|part| case.kind.contains(part)));
    let complaints = replay_coverage(&cases).complaints.join("\n");
    for missed in [
        "refused 15",
        "a queue of 1,024",
        "across",
        "trace refused 1",
        "OneMoreTaken",
        "LongestTraceRefused",
        "a queue of 1,024 with messages from the start",
        "StartTakesNoRoom",
    ] {
        assert!(complaints.contains(missed), "not asked: {missed}");
    }
}
