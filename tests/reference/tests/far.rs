//! How far a word is followed, against files worked by hand, by every way to the number; and which mistakes about it are told.

use reference_checker::decide::decide;
use reference_checker::far_traps::{far_of_contents, far_of_replay, far_of_step, FarTrap};
use reference_checker::generate::document::hex;
use reference_checker::read::read;
use reference_checker::replay_features::Retaken;
use reference_checker::selftest::selftest_far;
use reference_checker::traps::verdict_with;
use reference_checker::verdict::{line, Verdict};
use reference_checker::walk::{check, Scratch};

/// One machine of three states that starts in 0, which holds nothing, and a step from 1 to 2. Three queues of the messages 0 1,
/// 2 3 and 4. Control state 1 holds one contents; the pool's states from 1 on read them, and then come those of control state
/// 2, which read another word. The last of each is final, or not.
fn step_between(step: &[u8], source: &[u8], target: Option<(&[u8], bool)>) -> Vec<u8> {
    let mut pool = vec![1, 0];
    let mut first = 1;
    for (word, is_final) in [(source, true)].into_iter().chain(target) {
        for &message in word {
            first += 1;
            pool.extend([0, 1, message, first]);
        }
        first += 1;
        pool.extend([u8::from(is_final), 0]);
    }
    let target_root = if target.is_some() { 1 + 1 + source.len() as u8 + 1 } else { 0 };
    [&hex("01 03 00  03 02 02 01  01 00 01 02")[..], step, &[first], &pool, &[1, 2, target_root, 0]].concat()
}

const LOCAL: &[u8] = &[0];
/// Of 3 2 to queue 1, and from it.
const SEND: &[u8] = &[1, 1, 2, 3, 2];
const RECEIVE: &[u8] = &[2, 1, 2, 3, 2];

/// Asserts the contents shown and the number by each way.
fn assert_far(file: &[u8], contents: &[u8], far: usize) -> Verdict {
    let expected = Verdict::Leaves { control_state: 1, transition: 0, contents: contents.to_vec(), far };
    let by_words = decide(file).expect("the file is small");
    assert_eq!(line(&by_words), expected.to_string(), "by words");
    assert_eq!(by_words, check(file, &mut Scratch::default()), "by walking");
    let tables = read(file).expect("the file is read");
    assert_eq!(verdict_with(&tables, None), expected, "by plain search");
    assert_eq!(far_of_step(&tables, 1, &tables.transitions[0], contents, None), far, "by arcs");
    expected
}

#[test]
fn of_a_send() {
    // After the step there are 0 2 3 2 4.
    let before = [0, 2, 4];
    let lost = |target: &[u8], far: usize| {
        assert_far(&step_between(SEND, &before, Some((target, true))), &before, far);
    };
    lost(&[], 0);
    lost(&[1], 0);
    lost(&[0, 3], 1);
    lost(&[0, 2, 2, 4], 2);
    lost(&[0, 2, 4], 2);
    lost(&[0, 2, 3, 3], 3);
    lost(&[0, 2, 3, 2], 4);
    // Read to its end, which is not final; and no root.
    lost(&[0, 2, 3, 2, 4, 4], 5);
    assert_far(&step_between(SEND, &before, Some((&[0, 2, 3, 2, 4], false))), &before, 5);
    assert_far(&step_between(SEND, &before, None), &before, 0);
    assert_far(&step_between(SEND, &[], None), &[], 0);
    assert_far(&step_between(SEND, &[], Some((&[3, 3], true))), &[], 1);
}

#[test]
fn of_a_receive() {
    // After the step there are 0 3 4.
    let before = [0, 3, 2, 3, 4];
    let lost = |target: &[u8], far: usize| {
        assert_far(&step_between(RECEIVE, &before, Some((target, true))), &before, far);
    };
    lost(&[1], 0);
    lost(&[0, 2], 1);
    lost(&[0, 3], 2);
    lost(&[0, 3, 3], 2);
    lost(&[0, 3, 4, 4], 3);
    assert_far(&step_between(RECEIVE, &before, Some((&[0, 3, 4], false))), &before, 3);
    assert_far(&step_between(RECEIVE, &before, None), &before, 0);
    // Nothing is left, and the root is not final.
    assert_far(&step_between(RECEIVE, &[3, 2], Some((&[], false))), &[3, 2], 0);
    assert_far(&step_between(RECEIVE, &[3, 2], Some((&[3, 2], true))), &[3, 2], 0);
}

#[test]
fn of_a_local_step() {
    let before = [0, 3, 4];
    assert_far(&step_between(LOCAL, &before, Some((&[0, 3], true))), &before, 2);
    assert_far(&step_between(LOCAL, &before, Some((&[0, 3, 4], false))), &before, 3);
    assert_far(&step_between(LOCAL, &before, Some((&[], true))), &before, 0);
    assert_far(&step_between(LOCAL, &before, None), &before, 0);
    assert_far(&step_between(LOCAL, &[], Some((&[], false))), &[], 0);
}

#[test]
fn mistakes_change_the_number_of_a_step() {
    let far_with = |file: &[u8], contents: &[u8], trap: FarTrap| {
        let tables = read(file).expect("the file is read");
        far_of_step(&tables, 1, &tables.transitions[0], contents, Some(trap))
    };
    let file = |step: &[u8], source: &[u8], target: &[u8]| step_between(step, source, Some((target, true)));
    // 0 2 3 2 4 after the step, lost at 4.
    let sent = file(SEND, &[0, 2, 4], &[0, 2, 3, 2]);
    let numbers = [
        (FarTrap::OneMoreWhereLost, 5),
        (FarTrap::WholeLength, 5),
        (FarTrap::MessagesLeft, 1),
        (FarTrap::FirstQueueAlone, 1),
        (FarTrap::LastQueueAlone, 0),
        (FarTrap::EachQueueAnew, 0),
        (FarTrap::LengthShown, 3),
        // 0 2 is read in the source's diagram, and 0 2 of 0 2 4 in the target's.
        (FarTrap::InSource, 2),
        (FarTrap::ContentsBefore, 2),
        (FarTrap::SentWordUncounted, 2),
        (FarTrap::SentWordAsOne, 3),
        (FarTrap::SentAtTheVeryEnd, 2),
        (FarTrap::SentInFront, 1),
        (FarTrap::FromTheStepOn, 2),
        (FarTrap::UpToTheStep, 2),
        (FarTrap::UpToFinal, 4),
        (FarTrap::OneLessAtTheEnd, 4),
    ];
    for (trap, expected) in numbers {
        assert_eq!(far_with(&sent, &[0, 2, 4], trap), expected, "{trap:?}");
    }
    let in_the_word = file(SEND, &[0, 2, 4], &[0, 2, 3, 3]);
    assert_eq!(far_with(&in_the_word, &[0, 2, 4], FarTrap::SentWordWholeOrNot), 2);
    assert_eq!(far_with(&in_the_word, &[0, 2, 4], FarTrap::UpToFinal), 0);
    // 0 3 4 after the step, lost at 4.
    let received = file(RECEIVE, &[0, 3, 2, 3, 4], &[0, 3]);
    let contents = [0, 3, 2, 3, 4];
    assert_eq!(far_with(&received, &contents, FarTrap::ReceivedFromTheVeryFront), 0);
    assert_eq!(far_with(&received, &contents, FarTrap::ReceivedFromTheBack), 2);
    assert_eq!(far_with(&received, &contents, FarTrap::ReceivedWordCounted), 4);
    let to_the_end = step_between(LOCAL, &[0, 4], Some((&[0, 4], false)));
    assert_eq!(far_with(&to_the_end, &[0, 4], FarTrap::OneLessAtTheEnd), 1);
    assert_eq!(far_with(&to_the_end, &[0, 4], FarTrap::NothingAtTheEnd), 0);
    let rootless = step_between(SEND, &[0, 4], None);
    assert_eq!(far_with(&rootless, &[0, 4], FarTrap::LengthWithoutRoot), 4);
    assert_eq!(far_with(&rootless, &[0, 4], FarTrap::RootlessFromStateZero), 0);
}

#[test]
fn mistakes_change_the_number_of_contents_and_of_replays() {
    // At most two messages 0 belong. 0 sends one.
    let tables =
        read(&hex("01 01 00  01 01  01  00 00 00 01 00 01 00  03 01 01 00 01 01 01 00 02 01 00  01  00")).expect("");
    assert_eq!(far_of_contents(&tables, 0, &[0, 0], None), 2);
    assert_eq!(far_of_contents(&tables, 0, &[0, 0], Some(FarTrap::YesWithoutLength)), 0);
    assert_eq!(far_of_contents(&tables, 0, &[0, 0, 0, 0], Some(FarTrap::YesWithoutLength)), 2);
    let Retaken { before, last, received } = Retaken::new(&tables, &[0, 0, 0]);
    assert_eq!(far_of_replay(&tables, before.as_ref(), &last, &received, None), 2);
    let with = |received: usize, trap| far_of_replay(&tables, before.as_ref(), &last, &[received], Some(trap));
    assert_eq!(with(0, FarTrap::BeforeLastStep), 2);
    assert_eq!(with(0, FarTrap::OneMoreWhereLost), 3);
    assert_eq!(with(1_023, FarTrap::UpToTheRoomsEnd), 1);
    assert_eq!(with(1_022, FarTrap::UpToTheRoomsEnd), 2);
    assert_eq!(with(0, FarTrap::InARoom), 2);
}

#[test]
fn all_ways_agree_on_random_files() {
    let agreement = selftest_far(13, 3_000);
    assert!(agreement.disagreements.is_empty(), "{}", agreement.disagreements.join("\n"));
    assert!(agreement.leaves > 2_000 && agreement.by_words > 2_000, "{} leave", agreement.leaves);
    assert!(agreement.outside > 1_000, "{} end outside", agreement.outside);
}
