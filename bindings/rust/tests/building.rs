//! Making and changing sessions: what each change does, and every error, after which the session is as it was.

use std::error::Error;

use swarmbanner::SessionError::*;
use swarmbanner::{read, BadEntry, DiagramState, Kind, Machine, PoolState, Session, SessionError, Transition};

const R: [u8; 29] = [2, 1, 1, 0, 0, 1, 1, 2, 0, 0, 0, 1, 0, 1, 0, 1, 0, 0, 2, 0, 1, 0, 1, 1, 1, 0, 0, 1, 0];
const S: [u8; 27] = [1, 1, 0, 2, 1, 1, 1, 0, 0, 0, 1, 0, 1, 0, 2, 1, 2, 0, 0, 1, 1, 1, 1, 1, 1, 1, 0];

fn machines(states: &[usize]) -> Vec<Machine> {
    states.iter().map(|&states| Machine { states, start: 0 }).collect()
}

/// Machines of two and three states, queues of two messages and one.
fn small() -> Session {
    Session::new(&machines(&[2, 3]), &[2, 1]).expect("it is within its ranges")
}

fn local(machine: usize, from: usize, to: usize) -> Transition {
    Transition { machine, from, to, kind: Kind::Local }
}

fn send(queue: usize, word: &[u8]) -> Transition {
    Transition { kind: Kind::Send { queue, word: word.to_vec() }, ..local(0, 0, 1) }
}

fn receive(queue: usize, word: &[u8]) -> Transition {
    Transition { kind: Kind::Receive { queue, word: word.to_vec() }, ..local(1, 2, 0) }
}

fn state(session: &Session, number: usize) -> DiagramState {
    session.state(number).expect("the pool has the state")
}

/// A diagram state that sessions with fewer than 127 do not have.
fn foreign() -> DiagramState {
    let mut other = small();
    while let Ok(state) = other.add_state(false) {
        if state.index() == 126 {
            return state;
        }
    }
    unreachable!("a pool can have 127 states");
}

/// A change gives this error, and leaves the session as it was.
fn refuses<T: std::fmt::Debug>(
    session: &Session,
    error: SessionError,
    change: impl FnOnce(&mut Session) -> Result<T, SessionError>,
) {
    let mut changed = session.clone();
    assert_eq!(change(&mut changed).expect_err("it is not allowed"), error);
    assert_eq!(&changed, session, "{error}");
}

#[test]
fn a_new_session_has_nothing_but_one_state() {
    let session = small();
    assert_eq!(session.machines(), machines(&[2, 3]));
    assert_eq!(session.queues().iter().map(|queue| queue.messages.clone()).collect::<Vec<_>>(), [0..2, 2..3]);
    assert!(session.starting().is_empty() && session.queues().iter().all(|queue| queue.starting.is_empty()));
    assert!(session.transitions().is_empty() && session.bad_entries().is_empty());
    assert_eq!(session.pool(), [PoolState { is_final: false, arcs: vec![] }]);
    assert_eq!(session.roots(), [None; 6]);
    let file = [2, 2, 3, 0, 0, 2, 2, 1, 0, 1, 0, 0, 0, 0, 0, 0, 0, 0, 0];
    assert_eq!(session.write().as_deref(), Ok(&file[..]));
}

#[test]
fn machines_that_cannot_be() {
    let new = |states: &[usize]| Session::new(&machines(states), &[1]).err();
    assert_eq!(new(&[]), Some(Machines { count: 0 }));
    assert_eq!(new(&[1; 5]), Some(Machines { count: 5 }));
    assert_eq!(new(&[1; 4]), None);
    assert_eq!(new(&[1, 0]), Some(States { machine: 1, states: 0 }));
    assert_eq!(new(&[17]), Some(States { machine: 0, states: 17 }));
    assert_eq!(new(&[usize::MAX, usize::MAX]), Some(States { machine: 0, states: usize::MAX }));
    assert_eq!(new(&[16, 16]), None);
    assert_eq!(new(&[16, 16, 2]), Some(ControlStates { machine: 2 }));
    assert_eq!(new(&[16, 16, 1, 1]), None);
    let started = |start| Session::new(&[Machine { states: 1, start: 0 }, Machine { states: 3, start }], &[1]);
    assert_eq!(started(2).map(|session| session.start()), Ok(2));
    assert_eq!(started(3).err(), Some(NoMachineState { machine: 1, state: 3 }));
}

#[test]
fn queues_that_cannot_be() {
    let new = |messages: &[usize]| Session::new(&machines(&[1]), messages).err();
    assert_eq!(new(&[]), Some(Queues { count: 0 }));
    assert_eq!(new(&[1; 5]), Some(Queues { count: 5 }));
    assert_eq!(new(&[1; 4]), None);
    assert_eq!(new(&[0]), Some(Messages { queue: 0, messages: 0 }));
    assert_eq!(new(&[1, 33]), Some(Messages { queue: 1, messages: 33 }));
    assert_eq!(new(&[1, usize::MAX]), Some(Messages { queue: 1, messages: usize::MAX }));
    assert_eq!(new(&[32]), None);
    assert_eq!(new(&[16, 16]), None);
    assert_eq!(new(&[16, 16, 1]), Some(MessageSum { queue: 2 }));
    assert_eq!(Session::new(&[], &[]).err(), Some(Machines { count: 0 }), "in the order of a file");
}

#[test]
fn starting_states() {
    let mut session = small();
    assert_eq!(session.set_start(1, 2), Ok(()));
    assert_eq!((session.start(), session.machines()[1]), (2, Machine { states: 3, start: 2 }));
    refuses(&session, NoMachine { machine: 2 }, |session| session.set_start(2, 0));
    refuses(&session, NoMachineState { machine: 1, state: 3 }, |session| session.set_start(1, 3));
}

#[test]
fn starting_contents() {
    let mut session = small();
    assert_eq!(session.set_starting(1, &[2; 8]), Ok(vec![]));
    assert_eq!(session.set_starting(0, &[1, 0]), Ok(vec![]));
    assert_eq!(session.set_starting(1, &[2]), Ok(vec![2; 8]));
    assert_eq!((&session.queues()[0].starting[..], &session.queues()[1].starting[..]), (&[1, 0][..], &[2][..]));
    assert_eq!(session.starting(), [1, 0, 2]);
    let written = session.write().expect("there is no root");
    assert_eq!(written[..13], [6, 2, 3, 0, 0, 2, 2, 1, 2, 1, 0, 1, 2]);
    assert_eq!(read(&written), Ok(session.clone()));
    // one queue that starts with something is enough
    assert_eq!(session.set_starting(0, &[]), Ok(vec![1, 0]));
    assert_eq!(session.write().map(|file| file[..11].to_vec()), Ok(vec![6, 2, 3, 0, 0, 2, 2, 1, 0, 1, 2]));
    assert_eq!(session.set_starting(1, &[]), Ok(vec![2]));
    assert_eq!(session, small());
    assert_eq!(session.write().map(|file| file[..9].to_vec()), Ok(vec![2, 2, 3, 0, 0, 2, 2, 1, 0]), "the other form");
}

#[test]
fn starting_contents_that_cannot_be() {
    let mut session = small();
    session.set_starting(0, &[0]).expect("it is within its ranges");
    let wrong: [(usize, &[u8], SessionError); 7] = [
        (2, &[], NoQueue { queue: 2 }),
        (2, &[9; 9], NoQueue { queue: 2 }),
        (0, &[0; 9], StartingLength { queue: 0, length: 9 }),
        (1, &[9; 9], StartingLength { queue: 1, length: 9 }),
        (0, &[1, 3], NoMessage { message: 3 }),
        (0, &[1, 2, 3], OtherQueue { message: 2, queue: 0 }),
        (1, &[2, 1], OtherQueue { message: 1, queue: 1 }),
    ];
    for (queue, messages, error) in wrong {
        refuses(&session, error, |session| session.set_starting(queue, messages));
    }
}

#[test]
fn transitions() {
    let mut session = small();
    assert_eq!(session.add_transition(local(0, 0, 1)), Ok(0));
    assert_eq!(session.add_transition(send(1, &[2, 2])), Ok(1));
    assert_eq!(session.add_transition(receive(0, &[1])), Ok(2));
    assert_eq!(session.replace_transition(1, send(0, &[])), Ok(send(1, &[2, 2])));
    assert_eq!(session.remove_transition(0), Ok(local(0, 0, 1)));
    assert_eq!(session.transitions(), [send(0, &[]), receive(0, &[1])]);
    let written = session.write().expect("no root accepts anything");
    assert_eq!(written[8..22], [2, 0, 0, 1, 1, 0, 0, 1, 2, 0, 2, 0, 1, 1]);
    assert_eq!(read(&written), Ok(session));
}

/// Both ways to put a transition in refuse the same.
#[test]
fn transitions_that_cannot_be() {
    let mut session = small();
    session.add_transition(local(0, 0, 0)).expect("it is within its ranges");
    let wrong = [
        (local(2, 0, 0), NoMachine { machine: 2 }),
        (local(0, 2, 0), NoMachineState { machine: 0, state: 2 }),
        (local(1, 2, 3), NoMachineState { machine: 1, state: 3 }),
        (send(2, &[0]), NoQueue { queue: 2 }),
        (receive(0, &[3]), NoMessage { message: 3 }),
        (send(0, &[0, 255]), NoMessage { message: 255 }),
        (send(0, &[0, 2]), OtherQueue { message: 2, queue: 0 }),
        (receive(1, &[2, 1]), OtherQueue { message: 1, queue: 1 }),
        (receive(1, &[2; 17]), WordLength { length: 17 }),
        (send(0, &[9; 17]), WordLength { length: 17 }),
    ];
    for (transition, error) in wrong {
        refuses(&session, error, |session| session.add_transition(transition.clone()));
        refuses(&session, error, |session| session.replace_transition(0, transition));
    }
    refuses(&session, NoTransition { transition: 1 }, |session| session.replace_transition(1, local(9, 0, 0)));
    refuses(&session, NoTransition { transition: 1 }, |session| session.remove_transition(1));
    assert_eq!(session.replace_transition(0, receive(1, &[2; 16])), Ok(local(0, 0, 0)));
}

#[test]
fn as_many_transitions_as_there_can_be() {
    let mut session = small();
    for number in 0..128 {
        assert_eq!(session.add_transition(local(0, 0, number % 2)), Ok(number));
    }
    refuses(&session, TransitionsFull, |session| session.add_transition(local(0, 0, 0)));
    assert_eq!(session.write().map(|file| file[8..10].to_vec()), Ok(vec![0x80, 1]));
    assert_eq!(session.remove_transition(127), Ok(local(0, 0, 1)));
    assert_eq!(session.add_transition(local(0, 1, 1)), Ok(127));
}

#[test]
fn pool() {
    let mut session = small();
    let first = state(&session, 0);
    let second = session.add_state(true).expect("there is room");
    assert_eq!((first.index(), second.index(), session.state(1), session.state(2)), (0, 1, Some(second), None));
    assert_eq!(session.state(256), None, "numbers are not cut off");
    assert_eq!((session.is_final(first), session.is_final(second)), (false, true));
    assert_eq!((session.set_final(first, true), session.set_final(second, false)), (Ok(()), Ok(())));
    assert_eq!((session.is_final(first), session.is_final(second)), (true, false));
    // out of turn, and kept by ascending message
    assert_eq!(session.set_arc(first, 2, second), Ok(None));
    assert_eq!(session.set_arc(first, 0, first), Ok(None));
    assert_eq!(session.set_arc(first, 1, first), Ok(None));
    assert_eq!(session.set_arc(first, 1, second), Ok(Some(first)));
    let arcs = |session: &Session| -> Vec<(u8, usize)> {
        session.pool()[0].arcs.iter().map(|arc| (arc.message, arc.target.index())).collect()
    };
    assert_eq!(arcs(&session), [(0, 0), (1, 1), (2, 1)]);
    assert_eq!(session.remove_arc(first, 0), Ok(Some(first)));
    assert_eq!(session.remove_arc(first, 0), Ok(None));
    assert_eq!(session.remove_arc(second, 0), Ok(None));
    assert_eq!(arcs(&session), [(1, 1), (2, 1)]);
    let written = session.write().expect("there is no root");
    assert_eq!(written[9..18], [2, 1, 2, 1, 1, 2, 1, 0, 0]);
    assert_eq!(read(&written), Ok(session));
}

#[test]
fn pools_that_cannot_be() {
    let session = small();
    let (here, elsewhere) = (state(&session, 0), foreign());
    refuses(&session, NoState { state: elsewhere }, |session| session.set_final(elsewhere, true));
    refuses(&session, NoState { state: elsewhere }, |session| session.set_arc(elsewhere, 0, here));
    refuses(&session, NoState { state: elsewhere }, |session| session.set_arc(here, 0, elsewhere));
    refuses(&session, NoMessage { message: 3 }, |session| session.set_arc(here, 3, here));
    refuses(&session, NoState { state: elsewhere }, |session| session.remove_arc(elsewhere, 0));
    refuses(&session, NoMessage { message: 255 }, |session| session.remove_arc(here, 255));
    let mut full = small();
    for number in 1..127 {
        assert_eq!(full.add_state(false).map(DiagramState::index), Ok(number));
    }
    refuses(&full, PoolFull, |session| session.add_state(false));
    assert_eq!(full.set_arc(elsewhere, 0, elsewhere), Ok(None), "a state goes by its number");
}

#[test]
fn roots() {
    let mut session = small();
    let root = state(&session, 0);
    assert_eq!(session.set_root(5, Some(root)), Ok(()));
    assert_eq!((session.root(5), session.root(4)), (Some(root), None));
    assert_eq!(session.write().map(|file| file[12..].to_vec()), Ok(vec![0, 0, 0, 0, 0, 1, 0]));
    let elsewhere = foreign();
    refuses(&session, NoControl { control: 6 }, |session| session.set_root(6, Some(root)));
    refuses(&session, NoControl { control: 6 }, |session| session.set_root(6, None));
    refuses(&session, NoState { state: elsewhere }, |session| session.set_root(5, Some(elsewhere)));
    assert_eq!(session.set_root(5, None), Ok(()));
    assert_eq!(session, small());
}

#[test]
fn bad_entries() {
    let mut session = small();
    let (root, other) = (state(&session, 0), session.add_state(false).expect("there is room"));
    let entry = |control, root| BadEntry { control, root };
    assert_eq!(session.add_bad_entry(entry(5, root)), Ok(0));
    assert_eq!(session.add_bad_entry(entry(1, root)), Ok(1));
    assert_eq!(session.replace_bad_entry(1, entry(2, other)), Ok(entry(1, root)));
    assert_eq!(session.write().map(|file| file[20..].to_vec()), Ok(vec![2, 5, 0, 2, 1]));
    assert_eq!(session.remove_bad_entry(0), Ok(entry(5, root)));
    assert_eq!(session.bad_entries(), [entry(2, other)]);
    let elsewhere = foreign();
    for (wrong, error) in
        [(entry(6, root), NoControl { control: 6 }), (entry(0, elsewhere), NoState { state: elsewhere })]
    {
        refuses(&session, error, |session| session.add_bad_entry(wrong));
        refuses(&session, error, |session| session.replace_bad_entry(0, wrong));
    }
    refuses(&session, NoBadEntry { entry: 1 }, |session| session.replace_bad_entry(1, entry(9, root)));
    refuses(&session, NoBadEntry { entry: 1 }, |session| session.remove_bad_entry(1));
    for number in 1..64 {
        assert_eq!(session.add_bad_entry(entry(0, root)), Ok(number));
    }
    refuses(&session, BadEntriesFull, |session| session.add_bad_entry(entry(0, root)));
}

#[test]
fn r_and_s_from_nothing() {
    let mut r = Session::new(&machines(&[1, 1]), &[1]).expect("it is within its ranges");
    let any = state(&r, 0);
    let changes = [
        r.add_transition(Transition { to: 0, ..send(0, &[0]) }).map(drop),
        r.add_transition(Transition { from: 0, ..receive(0, &[0]) }).map(drop),
        r.set_final(any, true),
        r.set_arc(any, 0, any).map(drop),
        r.set_root(0, Some(any)),
    ];
    assert_eq!(changes, [Ok(()); 5]);
    assert_eq!(r.write().as_deref(), Ok(&R[..]));

    let mut s = Session::new(&machines(&[1]), &[1, 1]).expect("it is within its ranges");
    let (zeros, ones) = (state(&s, 0), s.add_state(true).expect("there is room"));
    let changes = [
        s.add_transition(Transition { to: 0, ..send(0, &[0]) }).map(drop),
        s.set_final(zeros, true),
        s.set_arc(ones, 1, ones).map(drop),
        s.set_arc(zeros, 1, ones).map(drop),
        s.set_arc(zeros, 0, zeros).map(drop),
        s.set_root(0, Some(zeros)),
    ];
    assert_eq!(changes, [Ok(()); 6]);
    assert_eq!(s.write().as_deref(), Ok(&S[..]));
}

#[test]
fn every_error_says_what_is_wrong() {
    let state = foreign();
    let said = [
        (Machines { count: 5 }, "a session has 1 to 4 machines, not 5"),
        (States { machine: 1, states: 17 }, "machine 1 is to have 17 states; it can have 1 to 16"),
        (ControlStates { machine: 2 }, "with machine 2 there are more than 256 control states"),
        (Queues { count: 0 }, "a session has 1 to 4 queues, not 0"),
        (Messages { queue: 0, messages: 33 }, "queue 0 is to have 33 messages; it can have 1 to 32"),
        (MessageSum { queue: 3 }, "with queue 3 there are more than 32 messages"),
        (NoMachine { machine: 4 }, "there is no machine 4"),
        (NoMachineState { machine: 1, state: 3 }, "machine 1 has no state 3"),
        (NoQueue { queue: 2 }, "there is no queue 2"),
        (NoMessage { message: 32 }, "there is no message 32"),
        (OtherQueue { message: 2, queue: 0 }, "message 2 is not one of queue 0"),
        (StartingLength { queue: 1, length: 9 }, "queue 1 can start with up to 8 messages, not with 9"),
        (WordLength { length: 17 }, "a word has up to 16 messages, not 17"),
        (TransitionsFull, "a session has up to 128 transitions"),
        (NoTransition { transition: 3 }, "there is no transition 3"),
        (PoolFull, "a session has up to 127 diagram states"),
        (NoState { state }, "there is no diagram state 126"),
        (NoControl { control: 256 }, "there is no control state 256"),
        (BadEntriesFull, "a session has up to 64 bad entries"),
        (NoBadEntry { entry: 64 }, "there is no bad entry 64"),
    ];
    for (error, words) in said {
        let error: Box<dyn Error> = Box::new(error);
        assert_eq!(error.to_string(), words);
    }
}
