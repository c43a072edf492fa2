//! Sessions as lines, there and back: samples, generated files, sessions of any shape, and texts that are damaged.

mod resumed;

use std::path::Path;

use reference_checker::generate::reading::reading_cases;
use reference_checker::generate::verdicts::Plans;
use reference_checker::random::Random;
use swarmbanner::{BadEntry, DiagramState, Kind, Machine, Refusal, Session, Transition};
use swarmbanner_explain::{lines, Disorder, Fault, Owner, Typed, Wrong};

use resumed::{every_other, resumed};

const SEED: u64 = 20_261_115;
const SESSIONS: usize = 2_000;
const TEXTS: usize = 20_000;

fn printed(session: &Session) -> String {
    lines(session).join("\n") + "\n"
}

/// The lines with the kinds mixed.
fn shuffled(random: &mut Random, text: &str) -> String {
    let kind = |line: &str| line.split(' ').next().unwrap_or_default().to_string();
    let mut kinds: Vec<String> = text.lines().map(kind).collect();
    random.shuffle(&mut kinds);
    let mut left: Vec<&str> = text.lines().collect();
    let next = |wanted: &String| left.remove(left.iter().position(|line| kind(line) == *wanted).expect("there is one"));
    kinds.iter().map(next).collect::<Vec<&str>>().join("\n")
}

#[test]
fn samples_go_round() {
    let folder = Path::new(env!("CARGO_MANIFEST_DIR")).join("../../samples");
    let mut samples = 0;
    for entry in std::fs::read_dir(folder).expect("the samples are there") {
        let path = entry.expect("the folder can be listed").path();
        if path.extension().is_none_or(|extension| extension != "session") {
            continue;
        }
        let file = std::fs::read(&path).expect("a sample can be read");
        goes_round(&file);
        samples += 1;
    }
    assert!(samples >= 13, "{samples} samples");
}

/// A file, its session, its lines, and the file again.
fn goes_round(file: &[u8]) {
    let session = swarmbanner::read(file).expect("it is a session file");
    let typed = Typed::parse(printed(&session).as_bytes()).expect("what is printed can be typed");
    assert_eq!(typed.session, session);
    assert_eq!(typed.write().as_deref(), Ok(file));
}

#[test]
fn generated_files_go_round() {
    let mut read = 0;
    for case in reading_cases(SEED).cases {
        if swarmbanner::read(&case.bytes).is_ok() {
            goes_round(&case.bytes);
            read += 1;
        }
    }
    assert!(read > 500, "{read} files");
    let mut plans = Plans::new(SEED);
    for _ in 0..SESSIONS {
        let file = plans.small().bytes();
        goes_round(&file);
        goes_round(&resumed(&mut plans.random, &file));
    }
}

fn any_machines(random: &mut Random) -> Vec<Machine> {
    let (count, mut left) = (random.between(1, 4), 256);
    let machine = |_| {
        let states = random.between(1, 16.min(left));
        left /= states;
        Machine { states, start: random.below(states) }
    };
    (0..count).map(machine).collect()
}

fn any_messages(random: &mut Random) -> Vec<usize> {
    let count = random.between(1, 4);
    let mut left = 32 - count;
    let queue = |_| {
        let more = random.below(left + 1);
        left -= more;
        1 + more
    };
    (0..count).map(queue).collect()
}

fn any_transition(random: &mut Random, session: &Session) -> Transition {
    let machine = random.below(session.machines().len());
    let states = session.machines()[machine].states;
    let queue = random.below(session.queues().len());
    let messages = &session.queues()[queue].messages;
    let length = random.below(17);
    let word = (0..length).map(|_| messages.start + random.below(messages.len()) as u8).collect();
    let (from, to) = (random.below(states), random.below(states));
    let kind = match random.below(3) {
        0 => Kind::Local,
        1 => Kind::Send { queue, word },
        _ => Kind::Receive { queue, word },
    };
    Transition { machine, from, to, kind }
}

fn any_starting(random: &mut Random, session: &Session, queue: usize) -> Vec<u8> {
    let messages = &session.queues()[queue].messages;
    let length = if random.chance(50) { 0 } else { random.below(9) };
    (0..length).map(|_| messages.start + random.below(messages.len()) as u8).collect()
}

fn any_state(random: &mut Random, session: &Session) -> DiagramState {
    session.state(random.below(session.pool().len())).expect("the pool has the state")
}

/// Up to as many as there can be, mostly few.
fn any_count(random: &mut Random, most: usize) -> usize {
    match random.below(8) {
        0 => most,
        1 => random.between(0, most),
        _ => random.between(0, most.min(6)),
    }
}

/// A session of any shape, whether a file says it or not.
fn any_session(random: &mut Random) -> Session {
    let mut session = Session::new(&any_machines(random), &any_messages(random)).expect("it is within its ranges");
    for queue in 0..session.queues().len() {
        session.set_starting(queue, &any_starting(random, &session, queue)).expect("it is within its ranges");
    }
    for _ in 0..any_count(random, 128) {
        session.add_transition(any_transition(random, &session)).expect("it is within its ranges");
    }
    let first = session.state(0).expect("there is one");
    session.set_final(first, random.chance(50)).expect("there is one");
    for _ in 0..any_count(random, 126) {
        session.add_state(random.chance(50)).expect("there is room");
    }
    let messages = session.queues().last().expect("there is a queue").messages.end;
    let dense = random.below(101);
    for number in 0..session.pool().len() {
        let from = session.state(number).expect("the pool has the state");
        for message in (0..messages).filter(|_| random.chance(dense)).collect::<Vec<_>>() {
            let target = any_state(random, &session);
            session.set_arc(from, message, target).expect("it is within its ranges");
        }
    }
    for control in 0..session.control_states() {
        let root = random.chance(dense).then(|| any_state(random, &session));
        session.set_root(control, root).expect("it is within its ranges");
    }
    for _ in 0..any_count(random, 64) {
        let entry = BadEntry { control: random.below(session.control_states()), root: any_state(random, &session) };
        session.add_bad_entry(entry).expect("it is within its ranges");
    }
    session
}

/// Whatever a session says, its lines say the same, in any order of the kinds. One that no file says has a fault at a root.
#[test]
fn any_session_goes_round() {
    let mut random = Random::new(SEED);
    let [mut written, mut refused] = [0; 2];
    for _ in 0..SESSIONS {
        let session = any_session(&mut random);
        let text = printed(&session);
        let typed = Typed::parse(text.as_bytes()).expect("what is printed can be typed");
        assert_eq!(typed.session, session);
        let bare: Vec<&str> = text.lines().filter(|line| !line.is_empty() && !line.starts_with('#')).collect();
        let mixed = shuffled(&mut random, &bare.join("\n"));
        assert_eq!(Typed::parse(mixed.as_bytes()).map(|typed| typed.session), Ok(session.clone()));
        match typed.write() {
            Ok(file) => {
                assert_eq!(session.write(), Ok(file));
                written += 1;
            }
            Err(Fault { line, wrong: Wrong::OutOfOrder(disorder) }) => {
                assert_eq!(session.write(), Err(Refusal { number: 16, place: 0 }));
                let line = text.lines().nth(line - 1).expect("there is such a line");
                let (begins, root) = match disorder.owner {
                    Owner::Control(control) => (format!("control {control} root "), session.root(control)),
                    Owner::Bad(entry) => ("bad control ".to_string(), Some(session.bad_entries()[entry].root)),
                };
                assert!(line.starts_with(&begins) && line.contains(&format!(" root {} ", disorder.root)), "{line}");
                accepts_out_of_order(&session, root.expect("it has a root"), &disorder);
                refused += 1;
            }
            Err(fault) => panic!("{fault}"),
        }
    }
    println!("{written} written, {refused} out of order");
    assert!(written > 100 && refused > 100, "{written} written, {refused} out of order");
}

/// The word that is shown leads from the root to a final state, and has the pair that is named.
fn accepts_out_of_order(session: &Session, root: DiagramState, disorder: &Disorder) {
    assert_eq!(root.index(), disorder.root);
    let word: Vec<u8> = disorder.word.iter().map(|&message| message as u8).collect();
    let end = word.iter().try_fold(root, |state, &message| session.arc(state, message));
    assert!(end.is_some_and(|end| session.is_final(end)), "{disorder}");
    let [(before, later), (after, earlier)] = disorder.pair;
    assert!(earlier < later && disorder.word.windows(2).any(|pair| pair == [before, after]), "{disorder}");
    assert_eq!(session.queue_of(before as u8), Some(later));
    assert_eq!(session.queue_of(after as u8), Some(earlier));
}

/// A text with bytes changed, put in and left out.
fn damaged(random: &mut Random, text: &str) -> Vec<u8> {
    let pieces = "machine states start queue messages transition from to send receive local state final control root bad : > # 255";
    let pieces: Vec<&str> = pieces.split(' ').chain(["\n", " "]).collect();
    let mut text = text.as_bytes().to_vec();
    for _ in 0..random.between(1, 3) {
        let place = random.below(text.len());
        match random.below(5) {
            0 => text[place] = random.byte(),
            1 => drop(text.remove(place)),
            2 => drop(text.splice(place..place, random.pick(&pieces).expect("there are some").bytes())),
            _ if text[place].is_ascii_digit() => text[place] = b'0' + random.byte() % 4,
            _ => {}
        }
    }
    text
}

/// It is a session, or a line of the text is named in one line, and never anything else.
#[test]
fn texts_that_are_damaged() {
    let mut random = Random::new(SEED);
    let mut plans = Plans::new(SEED);
    let [mut same, mut other, mut faults] = [0; 3];
    for _ in 0..TEXTS {
        let plan = plans.small().bytes();
        let file = every_other(&mut plans.random, plan);
        let session = swarmbanner::read(&file).expect("plans are session files");
        let text = damaged(&mut random, &printed(&session));
        match Typed::parse(&text) {
            Ok(typed) => {
                let again = Typed::parse(printed(&typed.session).as_bytes()).expect("what is printed can be typed");
                assert_eq!(again.session, typed.session);
                *(if typed.session == session { &mut same } else { &mut other }) += 1;
            }
            Err(fault) => {
                let last = text.split(|&byte| byte == b'\n').count();
                assert!((1..=last).contains(&fault.line) && !fault.to_string().contains('\n'), "{fault}");
                faults += 1;
            }
        }
    }
    println!("{same} same, {other} other sessions, {faults} faults");
    assert!(same > 500 && other > 200 && faults > 5_000, "{same} same, {other} other sessions, {faults} faults");
}
