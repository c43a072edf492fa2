//! Reading, then writing, restores the bytes; writing, then reading, restores the tables.

use std::path::Path;

use swarmbanner::lent::{self, at, FILE_MOST, SPACE_LEAST};
use swarmbanner::{
    expression, read, BadEntry, DiagramState, Kind, Machine, Refusal, Session, SessionError, Transition,
};

const R: [u8; 29] = [2, 1, 1, 0, 0, 1, 1, 2, 0, 0, 0, 1, 0, 1, 0, 1, 0, 0, 2, 0, 1, 0, 1, 1, 1, 0, 0, 1, 0];
const S: [u8; 27] = [1, 1, 0, 2, 1, 1, 1, 0, 0, 0, 1, 0, 1, 0, 2, 1, 2, 0, 0, 1, 1, 1, 1, 1, 1, 1, 0];
/// What no file has.
const NO_FILE: Refusal = Refusal { number: 16, place: 0 };
const NO_BUFFER: Refusal = Refusal { number: 17, place: 0 };
/// Bytes of the longest file.
const LONGEST: usize = 11_700;

fn tables_of(file: &[u8]) -> [u8; SPACE_LEAST] {
    let (mut tables, mut reply) = ([0; SPACE_LEAST], [0; 4]);
    assert_eq!(lent::read(file, &mut tables, &mut reply), lent::READ);
    tables
}

fn samples() -> Vec<Vec<u8>> {
    let folder = Path::new(env!("CARGO_MANIFEST_DIR")).join("../../samples");
    let entries = std::fs::read_dir(folder).expect("the samples are there");
    let paths = entries.map(|entry| entry.expect("the folder can be listed").path());
    let sessions = paths.filter(|path| path.extension().is_some_and(|extension| extension == "session"));
    sessions.map(|path| std::fs::read(path).expect("a sample can be read")).collect()
}

#[test]
fn what_is_read_is_written_back() {
    let samples = samples();
    assert!(samples.len() >= 13, "there are samples");
    for file in samples.iter().map(Vec::as_slice).chain([&R[..], &S]) {
        let session = read(file).expect("it is a session file");
        assert_eq!(session.write().as_deref(), Ok(file));
        assert_eq!(read(&session.write().expect("it is written")), Ok(session));
    }
}

#[test]
fn buffers_of_the_length_and_others() {
    for file in samples() {
        let session = read(&file).expect("it is a session file");
        let length = file.len();
        let into = |length: usize| {
            let mut buffer = vec![0xaa; length];
            (session.write_into(&mut buffer), buffer)
        };
        assert_eq!(into(length), (Ok(length), file.clone()));
        assert_eq!(into(length + 3), (Ok(length), [&file[..], &[0xaa; 3]].concat()));
        for short in [0, 1, length - 1] {
            assert_eq!(into(short), (Err(NO_BUFFER), vec![0xaa; short]));
        }
    }
}

#[test]
fn tables_of_any_length() {
    let tables = tables_of(&R);
    let write = |tables: &[u8], length: usize| {
        let (mut buffer, mut reply) = (vec![0xaa; length], [7; 5]);
        let kind = lent::write(tables, &mut buffer, &mut reply);
        (kind, reply, buffer)
    };
    assert_eq!(write(&tables, 29), (lent::WRITTEN, [29, 0, 0, 0, 7], R.to_vec()));
    let longer = [&tables[..], &[9; 40]].concat();
    assert_eq!(write(&longer, 29), (lent::WRITTEN, [29, 0, 0, 0, 7], R.to_vec()), "what follows is of no account");
    for short in [0, 1, SPACE_LEAST - 1] {
        for length in [0, 29] {
            assert_eq!(write(&tables[..short], length), (lent::REFUSED, [16, 0, 0, 0, 7], vec![0xaa; length]));
        }
    }
    let (mut buffer, mut reply) = ([0xaa; 29], [7; 3]);
    assert_eq!(lent::write(&tables, &mut buffer, &mut reply), lent::NO_ROOM);
    assert_eq!((buffer, reply), ([0xaa; 29], [7; 3]));
}

/// In each table: past a range, and beyond the counts; queue 1 would start with message 0, which is not its own. Queue order is damaged by an arc, and by a mark.
#[test]
fn tables_that_no_file_has() {
    let tables = tables_of(&S);
    let damages = [
        (at::COUNTS, 0),
        (at::COUNTS, 2),
        (at::COUNTS + 1, 1),
        (at::COUNTS + 2, 3),
        (at::COUNTS + 3, 0),
        (at::COUNTS + 3, 129),
        (at::COUNTS + 4, 1),
        (at::COUNTS + 5, 65),
        (at::STATES, 17),
        (at::STATES + 1, 1),
        (at::STARTS, 1),
        (at::STARTS + 3, 1),
        (at::MESSAGES, 0),
        (at::MESSAGES + 2, 1),
        (at::LENGTHS, 9),
        (at::LENGTHS + 1, 1),
        (at::LENGTHS + 2, 1),
        (at::CONTENTS, 1),
        (at::CONTENTS + at::CONTENTS_ROW, 1),
        (at::TRANSITIONS - 1, 1),
        (at::TRANSITIONS, 1),
        (at::TRANSITIONS + 1, 1),
        (at::TRANSITIONS + 2, 1),
        (at::TRANSITIONS + 3, 0),
        (at::TRANSITIONS + 3, 3),
        (at::TRANSITIONS + 4, 1),
        (at::TRANSITIONS + 5, 17),
        (at::TRANSITIONS + at::TRANSITION_WORD, 1),
        (at::TRANSITIONS + at::TRANSITION_WORD + 1, 1),
        (at::TRANSITIONS + at::TRANSITION_ROW, 1),
        (at::FINALS, 2),
        (at::FINALS + 2, 1),
        (at::ARCS, 3),
        (at::ARCS + 2, 1),
        (at::ARCS + at::ARC_ROW, 1),
        (at::ARCS + 2 * at::ARC_ROW, 1),
        (at::ROOTS, 3),
        (at::ROOTS + 1, 1),
        (at::BAD, 1),
        (SPACE_LEAST - 1, 1),
    ];
    for (place, entry) in damages {
        let mut damaged = tables;
        damaged[place] = entry;
        for length in [FILE_MOST, 0] {
            let (mut buffer, mut reply) = (vec![0xaa; length], [7; 4]);
            assert_eq!(lent::write(&damaged, &mut buffer, &mut reply), lent::REFUSED, "{entry} at {place}");
            assert_eq!((reply, buffer), ([16, 0, 0, 0], vec![0xaa; length]), "{entry} at {place}");
        }
    }
}

/// All counts at their most, eight messages in each queue at the start, words of sixteen, and every arc; no state is final, so no word is accepted out of order.
#[test]
fn the_longest_file() {
    let mut session = Session::new(&[Machine { states: 4, start: 3 }; 4], &[8; 4]).expect("it is within its ranges");
    let mut states = vec![session.state(0).expect("there is one")];
    while let Ok(state) = session.add_state(false) {
        states.push(state);
    }
    let changed = "it is within its ranges";
    for queue in 0..4 {
        let messages: Vec<u8> = (0..8).map(|place| 8 * queue as u8 + 7 - place).collect();
        session.set_starting(queue, &messages).expect(changed);
    }
    for number in 0..128 {
        let kind = Kind::Send { queue: 3, word: (0..16).map(|place| 24 + (number as u8 + place) % 8).collect() };
        session.add_transition(Transition { machine: number % 4, from: 0, to: 3, kind }).expect(changed);
    }
    for (number, &state) in states.iter().enumerate() {
        for message in 0..32 {
            session.set_arc(state, message, states[(number * 31 + usize::from(message)) % 127]).expect(changed);
        }
    }
    for control in 0..256 {
        session.set_root(control, Some(states[control % 127])).expect(changed);
    }
    for (number, &root) in states[..64].iter().enumerate() {
        session.add_bad_entry(BadEntry { control: 255 - number, root }).expect(changed);
    }
    assert_eq!((session.transitions().len(), session.pool().len(), session.bad_entries().len()), (128, 127, 64));
    let file = session.write().expect("no word is accepted");
    assert_eq!(file.len(), LONGEST);
    assert_eq!(read(&file), Ok(session.clone()));
    assert_eq!(session.write_into(&mut [0; LONGEST - 1]), Err(NO_BUFFER));
    for queue in 0..4 {
        session.set_starting(queue, &[]).expect(changed);
    }
    assert_eq!(session.write().map(|file| file.len()), Ok(LONGEST - 36), "the longest that starts empty");
    session.set_final(states[0], true).expect(changed);
    assert_eq!(session.write(), Err(NO_FILE), "now words are accepted in any order");
}

/// splitmix64
struct Random(u64);

impl Random {
    fn below(&mut self, count: usize) -> usize {
        self.0 = self.0.wrapping_add(0x9e37_79b9_7f4a_7c15);
        let mut z = self.0;
        z = (z ^ (z >> 30)).wrapping_mul(0xbf58_476d_1ce4_e5b9);
        z = (z ^ (z >> 27)).wrapping_mul(0x94d0_49bb_1331_11eb);
        ((z ^ (z >> 31)) % count as u64) as usize
    }

    fn is_one_in(&mut self, count: usize) -> bool {
        self.below(count) == 0
    }

    /// Now and then the count itself.
    fn mostly_below(&mut self, count: usize) -> usize {
        let more = self.is_one_in(9);
        self.below(count + usize::from(more))
    }
}

fn new_session(random: &mut Random) -> Session {
    let machines: Vec<Machine> = (0..1 + random.below(3))
        .map(|_| {
            let states = 1 + random.below(4);
            Machine { states, start: random.below(states) }
        })
        .collect();
    let messages: Vec<usize> = (0..1 + random.below(4)).map(|_| 1 + random.below(3)).collect();
    Session::new(&machines, &messages).expect("it is within its ranges")
}

/// A transition that may be past a range by one.
fn transition(session: &Session, random: &mut Random) -> Transition {
    let machine = random.mostly_below(session.machines().len());
    let [from, to] = [(); 2].map(|()| random.below(4));
    let queue = random.mostly_below(session.queues().len());
    let messages = session.queues().get(queue).map_or(0..1, |queue| queue.messages.clone());
    let length = if random.is_one_in(4) { random.below(18) } else { random.below(4) };
    let word = (0..length).map(|_| messages.start + random.mostly_below(messages.len()) as u8).collect();
    let kind = match random.below(3) {
        0 => Kind::Local,
        1 => Kind::Send { queue, word },
        _ => Kind::Receive { queue, word },
    };
    Transition { machine, from, to, kind }
}

/// A state of the session, or now and then one of another.
fn any_state(session: &Session, random: &mut Random) -> DiagramState {
    if random.is_one_in(20) {
        let mut other = session.clone();
        return other.add_state(false).unwrap_or_else(|_| session.state(0).expect("there is one"));
    }
    session.state(random.below(session.pool().len())).expect("the pool has the state")
}

/// One change at random. Whether it was made.
fn change(session: &mut Session, random: &mut Random) -> bool {
    let (state, target) = (any_state(session, random), any_state(session, random));
    let message = random.below(session.queues().iter().map(|queue| queue.messages.len()).sum::<usize>() + 1) as u8;
    let control = random.below(session.control_states() + 1);
    let entry = BadEntry { control, root: state };
    let made = match random.below(18) {
        0 => session.set_start(random.below(4), random.below(4)),
        1 | 2 => session.add_transition(transition(session, random)).map(drop),
        3 => session.replace_transition(random.below(4), transition(session, random)).map(drop),
        4 => session.remove_transition(random.below(4)).map(drop),
        5 | 6 => session.add_state(random.is_one_in(2)).map(drop),
        7 => session.set_final(state, random.is_one_in(2)),
        8..=10 => session.set_arc(state, message, target).map(drop),
        11 => session.remove_arc(state, message).map(drop),
        12 => session.set_root(control, Some(state)),
        13 => session.set_root(control, None),
        14 => session.add_bad_entry(entry).map(drop),
        15 => put_diagram(session, random),
        16 => set_starting(session, random),
        _ if random.is_one_in(2) => session.replace_bad_entry(random.below(3), entry).map(drop),
        _ => session.remove_bad_entry(random.below(3)).map(drop),
    };
    made.is_ok()
}

/// What a queue starts with, which may be past a range by one.
fn set_starting(session: &mut Session, random: &mut Random) -> Result<(), SessionError> {
    let queue = random.mostly_below(session.queues().len());
    let messages = session.queues().get(queue).map_or(0..1, |queue| queue.messages.clone());
    let length = if random.is_one_in(4) { random.below(10) } else { random.below(3) };
    let starting: Vec<u8> = (0..length).map(|_| messages.start + random.mostly_below(messages.len()) as u8).collect();
    session.set_starting(queue, &starting).map(drop)
}

/// A diagram behind the pool or in its place, which may have messages that are not there.
fn put_diagram(session: &mut Session, random: &mut Random) -> Result<(), SessionError> {
    let text = ["", "0*", "(0|1)* 2", "0* 1*", "0 1* 0"][random.below(5)];
    let diagram = expression(text.as_bytes()).expect("it is an expression");
    let put = if random.is_one_in(2) { Session::add_diagram } else { Session::set_pool };
    put(session, &diagram).map(drop)
}

/// Whether a root accepts a word with a message of an earlier queue after one of a later queue: a search by the definition,
/// over the states reached, the latest queue so far and whether an earlier one came after it.
fn accepts_out_of_order(session: &Session) -> bool {
    let roots = session.roots().iter().flatten().copied();
    let mut found: Vec<(DiagramState, usize, bool)> =
        roots.chain(session.bad_entries().iter().map(|entry| entry.root)).map(|root| (root, 0, false)).collect();
    let mut next = 0;
    while let Some(&(state, latest, is_out)) = found.get(next) {
        next += 1;
        if is_out && session.is_final(state) {
            return true;
        }
        for arc in &session.pool()[state.index()].arcs {
            let queue = session.queue_of(arc.message).expect("a message of an arc has a queue");
            let after = (arc.target, latest.max(queue), is_out || queue < latest);
            if !found.contains(&after) {
                found.push(after);
            }
        }
    }
    false
}

/// A session is written unless a word is out of order, and then read again.
fn goes_round(session: &Session) -> bool {
    match session.write() {
        Ok(file) => {
            assert_eq!(usize::from(file[0]) > 4, !session.starting().is_empty(), "the form goes by what waits");
            assert!(!accepts_out_of_order(session), "{session:?}");
            assert_eq!(read(&file).as_ref(), Ok(session));
            assert_eq!(session.write_into(&mut vec![0; file.len() - 1]), Err(NO_BUFFER));
            true
        }
        Err(refusal) => {
            assert_eq!(refusal, NO_FILE);
            assert!(accepts_out_of_order(session), "{session:?}");
            assert_eq!(session.write_into(&mut []), Err(NO_FILE), "16 before 17");
            false
        }
    }
}

#[test]
fn sessions_made_and_changed_at_random() {
    let mut random = Random(20_261_116);
    let [mut written, mut resumed, mut refused, mut turned_down] = [0; 4];
    for _ in 0..400 {
        let mut session = new_session(&mut random);
        for _ in 0..random.below(60) {
            let before = session.clone();
            if !change(&mut session, &mut random) {
                assert_eq!(session, before, "what is turned down changes nothing");
                turned_down += 1;
            }
            let is_written = goes_round(&session);
            *(if is_written { &mut written } else { &mut refused }) += 1;
            resumed += usize::from(is_written && !session.starting().is_empty());
        }
    }
    let met = [written, resumed, refused, turned_down];
    assert!(met.iter().all(|&count| count > 1_000), "{met:?}");
}

#[test]
fn samples_changed_at_random() {
    let mut random = Random(5);
    for file in samples() {
        let sample = read(&file).expect("it is a session file");
        for _ in 0..20 {
            let mut session = sample.clone();
            for _ in 0..random.below(6) {
                change(&mut session, &mut random);
            }
            goes_round(&session);
        }
    }
}
