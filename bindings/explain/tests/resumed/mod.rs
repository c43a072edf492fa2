//! Generated files whose queues do not start empty.

use reference_checker::random::Random;
use swarmbanner::lent::STARTING_MOST;
use swarmbanner::{DiagramState, Session};

/// A file as it is, or every other time with messages that wait at the start.
pub fn every_other(random: &mut Random, file: Vec<u8>) -> Vec<u8> {
    match random.chance(50) {
        true => resumed(random, &file),
        false => file,
    }
}

/// The same file with messages that wait at the start: mostly a way from the root of the starting control state, so that the start
/// is often inside, else any message.
pub fn resumed(random: &mut Random, file: &[u8]) -> Vec<u8> {
    let mut session = swarmbanner::read(file).expect("it is a session file");
    let (way, any) = (way(random, &session), vec![any_message(random, &session)]);
    let word = if way.is_empty() || random.chance(15) { any } else { way };
    let parts = session.split(&word).unwrap_or_default().into_iter().map(<[u8]>::to_vec).collect::<Vec<_>>();
    for (queue, messages) in parts.iter().enumerate() {
        session.set_starting(queue, &messages[..messages.len().min(STARTING_MOST)]).expect("it is within its ranges");
    }
    session.write().expect("queue order does not go by the start")
}

fn way(random: &mut Random, session: &Session) -> Vec<u8> {
    let (mut word, mut state): (Vec<u8>, Option<DiagramState>) = (vec![], session.root(session.start()));
    for _ in 0..random.below(10) {
        let arcs = state.map_or(&[][..], |state| &session.pool()[state.index()].arcs);
        let Some(arc) = random.pick(arcs) else { break };
        word.push(arc.message);
        state = Some(arc.target);
    }
    word
}

fn any_message(random: &mut Random, session: &Session) -> u8 {
    random.below(session.queues().last().expect("there is a queue").messages.end.into()) as u8
}
