//! The typed session, membership and replay of the binding beside the reference's.

use reference_checker::flat::Flat;
use reference_checker::membership::Member;
use reference_checker::read::{Kind as ReferenceKind, Refusal as ReferenceRefusal, Tables};
use reference_checker::read::{Transition as ReferenceTransition, MESSAGES};
use reference_checker::replay::{Answer, Reply, QUEUE_ROOM};
use swarmbanner::lent::at;
use swarmbanner::{Kind, Membership, Refusal, Replayed, Replayer, Session, Transition};

/// Whether a session says what the tables say.
pub fn same_session(session: &Session, tables: &Tables) -> bool {
    same_machines(session, tables)
        && session.queues().len() == tables.queue_count
        && session.queues().iter().zip(0..).all(|(queue, number)| {
            let first = tables.first_message(number);
            usize::from(queue.messages.start) == first && queue.messages.len() == usize::from(tables.messages[number])
        })
        && same_start(session, tables)
        && session.transitions().len() == tables.transition_count
        && session.transitions().iter().zip(tables.used_transitions()).all(|(one, other)| same_transition(one, other))
        && same_pool(session, tables)
        && session.bad_entries().len() == tables.bad_count
        && session.bad_entries().iter().zip(tables.used_bad_entries()).all(|(one, other)| {
            one.control == usize::from(other.control_state) && one.root.index() == usize::from(other.root)
        })
}

fn same_machines(session: &Session, tables: &Tables) -> bool {
    let machines = session.machines();
    machines.len() == tables.machine_count
        && machines.iter().zip(&tables.states).all(|(machine, &states)| machine.states == usize::from(states))
        && machines.iter().zip(&tables.starts).all(|(machine, &start)| machine.start == usize::from(start))
        && session.control_states() == tables.control_state_count
        && (0..session.control_states()).all(|control| {
            let states = session.machine_states(control).expect("the control state is there");
            session.control_of(&states) == Some(control)
        })
}

/// What waits at the start, queue by queue, and as one word.
fn same_start(session: &Session, tables: &Tables) -> bool {
    let starting = starting_of(tables);
    session.queues().iter().map(|queue| &queue.starting).eq(&starting) && session.starting() == starting.concat()
}

/// What waits in each queue at the start, by the layout of `include/swarmbanner.h`.
pub fn starting_of(tables: &Tables) -> Vec<Vec<u8>> {
    let flat = Flat::of(tables).0;
    let rows = flat[at::CONTENTS..at::TRANSITIONS].chunks(at::CONTENTS_ROW).zip(&flat[at::LENGTHS..at::CONTENTS]);
    rows.take(tables.queue_count).map(|(row, &length)| row[..usize::from(length)].to_vec()).collect()
}

fn same_transition(one: &Transition, other: &ReferenceTransition) -> bool {
    let kind = match other.kind {
        ReferenceKind::Local => Kind::Local,
        ReferenceKind::Send => Kind::Send { queue: other.queue.into(), word: other.word().to_vec() },
        ReferenceKind::Receive => Kind::Receive { queue: other.queue.into(), word: other.word().to_vec() },
    };
    *one == Transition { machine: other.machine.into(), from: other.from.into(), to: other.to.into(), kind }
}

fn same_pool(session: &Session, tables: &Tables) -> bool {
    let roots = session.roots().iter().map(|root| root.map_or(0, |root| root.index() + 1));
    session.pool().len() == tables.pool_state_count
        && session.pool().iter().zip(tables.arcs.chunks(MESSAGES)).zip(&tables.finals).all(
            |((state, row), &is_final)| {
                let mut targets = [0; MESSAGES];
                for arc in &state.arcs {
                    targets[usize::from(arc.message)] = arc.target.index() as u8 + 1;
                }
                state.is_final == is_final && targets == row
            },
        )
        && roots.eq(tables.roots[..tables.control_state_count].iter().map(|&root| usize::from(root)))
}

/// Whether membership says what the reference does.
pub fn same_membership(said: &Result<Membership, Refusal>, expected: &Result<Member, ReferenceRefusal>) -> bool {
    match (said, expected) {
        (Ok(said), Ok(expected)) => said.is_inside == expected.belongs && said.followed == expected.far,
        (Err(one), Err(other)) => one.to_string() == other.to_string(),
        _ => false,
    }
}

/// Whether a replay that has memory enough says what the reference does, which may have had too little.
pub fn same_run(replayed: &Replayed, replayer: &Replayer, expected: &Answer) -> bool {
    if matches!(expected.reply, Reply::MemoryRefused(_)) {
        return replayed.steps().is_some() && replayer.last().is_some();
    }
    let record = &expected.lent.record;
    let same_last = replayer.last().is_none_or(|last| {
        let states = record.states.iter().take(last.states.len()).map(|&state| usize::from(state));
        let queues =
            expected.lent.memory.chunks(QUEUE_ROOM).zip(record.lengths).map(|(bytes, length)| &bytes[..length]);
        states.eq(last.states.iter().copied()) && queues.take(last.queues.len()).eq(last.queues.iter().copied())
    });
    replayed.to_string() == expected.reply.to_string()
        && same_last
        && replayed.steps().is_some() == replayer.last().is_some()
}
