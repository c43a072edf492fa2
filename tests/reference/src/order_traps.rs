//! Reading with a mistake about queue order on purpose. With no trap set this is a third way to row 9, by arcs: a word is out
//! of order if two messages side by side are, so an arc that a root leads to is looked for, and behind it an arc for an
//! earlier queue that leads on to a final state.

use std::collections::BTreeSet;

use crate::arcs::{Arc, Arcs};
use crate::order::roots;
use crate::read::{read_bad_entries, read_roots, read_up_to_pool, refuse, Reader, Refusal, Tables, LONGEST_FILE};

#[derive(Clone, Copy, Debug, PartialEq, Eq, PartialOrd, Ord)]
pub enum OrderTrap {
    /// Words that lead to no final state count too.
    DeadEndsCount,
    /// Words from states that no root leads to count too.
    UnusedStatesCount,
    /// Roots of the map do not count.
    MapRootsForgotten,
    /// Of the map only the root of the starting control state counts.
    StartRootOnly,
    /// Roots of the bad list do not count.
    BadRootsForgotten,
    /// Those whose control state has no root do not count.
    RootlessBadForgotten,
    /// A root that is final is taken to accept the empty word alone.
    FinalRootsForgotten,
    /// Two messages of one queue are out of order.
    EqualQueuesRefused,
    /// Messages are compared by number and not by queue.
    NumbersCompared,
    /// Only a message of the queue just before counts as earlier.
    NextQueueOnly,
    /// The message that is out of order must lead to a final state itself.
    FaultEndsTheWord,
    /// A state is looked at once, with the queue of the message that it was first reached by.
    EachStateOnce,
    /// Every state counts, and it is asked after field 4, as document 01 has it.
    AskedAfterField4,
    /// It is asked of the map after field 5, and again after field 6.
    AskedAfterField5,
    /// It is asked after 10.
    AskedAfterTheEnd,
    /// The place is the first after field 4.
    PlaceAfterField4,
}

impl OrderTrap {
    pub const ALL: [OrderTrap; 16] = [
        OrderTrap::DeadEndsCount,
        OrderTrap::UnusedStatesCount,
        OrderTrap::MapRootsForgotten,
        OrderTrap::StartRootOnly,
        OrderTrap::BadRootsForgotten,
        OrderTrap::RootlessBadForgotten,
        OrderTrap::FinalRootsForgotten,
        OrderTrap::EqualQueuesRefused,
        OrderTrap::NumbersCompared,
        OrderTrap::NextQueueOnly,
        OrderTrap::FaultEndsTheWord,
        OrderTrap::EachStateOnce,
        OrderTrap::AskedAfterField4,
        OrderTrap::AskedAfterField5,
        OrderTrap::AskedAfterTheEnd,
        OrderTrap::PlaceAfterField4,
    ];
}

/// Reads with a mistake, or without one.
pub fn read_with(bytes: &[u8], trap: Option<OrderTrap>) -> Result<Tables, Refusal> {
    if bytes.len() > LONGEST_FILE {
        return refuse(1, LONGEST_FILE);
    }
    let is = |other: OrderTrap| trap == Some(other);
    let mut reader = Reader { bytes, place: 0 };
    let mut tables = Tables::empty();
    read_up_to_pool(&mut reader, &mut tables)?;
    let after_pool = reader.place;
    if is(OrderTrap::AskedAfterField4) && !is_in_order(&tables, trap) {
        return refuse(9, after_pool);
    }
    read_roots(&mut reader, &mut tables)?;
    if is(OrderTrap::AskedAfterField5) && !is_in_order(&tables, trap) {
        return refuse(9, reader.place);
    }
    read_bad_entries(&mut reader, &mut tables)?;
    let place = if is(OrderTrap::PlaceAfterField4) { after_pool } else { reader.place };
    let has_more = reader.place < bytes.len();
    let is_passed_over = has_more && is(OrderTrap::AskedAfterTheEnd);
    if !is_passed_over && !is_in_order(&tables, trap) {
        return refuse(9, place);
    }
    if has_more {
        return refuse(10, reader.place);
    }
    Ok(tables)
}

fn is_in_order(tables: &Tables, trap: Option<OrderTrap>) -> bool {
    let arcs = Arcs::new(tables);
    let roots = counted_roots(tables, trap);
    let all = || (0..tables.pool_state_count).collect();
    let finals = (0..tables.pool_state_count).filter(|&state| tables.finals[state]).collect();
    let used = match trap {
        Some(OrderTrap::EachStateOnce) => return is_in_order_by_states(tables, &arcs, roots),
        Some(OrderTrap::UnusedStatesCount | OrderTrap::AskedAfterField4) => all(),
        _ => arcs.reached_from(roots),
    };
    let alive = match trap {
        Some(OrderTrap::DeadEndsCount | OrderTrap::AskedAfterField4) => all(),
        Some(OrderTrap::FaultEndsTheWord) => finals,
        _ => arcs.leading_to(finals),
    };
    let is_out_of_order = |before: &Arc, after: &Arc| match trap {
        Some(OrderTrap::EqualQueuesRefused) => after.queue <= before.queue,
        Some(OrderTrap::NumbersCompared) => after.message < before.message,
        Some(OrderTrap::NextQueueOnly) => after.queue + 1 == before.queue,
        _ => after.queue < before.queue,
    };
    let mut counted =
        arcs.side_by_side().filter(|(before, after)| used.contains(&before.source) && alive.contains(&after.target));
    !counted.any(|(before, after)| is_out_of_order(before, after))
}

fn counted_roots(tables: &Tables, trap: Option<OrderTrap>) -> BTreeSet<usize> {
    let mut counted = tables.clone();
    match trap {
        Some(OrderTrap::MapRootsForgotten) => counted.roots.fill(0),
        Some(OrderTrap::StartRootOnly) => {
            let machines = tables.states.iter().zip(&tables.starts).take(tables.machine_count);
            let start = machines.fold(0, |number, (&states, &start)| number * usize::from(states) + usize::from(start));
            counted.roots.fill(0);
            counted.roots[start] = tables.roots[start];
        }
        Some(OrderTrap::BadRootsForgotten) => counted.bad_count = 0,
        Some(OrderTrap::RootlessBadForgotten) => {
            let mut kept = tables.used_bad_entries().to_vec();
            kept.retain(|entry| tables.roots[usize::from(entry.control_state)] > 0);
            counted.bad_count = kept.len();
            counted.bad[..kept.len()].copy_from_slice(&kept);
        }
        _ => {}
    }
    let mut roots = roots(&counted);
    if trap == Some(OrderTrap::FinalRootsForgotten) {
        roots.retain(|&root| !tables.finals[root]);
    }
    roots
}

/// Each state keeps the queue that it was first found with; none once a message was out of order.
fn is_in_order_by_states(tables: &Tables, arcs: &Arcs, roots: BTreeSet<usize>) -> bool {
    let mut found: Vec<(usize, Option<usize>)> = roots.into_iter().map(|root| (root, Some(0))).collect();
    let mut next = 0;
    while next < found.len() {
        let (state, queue) = found[next];
        if queue.is_none() && tables.finals[state] {
            return false;
        }
        for arc in arcs.0.iter().filter(|arc| arc.source == state) {
            if !found.iter().any(|&(state, _)| state == arc.target) {
                found.push((arc.target, queue.filter(|&queue| queue <= arc.queue).map(|_| arc.queue)));
            }
        }
        next += 1;
    }
    true
}
