//! The arcs of a pool as a list, and the states that they lead to.

use std::collections::BTreeSet;

use crate::read::{Tables, MESSAGES};

pub struct Arc {
    pub source: usize,
    pub message: u8,
    pub queue: usize,
    pub target: usize,
}

/// All arcs, by state and then by message.
pub struct Arcs(pub Vec<Arc>);

impl Arcs {
    pub fn new(tables: &Tables) -> Self {
        let arc = |source: usize, message: u8| {
            let target = usize::from(tables.arcs[source * MESSAGES + usize::from(message)]).checked_sub(1)?;
            Some(Arc { source, message, queue: tables.queue_of(message), target })
        };
        let arcs_of = |state| (0..tables.message_sum as u8).filter_map(move |message| arc(state, message));
        Arcs((0..tables.pool_state_count).flat_map(arcs_of).collect())
    }

    /// Each arc with each arc of the state that it leads to.
    pub fn side_by_side(&self) -> impl Iterator<Item = (&Arc, &Arc)> {
        let after = |before: &Arc| {
            let state = before.target;
            self.0.iter().filter(move |after| after.source == state)
        };
        self.0.iter().flat_map(move |before| after(before).map(move |after| (before, after)))
    }

    /// These states and all that can be reached from them.
    pub fn reached_from(&self, mut states: BTreeSet<usize>) -> BTreeSet<usize> {
        while let Some(arc) = self.0.iter().find(|arc| states.contains(&arc.source) && !states.contains(&arc.target)) {
            states.insert(arc.target);
        }
        states
    }

    /// These states and all that they can be reached from.
    pub fn leading_to(&self, mut states: BTreeSet<usize>) -> BTreeSet<usize> {
        while let Some(arc) = self.0.iter().find(|arc| states.contains(&arc.target) && !states.contains(&arc.source)) {
            states.insert(arc.source);
        }
        states
    }
}
