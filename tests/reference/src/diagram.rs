//! Following words through the pool.

use crate::read::{Tables, MESSAGES};

/// Where a word leads; None for nowhere, which no word leads out of.
pub fn follow(tables: &Tables, from: Option<usize>, word: &[u8]) -> Option<usize> {
    word.iter().fold(from, |state, &message| {
        let arc = tables.arcs[state? * MESSAGES + usize::from(message)];
        usize::from(arc).checked_sub(1)
    })
}

/// How far a word is followed: how many messages it takes before it has nowhere to go, else its length; 0 from nowhere.
pub fn far(tables: &Tables, from: Option<usize>, word: &[u8]) -> usize {
    let next = |state: &mut Option<usize>, &message: &u8| {
        *state = follow(tables, *state, &[message]);
        *state
    };
    word.iter().scan(from, next).count()
}

/// The root of a control state, or none.
pub fn root(tables: &Tables, control_state: usize) -> Option<usize> {
    usize::from(tables.roots[control_state]).checked_sub(1)
}

/// Whether a word leads from a root to a final state.
pub fn accepts(tables: &Tables, root: Option<usize>, word: &[u8]) -> bool {
    follow(tables, root, word).is_some_and(|state| tables.finals[state])
}
