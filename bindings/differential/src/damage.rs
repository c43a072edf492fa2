//! Damage to tables in the layout of `include/swarmbanner.h`: mostly to entries that are in use or just beyond the counts, as
//! any other is soon seen to be wrong.

use reference_checker::random::Random;
use swarmbanner::lent::{at, SPACE_LEAST};

/// Changes entries at one to three places.
pub fn damage(tables: &mut [u8], random: &mut Random) {
    for _ in 0..[1, 1, 1, 2, 3][random.below(5)] {
        let place = if random.chance(90) { near(tables, random) } else { random.below(SPACE_LEAST) };
        let entry = &mut tables[place];
        *entry = match random.below(8) {
            0 => random.byte(),
            1 => 0,
            2 | 3 => entry.wrapping_sub(1),
            4 => *entry ^ 1,
            5 => random.below(4) as u8,
            _ => entry.wrapping_add(1),
        };
    }
}

/// An entry of a table, up to one row beyond those that are in use.
fn near(tables: &[u8], random: &mut Random) -> usize {
    let count = |which: usize| usize::from(tables[at::COUNTS + which]);
    let row = |table: usize, rows: usize, length: usize, random: &mut Random| {
        table + random.below(rows + 1) * length + random.below(length)
    };
    let place = match random.below(19) {
        0 => at::COUNTS + random.below(6),
        1 => row(at::STATES, count(0), 1, random),
        2 => row(at::STARTS, count(0), 1, random),
        3 => row(at::MESSAGES, count(1), 1, random),
        4..8 => row(at::TRANSITIONS, count(3), at::TRANSITION_ROW, random),
        8 | 9 => row(at::FINALS, count(4), 1, random),
        10..13 => at::ARCS + random.below(count(4) + 1) * at::ARC_ROW + random.below(count(2) + 1),
        13 => at::ROOTS + random.below(control_states(tables) + 1),
        14 => row(at::LENGTHS, count(1), 1, random),
        15 | 16 => row(at::CONTENTS, count(1), at::CONTENTS_ROW, random),
        _ => row(at::BAD, count(5), at::BAD_ROW, random),
    };
    place.min(SPACE_LEAST - 1)
}

fn control_states(tables: &[u8]) -> usize {
    let machines = usize::from(tables[at::COUNTS]);
    tables[at::STATES..at::STARTS].iter().take(machines).map(|&states| usize::from(states)).product()
}
