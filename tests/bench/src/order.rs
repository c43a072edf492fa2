//! The test of queue order by the product's algorithm, as the measure of speed. The reference answers by sets of states
//! (its module `order`), and does not use this.
//!
//! A node is a state and a rank: the queue of the last message, 0 at a root, and `WRONG` once a message was of an earlier queue
//! than the one before it. Its number is `state * 5 + rank`.

use reference_checker::read::{Tables, MESSAGES, POOL_STATES, QUEUES};

const WRONG: usize = QUEUES;
const RANKS: usize = QUEUES + 1;
/// Nodes that there can be.
pub const NODES: usize = POOL_STATES * RANKS;

/// The nodes found, in order, and a mark for each that was.
struct Search {
    marks: [bool; NODES],
    nodes: [u16; NODES],
    found: usize,
}

impl Search {
    #[inline]
    fn find(&mut self, state: u8, rank: usize) {
        let node = usize::from(state) * RANKS + rank;
        if !self.marks[node] {
            self.marks[node] = true;
            self.nodes[self.found] = node as u16;
            self.found += 1;
        }
    }
}

pub fn in_queue_order(tables: &Tables) -> bool {
    nodes_visited(tables).is_some()
}

/// How many nodes were visited; none where a word out of order is accepted.
pub fn nodes_visited(tables: &Tables) -> Option<usize> {
    let mut search = Search { marks: [false; NODES], nodes: [0; NODES], found: 0 };
    for root in &tables.roots[..tables.control_state_count] {
        if let Some(root) = root.checked_sub(1) {
            search.find(root, 0);
        }
    }
    for entry in tables.used_bad_entries() {
        search.find(entry.root, 0);
    }
    let mut firsts = [0; QUEUES + 1];
    for queue in 0..tables.queue_count {
        firsts[queue + 1] = firsts[queue] + usize::from(tables.messages[queue]);
    }
    let mut next = 0;
    while next < search.found {
        let node = usize::from(search.nodes[next]);
        let (state, rank) = (node / RANKS, node % RANKS);
        if rank == WRONG && tables.finals[state] {
            return None;
        }
        let row = &tables.arcs[state * MESSAGES..][..MESSAGES];
        for queue in 0..tables.queue_count {
            let rank_after = if queue < rank { WRONG } else { queue };
            for arc in &row[firsts[queue]..firsts[queue + 1]] {
                if let Some(target) = arc.checked_sub(1) {
                    search.find(target, rank_after);
                }
            }
        }
        next += 1;
    }
    Some(next)
}

#[cfg(test)]
mod tests {
    use reference_checker::generate::large;
    use reference_checker::generate::reading::reading_cases;
    use reference_checker::random::Random;
    use reference_checker::read::{read, read_asking};

    use super::*;

    #[test]
    fn files_are_read_as_the_reference_reads_them() {
        for case in reading_cases(9).cases {
            assert_eq!(read_asking(&case.bytes, in_queue_order), read(&case.bytes), "{}", case.kind);
        }
    }

    #[test]
    fn the_longest_test_visits_all_nodes() {
        let file = large::longest_test_of_order(&mut Random::new(1)).bytes();
        let tables = read(&file).expect("nothing is accepted");
        assert_eq!(nodes_visited(&tables), Some(NODES));
        assert_eq!(NODES, 635);
    }
}
