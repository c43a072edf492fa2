//! Row 9: whether a word accepted from a root has a message of an earlier queue after one of a later queue.
//!
//! A word like that is x a y b z, with a of the later queue and b of the earlier one. So the question is put part by part:
//! which states x can lead to, which ones a leads to from there, and so on. Nothing is remembered along a single word.
//!
//! `accepts_out_of_order` makes the words themselves, one by one, and looks at their messages. That is for small pools.

use std::collections::BTreeSet;

use crate::diagram::{accepts, follow, root};
use crate::read::{Tables, MESSAGES, QUEUES};

/// A set of pool states, a bit for each.
type States = u128;

pub fn in_queue_order(tables: &Tables) -> bool {
    let leads = Leads::new(tables);
    roots(tables).into_iter().all(|root| {
        let after_x = leads.after_any_word(1 << root);
        let in_order = |later: usize, earlier: usize| {
            let after_y = leads.after_any_word(leads.after_message(after_x, later));
            let after_z = leads.after_any_word(leads.after_message(after_y, earlier));
            after_z & leads.finals == 0
        };
        (0..tables.queue_count).all(|later| (0..later).all(|earlier| in_order(later, earlier)))
    })
}

/// The roots of the map and of the bad list, an entry's also where its control state has none.
pub fn roots(tables: &Tables) -> BTreeSet<usize> {
    let of_map = (0..tables.control_state_count).filter_map(|control_state| root(tables, control_state));
    let of_bad_list = tables.used_bad_entries().iter().map(|entry| usize::from(entry.root));
    of_map.chain(of_bad_list).collect()
}

struct Leads {
    /// For each state, where the messages of each queue lead.
    targets: Vec<[States; QUEUES]>,
    finals: States,
}

impl Leads {
    fn new(tables: &Tables) -> Self {
        let mut leads = Leads { targets: vec![[0; QUEUES]; tables.pool_state_count], finals: 0 };
        for (state, targets) in leads.targets.iter_mut().enumerate() {
            leads.finals |= States::from(tables.finals[state]) << state;
            for (queue, targets) in targets.iter_mut().enumerate().take(tables.queue_count) {
                let messages = tables.first_message(queue)..tables.first_message(queue + 1);
                let arcs = &tables.arcs[state * MESSAGES..][messages];
                *targets = arcs.iter().filter(|&&arc| arc > 0).fold(0, |states, arc| states | 1 << (arc - 1));
            }
        }
        leads
    }

    /// Where one message of a queue leads from some states.
    fn after_message(&self, from: States, queue: usize) -> States {
        let is_in = |state: usize| from >> state & 1 == 1;
        let targets = self.targets.iter().enumerate().filter(|&(state, _)| is_in(state));
        targets.fold(0, |states, (_, targets)| states | targets[queue])
    }

    /// Where any word leads from some states, the empty word too.
    fn after_any_word(&self, from: States) -> States {
        let one_more = (0..QUEUES).fold(from, |states, queue| states | self.after_message(from, queue));
        if one_more == from {
            from
        } else {
            self.after_any_word(one_more)
        }
    }
}

/// Whether a word of at most so many messages that is accepted from a root is out of order. Where some word is, one of twice
/// as many messages as there are states is: two neighbours in it are out of order, and no state need come twice before
/// them or after them.
pub fn accepts_out_of_order(tables: &Tables, longest: usize) -> bool {
    roots(tables).into_iter().any(|root| goes_on_out_of_order(tables, root, &mut vec![], longest))
}

/// Whether the word does, or a longer one that begins with it.
fn goes_on_out_of_order(tables: &Tables, root: usize, word: &mut Vec<u8>, longest: usize) -> bool {
    if follow(tables, Some(root), word).is_none() {
        return false;
    }
    if is_out_of_order(tables, word) && accepts(tables, Some(root), word) {
        return true;
    }
    word.len() < longest
        && (0..tables.message_sum as u8).any(|message| {
            word.push(message);
            let goes_on = goes_on_out_of_order(tables, root, word, longest);
            word.pop();
            goes_on
        })
}

fn is_out_of_order(tables: &Tables, word: &[u8]) -> bool {
    let is_earlier = |message: u8, than: u8| tables.queue_of(message) < tables.queue_of(than);
    (0..word.len()).any(|place| word[place + 1..].iter().any(|&later| is_earlier(later, word[place])))
}

/// Pools up to these sizes are asked by words as well.
const SMALL_POOL: usize = 4;
const FEW_MESSAGES: usize = 3;

/// The same as `in_queue_order` by every word, where the pool is small enough for that.
pub fn in_queue_order_by_words(tables: &Tables) -> Option<bool> {
    let is_small = tables.pool_state_count <= SMALL_POOL && tables.message_sum <= FEW_MESSAGES;
    is_small.then(|| !accepts_out_of_order(tables, 2 * tables.pool_state_count + 1))
}
