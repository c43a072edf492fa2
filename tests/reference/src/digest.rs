//! One number over all entries of the tables, used or not, or over all bytes of lent memory, and the lines that reading,
//! replaying, writing and diagrams from expressions are compared by.

use crate::expression::{Pool, ROOT};
use crate::read::{Refusal, Tables};
use crate::replay::Answer;

const MODULUS: u64 = 16_777_213;

struct Digest(u64);

impl Digest {
    fn add(&mut self, entry: impl Into<u64>) {
        self.0 = (self.0 * 257 + entry.into() + 1) % MODULUS;
    }

    fn add_count(&mut self, count: usize) {
        self.add(count as u64);
    }

    fn add_all(&mut self, entries: &[u8]) {
        for &entry in entries {
            self.add(entry);
        }
    }

    fn add_pool(&mut self, state_count: usize, finals: &[bool], arcs: &[u8]) {
        self.add_count(state_count);
        for &is_final in finals {
            self.add(is_final);
        }
        self.add_all(arcs);
    }
}

pub fn digest(tables: &Tables) -> u64 {
    let mut digest = Digest(0);
    digest.add_count(tables.machine_count);
    digest.add_all(&tables.states);
    digest.add_all(&tables.starts);
    digest.add_count(tables.control_state_count);
    digest.add_count(tables.queue_count);
    digest.add_all(&tables.messages);
    digest.add_all(&tables.starting_lengths);
    digest.add_all(&tables.starting_messages);
    digest.add_count(tables.message_sum);
    digest.add_count(tables.transition_count);
    for transition in &tables.transitions {
        digest.add_all(&[
            transition.machine,
            transition.from,
            transition.to,
            transition.kind as u8,
            transition.queue,
            transition.length,
        ]);
        digest.add_all(&transition.messages);
    }
    digest.add_pool(tables.pool_state_count, &tables.finals, &tables.arcs);
    digest.add_all(&tables.roots);
    digest.add_count(tables.bad_count);
    for entry in &tables.bad {
        digest.add_all(&[entry.control_state, entry.root]);
    }
    digest.0
}

/// `refused N at P H` or `read M K Q s T n B H`.
pub fn reading_line(reply: &Result<Tables, Refusal>) -> String {
    match reply {
        Err(refusal) => format!("{refusal} {}", digest(&Tables::empty())),
        Ok(tables) => format!(
            "read {} {} {} {} {} {} {} {}",
            tables.machine_count,
            tables.control_state_count,
            tables.queue_count,
            tables.message_sum,
            tables.transition_count,
            tables.pool_state_count,
            tables.bad_count,
            digest(tables)
        ),
    }
}

/// The same over all bytes of the memory.
pub fn memory_digest(memory: &[u8]) -> u64 {
    let mut digest = Digest(0);
    digest.add_all(memory);
    digest.0
}

/// The reply, the record's numbers, and the digest of the memory, with bars between them.
pub fn replay_line(answer: &Answer) -> String {
    let record: Vec<String> = answer.lent.record.numbers().map(|number| number.to_string()).collect();
    format!("{} | {} | {}", answer.reply, record.join(" "), memory_digest(&answer.lent.memory))
}

/// `wrote N H` or `refused K at 0 H`, with the digest of the whole buffer.
pub fn writing_line(reply: Result<usize, Refusal>, buffer: &[u8]) -> String {
    let digest = memory_digest(buffer);
    match reply {
        Ok(length) => format!("wrote {length} {digest}"),
        Err(refusal) => format!("{refusal} {digest}"),
    }
}

/// `refused N at P` or `pool n R H`: the states, the root, and the digest of the pool's count, final marks and arcs.
pub fn expression_line(reply: &Result<Pool, Refusal>) -> String {
    match reply {
        Err(refusal) => refusal.to_string(),
        Ok(pool) => {
            let mut digest = Digest(0);
            digest.add_pool(pool.state_count, &pool.finals, &pool.arcs);
            format!("pool {} {ROOT} {}", pool.state_count, digest.0)
        }
    }
}
