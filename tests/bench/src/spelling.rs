//! Writing by the product's algorithm, as the measure of speed. The reference asks each entry (its module `write`), and does
//! not use this.
//!
//! The numbers in the tables are spelled out whatever they are, the bytes are read, and what was read is compared with what was
//! given. Where a count passes its table, the table ends it: reading refuses the count.

use reference_checker::flat::{
    AT_ARCS, AT_BAD, AT_FINALS, AT_MESSAGES, AT_ROOTS, AT_STARTING, AT_STARTING_LENGTHS, AT_STARTS, AT_STATES,
    AT_TRANSITIONS, BAD_ROW, KIND, LENGTH, QUEUE, ROW, SPACE, WORD,
};
use reference_checker::read::{
    read_asking, Refusal, Tables, BAD_ENTRIES, CONTROL_STATES, LONGEST_FILE, MACHINES, MESSAGES, POOL_STATES, QUEUES,
    STARTING, TRANSITIONS, WORD_LENGTH,
};
use reference_checker::write::{BUFFER_TOO_SHORT, NO_FILE};

use crate::order::in_queue_order;

const COUNTS: usize = AT_STATES;

/// Writes the tables, whose product is that of the states.
pub fn write_read_back(flat: &[u8; SPACE], buffer: &mut [u8]) -> Result<usize, Refusal> {
    let refused = |number| Err(Refusal { number, place: 0 });
    let file = spelled(flat);
    match read_asking(&file, in_queue_order) {
        Ok(tables) if is_same(flat, &tables) => {}
        _ => return refused(NO_FILE),
    }
    let Some(front) = buffer.get_mut(..file.len()) else {
        return refused(BUFFER_TOO_SHORT);
    };
    front.copy_from_slice(&file);
    Ok(file.len())
}

#[inline]
fn put(file: &mut Vec<u8>, number: u8) {
    file.push(number);
    if number >= 128 {
        file.push(1);
    }
}

#[inline]
fn put_all(file: &mut Vec<u8>, numbers: &[u8]) {
    for &number in numbers {
        put(file, number);
    }
}

fn spelled(flat: &[u8; SPACE]) -> Vec<u8> {
    let mut file = Vec::with_capacity(LONGEST_FILE);
    let [machines, queues, sum, transitions, pool_states, bad_entries] = [0, 1, 2, 3, 4, 5].map(|place| flat[place]);
    let used = |at: usize, count: u8, most: usize| &flat[at..at + usize::from(count).min(most)];
    let lengths = used(AT_STARTING_LENGTHS, queues, QUEUES);
    let resumes = lengths.iter().any(|&length| length > 0);
    put(&mut file, if resumes { machines.saturating_add(MACHINES as u8) } else { machines });
    put_all(&mut file, used(AT_STATES, machines, MACHINES));
    put_all(&mut file, used(AT_STARTS, machines, MACHINES));
    put(&mut file, queues);
    put_all(&mut file, used(AT_MESSAGES, queues, QUEUES));
    if resumes {
        spell_starting(&mut file, lengths, &flat[AT_STARTING..AT_TRANSITIONS]);
    }
    put(&mut file, transitions);
    for row in flat[AT_TRANSITIONS..AT_FINALS].chunks_exact(ROW).take(usize::from(transitions)) {
        spell_transition(&mut file, row);
    }
    put(&mut file, pool_states);
    let arcs = flat[AT_ARCS..AT_ROOTS].chunks_exact(MESSAGES);
    for (&mark, arcs) in used(AT_FINALS, pool_states, POOL_STATES).iter().zip(arcs) {
        put(&mut file, mark);
        spell_arcs(&mut file, &arcs[..usize::from(sum).min(MESSAGES)]);
    }
    let states = used(AT_STATES, machines, MACHINES);
    let product = states.iter().fold(1, |product, &states| product * usize::from(states));
    put_all(&mut file, &flat[AT_ROOTS..][..product.min(CONTROL_STATES)]);
    put(&mut file, bad_entries);
    put_all(&mut file, &flat[AT_BAD..][..BAD_ROW * usize::from(bad_entries).min(BAD_ENTRIES)]);
    file
}

fn spell_starting(file: &mut Vec<u8>, lengths: &[u8], messages: &[u8]) {
    for (&length, room) in lengths.iter().zip(messages.chunks_exact(STARTING)) {
        put(file, length);
        put_all(file, &room[..usize::from(length).min(STARTING)]);
    }
}

fn spell_transition(file: &mut Vec<u8>, row: &[u8]) {
    let end = if row[KIND] == 0 { QUEUE } else { WORD + usize::from(row[LENGTH]).min(WORD_LENGTH) };
    put_all(file, &row[..end]);
}

/// The number of arcs goes before them once it is known.
fn spell_arcs(file: &mut Vec<u8>, arcs: &[u8]) {
    let at_count = file.len();
    file.push(0);
    let mut count = 0;
    for (message, &arc) in arcs.iter().enumerate() {
        if arc > 0 {
            count += 1;
            file.push(message as u8);
            put(file, arc - 1);
        }
    }
    file[at_count] = count;
}

fn is_same(flat: &[u8; SPACE], tables: &Tables) -> bool {
    let counts = [
        tables.machine_count,
        tables.queue_count,
        tables.message_sum,
        tables.transition_count,
        tables.pool_state_count,
        tables.bad_count,
    ];
    flat[..COUNTS] == counts.map(|count| count as u8)
        && flat[AT_STATES..AT_STARTS] == tables.states
        && flat[AT_STARTS..AT_MESSAGES] == tables.starts
        && flat[AT_MESSAGES..AT_STARTING_LENGTHS] == tables.messages
        && flat[AT_STARTING_LENGTHS..AT_STARTING] == tables.starting_lengths
        && flat[AT_STARTING..AT_TRANSITIONS] == tables.starting_messages
        && are_same_transitions(&flat[AT_TRANSITIONS..AT_FINALS], tables)
        && flat[AT_FINALS..AT_ARCS] == tables.finals.map(u8::from)
        && flat[AT_ARCS..AT_ROOTS] == tables.arcs
        && flat[AT_ROOTS..AT_BAD] == tables.roots
        && flat[AT_BAD..].chunks_exact(BAD_ROW).zip(&tables.bad).all(|(row, bad)| row == [bad.control_state, bad.root])
}

fn are_same_transitions(rows: &[u8], tables: &Tables) -> bool {
    const _: () = assert!(AT_FINALS - AT_TRANSITIONS == TRANSITIONS * ROW);
    rows.chunks_exact(ROW).zip(&tables.transitions).all(|(row, step)| {
        row[..WORD] == [step.machine, step.from, step.to, step.kind as u8, step.queue, step.length]
            && row[WORD..] == step.messages
    })
}

#[cfg(test)]
mod tests {
    use reference_checker::generate::writing::writing_cases;
    use reference_checker::write::write;

    use super::*;

    #[test]
    fn tables_are_written_as_the_reference_writes_them() {
        let mut written = 0;
        for case in writing_cases(9) {
            let (flat, product) = case.writing.tables();
            if product != flat.product() {
                continue;
            }
            let [mut buffer, mut other] = [case.writing.buffer(), case.writing.buffer()];
            let reply = write_read_back(&flat.0, &mut buffer);
            assert_eq!(reply, write(&flat, product, &mut other), "{}", case.kind);
            assert!(buffer == other, "{}", case.kind);
            written += usize::from(reply.is_ok());
        }
        assert!(written > 1_000, "{written}");
    }
}
