//! Replaying by the product's algorithm, as the measure of speed: each queue is kept in its room of the lent memory, which
//! is used round and round, with its head and length in the lent record.

use crate::read::{read, Kind, Reader, Refusal, Tables, Transition, MESSAGES};
use crate::replay::{Record, Reply, LONGEST_TRACE, QUEUE_ROOM};

type Ring = [u8; QUEUE_ROOM];

/// The reply; record and memory are as `replay` says.
pub fn replay_in_rings(record: &mut Record, file: &[u8], trace: &[u8], memory: &mut [u8]) -> Reply {
    replay_as_read(record, &read(file), trace, memory)
}

/// The same for a file that was read, or refused, by whatever reader.
pub fn replay_as_read(record: &mut Record, file: &Result<Tables, Refusal>, trace: &[u8], memory: &mut [u8]) -> Reply {
    let tables = match file {
        Ok(tables) => tables,
        Err(refusal) => return Reply::FileRefused(*refusal),
    };
    if trace.len() > LONGEST_TRACE {
        return Reply::TraceRefused(Refusal { number: 1, place: LONGEST_TRACE });
    }
    let Some(rings) = memory.as_chunks_mut().0.get_mut(..tables.queue_count) else {
        return Reply::MemoryRefused(Refusal { number: 2, place: 0 });
    };
    *record = Record { states: tables.starts, ..Record::default() };
    for (queue, ring) in rings.iter_mut().enumerate() {
        let starting = tables.starting(queue);
        ring[..starting.len()].copy_from_slice(starting);
        record.lengths[queue] = starting.len();
    }
    let reply = run(tables, trace, record, rings);
    for ((ring, head), &length) in rings.iter_mut().zip(&mut record.heads).zip(&record.lengths) {
        ring.rotate_left(*head);
        ring[length..].fill(0);
        *head = 0;
    }
    reply
}

fn run(tables: &Tables, trace: &[u8], record: &mut Record, rings: &mut [Ring]) -> Reply {
    let mut reader = Reader { bytes: trace, place: 0 };
    let mut steps = 0;
    loop {
        if !is_inside(tables, record, rings) {
            return Reply::Outside { steps, far: far(tables, record, rings) };
        }
        let place = reader.place;
        if place == trace.len() {
            return Reply::End { steps };
        }
        let number = match reader.number() {
            Ok(number) => number,
            Err(refusal) => return Reply::StepRefused { refusal, steps },
        };
        let stepped = match tables.used_transitions().get(number) {
            Some(transition) => step(transition, record, rings),
            None => Err(5),
        };
        if let Err(number) = stepped {
            return Reply::StepRefused { refusal: Refusal { number, place }, steps };
        }
        steps += 1;
    }
}

/// All waiting messages are followed from the control state's root, until there is nowhere to go.
#[inline]
fn is_inside(tables: &Tables, record: &Record, rings: &[Ring]) -> bool {
    let Some(root) = tables.roots[control_state(tables, record)].checked_sub(1) else { return false };
    let mut row = usize::from(root) * MESSAGES;
    for ((ring, &head), &length) in rings.iter().zip(&record.heads).zip(&record.lengths) {
        if length == 0 {
            continue;
        }
        let (behind, ahead) = ring.split_at(head);
        let before_end = length.min(ahead.len());
        let Some(middle) = follow(tables, row, &ahead[..before_end]) else { return false };
        let Some(last) = follow(tables, middle, &behind[..length - before_end]) else { return false };
        row = last;
    }
    tables.finals[row / MESSAGES]
}

/// How far they are followed: asked once, where the configuration is outside, message by message round each ring.
fn far(tables: &Tables, record: &Record, rings: &[Ring]) -> usize {
    let mut state = tables.roots[control_state(tables, record)];
    let mut taken = 0;
    for ((ring, &head), &length) in rings.iter().zip(&record.heads).zip(&record.lengths) {
        for place in head..head + length {
            let Some(known) = state.checked_sub(1) else { break };
            state = tables.arcs[usize::from(known) * MESSAGES + usize::from(ring[place % QUEUE_ROOM])];
            taken += usize::from(state > 0);
        }
    }
    taken
}

#[inline]
fn control_state(tables: &Tables, record: &Record) -> usize {
    let machines = tables.states.iter().zip(&record.states).take(tables.machine_count);
    machines.fold(0, |number, (&states, &state)| number * usize::from(states) + usize::from(state))
}

/// Where messages lead: a state is the place of its first arc, as it is in the product.
#[inline]
fn follow(tables: &Tables, from: usize, messages: &[u8]) -> Option<usize> {
    let mut row = from;
    for &message in messages {
        let entry = usize::from(tables.arcs[row + usize::from(message)]);
        if entry == 0 {
            return None;
        }
        row = (entry - 1) * MESSAGES;
    }
    Some(row)
}

/// Takes a transition, or says by which number it is refused.
#[inline]
fn step(transition: &Transition, record: &mut Record, rings: &mut [Ring]) -> Result<(), u8> {
    let state = &mut record.states[usize::from(transition.machine)];
    if *state != transition.from {
        return Err(14);
    }
    let queue = usize::from(transition.queue);
    let (ring, head, length) = (&mut rings[queue], &mut record.heads[queue], &mut record.lengths[queue]);
    let word = transition.word();
    match transition.kind {
        Kind::Local => {}
        Kind::Send => {
            if *length + word.len() > QUEUE_ROOM {
                return Err(15);
            }
            put(ring, (*head + *length) % QUEUE_ROOM, word);
            *length += word.len();
        }
        Kind::Receive => {
            if *length < word.len() || !has(ring, *head, word) {
                return Err(14);
            }
            *head = (*head + word.len()) % QUEUE_ROOM;
            *length -= word.len();
        }
    }
    *state = transition.to;
    Ok(())
}

/// Puts a word into the ring from a place on. One message alone needs no copying of slices, here and below.
#[inline]
fn put(ring: &mut Ring, at: usize, word: &[u8]) {
    if let &[message] = word {
        ring[at] = message;
        return;
    }
    if let Some(room) = ring.get_mut(at..at + word.len()) {
        room.copy_from_slice(word);
    } else {
        let (front, rest) = word.split_at(QUEUE_ROOM - at);
        ring[at..].copy_from_slice(front);
        ring[..rest.len()].copy_from_slice(rest);
    }
}

/// Whether a word stands in the ring from a place on.
#[inline]
fn has(ring: &Ring, at: usize, word: &[u8]) -> bool {
    if let &[message] = word {
        return ring[at] == message;
    }
    if let Some(front) = ring.get(at..at + word.len()) {
        return front == word;
    }
    let (front, rest) = word.split_at(QUEUE_ROOM - at);
    ring[at..] == *front && ring[..rest.len()] == *rest
}
