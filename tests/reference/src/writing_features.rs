//! What a writing shows: the reply, the buffer, what was damaged and how, and where one fault stands alone.

use std::collections::{BTreeMap, BTreeSet};

use crate::flat::{Flat, Part, AT_FINALS, AT_STARTING, AT_TRANSITIONS, KIND, ROW};
use crate::order_features::places_out_of_order;
use crate::read::{read, Refusal};
use crate::stream::{Edit, Handed, Writing};
use crate::write::{faults, file_of, Fault};
use crate::writing_traps::{LONGEST_WRITTEN, SMALL_FILE};

/// The longest buffer that is asked about.
pub const LONGEST_BUFFER: usize = 20_000;

/// Writings of each reply.
const OF_EACH_REPLY: usize = 200;
/// Writings of most features.
const OF_OTHERS: usize = 30;
/// Writings in which an entry of some part is the only one changed.
const OF_EACH_PART: usize = 10;
/// Writings in which one entry is changed in some way.
const OF_EACH_ENTRY: usize = 4;
/// Writings in which some fault is the only one: those that a writer blind to it would take.
const OF_EACH_FAULT: usize = 6;
/// Writings in which a message that waits, or the room for one, is changed.
const OF_EACH_WAITING: usize = 3;
/// Writings of the longest file, which are long.
const OF_LONGEST: usize = 2;

/// Parts of which one changed entry can make the tables of another file.
const CHANGEABLE: [Part; 19] = [
    Part::Transitions,
    Part::PoolStates,
    Part::BadEntries,
    Part::States,
    Part::Starts,
    Part::StartingLength,
    Part::Starting,
    Part::Machine,
    Part::From,
    Part::To,
    Part::Kind,
    Part::Queue,
    Part::Length,
    Part::Word,
    Part::Final,
    Part::Arc,
    Part::Root,
    Part::BadControlState,
    Part::BadRoot,
];

const CHANGES: [&str; 4] = ["one more", "one less", "0", "255"];
/// Of unused entries that lie side by side.
const ENDS: [&str; 2] = ["the first", "the last"];
const ROWS: [&str; 3] = ["local", "sent or received", "past the count"];

/// The features, each with how many writings must have it.
pub fn asked() -> BTreeMap<String, usize> {
    let mut asked = BTreeMap::new();
    let mut ask = |count: usize, features: &[&str]| {
        asked.extend(features.iter().map(|feature| (feature.to_string(), count)));
    };
    ask(OF_EACH_REPLY, &["wrote", "refused 16", "refused 17", "written back", "another file"]);
    ask(
        OF_OTHERS,
        &[
            "wrote, buffer just as long",
            "wrote, buffer one longer",
            "wrote, buffer of 20,000",
            "wrote, buffer longer",
            "refused 17, one byte short",
            "refused 17, no buffer",
            "refused 17, shorter",
            "refused 16, no buffer",
            "refused 16, buffer one shorter than the file read",
            "refused 16, buffer of 20,000",
            "product handed in: that of the states",
            "product handed in: another",
            "tables of all 0",
            "written from all 0",
            "edits that make right again",
            "wrote, arcs out of order where it does not matter",
            "the new form written",
            "the new form written back",
            "the first form written back beside the new one",
        ],
    );
    ask(
        OF_EACH_PART,
        &[
            "128 transitions written",
            "control state 128 or more written",
            "127 pool states written",
            "root 126 of the map written",
            "control state 127 written",
            "the new form written of a file of the first",
            "the first form written of a file of the new",
        ],
    );
    ask(OF_LONGEST, &["the longest file written", "refused 17, the longest file"]);
    asked.extend(Part::ALL.map(|part| (changed(part, "refused 16"), OF_EACH_PART)));
    asked.extend(CHANGEABLE.map(|part| (changed(part, "wrote"), OF_EACH_PART)));
    asked.extend(Fault::ALL.map(|fault| (alone(fault), OF_EACH_FAULT)));
    for end in ENDS {
        asked.extend(Part::UNUSED.map(|part| (end_changed(part, end), OF_EACH_ENTRY)));
    }
    for change in CHANGES {
        asked.extend((0..AT_STARTING).map(|place| (small_entry(place, change), OF_EACH_ENTRY)));
    }
    asked.extend((AT_STARTING..AT_TRANSITIONS).map(|place| (waiting_entry(place), OF_EACH_WAITING)));
    for row in ROWS {
        asked.extend((0..ROW).map(|column| (column_changed(column, row), OF_EACH_ENTRY)));
    }
    asked
}

fn changed(part: Part, reply: &str) -> String {
    format!("only {part:?} changed, {reply}")
}

fn alone(fault: Fault) -> String {
    format!("no fault but {fault:?}")
}

fn end_changed(part: Part, end: &str) -> String {
    format!("only {part:?} changed, {end} side by side")
}

fn small_entry(place: usize, change: &str) -> String {
    format!("only entry {place:02} changed: {change}")
}

fn waiting_entry(place: usize) -> String {
    format!("only entry {place:02} changed")
}

fn column_changed(column: usize, row: &str) -> String {
    format!("only column {column:02} of a row changed: {row}")
}

pub fn features(asked: &Writing, reply: Result<usize, Refusal>) -> BTreeSet<String> {
    let (flat, product) = asked.tables();
    let name = match reply {
        Ok(_) => "wrote".to_string(),
        Err(refusal) => format!("refused {}", refusal.number),
    };
    let mut features = BTreeSet::from([name.clone()]);
    let faults = faults(&flat, product);
    if faults.len() == 1 {
        features.extend(faults.iter().map(|&fault| alone(fault)));
    }
    features.extend(of_buffer(asked, &flat, reply).map(|buffer| format!("{name}, {buffer}")));
    if faults.is_empty() {
        features.extend(of_file(asked, &flat, reply.is_ok()).map(String::from));
    }
    match &asked.handed {
        Handed::Product(product) if *product == flat.product() => {
            features.insert("product handed in: that of the states".to_string());
        }
        Handed::Product(_) => {
            features.insert("product handed in: another".to_string());
        }
        Handed::Edited(edits) => features.extend(of_edits(asked, edits, &name, faults.is_empty())),
    }
    if flat == Flat::zero() {
        features.insert("tables of all 0".to_string());
    }
    features
}

fn of_buffer(asked: &Writing, flat: &Flat, reply: Result<usize, Refusal>) -> impl Iterator<Item = &'static str> {
    let length = asked.buffer_length;
    let classes = match reply.map_err(|refusal| refusal.number) {
        Ok(written) => [
            ("buffer just as long", length == written),
            ("buffer one longer", length == written + 1),
            ("buffer longer", length > written + 1),
            ("buffer of 20,000", length == LONGEST_BUFFER),
        ],
        Err(16) => [
            ("no buffer", length == 0),
            ("buffer one shorter than the file read", length + 1 == asked.file.len()),
            ("buffer longer", length > asked.file.len()),
            ("buffer of 20,000", length == LONGEST_BUFFER),
        ],
        Err(_) => [
            ("no buffer", length == 0),
            ("one byte short", length + 1 == file_of(flat).len()),
            ("shorter", 0 < length && length + 1 < file_of(flat).len()),
            ("the longest file", file_of(flat).len() == LONGEST_WRITTEN),
        ],
    };
    classes.into_iter().filter(|(_, holds)| *holds).map(|(class, _)| class)
}

/// Of tables that some file is read into.
fn of_file(asked: &Writing, flat: &Flat, is_written: bool) -> impl Iterator<Item = &'static str> {
    let tables = flat.tables();
    let file = file_of(flat);
    let is_read = read(&asked.file).is_ok();
    let entries = tables.used_bad_entries();
    let resumed = read(&asked.file).is_ok_and(|tables| tables.resumes());
    [
        ("the new form written", tables.resumes()),
        ("the new form written back", tables.resumes() && file == asked.file),
        ("the first form written back beside the new one", !tables.resumes() && file == asked.file),
        ("the new form written of a file of the first", is_read && tables.resumes() && !resumed),
        ("the first form written of a file of the new", is_read && !tables.resumes() && resumed),
        ("written back", file == asked.file),
        ("another file", is_read && file != asked.file),
        ("written from all 0", !is_read),
        ("the longest file written", file.len() == LONGEST_WRITTEN),
        ("128 transitions written", tables.transition_count == 128),
        ("127 pool states written", tables.pool_state_count == 127),
        ("root 126 of the map written", tables.roots.contains(&127)),
        ("control state 127 written", entries.iter().any(|entry| entry.control_state == 127)),
        ("control state 128 or more written", entries.iter().any(|entry| entry.control_state >= 128)),
        (
            "wrote, arcs out of order where it does not matter",
            file.len() <= SMALL_FILE && !places_out_of_order(&tables).is_empty(),
        ),
    ]
    .into_iter()
    .filter(move |(_, holds)| is_written && *holds)
    .map(|(feature, _)| feature)
}

fn of_edits(asked: &Writing, edits: &[Edit], reply: &str, is_right: bool) -> Vec<String> {
    let mut flat = asked.read();
    match edits {
        _ if flat == Flat::zero() => vec![],
        &[edit] if flat.0[edit.place] != edit.value => of_one_edit(&flat, edit, reply),
        _ => {
            let mut was_wrong = false;
            for edit in edits {
                flat.0[edit.place] = edit.value;
                was_wrong |= !faults(&flat, flat.product()).is_empty();
            }
            let makes_right = was_wrong && is_right;
            makes_right.then(|| "edits that make right again".to_string()).into_iter().collect()
        }
    }
}

/// Of one entry that was changed in tables as they were read.
fn of_one_edit(flat: &Flat, edit: Edit, reply: &str) -> Vec<String> {
    let before = flat.0[edit.place];
    let part = Part::of(edit.place, flat);
    let mut features = vec![changed(part, reply)];
    let is_end = part.ends_at(edit.place, flat);
    features.extend(ENDS.iter().zip(is_end).filter(|(_, is)| *is).map(|(end, _)| end_changed(part, end)));
    if (AT_STARTING..AT_TRANSITIONS).contains(&edit.place) {
        features.push(waiting_entry(edit.place));
    }
    if edit.place < AT_STARTING {
        let ways =
            [before.checked_add(1), before.checked_sub(1), Some(0), Some(255)].map(|value| value == Some(edit.value));
        features.extend(CHANGES.iter().zip(ways).filter(|(_, is)| *is).map(|(way, _)| small_entry(edit.place, way)));
    }
    if (AT_TRANSITIONS..AT_FINALS).contains(&edit.place) {
        let (number, column) = ((edit.place - AT_TRANSITIONS) / ROW, (edit.place - AT_TRANSITIONS) % ROW);
        let [local, with_word, past] = ROWS;
        let row = match flat.0[AT_TRANSITIONS + number * ROW + KIND] {
            _ if number >= flat.transitions() => past,
            0 => local,
            _ => with_word,
        };
        features.push(column_changed(column, row));
    }
    features
}
