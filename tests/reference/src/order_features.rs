//! What files show of row 9: where the arcs of a file that is read are out of order, and which mistakes it would tell.

use std::cell::Cell;
use std::collections::{BTreeMap, BTreeSet};

use crate::arcs::Arcs;
use crate::order::{in_queue_order, in_queue_order_by_words, roots};
use crate::order_traps::{read_with, OrderTrap};
use crate::read::{read, read_asking, Tables};
use crate::traps::{pairs_before_failing, Trap};
use crate::verdict::Verdict;

/// The places where arcs of a file that is read can be out of order. Used states are those that a root leads to; dead ends
/// are those among them that lead to no final state.
pub const PLACES: [&str; 5] =
    ["unused states", "from an unused state to a used one", "dead ends", "a cycle of dead ends", "into a dead end"];

pub fn places_out_of_order(tables: &Tables) -> BTreeSet<&'static str> {
    let [unused, into_used, dead_ends, dead_cycle, into_dead_end] = PLACES;
    let arcs = Arcs::new(tables);
    let used = arcs.reached_from(roots(tables));
    let finals = (0..tables.pool_state_count).filter(|&state| tables.finals[state]).collect();
    let alive = arcs.leading_to(finals);
    let mut places = BTreeSet::new();
    for (before, after) in arcs.side_by_side().filter(|(before, after)| after.queue < before.queue) {
        let middle = before.target;
        if !used.contains(&before.source) {
            places.insert(if used.contains(&middle) { into_used } else { unused });
        } else if alive.contains(&middle) {
            assert!(!alive.contains(&after.target), "a word accepted from a root is out of order");
            places.insert(into_dead_end);
        } else {
            places.insert(dead_ends);
            if arcs.reached_from(BTreeSet::from([after.target])).contains(&before.source) {
                places.insert(dead_cycle);
            }
        }
    }
    places
}

/// Files of each verdict that are out of order in each place.
const OF_EACH_PLACE: usize = 25;
/// Files of each verdict that walks, in which a walk meets pairs that no word in order leads to.
const OF_PAIRS: usize = 30;

/// The features of files for checking, each with how many files must have it.
pub fn asked() -> BTreeMap<String, usize> {
    let mut asked = BTreeMap::new();
    for verdict in ["closed", "outside", "leaves", "bad"] {
        asked.extend(PLACES.map(|place| (in_place(verdict, place), OF_EACH_PLACE)));
        if verdict != "outside" {
            asked.insert(with_pairs(verdict), OF_PAIRS);
        }
    }
    asked
}

fn in_place(verdict: &str, place: &str) -> String {
    format!("{verdict}, out of order: {place}")
}

fn with_pairs(verdict: &str) -> String {
    format!("{verdict}, pairs that only words out of order lead to")
}

pub fn features(tables: &Tables, verdict: &Verdict) -> BTreeSet<String> {
    let name = match verdict {
        Verdict::Closed { .. } => "closed",
        Verdict::Outside => "outside",
        Verdict::Leaves { .. } => "leaves",
        Verdict::Bad { .. } => "bad",
    };
    let places = places_out_of_order(tables);
    let mut features: BTreeSet<String> = places.iter().map(|place| in_place(name, place)).collect();
    let pairs = |trap| pairs_before_failing(tables, trap);
    if !places.is_empty() && pairs(None) > pairs(Some(Trap::WordsInOrderOnly)) {
        features.insert(with_pairs(name));
    }
    features
}

/// Larger files are read in one way, and not with mistakes: they are searched plainly.
const SMALL_FILE: usize = 300;

/// What a set of files shows.
pub struct OrderHits {
    /// Files that are read, by where their arcs are out of order.
    places: BTreeMap<&'static str, usize>,
    /// Files whose reading a mistake would change.
    told: BTreeMap<OrderTrap, usize>,
    /// Files in and out of order that were asked by every word too.
    by_words: [usize; 2],
    disagreements: Vec<String>,
}

impl Default for OrderHits {
    fn default() -> Self {
        OrderHits {
            places: PLACES.map(|place| (place, 0)).into(),
            told: OrderTrap::ALL.map(|trap| (trap, 0)).into(),
            by_words: [0, 0],
            disagreements: vec![],
        }
    }
}

impl OrderHits {
    pub fn add(&mut self, file: &[u8]) {
        if file.len() > SMALL_FILE {
            return;
        }
        let reply = read(file);
        if let Ok(tables) = &reply {
            for place in places_out_of_order(tables) {
                self.places.entry(place).and_modify(|files| *files += 1);
            }
        }
        let asked = Cell::new(None);
        let by_words = read_asking(file, |tables| {
            asked.set(in_queue_order_by_words(tables));
            asked.get().unwrap_or_else(|| in_queue_order(tables))
        });
        if let Some(in_order) = asked.get() {
            self.by_words[usize::from(!in_order)] += 1;
        }
        for (way, other) in [("by words", by_words), ("by arcs", read_with(file, None))] {
            if other != reply {
                let hex: String = file.iter().map(|byte| format!("{byte:02x} ")).collect();
                self.disagreements.push(format!("{way} row 9 is another; file {hex}"));
            }
        }
        for (&trap, files) in &mut self.told {
            *files += usize::from(read_with(file, Some(trap)) != reply);
        }
    }

    /// Each place is to be in so many files, and each mistake to be told by so many.
    pub fn complaints(&self, enough: usize) -> Vec<String> {
        let mut complaints = self.disagreements.clone();
        for (place, &files) in self.places.iter().filter(|(_, &files)| files < enough) {
            complaints.push(format!("only {files} files are read and out of order: {place}"));
        }
        for (trap, &files) in self.told.iter().filter(|(_, &files)| files < enough) {
            complaints.push(format!("only {files} files tell {trap:?}"));
        }
        complaints
    }

    pub fn report(&self) -> String {
        let [in_order, out_of_order] = self.by_words;
        let mut report = format!("row 9 by every word: {in_order} in order, {out_of_order} out of order\n");
        for (place, files) in &self.places {
            report += &format!("read, out of order: {place}: {files}\n");
        }
        for (trap, files) in &self.told {
            report += &format!("files whose reading would change by {trap:?}: {files}\n");
        }
        report
    }
}
