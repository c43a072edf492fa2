//! Traces to replay: walks through a file that is read, ended in every way, and bytes of any kind.

use reference_checker::generate::draft::encode;
use reference_checker::random::Random;
use reference_checker::read::Tables;
use reference_checker::replay::{Configuration, LONGEST_TRACE};

/// A trace for a file, of which the tables are there if it is read.
pub fn trace(tables: Option<&Tables>, random: &mut Random) -> Vec<u8> {
    match (tables, random.below(1000)) {
        (_, 0..2) => vec![random.below(2) as u8; random.between(LONGEST_TRACE - 1, LONGEST_TRACE + 2)],
        (Some(tables), 2..900) => walk(tables, random),
        _ => (0..random.below(12)).map(|_| random.byte() >> random.below(8)).collect(),
    }
}

/// Transitions that can be taken, mostly as long as the configuration is inside, and an end.
fn walk(tables: &Tables, random: &mut Random) -> Vec<u8> {
    let steps = if random.chance(3) { random.below(200) } else { random.below(12) };
    let (mut configuration, mut trace) = (Configuration::start(tables), vec![]);
    for _ in 0..steps {
        let numbered = tables.used_transitions().iter().zip(0..);
        let after = numbered.filter_map(|(transition, number)| Some((number, configuration.after(transition).ok()?)));
        let possible: Vec<(u8, Configuration)> = after.collect();
        let inside: Vec<_> = possible.iter().filter(|(_, after)| after.is_inside(tables)).cloned().collect();
        let among = if random.chance(95) { &inside } else { &possible };
        let Some((number, after)) = random.pick(among).cloned() else { break };
        trace.push(number);
        configuration = after;
    }
    trace.extend(end(tables, random));
    trace
}

/// Nothing more, or any transition, none that the file has, a form that is not allowed, a number that has no end.
fn end(tables: &Tables, random: &mut Random) -> Vec<u8> {
    let count = tables.transition_count;
    match random.below(8) {
        0..3 => encode(random.below(count.max(1))),
        3 => encode(random.between(count, count + 2)),
        4 => encode(random.between(count, 16_383)),
        5 => vec![128 | random.byte(), if random.chance(50) { 0 } else { 128 | random.byte() }, random.byte()],
        6 => vec![128 | random.byte()],
        _ => vec![],
    }
}
