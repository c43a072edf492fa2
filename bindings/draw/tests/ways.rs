//! On generated files: the ways that a picture marks are those of the contents shown, and of what waits where a replay ends.

#[path = "../../explain/tests/resumed/mod.rs"]
mod resumed;

use std::collections::BTreeMap;

use reference_checker::diagram::accepts;
use reference_checker::generate::verdicts::Plans;
use reference_checker::random::Random;
use reference_checker::read::{read, Tables};
use swarmbanner::{membership, Checker, End, Failure, Replayed, Replayer, Reply, Session, Way};
use swarmbanner_draw::{pictures, replay_pictures, Picture};

use resumed::every_other;

const FILES: usize = 6_000;
const SEED: u64 = 20_261_115;

/// A diagram as it stands in a picture.
struct Drawn {
    /// The node that the arrow from the beginning leads to.
    root: String,
    /// Arrows marked as the way, by the places of their messages.
    way: BTreeMap<usize, (String, String)>,
    finals: Vec<String>,
    is_lost: bool,
    /// Not all places of an arrow are written out.
    is_cut: bool,
}

impl Drawn {
    /// Reads back the part of a picture whose nodes have a prefix.
    fn read(picture: &Picture, prefix: &str) -> Self {
        let mut drawn =
            Drawn { root: String::new(), way: BTreeMap::new(), finals: vec![], is_lost: false, is_cut: false };
        for line in picture.dot.lines().map(str::trim).filter(|line| line.starts_with(prefix)) {
            let (item, attributes) = line.split_once(" [").unwrap_or((line.trim_end_matches(';'), ""));
            match item.split_once(" -> ") {
                Some((from, to)) if from.ends_with("_begin") => drawn.root = to.to_string(),
                Some((from, to)) if attributes.contains("class=\"way\"") => {
                    drawn.is_cut |= attributes.contains(", .. ");
                    for place in places(attributes) {
                        drawn.way.insert(place, (from.to_string(), to.to_string()));
                    }
                }
                None if attributes.contains("doublecircle") => drawn.finals.push(item.to_string()),
                _ => {}
            }
            drawn.is_lost |= attributes.contains("class=\"lost\"");
        }
        drawn
    }

    /// Where the marked arrows lead from the root, one after the other.
    fn end(&self) -> &str {
        let mut node = &self.root;
        for (number, (&place, (from, to))) in (1..).zip(&self.way) {
            assert_eq!((number, node), (place, from), "the way has no gap");
            node = to;
        }
        node
    }

    fn ends_in_a_final_state(&self) -> bool {
        !self.is_lost && self.finals.iter().any(|name| name == self.end())
    }
}

/// The places in a label such as `q0: 3 [1, 4-6]`; after `..`, where some are left out, the last run.
fn places(attributes: &str) -> Vec<usize> {
    let (_, label) = attributes.split_once('[').expect("a marked arrow has its places");
    let (listed, _) = label.split_once(']').expect("the places end");
    let ends = listed.split(", ").map(|run| {
        let run = run.trim_start_matches(".. ");
        let (first, last) = run.split_once('-').unwrap_or((run, run));
        let number = |text: &str| text.parse::<usize>().expect("a place is a number");
        number(first)..=number(last)
    });
    ends.flatten().collect()
}

/// A way is marked as far as it was followed, all of it where that is not said.
fn assert_way(tables: &Tables, way: &Way, drawn: &Drawn, is_final: bool, followed: Option<usize>) {
    assert_eq!(way.end == End::Final, is_final);
    assert_eq!(drawn.ends_in_a_final_state(), is_final);
    assert_eq!(drawn.way.len(), followed.unwrap_or(way.contents.len()));
    assert_eq!(drawn.is_lost, way.end == End::Nowhere);
    let root = way.states.first().map(|state| state.index());
    assert_eq!(accepts(tables, root, &way.contents), is_final, "by the reference");
}

/// False where a way is too long to be read back.
fn assert_failure(tables: &Tables, session: &Session, picture: &Picture, reply: &Reply, failure: &Failure) -> bool {
    let (first, second) = (Drawn::read(picture, "a"), Drawn::read(picture, "b"));
    if first.is_cut || second.is_cut {
        return false;
    }
    match failure {
        Failure::Leaves { before: (control, before), transition, after: (target, after) } => {
            assert_eq!(picture.name, format!("leaves-{control}-{transition}"));
            assert_eq!(session.step(*control, *transition, &before.contents), Some((*target, after.contents.clone())));
            let Reply::Leaves { followed, .. } = reply else { panic!("{reply} shows a step") };
            assert_way(tables, before, &first, true, None);
            assert_way(tables, after, &second, false, Some(*followed));
            assert_eq!(*after, Way::follow(session, session.root(*target), &after.contents), "by its own arcs");
        }
        Failure::Bad { entry, inside: (_, inside), bad } => {
            assert_eq!(picture.name, format!("bad-{entry}"));
            assert_way(tables, inside, &first, true, None);
            assert_way(tables, bad, &second, true, None);
        }
    }
    true
}

/// Whether messages wait at the start. They are said above the machines, and their way is marked in the starting control state, which
/// is drawn where no contents are shown.
fn assert_start(bytes: &[u8], session: &Session, pictures: &[Picture], is_inside: bool) -> bool {
    let (waiting, drawn) = (session.starting(), Drawn::read(&pictures[1], "a"));
    assert_eq!(pictures[1].name, format!("control-{}", session.start()));
    let is_told = pictures.iter().all(|picture| picture.dot.contains("\\nat the start   q0: "));
    assert_eq!(is_told, !waiting.is_empty());
    if waiting.is_empty() {
        assert!(drawn.way.is_empty());
        return false;
    }
    let tables = read(bytes).expect("plans are session files");
    let way = Way::follow(session, session.root(session.start()), &waiting);
    let followed = membership(bytes, session.start(), &waiting).expect("the start is one of the file").followed;
    assert_way(&tables, &way, &drawn, is_inside, Some(followed));
    true
}

#[test]
fn marked_ways_end_as_the_verdict_says() {
    let mut plans = Plans::new(SEED);
    let mut checker = Checker::new();
    let (mut leaves, mut bad, mut lost, mut cut, mut started) = (0, 0, 0, 0, 0);
    for _ in 0..FILES {
        let plan = plans.small().bytes();
        let bytes = every_other(&mut plans.random, plan);
        let session = swarmbanner::read(&bytes).expect("plans are session files");
        let reply = checker.check(&bytes);
        let drawn = pictures(&session, &reply, None);
        assert_eq!(drawn.len(), 2);
        if Failure::shown(&session, &reply).is_none() {
            started += usize::from(assert_start(&bytes, &session, &drawn, reply != Reply::Outside));
        }
        let Some(failure) = Failure::shown(&session, &reply) else { continue };
        let tables = read(&bytes).expect("plans are session files");
        if !assert_failure(&tables, &session, &drawn[1], &reply, &failure) {
            cut += 1;
            continue;
        }
        match failure {
            Failure::Leaves { after: (_, after), .. } => {
                leaves += 1;
                lost += usize::from(after.end == End::Nowhere);
            }
            Failure::Bad { .. } => bad += 1,
        }
    }
    println!(
        "{leaves} leave, {lost} of them by a missing arc or root; {bad} are bad; {started} start with messages and do neither; \
         {cut} are too long to be read back"
    );
    assert!(leaves > 100 && bad > 100 && lost > 100 && lost < leaves && started > 100, "too few files of some kind");
    assert!(cut * 100 < leaves + bad, "too many ways are cut: {cut}");
}

/// Transitions that can be taken, and now and then one more.
fn walk(random: &mut Random, session: &Session) -> Vec<u8> {
    let (mut trace, mut control, mut contents) = (vec![], session.start(), session.starting());
    for _ in 0..random.below(20) {
        let taken = (0..session.transitions().len()).filter_map(|number| {
            let after = session.step(control, number, &contents)?;
            Some((number, after))
        });
        let possible: Vec<_> = taken.collect();
        let Some((number, after)) = random.pick(&possible) else { break };
        trace.push(*number as u8);
        (control, contents) = after.clone();
    }
    if random.chance(30) {
        trace.push(random.below(session.transitions().len() + 1) as u8);
    }
    trace
}

/// The arrows of transitions that are marked in the machines, by their numbers.
fn marked(machines: &Picture) -> Vec<usize> {
    let arrows = machines.dot.lines().filter(|line| line.contains(" -> ") && line.contains("fontcolor"));
    let number = |line: &str| line.split_once("label=\"")?.1.split_once(':')?.0.parse().ok();
    arrows.map(|line| number(line).expect("an arrow has a number")).collect()
}

#[test]
fn marked_ways_end_as_the_replay_says() {
    let mut plans = Plans::new(SEED);
    let mut replayer = Replayer::new();
    let (mut inside, mut outside, mut refused, mut bad, mut cut) = (0, 0, 0, 0, 0);
    for _ in 0..FILES {
        let plan = plans.small().bytes();
        let bytes = every_other(&mut plans.random, plan);
        let session = swarmbanner::read(&bytes).expect("plans are session files");
        let trace = walk(&mut plans.random, &session);
        let replayed = replayer.replay(&bytes, &trace);
        let last = replayer.last().expect("it was replayed");
        let control = session.control_of(last.states).expect("states of the machines");
        let drawn = replay_pictures(&session, &trace, &replayed, &last, Some(session.start()));
        let names: Vec<&str> = drawn.iter().map(|picture| &picture.name[..]).collect();
        assert_eq!(names, ["replay-machines", &format!("replay-{control}"), &format!("control-{}", session.start())]);
        assert!(drawn[1].dot.contains(&format!("label=\"{replayed}")));
        let failing = match replayed {
            Replayed::Outside { steps, .. } => steps.checked_sub(1),
            Replayed::Refused { refusal, .. } => (refusal.number == 14).then_some(refusal.place),
            _ => None,
        };
        assert_eq!(marked(&drawn[0]), failing.map_or(vec![], |place| vec![trace[place].into()]));
        let (set, listed) = (Drawn::read(&drawn[1], "a"), Drawn::read(&drawn[1], "b"));
        if set.is_cut || listed.is_cut {
            cut += 1;
            continue;
        }
        let tables = read(&bytes).expect("plans are session files");
        let way = Way::follow(&session, session.root(control), &last.contents());
        let followed = match replayed {
            Replayed::Outside { followed, .. } => Some(followed),
            _ => None,
        };
        assert_way(&tables, &way, &set, followed.is_none(), followed);
        let accepting = tables.used_bad_entries().iter().filter(|entry| usize::from(entry.control_state) == control);
        let first = accepting.map(|entry| Some(entry.root.into())).find(|&root| accepts(&tables, root, &way.contents));
        assert_eq!(listed.root, first.flatten().map_or(String::new(), |root: usize| format!("b{root}")));
        bad += usize::from(first.is_some());
        assert!(first.is_none() || listed.ends_in_a_final_state());
        match replayed {
            Replayed::End { .. } => inside += 1,
            Replayed::Outside { .. } => outside += 1,
            _ => refused += 1,
        }
    }
    println!("{inside} end, {outside} outside, {refused} refused; {bad} are bad; {cut} are too long to be read back");
    assert!(inside.min(outside).min(refused).min(bad) > 100, "too few replays of some kind");
    assert!(cut * 50 < FILES, "too many ways are cut: {cut}");
}
