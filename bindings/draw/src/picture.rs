use swarmbanner::{Configuration, End, Failure, Replayed, Reply, Session, Way};

use crate::diagram::Diagram;
use crate::dot::Dot;
use crate::machines::{self, Marked};
use crate::text;
use crate::tone::Tone;

/// A picture and what it is called.
#[derive(Clone, Debug, PartialEq, Eq)]
pub struct Picture {
    /// What it shows, as the end of a file name: `machines`, `control-3`, `leaves-1-16`, `bad-0`, `replay-machines`, `replay-3`; or
    /// as the whole of it: `expression`.
    pub name: String,
    /// The DOT.
    pub dot: String,
    /// How many arrows it has.
    pub arrows: usize,
}

/// The pictures of a session: its machines, where the reply shows contents what becomes of them, and the diagram of a
/// control state, which is the starting one where nothing is shown and none is asked for. Contents are lost where the reply says.
pub fn pictures(session: &Session, reply: &Reply, control: Option<usize>) -> Vec<Picture> {
    let failure = Failure::shown(session, reply);
    let marked = failure.as_ref().map(|failure| {
        let (control, transition) = failure.place();
        Marked { control, tone: Tone::Lost, transition }
    });
    let mut pictures = vec![picture("machines".to_string(), machines::draw(session, marked))];
    pictures.extend(failure.as_ref().map(|failure| draw_failure(session, failure)));
    let control = control.or(failure.is_none().then(|| session.start()));
    pictures.extend(control.map(|control| draw_control(session, control)));
    pictures
}

/// The pictures of a replay: the machines at the states of its last configuration, the diagram of that control state with the
/// way of what waits, as far as the replay says that it is followed, and the diagram of another control state where one is asked for.
///
/// # Panics
///
/// Panics where the replay is one of another session.
pub fn replay_pictures(
    session: &Session,
    trace: &[u8],
    replayed: &Replayed,
    last: &Configuration<'_>,
    control: Option<usize>,
) -> Vec<Picture> {
    let reached = session.control_of(last.states).expect("a replay ends at states of the machines");
    let (transition, bad) = (failing(replayed, trace), listed(session, reached, &last.contents()));
    let is_well = matches!(replayed, Replayed::End { .. }) && bad.is_none();
    let tone = if is_well { Tone::Taken } else { Tone::Lost };
    let title = match transition {
        Some(number) => format!("{replayed}: {}", text::step(number, &session.transitions()[number])),
        None => replayed.to_string(),
    };
    let machines = machines::draw(session, Some(Marked { control: reached, tone, transition }));
    let way =
        way_of(session, reached, &last.contents(), replayed).expect("what waits is followed as far as the replay says");
    let mut pictures = vec![picture("replay-machines".to_string(), machines)];
    pictures.push(draw_replay(session, &title, reached, &way, bad.as_ref()));
    pictures.extend(control.map(|control| draw_control(session, control)));
    pictures
}

/// The picture of an expression: its text, and below it the diagram that was drawn of it.
pub fn expression_picture(text: &[u8], diagram: &swarmbanner::Diagram) -> Picture {
    let mut dot = Dot::new(&text::expression(text));
    let (pool, root) = (diagram.states(), Some(diagram.root()));
    Diagram { pool, queues: &[], prefix: "a", title: "its words", root, way: None }.draw(&mut dot);
    picture("expression".to_string(), dot.finish())
}

/// The transition that led outside, or that was not taken. A file has 128 of them at most, so each that is in a trace has one
/// byte there.
fn failing(replayed: &Replayed, trace: &[u8]) -> Option<usize> {
    let place = match replayed {
        Replayed::Outside { steps, .. } => steps.checked_sub(1)?,
        Replayed::Refused { refusal, .. } if refusal.number >= 14 => refusal.place,
        _ => return None,
    };
    trace.get(place).map(|&number| number.into())
}

/// The way of what waits where a replay ended: all of it where that is inside.
fn way_of(session: &Session, control: usize, contents: &[u8], replayed: &Replayed) -> Option<Way> {
    let followed = match replayed {
        Replayed::Outside { followed, .. } => *followed,
        _ => contents.len(),
    };
    Way::followed(session, session.root(control), contents, followed)
}

fn picture(name: String, (dot, arrows): (String, usize)) -> Picture {
    Picture { name, dot, arrows }
}

/// The set of a control state; of the starting one with the way of what waits at the start, where something does.
fn draw_control(session: &Session, control: usize) -> Picture {
    let (root, waiting) = (session.root(control), session.starting());
    let begins_there = control == session.start() && !waiting.is_empty();
    let way = begins_there.then(|| Way::follow(session, root, &waiting));
    let name = text::control(session, control);
    let title = way.as_ref().map(|way| format!("{name}\n{}{}", text::starting(session), unless_inside(way)));
    let mut dot = Dot::new(&title.unwrap_or(name));
    let title = if root.is_some() { "its set" } else { "its set is empty" };
    let (pool, queues) = (session.pool(), session.queues());
    Diagram { pool, queues, prefix: "a", title, root, way: way.as_ref() }.draw(&mut dot);
    picture(format!("control-{control}"), dot.finish())
}

fn draw_failure(session: &Session, failure: &Failure) -> Picture {
    match failure {
        Failure::Leaves { before, transition, after } => draw_leaves(session, before, *transition, after),
        Failure::Bad { entry, inside, bad } => draw_bad(session, *entry, inside, bad),
    }
}

/// Up to two diagrams, the first above the second.
fn draw_ways(session: &Session, title: &str, ways: &[(String, &Way)]) -> (String, usize) {
    let mut dot = Dot::new(title);
    let (pool, queues) = (session.pool(), session.queues());
    // Clusters are laid out from below.
    for (prefix, (title, way)) in ["a", "b"].into_iter().zip(ways).rev() {
        let root = way.states.first().copied();
        Diagram { pool, queues, prefix, title, root, way: Some(way) }.draw(&mut dot);
    }
    dot.finish()
}

/// How a way ends that does not end well.
fn ending(way: &Way) -> &'static str {
    match way.end {
        End::Nowhere if way.states.is_empty() => "the set is empty",
        End::Nowhere => "lost on the way",
        End::NotFinal => "not final at the end",
        End::Final => "inside",
    }
}

/// The same in brackets, behind what waits; nothing for a way that ends well.
fn unless_inside(way: &Way) -> String {
    match way.end {
        End::Final => String::new(),
        _ => format!("   ({})", ending(way)),
    }
}

fn draw_leaves(session: &Session, before: &(usize, Way), transition: usize, after: &(usize, Way)) -> Picture {
    let (control, way) = before;
    let (target, way_after) = after;
    let title = text::step(transition, &session.transitions()[transition]);
    let first = format!("before: {}\n{}", text::control(session, *control), text::contents(session, &way.contents));
    let second = format!(
        "after: {}\n{}   ({})",
        text::control(session, *target),
        text::contents(session, &way_after.contents),
        ending(way_after)
    );
    let drawn = draw_ways(session, &format!("leaves by {title}"), &[(first, way), (second, way_after)]);
    picture(format!("leaves-{control}-{transition}"), drawn)
}

fn draw_bad(session: &Session, entry: usize, inside: &(usize, Way), bad: &Way) -> Picture {
    let (control, way) = inside;
    let title = format!("bad entry {entry}: {}", text::contents(session, &bad.contents));
    let first = format!("inside: {}", text::control(session, *control));
    let drawn = draw_ways(session, &title, &[(first, way), (title_of_bad(entry), bad)]);
    picture(format!("bad-{entry}"), drawn)
}

fn title_of_bad(entry: usize) -> String {
    format!("bad: the diagram of entry {entry}")
}

/// The first bad entry that lists contents, and their way through its diagram.
fn listed(session: &Session, control: usize, contents: &[u8]) -> Option<(usize, Way)> {
    let entries = session.bad_entries().iter().zip(0..).filter(|(entry, _)| entry.control == control);
    let mut ways = entries.map(|(entry, number)| (number, Way::follow(session, Some(entry.root), contents)));
    ways.find(|(_, way)| way.end == End::Final)
}

/// Where a replay ended, and below it what lists that as bad.
fn draw_replay(session: &Session, title: &str, control: usize, way: &Way, bad: Option<&(usize, Way)>) -> Picture {
    let waiting = text::contents(session, &way.contents);
    let first = format!("{}\n{waiting}{}", text::control(session, control), unless_inside(way));
    let below = bad.map(|(entry, way)| (title_of_bad(*entry), way));
    let ways: Vec<(String, &Way)> = [(first, way)].into_iter().chain(below).collect();
    picture(format!("replay-{control}"), draw_ways(session, title, &ways))
}
