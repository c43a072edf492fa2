//! The machines, a cluster for each.

use std::collections::BTreeMap;

use swarmbanner::Session;

use crate::dot::{Attribute, Dot};
use crate::text::{label, ranges, starting};
use crate::tone::Tone;

/// What is marked in the machines.
#[derive(Clone, Copy, Debug)]
pub struct Marked {
    /// The control state whose states are marked.
    pub control: usize,
    pub tone: Tone,
    /// The transition that fails.
    pub transition: Option<usize>,
}

/// Draws all machines.
pub fn draw(session: &Session, marked: Option<Marked>) -> (String, usize) {
    let mut dot = Dot::new(&title(session));
    let states = marked.and_then(|marked| Some((session.machine_states(marked.control)?, marked.tone)));
    let transition = marked.and_then(|marked| marked.transition);
    // Clusters are laid out from below.
    for (number, machine) in session.machines().iter().enumerate().rev() {
        dot.open_cluster(&format!("m{number}"), &format!("machine {number}"));
        let begin = format!("m{number}_begin");
        dot.node(&begin, &[("shape", "point"), ("width", "0.08")]);
        for state in 0..machine.states {
            let tone = states.as_ref().filter(|(states, _)| states[number] == state).map(|(_, tone)| *tone);
            draw_state(&mut dot, number, state, tone);
        }
        dot.arrow(&begin, &name(number, machine.start), &[]);
        draw_transitions(&mut dot, session, number, transition);
        dot.close();
    }
    dot.finish()
}

/// Says which messages each queue has, and below it what waits at the start, where something does.
fn title(session: &Session) -> String {
    let queues = session.queues().iter().zip(0..).map(|(queue, number)| {
        let messages: Vec<usize> = queue.messages.clone().map(usize::from).collect();
        format!("q{number}: {}", ranges(&messages))
    });
    let messages = format!("messages of the queues   {}", queues.collect::<Vec<_>>().join("   "));
    match session.starting().is_empty() {
        true => messages,
        false => format!("{messages}\n{}", starting(session)),
    }
}

fn name(machine: usize, state: usize) -> String {
    format!("m{machine}_{state}")
}

fn draw_state(dot: &mut Dot, machine: usize, state: usize, tone: Option<Tone>) {
    let label = state.to_string();
    let mut attributes: Vec<Attribute> = vec![("label", &label)];
    if let Some(tone) = tone {
        let (line, fill) = (tone.line(), tone.fill());
        attributes.extend([("color", line), ("style", "filled"), ("fillcolor", fill), ("penwidth", "2")]);
    }
    dot.node(&name(machine, state), &attributes);
}

/// Transitions between the same states share an arrow, but the marked one has its own.
fn draw_transitions(dot: &mut Dot, session: &Session, machine: usize, marked: Option<usize>) {
    let mut shared: BTreeMap<(usize, usize), Vec<String>> = BTreeMap::new();
    for (number, transition) in session.transitions().iter().enumerate() {
        if transition.machine != machine {
            continue;
        }
        let label = label(number, transition);
        if marked == Some(number) {
            let line = Tone::Lost.line();
            let attributes = [("label", &label[..]), ("color", line), ("fontcolor", line), ("penwidth", "2")];
            dot.arrow(&name(machine, transition.from), &name(machine, transition.to), &attributes);
        } else {
            shared.entry((transition.from, transition.to)).or_default().push(label);
        }
    }
    for ((from, to), labels) in shared {
        dot.arrow(&name(machine, from), &name(machine, to), &[("label", &labels.join("\n"))]);
    }
}
