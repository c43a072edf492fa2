//! Why a file is refused: the field, what stands at the place, and what was allowed there.

use swarmbanner::Refusal;

use crate::fields::{machines_of, number_at, Fields, Limit, Stop};

/// A refusal beside the part of the file that it is about.
#[derive(Clone, Debug, PartialEq, Eq)]
pub struct Refused {
    /// What the library says.
    pub refusal: Refusal,
    /// The field, 1 to 6; none where the file is too long.
    pub field: Option<u8>,
    /// What the number is, or the part of the file that is wrong as a whole.
    pub what: String,
    /// The bytes of the number at the place, as far as there are any.
    pub stands: Vec<u8>,
    /// The number that these bytes make, where they make one.
    pub number: Option<usize>,
    /// The least and the most that was allowed; none where nothing was.
    pub allowed: Option<(usize, usize)>,
    /// Why no other number was.
    pub why: Option<String>,
}

impl Refused {
    /// Looks up the place of a refusal of this file.
    pub fn new(file: &[u8], refusal: Refusal) -> Self {
        match refusal.number {
            3 => Self::at_a_number(file, refusal, Fields::up_to(file, None).1),
            4..=8 => Self::at_a_number(file, refusal, Fields::up_to(file, Some(refusal.place)).1),
            9 => Self::about(refusal, Some(6), out_of_order(&Fields::of(file))),
            10 => {
                let more = file.len().saturating_sub(refusal.place);
                let about =
                    Self::about(refusal, Some(6), format!("the end of the last field, with {} after it", bytes(more)));
                Refused { stands: file[refusal.place..].iter().take(1).copied().collect(), ..about }
            }
            23 => Self::about(refusal, Some(1), starts_empty(file)),
            _ => Self::about(refusal, None, "the whole file".to_string()),
        }
    }

    fn about(refusal: Refusal, field: Option<u8>, what: String) -> Self {
        Refused { refusal, field, what, stands: vec![], number: None, allowed: None, why: None }
    }

    fn at_a_number(file: &[u8], refusal: Refusal, stop: Option<Stop>) -> Self {
        let Some(stop) = stop else { return Self::about(refusal, None, "a number".to_string()) };
        let found = number_at(file, stop.place);
        let length = found.map_or(2, |(_, bytes)| bytes);
        let (least, most) = stop.range;
        let (limits, why) = narrowed(&stop);
        let (least, most) = (least.max(limits.0), most.min(limits.1));
        Refused {
            refusal,
            field: Some(stop.field),
            what: stop.what,
            stands: file[stop.place..].iter().take(length).copied().collect(),
            number: found.map(|(number, _)| number).filter(|_| refusal.number != 4),
            allowed: (least <= most).then_some((least, most)),
            why,
        }
    }

    /// What stands at the place, in words.
    pub fn stands(&self) -> String {
        let shown: Vec<String> = self.stands.iter().map(|byte| format!("{byte:02x}")).collect();
        match (self.stands.len(), self.number) {
            (0, _) if self.refusal.number == 3 => "nothing: the file ends before the number".to_string(),
            (0, _) => "no single number is wrong".to_string(),
            (_, Some(number)) => format!("{} (hex), the number {number}", shown.join(" ")),
            (_, None) if self.refusal.number == 3 => {
                format!("{} (hex), which announces another byte, and the file ends", shown.join(" "))
            }
            _ => format!("{} (hex)", shown.join(" ")),
        }
    }

    /// What was allowed there, in words.
    pub fn allowed(&self) -> String {
        let form = match self.refusal.number {
            4 => ", in one byte up to 127, else in two of which the second is 1 to 127",
            _ => "",
        };
        let range = match self.allowed {
            Some((least, most)) if least == most => format!("{least}{form}"),
            Some((least, most)) => format!("{least} to {most}{form}"),
            None => "nothing".to_string(),
        };
        match &self.why {
            Some(why) => format!("{range}: {why}"),
            None => range,
        }
    }

    /// The lines of an explanation.
    pub fn lines(&self) -> Vec<String> {
        let mut lines = vec![self.refusal.cause().to_string()];
        match self.field {
            Some(field) => lines.push(format!("field {field}, byte {}: {}", self.refusal.place, self.what)),
            None => return lines,
        }
        if !matches!(self.refusal.number, 9 | 23) {
            lines.push(format!("there stands {}", self.stands()));
            lines.push(format!("allowed there: {}", self.allowed()));
        }
        lines
    }
}

fn bytes(count: usize) -> String {
    if count == 1 {
        "1 byte".to_string()
    } else {
        format!("{count} bytes")
    }
}

/// The range that is left by what was read before, and the reason.
fn narrowed(stop: &Stop) -> ((usize, usize), Option<String>) {
    match stop.limit {
        Limit::Product(product) if product > 16 => {
            let why = format!("the product of the states is {product} before it and may be 256 with it");
            ((1, 256 / product), Some(why))
        }
        Limit::Sum(sum) if sum > 0 => {
            let why = format!("the queues before it have {sum} messages, and all together may have 32");
            ((1, 32usize.saturating_sub(sum)), Some(why))
        }
        Limit::Queue(queue, (first, end)) => (
            (first, end.saturating_sub(1)),
            Some(format!("these are the messages of queue {queue}, which the transition names")),
        ),
        Limit::Waiting(queue, (first, end)) => {
            ((first, end.saturating_sub(1)), Some(format!("these are the messages of queue {queue}, where it waits")))
        }
        Limit::Above(message) => {
            ((message + 1, usize::MAX), Some(format!("the arc before it has message {message}, and they ascend")))
        }
        _ => ((0, usize::MAX), None),
    }
}

/// The first number, and what it is without starting lengths.
fn starts_empty(file: &[u8]) -> String {
    let first = number_at(file, 0).map_or(0, |(first, _)| first);
    let lengths = match Fields::of(file).starting[..] {
        [only] => format!("the starting length at byte {only}, which is 0"),
        ref all => format!("the starting lengths from byte {} on, which are 0", all.first().unwrap_or(&0)),
    };
    format!("the first number, {first}; without {lengths}, it is {}", machines_of(first))
}

/// The first root that accepts a word out of order, and the shortest such word.
fn out_of_order(fields: &Fields) -> String {
    match fields.diagrams.disorder() {
        Some(disorder) => format!("the end of the last field: {disorder}"),
        None => "the end of the last field".to_string(),
    }
}
