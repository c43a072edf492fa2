use std::error::Error;
use std::fmt;

use crate::lent::REPLY_LEAST;

/// Why a file, a question, a step of a trace, tables to be written or an expression are turned away.
///
/// ```
/// let refusal = swarmbanner::read(&[]).unwrap_err();
/// assert_eq!(refusal.to_string(), "refused 3 at 0");
/// assert_eq!(refusal.explain(), "the bytes end before a number or inside one (at byte 0 of the file)");
/// ```
#[derive(Clone, Copy, Debug, PartialEq, Eq, Hash)]
pub struct Refusal {
    /// Which cause it is, 1 to 23.
    pub number: u8,
    /// A place in the file; for causes 12 and 13 a place in the contents, for 14 and 15 one in the trace, for 18 to 21 one in the
    /// text of an expression, for 2, 11, 16, 17, 22 and 23 always 0. Causes 1, 3, 4 and 5 are a trace's too:
    /// [`Replayed`](crate::Replayed) says which of the two is meant. 5 is an expression's too, where [`expression`](crate::expression)
    /// gives it.
    pub place: usize,
}

impl Refusal {
    /// From the first two numbers of a reply.
    pub(crate) fn told(reply: &[usize; REPLY_LEAST]) -> Self {
        let number = u8::try_from(reply[0]).expect("refusals are numbered 1 to 23");
        Refusal { number, place: reply[1] }
    }

    /// The cause in words.
    pub fn cause(&self) -> &'static str {
        match self.number {
            1 => "the file has more than 16,384 bytes",
            2 => "lent memory is too short",
            3 => "the bytes end before a number or inside one",
            4 => "a number is not in its shorter form, or has more than two bytes",
            5 => "a number is outside its field's range",
            6 => "the product of the machines' states passes 256, or the sum of the queues' messages passes 32",
            7 => "a message of a transition, or one that waits at the start, is in another queue",
            8 => "the messages of a diagram state's arcs do not ascend",
            9 => "a word accepted from a root has a message of an earlier queue after one of a later queue",
            10 => "bytes follow the last field",
            11 => "the file has no such control state",
            12 => "the file has no such message",
            13 => "a message of an earlier queue follows one of a later queue",
            14 => "the machine is in another state, or the queue does not begin with the word",
            15 => "a queue would pass 1,024 messages",
            16 => "no session file is read into these tables",
            17 => "the buffer is shorter than the file",
            18 => "the text has more than 256 bytes",
            19 => "the text is no expression",
            20 => "more than eight groups lie in one another",
            21 => "more than 32 numbers stand in the text",
            22 => "the diagram has more than 127 states",
            23 => "messages are to wait at the start, and all queues start empty",
            _ => "no cause has this number",
        }
    }

    /// The cause in words, and where.
    pub fn explain(&self) -> String {
        match self.number {
            2 | 11 | 16 | 17 | 22 | 23 => self.cause().to_string(),
            12 | 13 => format!("{} (at message {} of the contents)", self.cause(), self.place),
            14 | 15 => format!("{} (at byte {} of the trace)", self.cause(), self.place),
            18..=21 => format!("{} (at byte {} of the text)", self.cause(), self.place),
            _ => format!("{} (at byte {} of the file)", self.cause(), self.place),
        }
    }

    /// The cause in words, of a refusal that [`expression`](crate::expression) gave: 5 is about a number of the text then.
    pub fn cause_in_text(&self) -> &'static str {
        match self.number {
            5 => "a number is 32 or more, so it is no message's",
            _ => self.cause(),
        }
    }

    /// The cause in words, and where, of a refusal that [`expression`](crate::expression) gave.
    ///
    /// ```
    /// let refusal = swarmbanner::expression(b"0 32").unwrap_err();
    /// assert_eq!(refusal.to_string(), "refused 5 at 2");
    /// assert_eq!(refusal.explain_in_text(), "a number is 32 or more, so it is no message's (at byte 2 of the text)");
    /// ```
    pub fn explain_in_text(&self) -> String {
        match self.number {
            5 => format!("{} (at byte {} of the text)", self.cause_in_text(), self.place),
            _ => self.explain(),
        }
    }
}

impl fmt::Display for Refusal {
    fn fmt(&self, f: &mut fmt::Formatter<'_>) -> fmt::Result {
        write!(f, "refused {} at {}", self.number, self.place)
    }
}

impl Error for Refusal {}
