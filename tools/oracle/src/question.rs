//! A question with its parameters, ready to be asked of one text or of many.

use crate::answer::{Answer, Head};
use std::panic::{catch_unwind, AssertUnwindSafe};

pub enum Question {
    /// Takes no text.
    Alone { ask: Box<dyn Fn() -> Answer> },
    /// Is asked of a whole text.
    OfText { ask: AskText },
    /// Is asked of a place in a text.
    AtPlace { places: Places, ask: AskPlace },
}

pub type AskText = Box<dyn Fn(&[u8]) -> Answer>;
pub type AskPlace = Box<dyn Fn(&[u8], usize) -> Answer>;

/// The places at which a block asks of a text of n bytes: from `first` to n + `past`.
#[derive(Clone, Copy)]
pub struct Places {
    pub first: usize,
    pub past: usize,
}

/// Up to the text's end, which is a place of its own.
pub const WITHIN: Places = Places { first: 0, past: 0 };
/// One place past the text as well, where most of the Rust panics.
pub const PAST: Places = Places { first: 0, past: 1 };
/// After the first byte.
pub const INSIDE: Places = Places { first: 1, past: 0 };

pub fn alone(ask: impl Fn() -> Answer + 'static) -> Question {
    Question::Alone { ask: Box::new(ask) }
}

pub fn of_text(ask: impl Fn(&[u8]) -> Answer + 'static) -> Question {
    Question::OfText { ask: Box::new(ask) }
}

pub fn at_place(places: Places, ask: impl Fn(&[u8], usize) -> Answer + 'static) -> Question {
    Question::AtPlace {
        places,
        ask: Box::new(ask),
    }
}

/// What `ask` answers, a panic being an answer too. Nothing that it borrows is used after one.
pub fn caught(ask: impl FnOnce() -> Answer) -> Answer {
    catch_unwind(AssertUnwindSafe(ask)).unwrap_or(Answer::new(Head::Panic, Vec::new()))
}
