//! An answer: as the line that is printed, and as the numbers that a checksum takes in.

use meon::span::Span;
use std::fmt;

pub enum Head {
    /// The Rust gave a value.
    Some,
    /// The Rust gave `None`.
    None,
    /// The whole yield of an iterator or of a build.
    All,
    /// A state that was asked for by itself.
    State,
    /// The Rust panicked.
    Panic,
    /// The page refuses, by the number that follows.
    Refused,
}

pub enum Word {
    /// One number, or a few that belong together.
    Tuple(Vec<u64>),
    List(Vec<Vec<u64>>),
    /// All cells of an array. They are printed whole; a checksum takes in those up to the last that
    /// isn't 0 throughout.
    Cells(Vec<Vec<u64>>),
    /// Accepted bytes, which stand beside a state.
    Lent(Vec<u8>),
    Text(Vec<u8>),
}

pub struct Answer {
    pub head: Head,
    pub words: Vec<Word>,
}

impl Answer {
    pub fn new(head: Head, words: Vec<Word>) -> Self {
        Self { head, words }
    }

    /// A plain value.
    pub fn value(v: usize) -> Self {
        Self::new(Head::Some, vec![number(v)])
    }

    /// A plain value, or none.
    pub fn option(v: Option<usize>) -> Self {
        v.map_or(Self::new(Head::None, Vec::new()), Self::value)
    }

    /// A yielded tuple or none, with the words of the state that is left.
    pub fn step(found: Option<Vec<u64>>, state: Vec<Word>) -> Self {
        let (head, first) = match found {
            Some(tuple) => (Head::Some, Some(Word::Tuple(tuple))),
            None => (Head::None, None),
        };
        Self::new(head, first.into_iter().chain(state).collect())
    }

    pub fn all(found: Vec<Vec<u64>>) -> Self {
        Self::new(Head::All, vec![Word::List(found)])
    }

    pub fn refused(refusal: u64) -> Self {
        Self::new(Head::Refused, vec![Word::Tuple(vec![refusal])])
    }

    /// 0 for a panic and a refusal, 2 for none, else 1; then the numbers of the words, a list's after its
    /// length. A text and accepted bytes add nothing: they aren't answered, but asked.
    pub fn numbers(&self) -> Vec<u64> {
        let mut numbers = vec![match self.head {
            Head::Panic | Head::Refused => 0,
            Head::None => 2,
            Head::Some | Head::All | Head::State => 1,
        }];
        for word in &self.words {
            match word {
                Word::Tuple(tuple) => numbers.extend(tuple),
                Word::List(list) => extend(&mut numbers, list),
                Word::Cells(cells) => {
                    let used = cells.iter().rposition(|cell| cell.iter().any(|&n| n != 0));
                    extend(&mut numbers, &cells[..used.map_or(0, |last| last + 1)]);
                }
                Word::Lent(_) | Word::Text(_) => {}
            }
        }
        numbers
    }
}

fn extend(numbers: &mut Vec<u64>, list: &[Vec<u64>]) {
    numbers.push(list.len() as u64);
    numbers.extend(list.iter().flatten());
}

impl fmt::Display for Answer {
    fn fmt(&self, f: &mut fmt::Formatter) -> fmt::Result {
        f.write_str(match self.head {
            Head::Some => "some",
            Head::None => "none",
            Head::All => "all",
            Head::State => "state",
            Head::Panic => "panic",
            Head::Refused => "refused",
        })?;
        self.words.iter().try_for_each(|word| write!(f, " {word}"))
    }
}

impl fmt::Display for Word {
    fn fmt(&self, f: &mut fmt::Formatter) -> fmt::Result {
        match self {
            Word::Tuple(tuple) => f.write_str(&joined(tuple)),
            Word::List(list) | Word::Cells(list) if list.is_empty() => f.write_str("-"),
            Word::List(list) | Word::Cells(list) => {
                let entries: Vec<String> = list.iter().map(|tuple| joined(tuple)).collect();
                f.write_str(&entries.join(","))
            }
            Word::Lent(accepted) => bytes(accepted).fmt(f),
            Word::Text(text) if text.is_empty() => f.write_str("-"),
            Word::Text(text) => text.iter().try_for_each(|b| write!(f, "{b:02x}")),
        }
    }
}

fn joined(tuple: &[u64]) -> String {
    let numbers: Vec<String> = tuple.iter().map(u64::to_string).collect();
    numbers.join(":")
}

pub fn number(n: usize) -> Word {
    Word::Tuple(vec![n as u64])
}

pub fn byte(b: u8) -> Word {
    number(b.into())
}

pub fn bytes(bytes: &[u8]) -> Word {
    Word::List(bytes.iter().map(|&b| vec![b.into()]).collect())
}

pub fn span(span: Span) -> Vec<u64> {
    vec![span.start.into(), span.end.into()]
}
