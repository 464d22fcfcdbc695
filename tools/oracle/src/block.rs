//! One question asked of all texts of one length, with a checksum over questions and answers.

use crate::question::{caught, Question};
use crate::words::Words;
use std::fmt;

/// Two sums of different multiplier and modulus, so that a pair of errors that hides in one shows
/// in the other.
#[derive(Default)]
pub struct Sums {
    asked: u64,
    h1: u64,
    h2: u64,
}

impl Sums {
    fn feed(&mut self, x: u64) {
        self.h1 = (self.h1 * 65599 + x + 1) % 4294967291;
        self.h2 = (self.h2 * 69069 + x + 1) % 4294967279;
    }

    fn feed_all(&mut self, numbers: impl IntoIterator<Item = u64>) {
        numbers.into_iter().for_each(|x| self.feed(x));
    }
}

impl fmt::Display for Sums {
    fn fmt(&self, f: &mut fmt::Formatter) -> fmt::Result {
        write!(f, "sums {} {} {}", self.asked, self.h1, self.h2)
    }
}

/// All texts of one length over an alphabet, or those of a part: so many from a first one on.
pub fn all(words: &mut Words, is_part: bool) -> Result<Sums, String> {
    let mut block = Block::read(words)?;
    let (alphabet, length) = (words.bytes("alphabet")?, words.number("length")?);
    let (first, times): (u64, u64) = if is_part {
        (words.number("first")?, words.number("times")?)
    } else {
        let texts = u32::try_from(length)
            .ok()
            .and_then(|n| (alphabet.len() as u64).checked_pow(n))
            .ok_or("too many texts")?;
        (0, texts)
    };
    words.end()?;
    for i in first..first + times {
        block.ask(&text(&alphabet, length, i))?;
    }
    block.sums()
}

/// Texts of one length that are drawn.
pub fn drawn(words: &mut Words) -> Result<Sums, String> {
    let mut block = Block::read(words)?;
    let (alphabet, length) = (words.bytes("alphabet")?, words.number("length")?);
    let seed: u32 = words.number("seed")?;
    let times: u32 = words.number("times")?;
    words.end()?;
    if alphabet.is_empty() {
        return Err("the alphabet is empty".to_string());
    }
    let mut at = u64::from(seed);
    for _ in 0..times {
        block.ask(&draw(&alphabet, length, &mut at))?;
    }
    block.sums()
}

/// A text whose bytes are named by a number that moves on for each.
fn draw(alphabet: &[u8], length: usize, at: &mut u64) -> Vec<u8> {
    let next = |_| {
        *at = (*at * 1103515245 + 12345) % (1 << 31);
        alphabet[(*at >> 16) as usize % alphabet.len()]
    };
    (0..length).map(next).collect()
}

/// Text `i` of all texts of `length` bytes: the digits of `i`, lowest first, name its bytes.
fn text(alphabet: &[u8], length: usize, mut i: u64) -> Vec<u8> {
    let base = alphabet.len() as u64;
    (0..length)
        .map(|_| {
            let b = alphabet[(i % base) as usize];
            i /= base;
            b
        })
        .collect()
}

struct Block {
    question: Question,
    sums: Sums,
    /// How many answers had a value so far.
    values: u64,
    /// Of these, counted from 1, the one whose value is made greater by one. It shows that a single
    /// wrong answer doesn't go unnoticed.
    altered: Option<u64>,
}

impl Block {
    /// Which answer to alter, and the question.
    fn read(words: &mut Words) -> Result<Self, String> {
        let altered = match words.word("the answer to alter")? {
            "-" => None,
            word => Some(
                word.parse()
                    .map_err(|_| format!("no answer has the number {word:?}"))?,
            ),
        };
        let name = words.word("a request")?;
        Ok(Self {
            question: crate::find(name, words)?,
            sums: Sums::default(),
            values: 0,
            altered,
        })
    }

    fn ask(&mut self, text: &[u8]) -> Result<(), String> {
        match &self.question {
            Question::Alone { .. } => return Err("this request takes no text".to_string()),
            Question::OfText { ask } => {
                let answer = caught(|| ask(text)).numbers();
                self.take(text, None, answer);
            }
            &Question::AtPlace { places, ref ask } => {
                let answers: Vec<_> = (places.first..=text.len() + places.past)
                    .map(|place| (place, caught(|| ask(text, place)).numbers()))
                    .collect();
                for (place, answer) in answers {
                    self.take(text, Some(place as u64), answer);
                }
            }
        }
        Ok(())
    }

    fn sums(self) -> Result<Sums, String> {
        match self.altered {
            Some(k) if k == 0 || k > self.values => {
                Err(format!("{} answers have a value", self.values))
            }
            _ => Ok(self.sums),
        }
    }

    fn take(&mut self, text: &[u8], place: Option<u64>, mut answer: Vec<u64>) {
        if let [1, value, ..] = answer.as_mut_slice() {
            self.values += 1;
            if self.altered == Some(self.values) {
                *value += 1;
            }
        }
        self.sums.asked += 1;
        self.sums.feed(text.len() as u64);
        self.sums.feed_all(text.iter().map(|&b| b.into()));
        self.sums.feed_all(place);
        self.sums.feed_all(answer);
    }
}
