//! The words of a request, read in order.

use meon::engine::text_parser::standalone::context::{AsymSpec, FenceSpec, SymSpec};
use meon::span::Span;
use std::str::FromStr;

/// The words of one line, parted by single blanks. A list has commas between its entries and
/// colons within them; an empty list or text is `-`.
pub struct Words<'a>(std::str::Split<'a, char>);

impl<'a> Words<'a> {
    pub fn new(line: &'a str) -> Self {
        Self(line.split(' '))
    }

    /// The next word; `what` says in an error what was missed.
    pub fn word(&mut self, what: &str) -> Result<&'a str, String> {
        match self.0.next() {
            Some(word) if !word.is_empty() => Ok(word),
            _ => Err(format!("{what} is missing")),
        }
    }

    pub fn end(&mut self) -> Result<(), String> {
        match self.0.next() {
            None => Ok(()),
            Some(word) => Err(format!("surplus word {word:?}")),
        }
    }

    pub fn number<T: FromStr>(&mut self, what: &str) -> Result<T, String> {
        parse(self.word(what)?, what)
    }

    pub fn byte(&mut self, what: &str) -> Result<u8, String> {
        self.number(what)
    }

    pub fn flag(&mut self, what: &str) -> Result<bool, String> {
        match self.word(what)? {
            "0" => Ok(false),
            "1" => Ok(true),
            word => Err(format!("{what} is 0 or 1, not {word:?}")),
        }
    }

    /// A text in hexadecimal digits, or a long one as BYTE*TIMES+TEXT. Zero bytes of it take no memory.
    pub fn text(&mut self) -> Result<Vec<u8>, String> {
        let word = self.word("a text")?;
        match word.split_once('+') {
            None => hexed(word),
            Some((run, tail)) => {
                let (byte, times) = run.split_once('*').ok_or("a long text is BYTE*TIMES+TEXT")?;
                let (byte, times): (u8, usize) = (parse(byte, "a text")?, parse(times, "a text")?);
                let tail = hexed(tail)?;
                let mut text = vec![byte; times + tail.len()];
                text[times..].copy_from_slice(&tail);
                Ok(text)
            }
        }
    }

    /// Texts in hexadecimal digits, parted by strokes.
    pub fn texts(&mut self, what: &str) -> Result<Vec<Vec<u8>>, String> {
        self.word(what)?.split('/').map(hexed).collect()
    }

    /// A list whose entries are read by `entry` from their parts.
    fn list<T>(
        &mut self,
        what: &str,
        entry: impl Fn(&[&str]) -> Result<T, String>,
    ) -> Result<Vec<T>, String> {
        let word = self.word(what)?;
        if word == "-" {
            return Ok(Vec::new());
        }
        word.split(',')
            .map(|part| entry(&part.split(':').collect::<Vec<_>>()))
            .collect()
    }

    pub fn numbers<T: FromStr>(&mut self, what: &str) -> Result<Vec<T>, String> {
        self.list(what, |parts| match parts {
            [number] => parse(number, what),
            _ => Err(malformed(what, parts)),
        })
    }

    pub fn bytes(&mut self, what: &str) -> Result<Vec<u8>, String> {
        self.numbers(what)
    }

    /// The three needle cells of an item scanner or of `find_any_of`.
    pub fn needles(&mut self) -> Result<[u8; 3], String> {
        self.bytes("needles")?
            .try_into()
            .map_err(|_| "needles are three bytes".to_string())
    }

    pub fn fences(&mut self) -> Result<Vec<FenceSpec>, String> {
        let what = "fence rules";
        self.list(what, |parts| match parts {
            [byte, min] => Ok((parse(byte, what)?, parse(min, what)?)),
            _ => Err(malformed(what, parts)),
        })
    }

    pub fn symmetric(&mut self) -> Result<Vec<SymSpec>, String> {
        let what = "symmetric rules";
        self.list(what, |parts| match parts {
            [byte, count] => Ok((parse(byte, what)?, parse(count, what)?)),
            _ => Err(malformed(what, parts)),
        })
    }

    pub fn asymmetric(&mut self) -> Result<Vec<AsymSpec>, String> {
        let what = "asymmetric rules";
        self.list(what, |parts| match parts {
            [open, close, count] => {
                Ok((parse(open, what)?, parse(close, what)?, parse(count, what)?))
            }
            _ => Err(malformed(what, parts)),
        })
    }

    pub fn spans(&mut self, what: &str) -> Result<Vec<Span>, String> {
        self.list(what, |parts| match parts {
            [start, end] => Ok(Span::new(parse(start, what)?, parse(end, what)?)),
            _ => Err(malformed(what, parts)),
        })
    }
}

/// The bytes of hexadecimal digits; `-` has none.
fn hexed(word: &str) -> Result<Vec<u8>, String> {
    if word == "-" {
        return Ok(Vec::new());
    }
    let wrong = || format!("a text has two hexadecimal digits for each byte, not {word:?}");
    let digits: Option<Vec<u8>> = word
        .chars()
        .map(|c| c.to_digit(16).map(|d| d as u8))
        .collect();
    match digits {
        Some(digits) if digits.len() % 2 == 0 => Ok(digits
            .chunks(2)
            .map(|pair| pair[0] * 16 + pair[1])
            .collect()),
        _ => Err(wrong()),
    }
}

fn parse<T: FromStr>(word: &str, what: &str) -> Result<T, String> {
    word.parse()
        .map_err(|_| format!("no number for {what}, or out of its range: {word:?}"))
}

fn malformed(what: &str, parts: &[&str]) -> String {
    format!("malformed entry of {what}: {:?}", parts.join(":"))
}
