//! The oracle: answers questions with the Rust of meon itself.
//!
//! One request on each line of standard input, one line of answer on standard output.
//! `README.md` beside this folder lists the requests.

mod amend;
mod answer;
mod block;
mod context;
mod leaves;
mod listing;
mod question;
mod reasons;
mod scanners;
mod words;

use answer::Answer;
use question::Question;
use std::io::{self, BufRead, Write};
use words::Words;

fn main() -> io::Result<()> {
    // A panic of the Rust is an answer, and nothing to report.
    std::panic::set_hook(Box::new(|_| {}));
    let mut out = io::stdout().lock();
    for line in io::stdin().lock().split(b'\n') {
        match respond(&line?) {
            Ok(answer) => writeln!(out, "{answer}")?,
            Err(why) => writeln!(out, "error {why}")?,
        }
        // Whoever asks may wait for this answer before the next request.
        out.flush()?;
    }
    Ok(())
}

fn respond(line: &[u8]) -> Result<String, String> {
    let line = std::str::from_utf8(line).map_err(|_| "the request isn't text".to_string())?;
    let mut words = Words::new(line);
    let name = words.word("a request")?;
    match name {
        "block" | "part" => block::all(&mut words, name == "part").map(|sums| sums.to_string()),
        "drawn" => block::drawn(&mut words).map(|sums| sums.to_string()),
        "numbers" => {
            let name = words.word("a request")?;
            let numbers = asked(name, &mut words)?.numbers();
            let numbers: Vec<String> = numbers.iter().map(u64::to_string).collect();
            Ok(format!("numbers {}", numbers.join(" ")))
        }
        _ => asked(name, &mut words).map(|answer| answer.to_string()),
    }
}

/// The answer to one question.
fn asked(name: &str, words: &mut Words) -> Result<Answer, String> {
    Ok(match find(name, words)? {
        Question::Alone { ask } => {
            words.end()?;
            question::caught(ask)
        }
        Question::OfText { ask } => {
            let text = words.text()?;
            words.end()?;
            question::caught(|| ask(&text))
        }
        Question::AtPlace { places, ask } => {
            let text = words.text()?;
            let place = words.number("a place")?;
            words.end()?;
            if place < places.first {
                return Err(format!("places begin at {}", places.first));
            }
            question::caught(|| ask(&text, place))
        }
    })
}

/// The question of this name, with its parameters read from `words`.
fn find(name: &str, words: &mut Words) -> Result<Question, String> {
    let groups = [
        leaves::question,
        scanners::question,
        context::question,
        listing::question,
        reasons::question,
        amend::question,
    ];
    for group in groups {
        if let Some(question) = group(name, words)? {
            return Ok(question);
        }
    }
    Err(format!("unknown request {name}"))
}
