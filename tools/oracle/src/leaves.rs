//! The leaves of `common.rs`, and the fence tests of `context.rs` that stand beside them.

use crate::answer::{bytes, number, Answer, Head};
use crate::question::{alone, at_place, Question, INSIDE, PAST, WITHIN};
use crate::words::Words;
use meon::engine::text_parser::standalone::common::{
    count_escape, find_any_of, find_line_end, next_in_paragraph, probe_matcher,
};
use meon::engine::text_parser::standalone::context::reach::{
    fence_close_scan, fence_closes, fence_opens, fence_opens_line,
};

pub fn question(name: &str, words: &mut Words) -> Result<Option<Question>, String> {
    Ok(Some(match name {
        "find_line_end" => {
            let eol = words.byte("eol")?;
            at_place(PAST, move |text, from| {
                Answer::value(find_line_end(text, from, eol))
            })
        }
        "count_escape" => {
            let escape = words.byte("escape")?;
            at_place(PAST, move |text, pos| {
                Answer::value(count_escape(text, pos, escape) as usize)
            })
        }
        "next_in_paragraph" => {
            let needle = words.byte("needle")?;
            let eol = words.byte("eol")?;
            let fences = words.fences()?;
            at_place(PAST, move |text, from| {
                // The closure of `sym_close` and `asym_close`.
                let enter = |ls| (!fence_opens_line(text, ls, eol, &fences)).then_some(ls);
                Answer::option(next_in_paragraph(text, from, needle, eol, enter))
            })
        }
        "find_any_of" => {
            let count = words.number("count")?;
            let needles = words.needles()?;
            // Cut from the place on, as every caller does.
            at_place(WITHIN, move |text, from| {
                let found = find_any_of(&needles, count, &text[from..]);
                Answer::option(found.map(|i| from + i))
            })
        }
        "probe_matcher" => {
            let accepted = words.bytes("accepted bytes")?;
            alone(move || {
                let mut buf = [0; 3];
                match probe_matcher(|b| accepted.contains(&b), &mut buf) {
                    Some(n) => Answer::new(Head::Some, vec![number(n), bytes(&buf)]),
                    None => Answer::new(Head::None, vec![bytes(&buf)]),
                }
            })
        }
        "fence_opens" => {
            let eol = words.byte("eol")?;
            let fences = words.fences()?;
            at_place(WITHIN, move |text, pos| {
                let line_end = find_line_end(text, pos, eol);
                Answer::option(fence_opens(text, pos, line_end, &fences).map(usize::from))
            })
        }
        "fence_opens_line" => {
            let eol = words.byte("eol")?;
            let fences = words.fences()?;
            at_place(WITHIN, move |text, ls| {
                Answer::value(fence_opens_line(text, ls, eol, &fences).into())
            })
        }
        "fence_closes" => {
            let fence = Fence::read(words)?;
            at_place(WITHIN, move |text, pos| {
                let Fence {
                    byte,
                    count,
                    eol,
                    sep,
                    tab,
                } = fence;
                let line_end = find_line_end(text, pos, eol);
                Answer::value(fence_closes(text, pos, line_end, byte, count, sep, tab).into())
            })
        }
        "fence_close_scan" => {
            let fence = Fence::read(words)?;
            at_place(INSIDE, move |text, from| {
                let Fence {
                    byte,
                    count,
                    eol,
                    sep,
                    tab,
                } = fence;
                Answer::value(fence_close_scan(
                    text,
                    from - 1,
                    text.len(),
                    byte,
                    count,
                    eol,
                    sep,
                    tab,
                ))
            })
        }
        _ => return Ok(None),
    }))
}

/// An open fence and the bytes that its close is judged by.
#[derive(Clone, Copy)]
struct Fence {
    byte: u8,
    count: u8,
    eol: u8,
    sep: u8,
    tab: u8,
}

impl Fence {
    fn read(words: &mut Words) -> Result<Self, String> {
        Ok(Self {
            byte: words.byte("byte")?,
            count: words.byte("count")?,
            eol: words.byte("eol")?,
            sep: words.byte("sep")?,
            tab: words.byte("tab")?,
        })
    }
}
