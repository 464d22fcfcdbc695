//! Why each line is not on the work sheet of the house grammar. The Rust has no explanation: what is on the sheet and
//! what is hidden is told by its items and regions; what a line without an item lacks, by document 02.

use crate::amend::is_misshapen;
use crate::answer::Answer;
use crate::context::Grammar;
use crate::listing::{hider, items, sheet, Item, DELIMITERS, EOL, MARKERS, SEP, TAB};
use crate::question::{of_text, Question};
use crate::words::Words;
use meon::span::Span;

pub fn question(name: &str, words: &mut Words) -> Result<Option<Question>, String> {
    Ok(Some(match name {
        "context_reasons" => {
            let grammar = Grammar::read(words)?;
            of_text(move |text| Answer::all(reasons(text, &grammar.regions(text))))
        }
        "reasons" => {
            let count: usize = words.number("count")?;
            let regions = words.spans("regions")?;
            of_text(move |text| match regions.get(..count) {
                Some(stated) if !is_misshapen(stated, text.len()) => Answer::all(reasons(text, stated)),
                _ => Answer::refused(5),
            })
        }
        _ => return Ok(None),
    }))
}

/// "the line doesn't exist"
const NO_LINE: [u64; 4] = [1, 0, 0, 0];

/// Of line 0, of each line, of the one behind the last, and of the greatest number: the reason, then of a hidden line
/// the region's number, start and end, else three times 0.
fn reasons(text: &[u8], regions: &[Span]) -> Vec<Vec<u64>> {
    let bounds = [EOL, SEP, TAB];
    let all = items(text, bounds, MARKERS, DELIMITERS);
    let shown = sheet(text, bounds, MARKERS, DELIMITERS, regions);
    let mut reasons = vec![NO_LINE.to_vec()];
    reasons.extend(lines(text).map(|line| reason(text, line, &all, &shown, regions)));
    reasons.extend([NO_LINE.to_vec(), NO_LINE.to_vec()]);
    reasons
}

/// Where each line begins and ends: "Line 1 always exists, and a line end with a byte after it starts the next".
fn lines(text: &[u8]) -> impl Iterator<Item = (usize, usize)> + '_ {
    let end = |start: usize| text[start..].iter().position(|&b| b == EOL).map_or(text.len(), |n| start + n);
    let next = move |&(_, end): &(usize, usize)| (end + 1 < text.len()).then_some(end + 1);
    std::iter::successors(Some((0, end(0))), move |line| next(line).map(|start| (start, end(start))))
}

fn reason(text: &[u8], (start, end): (usize, usize), all: &[Item], shown: &[Item], regions: &[Span]) -> Vec<u64> {
    let is_here = |item: &Item| (start..=end).contains(&item.content_start());
    if shown.iter().any(is_here) {
        return vec![0, 0, 0, 0];
    }
    match all.iter().find(|item| is_here(item)).and_then(|item| hider(item, regions)) {
        Some(k) => vec![6, k as u64, regions[k].start.into(), regions[k].end.into()],
        None => vec![lacking(&text[start..end]), 0, 0, 0],
    }
}

/// What a line without an item lacks, by the first of document 02's sentences that holds.
fn lacking(line: &[u8]) -> u64 {
    let body = &line[line.iter().take_while(|&&b| b == SEP || b == TAB).count()..];
    let digits = body.iter().take_while(|b| b.is_ascii_digit()).count();
    let is_marker = body.first().is_some_and(|b| MARKERS.contains(b));
    let is_delimited = body.get(digits).is_some_and(|b| DELIMITERS.contains(b));
    match digits {
        0 if !is_marker => 2,
        10.. => 3,
        1.. if !is_delimited => 4,
        _ => 5,
    }
}
