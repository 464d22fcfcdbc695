//! The amendment of a list, which the Rust hasn't: refusals, joints and the formula are the page's (document 01,
//! "Numbers and refusals", "Amendment and work sheet"), the regions are the Rust's. Columns that differ in length, 6,
//! can't be asked here.

use crate::answer::{span, Answer};
use crate::context::Grammar;
use crate::question::{of_text, Question};
use crate::words::Words;
use meon::span::Span;

pub fn question(name: &str, words: &mut Words) -> Result<Option<Question>, String> {
    Ok(Some(match name {
        "amend" => {
            let list = words.spans("regions")?;
            let (edit, grammar) = (Edit::read(words)?, Grammar::read(words)?);
            of_text(move |old| match edit.refusal(&grammar, old, &list) {
                Some(number) => Answer::refused(number),
                None => Answer::all(edit.formula(&grammar, old, &list).into_iter().map(span).collect()),
            })
        }
        "context_amend" => {
            let (edit, grammar) = (Edit::read(words)?, Grammar::read(words)?);
            of_text(move |old| match edit.afresh(&grammar, old, &grammar.regions(old)) {
                Err(number) => Answer::refused(number),
                Ok(regions) => Answer::all(regions.into_iter().map(span).collect()),
            })
        }
        "context_amends" => {
            let (replacements, grammar) = (words.texts("replacements")?, Grammar::read(words)?);
            of_text(move |old| Answer::all(every_edit(&grammar, old, &replacements)))
        }
        _ => return Ok(None),
    }))
}

/// "A text has at most 4,294,967,295 bytes."
const MOST_BYTES: usize = u32::MAX as usize;

/// Two cuts and the replacement.
struct Edit {
    first: usize,
    second: usize,
    replacement: Vec<u8>,
}

impl Edit {
    fn read(words: &mut Words) -> Result<Self, String> {
        Ok(Self { first: words.number("first")?, second: words.number("second")?, replacement: words.text()? })
    }

    /// "For an amendment: 1 (old text, replacement), 6, 4, 1 (edited text), 5, 9, 7, 8, 3", room aside.
    fn refusal(&self, grammar: &Grammar, old: &[u8], list: &[Span]) -> Option<u64> {
        let &Self { first, second, ref replacement } = self;
        if old.len().max(replacement.len()) > MOST_BYTES {
            return Some(1);
        }
        if first > second || second > old.len() {
            return Some(4);
        }
        if old.len() - (second - first) + replacement.len() > MOST_BYTES {
            return Some(1);
        }
        if is_misshapen(list, old.len()) {
            return Some(5);
        }
        if grammar.has_line_end_mark() {
            return Some(9);
        }
        let is_joint = |place| is_joint(grammar.eol, old, list, place);
        if !is_joint(first) || !(second == old.len() || is_joint(second)) {
            return Some(7);
        }
        (second < old.len() && is_open(grammar, replacement)).then_some(8)
    }

    /// "regions starting before the first cut; the replacement's own moved up by the first cut; unless the second cut is
    /// the text's end, regions starting at or after it moved by the change in length"
    fn formula(&self, grammar: &Grammar, old: &[u8], list: &[Span]) -> Vec<Span> {
        let &Self { first, second, ref replacement } = self;
        let starting = |from: usize, to: usize| list.iter().filter(move |r| (from..to).contains(&(r.start as usize)));
        let moved = |r: &Span, up: usize, down: usize| {
            Span::new((r.start as usize + up - down) as u32, (r.end as usize + up - down) as u32)
        };
        let mut regions: Vec<Span> = starting(0, first).copied().collect();
        regions.extend(grammar.regions(replacement).iter().map(|r| moved(r, first, 0)));
        regions.extend(starting(second, old.len()).map(|r| moved(r, first + replacement.len(), second)));
        regions
    }

    /// What building the edited text gives, or the refusal.
    fn afresh(&self, grammar: &Grammar, old: &[u8], list: &[Span]) -> Result<Vec<Span>, u64> {
        match self.refusal(grammar, old, list) {
            Some(number) => Err(number),
            None => Ok(grammar.regions(&[&old[..self.first], &self.replacement, &old[self.second..]].concat())),
        }
    }
}

/// Every pair of cuts to one place past the text, with each replacement: the refusal, how many regions there are, and
/// their numbers.
fn every_edit(grammar: &Grammar, old: &[u8], replacements: &[Vec<u8>]) -> Vec<Vec<u64>> {
    let (list, places) = (grammar.regions(old), 0..=old.len() + 1);
    let mut numbers = Vec::new();
    for (first, second) in places.clone().flat_map(|first| places.clone().map(move |second| (first, second))) {
        for replacement in replacements {
            let edit = Edit { first, second, replacement: replacement.clone() };
            let (refusal, regions) = match edit.afresh(grammar, old, &list) {
                Err(number) => (number, Vec::new()),
                Ok(regions) => (0, regions),
            };
            numbers.extend([refusal, regions.len() as u64]);
            numbers.extend(regions.into_iter().flat_map(span));
        }
    }
    numbers.into_iter().map(|n| vec![n]).collect()
}

/// "regions unsorted, overlapping, empty (end not after start) or past the text"
pub fn is_misshapen(list: &[Span], len: usize) -> bool {
    let is_empty = |r: &Span| r.end <= r.start;
    let is_past = |r: &Span| r.end as usize > len;
    list.iter().any(|r| is_empty(r) || is_past(r)) || list.windows(2).any(|pair| pair[1].start < pair[0].end)
}

/// "place 0, or a place k of at least 2 whose two preceding bytes are line ends, where no region starting before k ends at
/// k or later"
fn is_joint(eol: u8, text: &[u8], list: &[Span], k: usize) -> bool {
    let crosses = |r: &Span| (r.start as usize) < k && r.end as usize >= k;
    k == 0 || text[..k].ends_with(&[eol, eol]) && !list.iter().any(crosses)
}

/// "a replacement that isn't empty, and that … doesn't end in two line ends or has, built alone, a region reaching its end"
fn is_open(grammar: &Grammar, replacement: &[u8]) -> bool {
    let reaches = |r: &Span| r.end as usize == replacement.len();
    let is_closed = || replacement.ends_with(&[grammar.eol; 2]) && !grammar.regions(replacement).iter().any(reaches);
    !replacement.is_empty() && !is_closed()
}
