//! Building, the parts it is made of, and the cursor.

use crate::answer::{bytes, number, span, Answer, Head, Word};
use crate::listing::{sheet, Item};
use crate::question::{alone, at_place, of_text, Question, WITHIN};
use crate::words::Words;
use meon::engine::text_parser::standalone::common::find_line_end;
use meon::engine::text_parser::standalone::context::{
    reach, AsymSpec, FenceSpec, ParseContext, SymSpec,
};
use meon::span::Span;

pub fn question(name: &str, words: &mut Words) -> Result<Option<Question>, String> {
    Ok(Some(match name {
        "context_build" => {
            let grammar = Grammar::read(words)?;
            of_text(move |text| Answer::all(grammar.regions(text).into_iter().map(span).collect()))
        }
        "context_causes" => {
            let grammar = Grammar::read(words)?;
            of_text(move |text| {
                let caused = |region| grammar.caused(text, region);
                Answer::all(grammar.regions(text).into_iter().map(caused).collect())
            })
        }
        "context_cover" => {
            let grammar = Grammar::read(words)?;
            of_text(move |text| Answer::all(covered(&grammar.regions(text), text.len())))
        }
        "context_sheet" => {
            let grammar = Grammar::read(words)?;
            let (markers, delimiters) = (words.bytes("markers")?, words.bytes("delimiters")?);
            of_text(move |text| {
                let bounds = [grammar.eol, grammar.sep, grammar.tab];
                let items = sheet(text, bounds, &markers, &delimiters, &grammar.regions(text));
                Answer::all(items.iter().map(Item::five).collect())
            })
        }
        "context_into" => {
            let cells = words.number("cells")?;
            let grammar = Grammar::read(words)?;
            of_text(move |text| into_cells(cells, &grammar.regions(text)))
        }
        "build_needles" => {
            let fences = words.fences()?;
            let sym = words.symmetric()?;
            let asym = words.asymmetric()?;
            alone(move || {
                let mut buf = reach::needle_buf();
                let n = reach::build_needles(&fences, &sym, &asym, &mut buf);
                Answer::new(Head::Some, vec![number(n), bytes(&buf)])
            })
        }
        "find_needle" => {
            let needles = words.bytes("needles")?;
            // Cut from the place on, as in `build`.
            at_place(WITHIN, move |text, from| {
                Answer::option(reach::find_needle(&needles, &text[from..]).map(|i| from + i))
            })
        }
        "rule_for" => {
            let b = words.byte("byte")?;
            let sym = words.symmetric()?;
            let asym = words.asymmetric()?;
            alone(move || match reach::rule_for(b, &sym, &asym) {
                Some((is_sym, index)) => {
                    Answer::new(Head::Some, vec![number(is_sym.into()), number(index)])
                }
                None => Answer::option(None),
            })
        }
        "sym_close" => {
            let b = words.byte("byte")?;
            let count = words.number("count")?;
            let escape = words.byte("escape")?;
            let eol = words.byte("eol")?;
            let fences = words.fences()?;
            at_place(WITHIN, move |text, from| {
                Answer::option(reach::sym_close(
                    text,
                    from,
                    text.len(),
                    b,
                    count,
                    escape,
                    eol,
                    &fences,
                ))
            })
        }
        "asym_close" => {
            let close = words.byte("close")?;
            let escape = words.byte("escape")?;
            let eol = words.byte("eol")?;
            let fences = words.fences()?;
            at_place(WITHIN, move |text, from| {
                Answer::option(reach::asym_close(text, from, close, escape, eol, &fences))
            })
        }
        "covering_end" => {
            let spans = words.spans("regions")?;
            let index = words.number("index")?;
            let place = words.number("place")?;
            alone(move || {
                let mut cursor = reach::cursor(&spans, index);
                let end = cursor.covering_end(place).map(|end| vec![end as u64]);
                Answer::step(end, vec![number(reach::index(&cursor))])
            })
        }
        "is_covered" => {
            let spans = words.spans("regions")?;
            let index = words.number("index")?;
            let place = words.number("place")?;
            alone(move || {
                let mut cursor = reach::cursor(&spans, index);
                let covered = cursor.is_covered(place);
                Answer::new(
                    Head::Some,
                    vec![number(covered.into()), number(reach::index(&cursor))],
                )
            })
        }
        _ => return Ok(None),
    }))
}

/// The grammar bytes and the rules.
pub struct Grammar {
    pub eol: u8,
    escape: u8,
    sep: u8,
    tab: u8,
    fences: Vec<FenceSpec>,
    sym: Vec<SymSpec>,
    asym: Vec<AsymSpec>,
}

impl Grammar {
    pub fn read(words: &mut Words) -> Result<Self, String> {
        Ok(Self {
            eol: words.byte("eol")?,
            escape: words.byte("escape")?,
            sep: words.byte("sep")?,
            tab: words.byte("tab")?,
            fences: words.fences()?,
            sym: words.symmetric()?,
            asym: words.asymmetric()?,
        })
    }

    pub fn regions(&self, text: &[u8]) -> Vec<Span> {
        let &Self {
            eol,
            escape,
            sep,
            tab,
            ..
        } = self;
        // A capacity hint of 0: it sizes the vector and decides nothing.
        let (fences, sym, asym) = (&self.fences, &self.sym, &self.asym);
        let context = ParseContext::build(text, eol, escape, sep, tab, fences, sym, asym, 0);
        context.spans().to_vec()
    }

    /// "the escape, a symmetric byte or an asymmetric opener is the line-end byte"
    pub fn has_line_end_mark(&self) -> bool {
        let is_line_end = |&byte: &u8| byte == self.eol;
        let symmetric = self.sym.iter().map(|(byte, _)| byte);
        let openers = self.asym.iter().map(|(opener, ..)| opener);
        is_line_end(&self.escape) || symmetric.chain(openers).any(is_line_end)
    }

    /// A region with what made it, by the tests that `build` makes in turn: where a fence opens the
    /// first rule with its byte, else the inline rule of the byte. 0, 1 or 2 for a fence, a symmetric
    /// or an asymmetric rule, the rule's index, and 1 unless it is a fence that no line closed.
    fn caused(&self, text: &[u8], region: Span) -> Vec<u64> {
        let start = region.start as usize;
        let byte = text[start];
        let (kind, index, closed) = match self.fence_at(text, start) {
            Some(count) => {
                let index = self.fences.iter().position(|&(fence, _)| fence == byte);
                let closed = self.is_closed(text, region, count);
                (0, index.unwrap(), closed)
            }
            None => {
                let (is_sym, index) = reach::rule_for(byte, &self.sym, &self.asym).unwrap();
                (if is_sym { 1 } else { 2 }, index, true)
            }
        };
        let mut numbers = span(region);
        numbers.extend([kind, index as u64, closed.into()]);
        numbers
    }

    /// The run count of a fence that opens at the start of a line.
    fn fence_at(&self, text: &[u8], start: usize) -> Option<u8> {
        if start > 0 && text[start - 1] != self.eol {
            return None;
        }
        let line_end = find_line_end(text, start, self.eol);
        reach::fence_opens(text, start, line_end, &self.fences)
    }

    /// A fence that ends before the text was closed; one that ends with it was if the last line,
    /// being a later one, closes it.
    fn is_closed(&self, text: &[u8], region: Span, count: u8) -> bool {
        let (start, end, byte) = (region.start as usize, region.end as usize, text[region.start as usize]);
        if end < text.len() {
            return true;
        }
        let last = text.iter().rposition(|&b| b == self.eol).map_or(0, |eol| eol + 1);
        last > start
            && text.get(last) == Some(&byte)
            && reach::fence_closes(text, last, end, byte, count, self.sep, self.tab)
    }
}

/// What one cursor answers at every place to `len`, rising and then falling: the end, or 0, and the index after the query.
fn covered(regions: &[Span], len: usize) -> Vec<Vec<u64>> {
    let mut cursor = reach::cursor(regions, 0);
    let query = |place| {
        let end = cursor.covering_end(place).unwrap_or(0);
        vec![end as u64, reach::index(&cursor) as u64]
    };
    (0..=len).chain((0..=len).rev()).map(query).collect()
}

/// The regions written into so many cells, by the page's rule: where there is no room for all, a
/// refusal, and nothing written. The count, the refusal, and the cells, which held other numbers.
fn into_cells(size: usize, regions: &[Span]) -> Answer {
    let mut cells: Vec<u64> = (0..size).map(|i| (1000 + size - i) as u64).collect();
    let (count, refusal) = if regions.len() > size / 2 {
        (0, 3)
    } else {
        let written: Vec<u64> = regions.iter().copied().flat_map(span).collect();
        cells[..written.len()].copy_from_slice(&written);
        (regions.len(), 0)
    };
    let cells = Word::List(cells.into_iter().map(|n| vec![n]).collect());
    Answer::new(Head::Some, vec![number(count), number(refusal), cells])
}
