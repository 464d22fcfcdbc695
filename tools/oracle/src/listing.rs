//! What `spans` prints for a text by the house grammar: the lists are the Rust's own; the lines, and the
//! work sheet, which the Rust has not, are the page's (document 01, and document 02's request 2).

use crate::amend::is_misshapen;
use crate::answer::{Answer, Head, Word};
use crate::question::{of_text, Question};
use crate::words::Words;
use meon::engine::text_parser::standalone::block_marker::BlockMarkerIter;
use meon::engine::text_parser::standalone::block_numbered::BlockNumberedIter;
use meon::engine::text_parser::standalone::cont::ContIter;
use meon::engine::text_parser::standalone::context::ParseContext;
use meon::engine::text_parser::standalone::fence::FenceIter;
use meon::span::Span;

// "line end 10, escape 92, separator 32, tab 9", "continuation `>`, nest 8"
pub const EOL: u8 = 10;
const ESCAPE: u8 = 92;
pub const SEP: u8 = 32;
pub const TAB: u8 = 9;
const NEST: usize = 8;
// "markers `- * +`; delimiters `. )`"
pub const MARKERS: &[u8] = b"-*+";
pub const DELIMITERS: &[u8] = b".)";
// "more than 8,192 bytes, the program's own limit"
const LIMIT: usize = 8192;

pub fn question(name: &str, words: &mut Words) -> Result<Option<Question>, String> {
    Ok(Some(match name {
        "listing" => of_text(|text| {
            let bytes = listing(text).into_bytes();
            Answer::new(Head::Some, vec![Word::List(bytes.into_iter().map(|b| vec![b.into()]).collect())])
        }),
        "sheet" => {
            let regions = words.spans("regions")?;
            let (eol, sep, tab) = (words.byte("eol")?, words.byte("sep")?, words.byte("tab")?);
            let (markers, delimiters) = (words.bytes("markers")?, words.bytes("delimiters")?);
            of_text(move |text| {
                if is_misshapen(&regions, text.len()) {
                    return Answer::refused(5);
                }
                let items = sheet(text, [eol, sep, tab], &markers, &delimiters, &regions);
                Answer::all(items.iter().map(Item::five).collect())
            })
        }
        _ => return Ok(None),
    }))
}

/// "start, end, kind (0 marker, 1 numbered), accepted byte, number (0 for a marker)"
pub struct Item {
    content: Span,
    kind: u64,
    byte: u8,
    number: u32,
    tested: u32,
}

impl Item {
    /// The Rust's item of a text, with the place of "the marker byte for marker items and the delimiter byte for numbered
    /// ones": one blank parts it from the content. Another byte there would be a panic, which no sheet answers.
    fn new(text: &[u8], content: Span, kind: u64, byte: u8, number: u32) -> Item {
        let tested = content.start - 2;
        assert_eq!(text[tested as usize], byte);
        Item { content, kind, byte, number, tested }
    }

    pub fn five(&self) -> Vec<u64> {
        vec![
            self.content.start.into(),
            self.content.end.into(),
            self.kind,
            self.byte.into(),
            self.number.into(),
        ]
    }

    pub fn content_start(&self) -> usize {
        self.content.start as usize
    }

    /// "their M or N fields"
    fn fields(&self) -> Vec<u64> {
        let mut fields = vec![self.content.start.into(), self.content.end.into(), self.byte.into()];
        if self.kind == 1 {
            fields.push(self.number.into());
        }
        fields
    }
}

fn markers(text: &[u8], [eol, sep, tab]: [u8; 3], accepted: &[u8]) -> Vec<Item> {
    BlockMarkerIter::new(text, eol, sep, tab, |b| accepted.contains(&b), |b| b)
        .map(|(byte, content)| Item::new(text, content, 0, byte, 0))
        .collect()
}

fn numbered(text: &[u8], [eol, sep, tab]: [u8; 3], accepted: &[u8]) -> Vec<Item> {
    BlockNumberedIter::new(text, eol, sep, tab, |b| accepted.contains(&b), |n, b| (n, b))
        .map(|((number, byte), content)| Item::new(text, content, 1, byte, number))
        .collect()
}

/// "the marker and numbered items, both scanned from place 0"
pub fn items(text: &[u8], bounds: [u8; 3], marks: &[u8], delimiters: &[u8]) -> Vec<Item> {
    let mut items = markers(text, bounds, marks);
    items.extend(numbered(text, bounds, delimiters));
    items
}

/// The region that an item's tested byte is inside of, by its index.
pub fn hider(item: &Item, regions: &[Span]) -> Option<usize> {
    regions.iter().position(|r| r.start <= item.tested && item.tested < r.end)
}

/// The items that no region hides, "by rising content start, the marker item first where two are equal"
pub fn sheet(text: &[u8], bounds: [u8; 3], marks: &[u8], delimiters: &[u8], regions: &[Span]) -> Vec<Item> {
    let mut items = items(text, bounds, marks, delimiters);
    items.retain(|item| hider(item, regions).is_none());
    items.sort_by_key(|item| (item.content.start, item.kind));
    items
}

fn listing(text: &[u8]) -> String {
    if text.len() > LIMIT {
        return "X\t1\n".to_string();
    }
    let bounds = [EOL, SEP, TAB];
    // "fences backtick and tilde, min 3; symmetric backtick, count 1; asymmetric `<` `>`, count 1"
    let (fences, sym, asym) = ([(b'`', 3), (b'~', 3)], [(b'`', 1)], [(b'<', b'>', 1)]);
    let context = ParseContext::build(text, EOL, ESCAPE, SEP, TAB, &fences, &sym, &asym, 0);
    let regions = context.spans();

    let mut lines = String::new();
    let mut put = |letter: char, fields: Vec<u64>| {
        lines.push(letter);
        fields.iter().for_each(|n| lines.push_str(&format!("\t{n}")));
        lines.push('\n');
    };
    let ends = |s: &Span| vec![s.start.into(), s.end.into()];
    regions.iter().for_each(|r| put('R', ends(r)));
    for byte in [b'`', b'~'] {
        for s in FenceIter::new(text, byte, 3, EOL, SEP, TAB) {
            put('F', vec![s.start.into(), s.end.into(), byte.into()]);
        }
    }
    for s in ContIter::new(text, b'>', EOL, SEP, TAB, NEST) {
        put('C', ends(&s));
    }
    markers(text, bounds, MARKERS).iter().for_each(|i| put('M', i.fields()));
    numbered(text, bounds, DELIMITERS).iter().for_each(|i| put('N', i.fields()));
    sheet(text, bounds, MARKERS, DELIMITERS, regions).iter().for_each(|i| put('W', i.fields()));
    lines
}
