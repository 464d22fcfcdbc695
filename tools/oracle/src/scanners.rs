//! The iterators: their fresh state, one step of any state, and all that they yield.

use crate::answer::{byte, bytes, number, span, Answer, Head, Word};
use crate::question::{at_place, of_text, Question, PAST, WITHIN};
use crate::words::Words;
use meon::engine::text_parser::standalone::block_marker::{self, BlockMarkerIter};
use meon::engine::text_parser::standalone::block_numbered::{self, BlockNumberedIter};
use meon::engine::text_parser::standalone::cont::{self, ContIter};
use meon::engine::text_parser::standalone::fence::{self, FenceIter};
use meon::span::Span;
use meon::ItemState;

pub fn question(name: &str, words: &mut Words) -> Result<Option<Question>, String> {
    Ok(Some(match name {
        "fence_new" | "fence_run" => fence_fresh(name == "fence_run", words)?,
        "fence_step" => fence_step(words)?,
        "marker_new" | "marker_run" => marker_fresh(name == "marker_run", words)?,
        "marker_step" => marker_step(words)?,
        "numbered_new" | "numbered_run" => numbered_fresh(name == "numbered_run", words)?,
        "numbered_step" => numbered_step(words)?,
        "cont_new" | "cont_run" => cont_fresh(name == "cont_run", words)?,
        "cont_step" => cont_step(words)?,
        _ => return Ok(None),
    }))
}

fn fresh(state: Vec<Word>) -> Answer {
    Answer::new(Head::State, state)
}

// FenceIter

fn fence_fresh(run: bool, words: &mut Words) -> Result<Question, String> {
    let (b, min) = (words.byte("byte")?, words.byte("min")?);
    let Blanks { eol, sep, tab } = Blanks::read(words)?;
    Ok(of_text(move |text| {
        let iter = FenceIter::new(text, b, min, eol, sep, tab);
        if run {
            Answer::all(iter.map(span).collect())
        } else {
            fresh(fence_state(&iter))
        }
    }))
}

fn fence_step(words: &mut Words) -> Result<Question, String> {
    let (b, min) = (words.byte("byte")?, words.byte("min")?);
    let Blanks { eol, sep, tab } = Blanks::read(words)?;
    Ok(at_place(PAST, move |src, pos| {
        let mut iter = fence::reach::State {
            src,
            byte: b,
            min,
            eol,
            sep,
            tab,
            pos,
        }
        .iter();
        let found = iter.next().map(span);
        Answer::step(found, fence_state(&iter))
    }))
}

fn fence_state(iter: &FenceIter) -> Vec<Word> {
    let state = fence::reach::State::of(iter);
    vec![
        byte(state.byte),
        byte(state.min),
        byte(state.eol),
        byte(state.sep),
        byte(state.tab),
        Word::Text(state.src.to_vec()),
        number(state.pos),
    ]
}

// BlockMarkerIter: `make` gives the marker byte.

fn marker_fresh(run: bool, words: &mut Words) -> Result<Question, String> {
    let Blanks { eol, sep, tab } = Blanks::read(words)?;
    let accepted = words.bytes("accepted bytes")?;
    Ok(of_text(move |text| {
        let iter = BlockMarkerIter::new(text, eol, sep, tab, |b| accepted.contains(&b), |b| b);
        if run {
            Answer::all(iter.map(marker_item).collect())
        } else {
            fresh(item_state(block_marker::reach::state(&iter), &accepted))
        }
    }))
}

fn marker_step(words: &mut Words) -> Result<Question, String> {
    let item = Item::read(words)?;
    Ok(at_place(WITHIN, move |text, pos| {
        let accepted = &item.accepted;
        let mut iter =
            block_marker::reach::iter(item.state(text, pos), |b| accepted.contains(&b), |b| b);
        let found = iter.next().map(marker_item);
        Answer::step(
            found,
            item_state(block_marker::reach::state(&iter), accepted),
        )
    }))
}

fn marker_item((marker, content): (u8, Span)) -> Vec<u64> {
    vec![marker.into(), content.start.into(), content.end.into()]
}

// BlockNumberedIter: `make` gives the number and the delimiter.

fn numbered_fresh(run: bool, words: &mut Words) -> Result<Question, String> {
    let Blanks { eol, sep, tab } = Blanks::read(words)?;
    let accepted = words.bytes("accepted bytes")?;
    Ok(of_text(move |text| {
        let iter = BlockNumberedIter::new(
            text,
            eol,
            sep,
            tab,
            |b| accepted.contains(&b),
            |n, b| (n, b),
        );
        if run {
            Answer::all(iter.map(numbered_item).collect())
        } else {
            fresh(item_state(block_numbered::reach::state(&iter), &accepted))
        }
    }))
}

fn numbered_step(words: &mut Words) -> Result<Question, String> {
    let item = Item::read(words)?;
    Ok(at_place(WITHIN, move |text, pos| {
        let accepted = &item.accepted;
        let mut iter = block_numbered::reach::iter(
            item.state(text, pos),
            |b| accepted.contains(&b),
            |n, b| (n, b),
        );
        let found = iter.next().map(numbered_item);
        Answer::step(
            found,
            item_state(block_numbered::reach::state(&iter), accepted),
        )
    }))
}

fn numbered_item(((n, delimiter), content): ((u32, u8), Span)) -> Vec<u64> {
    vec![
        n.into(),
        delimiter.into(),
        content.start.into(),
        content.end.into(),
    ]
}

/// The fields of an item scanner, its text and position aside.
struct Item {
    blanks: Blanks,
    accepted: Vec<u8>,
    needles: [u8; 3],
    nn: usize,
    streaming: bool,
}

impl Item {
    fn read(words: &mut Words) -> Result<Self, String> {
        Ok(Self {
            blanks: Blanks::read(words)?,
            accepted: words.bytes("accepted bytes")?,
            needles: words.needles()?,
            nn: words.number("needle count")?,
            streaming: words.flag("the streaming flag")?,
        })
    }

    fn state<'a>(&self, src: &'a [u8], pos: usize) -> ItemState<'a> {
        let Blanks { eol, sep, tab } = self.blanks;
        ItemState {
            src,
            eol,
            sep,
            tab,
            needles: self.needles,
            nn: self.nn,
            streaming: self.streaming,
            pos,
        }
    }
}

fn item_state(state: ItemState, accepted: &[u8]) -> Vec<Word> {
    vec![
        byte(state.eol),
        byte(state.sep),
        byte(state.tab),
        Word::Lent(accepted.to_vec()),
        bytes(&state.needles),
        number(state.nn),
        byte(state.streaming.into()),
        Word::Text(state.src.to_vec()),
        number(state.pos),
    ]
}

// ContIter

fn cont_fresh(run: bool, words: &mut Words) -> Result<Question, String> {
    let b = words.byte("byte")?;
    let Blanks { eol, sep, tab } = Blanks::read(words)?;
    let max_nest = words.number("max_nest")?;
    Ok(of_text(move |text| {
        let iter = ContIter::new(text, b, eol, sep, tab, max_nest);
        if run {
            Answer::all(iter.map(span).collect())
        } else {
            fresh(cont_state(&iter))
        }
    }))
}

fn cont_step(words: &mut Words) -> Result<Question, String> {
    let b = words.byte("byte")?;
    let Blanks { eol, sep, tab } = Blanks::read(words)?;
    let cap = words.number("cap")?;
    let open_len = words.number("open_len")?;
    let open = cells(words.numbers("open")?, 0)?;
    let pending_len = words.number("pending_len")?;
    let pending_idx = words.number("pending_idx")?;
    let pending = cells(words.spans("pending")?, Span::new(0, 0))?;
    Ok(at_place(WITHIN, move |src, pos| {
        let state = cont::reach::State {
            src,
            byte: b,
            eol,
            sep,
            tab,
            cap,
            pos,
            open,
            open_len,
            pending,
            pending_len,
            pending_idx,
        };
        let mut iter = state.iter();
        let found = iter.next().map(span);
        Answer::step(found, cont_state(&iter))
    }))
}

/// An array whose first cells are `given`; the others hold `rest`, as in a fresh state.
fn cells<T: Copy, const N: usize>(given: Vec<T>, rest: T) -> Result<[T; N], String> {
    if given.len() > N {
        return Err(format!("over {N} cells"));
    }
    let mut all = [rest; N];
    all[..given.len()].copy_from_slice(&given);
    Ok(all)
}

fn cont_state(iter: &ContIter) -> Vec<Word> {
    let state = cont::reach::State::of(iter);
    vec![
        byte(state.byte),
        byte(state.eol),
        byte(state.sep),
        byte(state.tab),
        number(state.cap),
        number(state.open_len),
        Word::Cells(state.open.iter().map(|&start| vec![start.into()]).collect()),
        number(state.pending_len),
        number(state.pending_idx),
        Word::Cells(state.pending.into_iter().map(span).collect()),
        Word::Text(state.src.to_vec()),
        number(state.pos),
    ]
}

/// The three grammar bytes that every scanner takes.
#[derive(Clone, Copy)]
struct Blanks {
    eol: u8,
    sep: u8,
    tab: u8,
}

impl Blanks {
    fn read(words: &mut Words) -> Result<Self, String> {
        Ok(Self {
            eol: words.byte("eol")?,
            sep: words.byte("sep")?,
            tab: words.byte("tab")?,
        })
    }
}
