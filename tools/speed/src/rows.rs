//! The rows of the benchmark. Each does the same with the panel's entries and with the Rust, and hands everything that it finds to
//! a sink: one that only keeps it alive while it is measured, or one that gathers it to be compared.

use crate::house::*;
use crate::panel::*;
use meon::engine::text_parser::standalone::block_marker::BlockMarkerIter;
use meon::engine::text_parser::standalone::block_numbered::BlockNumberedIter;
use meon::engine::text_parser::standalone::cont::ContIter;
use meon::engine::text_parser::standalone::context::ParseContext;
use meon::engine::text_parser::standalone::fence::FenceIter;
use meon::span::Span;

pub trait Sink {
    fn item(&mut self, numbers: &[u32]);
    /// A whole list, and how the numbers of an entry are read.
    fn list<T, const N: usize>(&mut self, list: &[T], numbers: impl Fn(&T) -> [u32; N]);
}

pub trait Row {
    fn ours(&mut self, text: &[u8], sink: &mut impl Sink);
    fn theirs(&mut self, text: &[u8], sink: &mut impl Sink);
}

// The scanners, each from a fresh state to the end.

/// Backtick fences: the byte that inline pairs have too, so that false hits are among the true ones.
pub struct Fences;

impl Row for Fences {
    fn ours(&mut self, text: &[u8], sink: &mut impl Sink) {
        let (mut state, mut answer) = ([0u32; 6], [0u32; 3]);
        let (state, answer) = (bytes(&mut state), &mut answer);
        values(unsafe { rack_fence_new(b'`', 3, EOL, SEP, TAB, state.0, state.1) }, &[0]);
        loop {
            let lent = bytes(answer);
            let refusal = unsafe { rack_fence_step(text.as_ptr(), text.len(), state.0, state.1, lent.0, lent.1) };
            match values(refusal, answer) {
                [] => return,
                span => sink.item(span),
            }
        }
    }

    fn theirs(&mut self, text: &[u8], sink: &mut impl Sink) {
        for span in FenceIter::new(text, b'`', 3, EOL, SEP, TAB) {
            sink.item(&[span.start, span.end]);
        }
    }
}

pub struct Markers;

impl Row for Markers {
    fn ours(&mut self, text: &[u8], sink: &mut impl Sink) {
        let (mut state, mut answer) = ([0u32; 9], [0u32; 4]);
        let (state, answer) = (bytes(&mut state), &mut answer);
        let set = (MARKERS.as_ptr(), MARKERS.len());
        values(unsafe { rack_marker_new(EOL, SEP, TAB, set.0, set.1, state.0, state.1) }, &[0]);
        loop {
            let lent = bytes(answer);
            let refusal = unsafe { rack_marker_step(text.as_ptr(), text.len(), set.0, set.1, state.0, state.1, lent.0, lent.1) };
            match values(refusal, answer) {
                [] => return,
                item => sink.item(item),
            }
        }
    }

    fn theirs(&mut self, text: &[u8], sink: &mut impl Sink) {
        for (marker, content) in markers(text) {
            sink.item(&[content.start, content.end, marker.into()]);
        }
    }
}

pub struct Numbered;

impl Row for Numbered {
    fn ours(&mut self, text: &[u8], sink: &mut impl Sink) {
        let (mut state, mut answer) = ([0u32; 9], [0u32; 5]);
        let (state, answer) = (bytes(&mut state), &mut answer);
        let set = (DELIMITERS.as_ptr(), DELIMITERS.len());
        values(unsafe { rack_numbered_new(EOL, SEP, TAB, set.0, set.1, state.0, state.1) }, &[0]);
        loop {
            let lent = bytes(answer);
            let refusal =
                unsafe { rack_numbered_step(text.as_ptr(), text.len(), set.0, set.1, state.0, state.1, lent.0, lent.1) };
            match values(refusal, answer) {
                [] => return,
                item => sink.item(item),
            }
        }
    }

    fn theirs(&mut self, text: &[u8], sink: &mut impl Sink) {
        for ((number, delimiter), content) in numbered(text) {
            sink.item(&[content.start, content.end, delimiter.into(), number]);
        }
    }
}

pub struct Frames;

impl Row for Frames {
    fn ours(&mut self, text: &[u8], sink: &mut impl Sink) {
        let (mut state, mut answer) = ([0u32; 105], [0u32; 3]);
        let (state, answer) = (bytes(&mut state), &mut answer);
        values(unsafe { rack_cont_new(QUOTE, EOL, SEP, TAB, NEST, state.0, state.1) }, &[0]);
        loop {
            let lent = bytes(answer);
            let refusal = unsafe { rack_cont_step(text.as_ptr(), text.len(), state.0, state.1, lent.0, lent.1) };
            match values(refusal, answer) {
                [] => return,
                span => sink.item(span),
            }
        }
    }

    fn theirs(&mut self, text: &[u8], sink: &mut impl Sink) {
        for span in ContIter::new(text, QUOTE, EOL, SEP, TAB, NEST) {
            sink.item(&[span.start, span.end]);
        }
    }
}

/// Building. The Rust is told beforehand how many regions there are, so that its list never grows; ours gets a list with room for so
/// many as there may be at the most, or for as many as there are, where it counts before it writes.
pub struct Build {
    regions: usize,
    list: Vec<u32>,
}

impl Build {
    pub fn with_room_enough(text: &[u8]) -> Self {
        Self { regions: context(text, 0).spans().len(), list: vec![0; 2 * (text.len() / 2 + 1)] }
    }

    pub fn counted(text: &[u8]) -> Self {
        let regions = context(text, 0).spans().len();
        Self { regions, list: vec![0; 2 * regions] }
    }
}

impl Row for Build {
    fn ours(&mut self, text: &[u8], sink: &mut impl Sink) {
        let n = built(text, &mut self.list);
        sink.list(&self.list[..2 * n], |&number| [number]);
    }

    fn theirs(&mut self, text: &[u8], sink: &mut impl Sink) {
        sink.list(context(text, self.regions).spans(), |span| [span.start, span.end]);
    }
}

/// One cursor over the regions, asked at every place that a step from 0 on meets.
pub struct Cursor {
    step: usize,
    list: Vec<u32>,
    context: ParseContext,
}

impl Cursor {
    pub fn new(text: &[u8], step: usize) -> Self {
        let context = context(text, 0);
        let mut list = vec![0; 2 * context.spans().len()];
        built(text, &mut list);
        Self { step, list, context }
    }
}

impl Row for Cursor {
    fn ours(&mut self, text: &[u8], sink: &mut impl Sink) {
        let list = bytes(&mut self.list);
        let count = (list.1 / 8) as u32;
        let (mut answer, mut index) = ([0u32; 3], 0);
        for place in (0..text.len()).step_by(self.step) {
            let lent = bytes(&mut answer);
            let refusal = unsafe { rack_covering_end(list.0, list.1, count, index, place, lent.0, lent.1) };
            let found = values(refusal, &answer);
            index = found[0];
            sink.item(&[found.get(1).copied().unwrap_or(0)]);
        }
    }

    fn theirs(&mut self, text: &[u8], sink: &mut impl Sink) {
        let mut cursor = self.context.cursor();
        for place in (0..text.len()).step_by(self.step) {
            sink.item(&[cursor.covering_end(place).unwrap_or(0) as u32]);
        }
    }
}

/// The work sheet. The Rust has none: its builder, cursor and item scanners are put together as a caller would.
pub struct Sheet {
    regions: usize,
    list: Vec<u32>,
}
impl Sheet {
    pub fn new(text: &[u8]) -> Self {
        let items = markers(text).count() + numbered(text).count();
        Self { regions: context(text, 0).spans().len(), list: vec![0; 5 * items] }
    }
}
impl Row for Sheet {
    fn ours(&mut self, text: &[u8], sink: &mut impl Sink) {
        let mut answer = [0u32; 2];
        let (out, lent) = (bytes(&mut self.list), bytes(&mut answer));
        #[rustfmt::skip]
        let refusal = unsafe {
            rack_sheet(
                text.as_ptr(), text.len(), EOL, ESCAPE, SEP, TAB,
                FENCES.as_ptr(), FENCES.len(), MINS.as_ptr(), MINS.len(),
                SYMMETRIC_BYTES.as_ptr(), SYMMETRIC_BYTES.len(), TIMES.as_ptr(), TIMES.len(),
                OPENERS.as_ptr(), OPENERS.len(), CLOSERS.as_ptr(), CLOSERS.len(), COUNTS.as_ptr(), COUNTS.len(),
                MARKERS.as_ptr(), MARKERS.len(), DELIMITERS.as_ptr(), DELIMITERS.len(),
                out.0, out.1, lent.0, lent.1,
            )
        };
        let n = values(refusal, &answer)[0] as usize;
        sink.list(&self.list[..5 * n], |&number| [number]);
    }

    fn theirs(&mut self, text: &[u8], sink: &mut impl Sink) {
        let context = context(text, self.regions);
        let mut cursor = context.cursor();
        let (mut marked, mut stepped) = (markers(text).peekable(), numbered(text).peekable());
        let mut items: Vec<[u32; 5]> = Vec::with_capacity(self.list.len() / 5);
        loop {
            let is_marker = match (marked.peek(), stepped.peek()) {
                (None, None) => break,
                (Some((_, m)), Some((_, n))) => m.start <= n.start,
                (marker, _) => marker.is_some(),
            };
            let item = if is_marker {
                let (marker, content) = marked.next().unwrap();
                [content.start, content.end, 0, marker.into(), 0]
            } else {
                let ((number, delimiter), content) = stepped.next().unwrap();
                [content.start, content.end, 1, delimiter.into(), number]
            };
            // the marker or delimiter stands two before the content
            if !cursor.is_covered(item[0] as usize - 2) {
                items.push(item);
            }
        }
        sink.list(&items, |&item| item);
    }
}

// What several rows do.

fn context(text: &[u8], cap_hint: usize) -> ParseContext {
    ParseContext::build(text, EOL, ESCAPE, SEP, TAB, &FENCE_RULES, &SYMMETRIC, &ASYMMETRIC, cap_hint)
}

fn markers(text: &[u8]) -> impl Iterator<Item = (u8, Span)> + '_ {
    BlockMarkerIter::new(text, EOL, SEP, TAB, |b| MARKERS.contains(&b), |b| b)
}

fn numbered(text: &[u8]) -> impl Iterator<Item = ((u32, u8), Span)> + '_ {
    BlockNumberedIter::new(text, EOL, SEP, TAB, |b| DELIMITERS.contains(&b), |n, b| (n, b))
}

/// Builds by the panel's entry, and gives the count.
fn built(text: &[u8], list: &mut [u32]) -> usize {
    let mut answer = [0u32; 2];
    let (out, lent) = (bytes(list), bytes(&mut answer));
    #[rustfmt::skip]
    let refusal = unsafe {
        rack_build(
            text.as_ptr(), text.len(), EOL, ESCAPE, SEP, TAB,
            FENCES.as_ptr(), FENCES.len(), MINS.as_ptr(), MINS.len(),
            SYMMETRIC_BYTES.as_ptr(), SYMMETRIC_BYTES.len(), TIMES.as_ptr(), TIMES.len(),
            OPENERS.as_ptr(), OPENERS.len(), CLOSERS.as_ptr(), CLOSERS.len(), COUNTS.as_ptr(), COUNTS.len(),
            out.0, out.1, lent.0, lent.1,
        )
    };
    values(refusal, &answer)[0] as usize
}

/// A run of numbers as the run of bytes that the panel takes: four bytes each, and on both processors low byte first.
fn bytes(numbers: &mut [u32]) -> (*mut u8, usize) {
    (numbers.as_mut_ptr().cast(), 4 * numbers.len())
}
