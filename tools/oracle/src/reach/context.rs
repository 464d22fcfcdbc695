//! A child of the copied `context.rs`: its private functions under their own names, and a cursor
//! made by hand.

use super::{AsymSpec, ContextCursor, FenceSpec, Span, SymSpec, MAX_NEEDLES};

pub fn build_needles(
    fences: &[FenceSpec],
    sym: &[SymSpec],
    asym: &[AsymSpec],
    buf: &mut [u8; MAX_NEEDLES],
) -> usize {
    super::build_needles(fences, sym, asym, buf)
}

/// The buffer that `build` hands to `build_needles`.
pub fn needle_buf() -> [u8; MAX_NEEDLES] {
    [0; MAX_NEEDLES]
}

pub fn find_needle(needles: &[u8], hay: &[u8]) -> Option<usize> {
    super::find_needle(needles, hay)
}

pub fn rule_for(b: u8, sym: &[SymSpec], asym: &[AsymSpec]) -> Option<(bool, usize)> {
    super::rule_for(b, sym, asym)
}

pub fn fence_opens(src: &[u8], pos: usize, line_end: usize, fences: &[FenceSpec]) -> Option<u8> {
    super::fence_opens(src, pos, line_end, fences)
}

pub fn fence_closes(
    src: &[u8],
    pos: usize,
    line_end: usize,
    byte: u8,
    open_count: u8,
    sep: u8,
    tab: u8,
) -> bool {
    super::fence_closes(src, pos, line_end, byte, open_count, sep, tab)
}

#[allow(clippy::too_many_arguments)]
pub fn fence_close_scan(
    src: &[u8],
    open_line_end: usize,
    len: usize,
    byte: u8,
    open_count: u8,
    eol: u8,
    sep: u8,
    tab: u8,
) -> usize {
    super::fence_close_scan(src, open_line_end, len, byte, open_count, eol, sep, tab)
}

pub fn fence_opens_line(src: &[u8], ls: usize, eol: u8, fences: &[FenceSpec]) -> bool {
    super::fence_opens_line(src, ls, eol, fences)
}

#[allow(clippy::too_many_arguments)]
pub fn sym_close(
    src: &[u8],
    from: usize,
    len: usize,
    byte: u8,
    count: u32,
    escape: u8,
    eol: u8,
    fences: &[FenceSpec],
) -> Option<usize> {
    super::sym_close(src, from, len, byte, count, escape, eol, fences)
}

pub fn asym_close(
    src: &[u8],
    from: usize,
    close: u8,
    escape: u8,
    eol: u8,
    fences: &[FenceSpec],
) -> Option<usize> {
    super::asym_close(src, from, close, escape, eol, fences)
}

pub fn cursor(spans: &[Span], idx: usize) -> ContextCursor<'_> {
    ContextCursor { spans, idx }
}

pub fn index(cursor: &ContextCursor<'_>) -> usize {
    cursor.idx
}
