//! A child of the copied `cont.rs`: every field of its iterator, to set and to read.

use super::{ContIter, Span, MAX_DEPTH};

pub struct State<'a> {
    pub src: &'a [u8],
    pub byte: u8,
    pub eol: u8,
    pub sep: u8,
    pub tab: u8,
    pub cap: usize,
    pub pos: usize,
    pub open: [u32; MAX_DEPTH],
    pub open_len: usize,
    pub pending: [Span; MAX_DEPTH],
    pub pending_len: usize,
    pub pending_idx: usize,
}

impl<'a> State<'a> {
    pub fn of(iter: &ContIter<'a>) -> Self {
        let &ContIter {
            src,
            byte,
            eol,
            sep,
            tab,
            cap,
            pos,
            open,
            open_len,
            pending,
            pending_len,
            pending_idx,
        } = iter;
        Self {
            src,
            byte,
            eol,
            sep,
            tab,
            cap,
            pos,
            open,
            open_len,
            pending,
            pending_len,
            pending_idx,
        }
    }

    pub fn iter(self) -> ContIter<'a> {
        let Self {
            src,
            byte,
            eol,
            sep,
            tab,
            cap,
            pos,
            open,
            open_len,
            pending,
            pending_len,
            pending_idx,
        } = self;
        ContIter {
            src,
            byte,
            eol,
            sep,
            tab,
            cap,
            pos,
            open,
            open_len,
            pending,
            pending_len,
            pending_idx,
        }
    }
}
