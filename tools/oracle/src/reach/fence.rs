//! A child of the copied `fence.rs`: every field of its iterator, to set and to read.

use super::FenceIter;

pub struct State<'a> {
    pub src: &'a [u8],
    pub byte: u8,
    pub min: u8,
    pub eol: u8,
    pub sep: u8,
    pub tab: u8,
    pub pos: usize,
}

impl<'a> State<'a> {
    pub fn of(iter: &FenceIter<'a>) -> Self {
        let &FenceIter {
            src,
            byte,
            min,
            eol,
            sep,
            tab,
            pos,
        } = iter;
        Self {
            src,
            byte,
            min,
            eol,
            sep,
            tab,
            pos,
        }
    }

    pub fn iter(self) -> FenceIter<'a> {
        let Self {
            src,
            byte,
            min,
            eol,
            sep,
            tab,
            pos,
        } = self;
        FenceIter {
            src,
            byte,
            min,
            eol,
            sep,
            tab,
            pos,
        }
    }
}
