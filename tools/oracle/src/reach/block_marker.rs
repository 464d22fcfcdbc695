//! A child of the copied `block_marker.rs`: every field of its iterator, to set and to read.

use super::BlockMarkerIter;
use crate::ItemState;
use std::marker::PhantomData;

pub fn state<'a, T, M, F>(iter: &BlockMarkerIter<'a, T, M, F>) -> ItemState<'a>
where
    M: Fn(u8) -> bool,
    F: Fn(u8) -> T,
{
    let &BlockMarkerIter {
        src,
        eol,
        sep,
        tab,
        pos,
        needles,
        nn,
        streaming,
        ..
    } = iter;
    ItemState {
        src,
        eol,
        sep,
        tab,
        needles,
        nn,
        streaming,
        pos,
    }
}

pub fn iter<'a, T, M, F>(state: ItemState<'a>, matches: M, make: F) -> BlockMarkerIter<'a, T, M, F>
where
    M: Fn(u8) -> bool,
    F: Fn(u8) -> T,
{
    let ItemState {
        src,
        eol,
        sep,
        tab,
        needles,
        nn,
        streaming,
        pos,
    } = state;
    BlockMarkerIter {
        src,
        eol,
        sep,
        tab,
        matches,
        make,
        pos,
        needles,
        nn,
        streaming,
        _t: PhantomData,
    }
}
