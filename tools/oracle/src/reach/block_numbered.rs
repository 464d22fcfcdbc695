//! A child of the copied `block_numbered.rs`: every field of its iterator, to set and to read.

use super::BlockNumberedIter;
use crate::ItemState;
use std::marker::PhantomData;

pub fn state<'a, T, E, F>(iter: &BlockNumberedIter<'a, T, E, F>) -> ItemState<'a>
where
    E: Fn(u8) -> bool,
    F: Fn(u32, u8) -> T,
{
    let &BlockNumberedIter {
        src,
        eol,
        sep,
        tab,
        pos,
        needles,
        nn,
        streaming,
        ..
    } = iter;
    ItemState {
        src,
        eol,
        sep,
        tab,
        needles,
        nn,
        streaming,
        pos,
    }
}

pub fn iter<'a, T, E, F>(
    state: ItemState<'a>,
    end_matches: E,
    make: F,
) -> BlockNumberedIter<'a, T, E, F>
where
    E: Fn(u8) -> bool,
    F: Fn(u32, u8) -> T,
{
    let ItemState {
        src,
        eol,
        sep,
        tab,
        needles,
        nn,
        streaming,
        pos,
    } = state;
    BlockNumberedIter {
        src,
        eol,
        sep,
        tab,
        end_matches,
        make,
        pos,
        needles,
        nn,
        streaming,
        _t: PhantomData,
    }
}
