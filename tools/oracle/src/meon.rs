//! The root over the copies of meon's files, laid beside them by `tools/oracle/build`. The modules
//! stand where they stand in meon, so that `crate::span` and `super::common` mean the same.

pub mod span;
pub mod swar;

pub mod engine {
    pub mod text_parser {
        pub mod standalone {
            pub mod block_marker;
            pub mod block_numbered;
            pub mod common;
            pub mod cont;
            pub mod context;
            pub mod fence;
        }
    }
}

/// The fields that both item scanners have, their two closures aside.
pub struct ItemState<'a> {
    pub src: &'a [u8],
    pub eol: u8,
    pub sep: u8,
    pub tab: u8,
    pub needles: [u8; 3],
    pub nn: usize,
    pub streaming: bool,
    pub pos: usize,
}
