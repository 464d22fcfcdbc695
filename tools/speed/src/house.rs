//! The house grammar, by which every row runs.

pub const EOL: u8 = b'\n';
pub const ESCAPE: u8 = b'\\';
pub const SEP: u8 = b' ';
pub const TAB: u8 = b'\t';
pub const MARKERS: [u8; 3] = *b"-*+";
pub const DELIMITERS: [u8; 2] = *b".)";
pub const QUOTE: u8 = b'>';
pub const NEST: usize = 8;

/// Rules as the Rust takes them.
pub const FENCE_RULES: [(u8, u8); 2] = [(b'`', 3), (b'~', 3)];
pub const SYMMETRIC: [(u8, u32); 1] = [(b'`', 1)];
pub const ASYMMETRIC: [(u8, u8, u32); 1] = [(b'<', b'>', 1)];

/// The same as columns.
pub const FENCES: [u8; 2] = *b"`~";
pub const MINS: [u8; 2] = [3, 3];
pub const SYMMETRIC_BYTES: [u8; 1] = *b"`";
pub const TIMES: [u8; 4] = [1, 0, 0, 0];
pub const OPENERS: [u8; 1] = *b"<";
pub const CLOSERS: [u8; 1] = *b">";
pub const COUNTS: [u8; 4] = [1, 0, 0, 0];
