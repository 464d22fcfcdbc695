//! The panel's entries, as include/rack.h declares them.

/// A run that is only read.
type Read = *const u8;
/// A lent run that may be written.
type Lent = *mut u8;

#[rustfmt::skip] // laid out as in the header
extern "C" {
    pub fn rack_fence_new(byte: u8, min: u8, eol: u8, sep: u8, tab: u8, state: Lent, state_len: usize) -> u32;
    pub fn rack_fence_step(text: Read, text_len: usize, state: Lent, state_len: usize, answer: Lent, answer_len: usize) -> u32;
    pub fn rack_marker_new(
        eol: u8, sep: u8, tab: u8, accepted: Read, accepted_len: usize, state: Lent, state_len: usize,
    ) -> u32;
    pub fn rack_marker_step(
        text: Read, text_len: usize, accepted: Read, accepted_len: usize,
        state: Lent, state_len: usize, answer: Lent, answer_len: usize,
    ) -> u32;
    pub fn rack_numbered_new(
        eol: u8, sep: u8, tab: u8, accepted: Read, accepted_len: usize, state: Lent, state_len: usize,
    ) -> u32;
    pub fn rack_numbered_step(
        text: Read, text_len: usize, accepted: Read, accepted_len: usize,
        state: Lent, state_len: usize, answer: Lent, answer_len: usize,
    ) -> u32;
    pub fn rack_cont_new(byte: u8, eol: u8, sep: u8, tab: u8, nest: usize, state: Lent, state_len: usize) -> u32;
    pub fn rack_cont_step(text: Read, text_len: usize, state: Lent, state_len: usize, answer: Lent, answer_len: usize) -> u32;
    pub fn rack_covering_end(
        list: Read, list_len: usize, count: u32, index: u32, place: usize, answer: Lent, answer_len: usize,
    ) -> u32;
    pub fn rack_build(
        text: Read, text_len: usize, eol: u8, escape: u8, sep: u8, tab: u8,
        fences: Read, fences_len: usize, mins: Read, mins_len: usize,
        symmetric: Read, symmetric_len: usize, times: Read, times_len: usize,
        openers: Read, openers_len: usize, closers: Read, closers_len: usize, counts: Read, counts_len: usize,
        out: Lent, out_len: usize, answer: Lent, answer_len: usize,
    ) -> u32;
    pub fn rack_sheet(
        text: Read, text_len: usize, eol: u8, escape: u8, sep: u8, tab: u8,
        fences: Read, fences_len: usize, mins: Read, mins_len: usize,
        symmetric: Read, symmetric_len: usize, times: Read, times_len: usize,
        openers: Read, openers_len: usize, closers: Read, closers_len: usize, counts: Read, counts_len: usize,
        markers: Read, markers_len: usize, delims: Read, delims_len: usize,
        out: Lent, out_len: usize, answer: Lent, answer_len: usize,
    ) -> u32;
}

/// The values that an entry answered with; a refusal ends the benchmark, whose calls are all good ones.
#[inline(always)]
pub fn values(refusal: u32, answer: &[u32]) -> &[u32] {
    assert!(refusal == 0, "an entry refused with {refusal}");
    &answer[1..][..answer[0] as usize]
}
