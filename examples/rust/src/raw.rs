//! The calls of include/terminfo_c.h that this crate uses, and the parts of their answers.
//!
//! What the header asks of every argument holds of what Rust lends: a slice's pointer is aligned and
//! not null, also where it is empty, its elements can be read, and what is lent by `&mut` overlaps
//! nothing else.

use crate::Refusal;

extern "C" {
    pub fn terminfo_open(
        file: *const u8, file_length: usize, booleans: usize, numbers: usize, strings: usize,
        tables: *mut [u64; 10],
    ) -> u64;
    pub fn terminfo_names(
        file: *const u8, file_length: usize, booleans: usize, numbers: usize, strings: usize,
    ) -> u64;
    pub fn terminfo_boolean(
        file: *const u8, file_length: usize, booleans: usize, numbers: usize, strings: usize,
        place: usize,
    ) -> u64;
    pub fn terminfo_number(
        file: *const u8, file_length: usize, booleans: usize, numbers: usize, strings: usize,
        place: usize,
    ) -> u64;
    pub fn terminfo_string(
        file: *const u8, file_length: usize, booleans: usize, numbers: usize, strings: usize,
        place: usize,
    ) -> u64;
    pub fn terminfo_write(
        booleans: usize, numbers: usize, strings: usize, names: *const u8, names_length: usize,
        boolean_kinds: *const u8, boolean_kinds_length: usize, number_kinds: *const u8,
        number_kinds_length: usize, number_values: *const u32, number_values_length: usize,
        string_kinds: *const u8, string_kinds_length: usize, string_starts: *const usize,
        string_starts_length: usize, string_lengths: *const usize, string_lengths_length: usize,
        lent: *const u8, lent_length: usize, buffer: *mut u8, buffer_length: usize,
    ) -> u64;
    pub fn terminfo_compile(
        text: *const u8, text_length: usize, wanted: *const u8, wanted_length: usize,
        booleans: usize, numbers: usize, strings: usize, buffer: *mut u8, buffer_length: usize,
    ) -> u64;
    pub fn terminfo_compile_first(
        text: *const u8, text_length: usize, booleans: usize, numbers: usize, strings: usize,
        buffer: *mut u8, buffer_length: usize,
    ) -> u64;
    pub fn terminfo_merge(
        first: *const u8, first_length: usize, second: *const u8, second_length: usize,
        booleans: usize, numbers: usize, strings: usize, buffer: *mut u8, buffer_length: usize,
    ) -> u64;
    pub fn terminfo_capability(kind: u8, place: usize) -> u64;
    pub fn terminfo_find(
        name: *const u8, name_length: usize, booleans: usize, numbers: usize, strings: usize,
    ) -> u64;
    pub fn terminfo_expand(
        string: *const u8, string_length: usize, arguments: *const [i32; 9],
        lasting: *mut [i32; 26], buffer: *mut u8, buffer_length: usize, at: usize,
    ) -> u64;
    pub fn terminfo_expand_texts(
        string: *const u8, string_length: usize, kinds: *const [u8; 9], numbers: *const [i32; 9],
        starts: *const [usize; 9], lengths: *const [usize; 9], texts: *const u8,
        texts_length: usize, lasting: *mut [i32; 26], buffer: *mut u8, buffer_length: usize,
        at: usize,
    ) -> u64;
}

/// What a call gives, or its refusal.
pub fn given(answer: u64) -> Result<u64, Refusal> {
    match answer >> 56 {
        0 => Ok(answer),
        number => Err(Refusal::of(number as u8, value(answer))),
    }
}

/// The kind of a state or a capability, or which file a merge refuses.
pub fn kind(answer: u64) -> u8 {
    (answer >> 48) as u8
}

pub fn value(answer: u64) -> usize {
    (answer & 0xFFFF_FFFF_FFFF) as usize
}

/// Where a part of the file starts, or the steps of an expansion.
pub fn upper(answer: u64) -> usize {
    (answer >> 24 & 0xFF_FFFF) as usize
}

/// How many bytes a part of the file, or the output of an expansion, has.
pub fn lower(answer: u64) -> usize {
    (answer & 0xFF_FFFF) as usize
}
