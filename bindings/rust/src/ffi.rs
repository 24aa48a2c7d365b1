//! The exported functions of crate `hub` (include/viaductle.h) as safe functions over slices. The only unsafe code of this crate.
//!
//! No compiler holds these declarations to the Rattle source. A test compares the two as text (tests/declarations.rs): names and types of
//! parameters and fields, in their order. The other tests call each function and look at each field.

/// As many values as an answer has at most: the header's `VIADUCTLE_VALUES`.
pub(crate) const VALUES: usize = 5;

/// The rules' number, 0 for accepted, and its values in order; unused ones are 0.
#[derive(Clone, Copy)]
#[repr(C)]
pub(crate) struct Answer {
    pub number: u64,
    pub values: [u64; VALUES],
}

/// Where the two parts of a payload start and how many bytes they have; all 0 after a refusal.
#[derive(Clone, Copy)]
#[repr(C)]
pub(crate) struct Places {
    pub entries_at: u64,
    pub entries_len: u64,
    pub options_at: u64,
    pub options_len: u64,
}

/// One entry; fields that its kind has not are 0.
#[derive(Clone, Copy)]
#[repr(C)]
pub(crate) struct Entry {
    pub answer: Answer,
    pub code: u64,
    pub start1: u64,
    pub start2: u64,
    pub count1: u64,
    pub count2: u64,
    pub service: u64,
    pub instance: u64,
    pub major: u64,
    pub ttl: u64,
    pub minor: u64,
    pub initial_data: u64,
    pub counter: u64,
    pub eventgroup: u64,
    pub reserved: u64,
    pub spare: u64,
}

/// One option; places are counted from its first byte, and fields that its kind has not are 0.
#[derive(Clone, Copy)]
#[repr(C)]
pub(crate) struct Opt {
    pub answer: Answer,
    pub code: u64,
    pub size: u64,
    pub discardable: u64,
    pub priority: u64,
    pub weight: u64,
    pub address_at: u64,
    pub address_len: u64,
    pub protocol: u64,
    pub port: u64,
    pub string_at: u64,
    pub string_len: u64,
}

// As many words as the header has, and no padding between them.
const _: () = assert!(core::mem::size_of::<Answer>() == (1 + VALUES) * 8);
const _: () = assert!(core::mem::size_of::<Places>() == 4 * 8);
const _: () = assert!(core::mem::size_of::<Entry>() == (1 + VALUES + 15) * 8);
const _: () = assert!(core::mem::size_of::<Opt>() == (1 + VALUES + 11) * 8);

/// The bit of the settings by which unknown options pass though they may not be discarded.
pub(crate) const DISCARD: u32 = 0x1;
/// The bit of the settings by which an option with an address has to have a protocol that is known for its kind.
pub(crate) const STRICT: u32 = 0x2;

/// The slots of a table that a reading fills.
pub(crate) const MAX_SD_OPTIONS: usize = 347;
/// The highest payload limit of a stream.
pub(crate) const MAX_LIMIT: u32 = 65_520;
/// The ranges that a stream's state has room for.
pub(crate) const MAX_RANGES: usize = 64;
/// The last number that a segment can have.
pub(crate) const LAST_NUMBER: u32 = 4_294_967_295;
/// The words before the ranges: limit, how many ranges, whether an end is known, the end, how many segments were accepted.
pub(crate) const FRONT_WORDS: usize = 5;
/// The words of one range: start, end, number.
pub(crate) const RANGE_WORDS: usize = 3;
/// The words of a stream's state.
pub(crate) const WORDS: usize = FRONT_WORDS + RANGE_WORDS * MAX_RANGES;

mod hub {
    use super::{Answer, Entry, Opt, Places};

    extern "C" {
        pub fn viaductle_read(
            payload: *const u8,
            len: usize,
            table: *mut u16,
            slots: usize,
            settings: u32,
        ) -> Answer;
        pub fn viaductle_read_message(
            message: *const u8,
            len: usize,
            table: *mut u16,
            slots: usize,
            settings: u32,
        ) -> Answer;
        pub fn viaductle_index(
            options: *const u8,
            len: usize,
            table: *mut u16,
            slots: usize,
            settings: u32,
        ) -> Answer;
        pub fn viaductle_parts(payload: *const u8, len: usize, answer: Answer) -> Places;
        pub fn viaductle_lookup(
            options: *const u8,
            len: usize,
            table: *const u16,
            slots: usize,
            count: usize,
            ordinal: usize,
        ) -> Answer;
        pub fn viaductle_next_option(
            options: *const u8,
            len: usize,
            at: usize,
            settings: u32,
        ) -> Answer;
        pub fn viaductle_next_of_run(
            options: *const u8,
            len: usize,
            table: *const u16,
            slots: usize,
            count: usize,
            next: usize,
            left: usize,
        ) -> Answer;
        pub fn viaductle_string(string: *const u8, len: usize) -> Answer;
        pub fn viaductle_next_item(string: *const u8, len: usize, at: usize) -> Answer;
        pub fn viaductle_read_entry(entry: *const u8, len: usize) -> Entry;
        pub fn viaductle_next_entry(entries: *const u8, len: usize, at: usize) -> Entry;
        pub fn viaductle_read_option(option: *const u8, len: usize, settings: u32) -> Opt;

        pub fn viaductle_begin(words: *mut u32, len: usize, limit: u32) -> Answer;
        pub fn viaductle_consume(
            words: *mut u32,
            len: usize,
            segment: *const u8,
            segment_len: usize,
            buffer: *mut u8,
            room: usize,
        ) -> Answer;
        pub fn viaductle_complete(words: *const u32, len: usize) -> Answer;
        pub fn viaductle_take(
            words: *const u32,
            len: usize,
            buffer: *mut u8,
            room: usize,
        ) -> Answer;
        pub fn viaductle_clear(words: *mut u32, len: usize) -> Answer;
        pub fn viaductle_count(words: *const u32, len: usize) -> Answer;
        pub fn viaductle_range(words: *const u32, len: usize, from: u32) -> Answer;
    }
}

// SAFETY, of every call below: pointer and length are those of one Rust slice, so that many elements are there, aligned, and the pointer is
// not null; what the function writes is behind a `&mut`, so no other argument overlaps it. Nothing is kept after the call. The functions have
// no `requires`: every value of every other argument gets an answer. Structs are plain numbers, of which every value is one.

pub(crate) fn read(payload: &[u8], table: &mut [u16], settings: u32) -> Answer {
    let (slots, table) = (table.len(), table.as_mut_ptr());
    unsafe { hub::viaductle_read(payload.as_ptr(), payload.len(), table, slots, settings) }
}

pub(crate) fn read_message(message: &[u8], table: &mut [u16], settings: u32) -> Answer {
    let (slots, table) = (table.len(), table.as_mut_ptr());
    unsafe { hub::viaductle_read_message(message.as_ptr(), message.len(), table, slots, settings) }
}

pub(crate) fn index(options: &[u8], table: &mut [u16], settings: u32) -> Answer {
    let (slots, table) = (table.len(), table.as_mut_ptr());
    unsafe { hub::viaductle_index(options.as_ptr(), options.len(), table, slots, settings) }
}

pub(crate) fn parts(payload: &[u8], answer: Answer) -> Places {
    unsafe { hub::viaductle_parts(payload.as_ptr(), payload.len(), answer) }
}

pub(crate) fn lookup(options: &[u8], table: &[u16], count: usize, ordinal: usize) -> Answer {
    let (slots, table) = (table.len(), table.as_ptr());
    unsafe {
        hub::viaductle_lookup(
            options.as_ptr(),
            options.len(),
            table,
            slots,
            count,
            ordinal,
        )
    }
}

pub(crate) fn next_option(options: &[u8], at: usize, settings: u32) -> Answer {
    unsafe { hub::viaductle_next_option(options.as_ptr(), options.len(), at, settings) }
}

pub(crate) fn next_of_run(
    options: &[u8],
    table: &[u16],
    count: usize,
    next: usize,
    left: usize,
) -> Answer {
    let (slots, table) = (table.len(), table.as_ptr());
    unsafe {
        hub::viaductle_next_of_run(
            options.as_ptr(),
            options.len(),
            table,
            slots,
            count,
            next,
            left,
        )
    }
}

pub(crate) fn string(string: &[u8]) -> Answer {
    unsafe { hub::viaductle_string(string.as_ptr(), string.len()) }
}

pub(crate) fn next_item(string: &[u8], at: usize) -> Answer {
    unsafe { hub::viaductle_next_item(string.as_ptr(), string.len(), at) }
}

pub(crate) fn read_entry(entry: &[u8]) -> Entry {
    unsafe { hub::viaductle_read_entry(entry.as_ptr(), entry.len()) }
}

pub(crate) fn next_entry(entries: &[u8], at: usize) -> Entry {
    unsafe { hub::viaductle_next_entry(entries.as_ptr(), entries.len(), at) }
}

pub(crate) fn read_option(option: &[u8], settings: u32) -> Opt {
    unsafe { hub::viaductle_read_option(option.as_ptr(), option.len(), settings) }
}

pub(crate) fn begin(state: &mut [u32; WORDS], limit: u32) -> Answer {
    unsafe { hub::viaductle_begin(state.as_mut_ptr(), WORDS, limit) }
}

pub(crate) fn consume(state: &mut [u32; WORDS], segment: &[u8], buffer: &mut [u8]) -> Answer {
    let (room, buffer) = (buffer.len(), buffer.as_mut_ptr());
    let state = state.as_mut_ptr();
    unsafe { hub::viaductle_consume(state, WORDS, segment.as_ptr(), segment.len(), buffer, room) }
}

pub(crate) fn complete(state: &[u32; WORDS]) -> Answer {
    unsafe { hub::viaductle_complete(state.as_ptr(), WORDS) }
}

pub(crate) fn take(state: &[u32; WORDS], buffer: &mut [u8]) -> Answer {
    let (room, buffer) = (buffer.len(), buffer.as_mut_ptr());
    unsafe { hub::viaductle_take(state.as_ptr(), WORDS, buffer, room) }
}

pub(crate) fn clear(state: &mut [u32; WORDS]) -> Answer {
    unsafe { hub::viaductle_clear(state.as_mut_ptr(), WORDS) }
}

pub(crate) fn count(state: &[u32; WORDS]) -> Answer {
    unsafe { hub::viaductle_count(state.as_ptr(), WORDS) }
}

pub(crate) fn range(state: &[u32; WORDS], from: u32) -> Answer {
    unsafe { hub::viaductle_range(state.as_ptr(), WORDS, from) }
}
