//! Viaductle's exported functions (include/viaductle.h) behind safe wrappers. Every call is sound for every input: the functions ask nothing
//! of their arguments but slices that are there.

use crate::calls::{Answer, Calls, Entry, Opt, Places};

extern "C" {
    fn viaductle_read(
        payload: *const u8,
        len: usize,
        table: *mut u16,
        slots: usize,
        settings: u32,
    ) -> Answer;
    fn viaductle_read_message(
        message: *const u8,
        len: usize,
        table: *mut u16,
        slots: usize,
        settings: u32,
    ) -> Answer;
    fn viaductle_index(
        options: *const u8,
        len: usize,
        table: *mut u16,
        slots: usize,
        settings: u32,
    ) -> Answer;
    fn viaductle_parts(payload: *const u8, len: usize, answer: Answer) -> Places;
    fn viaductle_lookup(
        options: *const u8,
        len: usize,
        table: *const u16,
        slots: usize,
        count: usize,
        ordinal: usize,
    ) -> Answer;
    fn viaductle_next_option(options: *const u8, len: usize, at: usize, settings: u32) -> Answer;
    fn viaductle_next_of_run(
        options: *const u8,
        len: usize,
        table: *const u16,
        slots: usize,
        count: usize,
        next: usize,
        left: usize,
    ) -> Answer;
    fn viaductle_string(string: *const u8, len: usize) -> Answer;
    fn viaductle_next_item(string: *const u8, len: usize, at: usize) -> Answer;
    fn viaductle_next_entry(entries: *const u8, len: usize, at: usize) -> Entry;
    fn viaductle_read_option(option: *const u8, len: usize, settings: u32) -> Opt;

    fn viaductle_begin(state: *mut u32, words: usize, limit: u32) -> Answer;
    fn viaductle_consume(
        state: *mut u32,
        words: usize,
        segment: *const u8,
        len: usize,
        buffer: *mut u8,
        room: usize,
    ) -> Answer;
    fn viaductle_complete(state: *const u32, words: usize) -> Answer;
    fn viaductle_take(state: *const u32, words: usize, buffer: *mut u8, room: usize) -> Answer;
    fn viaductle_clear(state: *mut u32, words: usize) -> Answer;
    fn viaductle_count(state: *const u32, words: usize) -> Answer;
    fn viaductle_range(state: *const u32, words: usize, from: u32) -> Answer;
}

/// The library itself.
pub struct Hub;

// SAFETY, for each call: pointer and length are those of one Rust slice, mutable where the function writes.
impl Calls for Hub {
    #[inline]
    fn read(&self, payload: &[u8], table: &mut [u16], settings: u32) -> Answer {
        unsafe {
            viaductle_read(
                payload.as_ptr(),
                payload.len(),
                table.as_mut_ptr(),
                table.len(),
                settings,
            )
        }
    }

    fn read_message(&self, message: &[u8], table: &mut [u16], settings: u32) -> Answer {
        unsafe {
            viaductle_read_message(
                message.as_ptr(),
                message.len(),
                table.as_mut_ptr(),
                table.len(),
                settings,
            )
        }
    }

    fn index(&self, options: &[u8], table: &mut [u16], settings: u32) -> Answer {
        unsafe {
            viaductle_index(
                options.as_ptr(),
                options.len(),
                table.as_mut_ptr(),
                table.len(),
                settings,
            )
        }
    }

    fn parts(&self, payload: &[u8], answer: Answer) -> Places {
        unsafe { viaductle_parts(payload.as_ptr(), payload.len(), answer) }
    }

    fn lookup(&self, options: &[u8], table: &[u16], count: usize, ordinal: usize) -> Answer {
        unsafe {
            viaductle_lookup(
                options.as_ptr(),
                options.len(),
                table.as_ptr(),
                table.len(),
                count,
                ordinal,
            )
        }
    }

    fn next_option(&self, options: &[u8], at: usize, settings: u32) -> Answer {
        unsafe { viaductle_next_option(options.as_ptr(), options.len(), at, settings) }
    }

    fn next_of_run(
        &self,
        options: &[u8],
        table: &[u16],
        count: usize,
        next: usize,
        left: usize,
    ) -> Answer {
        unsafe {
            viaductle_next_of_run(
                options.as_ptr(),
                options.len(),
                table.as_ptr(),
                table.len(),
                count,
                next,
                left,
            )
        }
    }

    fn string(&self, string: &[u8]) -> Answer {
        unsafe { viaductle_string(string.as_ptr(), string.len()) }
    }

    fn next_item(&self, string: &[u8], at: usize) -> Answer {
        unsafe { viaductle_next_item(string.as_ptr(), string.len(), at) }
    }

    fn next_entry(&self, entries: &[u8], at: usize) -> Entry {
        unsafe { viaductle_next_entry(entries.as_ptr(), entries.len(), at) }
    }

    fn read_option(&self, option: &[u8], settings: u32) -> Opt {
        unsafe { viaductle_read_option(option.as_ptr(), option.len(), settings) }
    }

    fn begin(&self, state: &mut [u32], limit: u32) -> Answer {
        unsafe { viaductle_begin(state.as_mut_ptr(), state.len(), limit) }
    }

    #[inline]
    fn consume(&self, state: &mut [u32], segment: &[u8], buffer: &mut [u8]) -> Answer {
        unsafe {
            viaductle_consume(
                state.as_mut_ptr(),
                state.len(),
                segment.as_ptr(),
                segment.len(),
                buffer.as_mut_ptr(),
                buffer.len(),
            )
        }
    }

    fn complete(&self, state: &[u32]) -> Answer {
        unsafe { viaductle_complete(state.as_ptr(), state.len()) }
    }

    fn take(&self, state: &[u32], buffer: &mut [u8]) -> Answer {
        unsafe {
            viaductle_take(
                state.as_ptr(),
                state.len(),
                buffer.as_mut_ptr(),
                buffer.len(),
            )
        }
    }

    fn clear(&self, state: &mut [u32]) -> Answer {
        unsafe { viaductle_clear(state.as_mut_ptr(), state.len()) }
    }

    fn count(&self, state: &[u32]) -> Answer {
        unsafe { viaductle_count(state.as_ptr(), state.len()) }
    }

    fn range(&self, state: &[u32], from: u32) -> Answer {
        unsafe { viaductle_range(state.as_ptr(), state.len(), from) }
    }
}
