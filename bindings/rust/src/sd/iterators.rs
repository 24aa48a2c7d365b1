//! Entries and options from the front, and entries with their runs of options.

use super::{
    entries::ENTRY_LEN, SdEntrySlice, SdOptionRunIter, SdOptionSlice, SdOptionsIndex, Settings,
};
use crate::{ffi, Refusal};

/// What an iterator hands out for a cursor's answer: nothing at the end, and nothing more after a refusal.
pub(super) fn handed<T>(
    answer: Result<T, Refusal>,
    ended: &mut bool,
) -> Option<Result<T, Refusal>> {
    if let Err(Refusal::NothingThere) = answer {
        return None;
    }
    *ended = answer.is_err();
    Some(answer)
}

/// The entries of an entries part, one after the other; it ends after the first refusal.
#[derive(Clone, PartialEq, Eq)]
pub struct SdEntriesIterator<'a> {
    entries: &'a [u8],
    at: usize,
    ended: bool,
}

impl<'a> SdEntriesIterator<'a> {
    /// The entries of these bytes.
    pub fn new(entries: &'a [u8]) -> Self {
        SdEntriesIterator {
            entries,
            at: 0,
            ended: false,
        }
    }

    /// The next entry, or why there is none: 20 at the end, 1 and 11 of an entry that is wrong. A refusal leaves the iterator where it was.
    pub fn advance(&mut self) -> Result<SdEntrySlice<'a>, Refusal> {
        let read = ffi::next_entry(self.entries, self.at);
        let rest = self.entries.get(self.at..).unwrap_or_default();
        let entry = SdEntrySlice::of(read, rest)?;
        self.at += ENTRY_LEN;
        Ok(entry)
    }
}

impl<'a> Iterator for SdEntriesIterator<'a> {
    type Item = Result<SdEntrySlice<'a>, Refusal>;

    fn next(&mut self) -> Option<Self::Item> {
        if self.ended {
            return None;
        }
        let answer = self.advance();
        handed(answer, &mut self.ended)
    }
}

/// The options of an options part, one after the other; it ends after the first refusal.
#[derive(Clone, PartialEq, Eq)]
pub struct SdOptionsIterator<'a> {
    options: &'a [u8],
    settings: Settings,
    at: usize,
    ended: bool,
}

impl<'a> SdOptionsIterator<'a> {
    /// The options of these bytes, all settings off.
    pub fn new(options: &'a [u8]) -> Self {
        Self::with(options, Settings::new())
    }

    /// The options of these bytes as the settings say: under the strict setting also refused by 23. Unknown options pass in any case.
    ///
    /// ```
    /// use viaductle::sd::{SdOptionsIterator, Settings};
    ///
    /// // A multicast address with UDP, and one with TCP.
    /// let options = [
    ///     0, 9, 0x14, 0, 239, 0, 0, 1, 0, 0x11, 0x77, 0x1a, //
    ///     0, 9, 0x14, 0, 239, 0, 0, 1, 0, 0x06, 0x77, 0x1a,
    /// ];
    /// assert_eq!(SdOptionsIterator::new(&options).filter(Result::is_ok).count(), 2);
    ///
    /// let mut strict = SdOptionsIterator::with(&options, Settings::new().strict(true));
    /// assert!(strict.next().unwrap().is_ok());
    /// assert_eq!(strict.next().unwrap().unwrap_err().number(), 23);
    /// assert!(strict.next().is_none());
    /// ```
    pub fn with(options: &'a [u8], settings: Settings) -> Self {
        SdOptionsIterator {
            options,
            settings,
            at: 0,
            ended: false,
        }
    }

    /// The next option, or why there is none: 20 at the end, 7, 8, 9 and 23 of an option that is wrong, with the place counted from that option's
    /// first byte. A refusal leaves the iterator where it was.
    pub fn advance(&mut self) -> Result<SdOptionSlice<'a>, Refusal> {
        let answer = ffi::next_option(self.options, self.at, self.settings.word());
        let option = SdOptionSlice::found(answer, self.options)?;
        let [_, at, size, ..] = answer.values;
        self.at = (at + size) as usize;
        Ok(option)
    }
}

impl<'a> Iterator for SdOptionsIterator<'a> {
    type Item = Result<SdOptionSlice<'a>, Refusal>;

    fn next(&mut self) -> Option<Self::Item> {
        if self.ended {
            return None;
        }
        let answer = self.advance();
        handed(answer, &mut self.ended)
    }
}

/// An entry with its two runs of options.
#[derive(Clone, Copy, PartialEq, Eq)]
pub struct SdEntryWithOptions<'a, 't> {
    entry: SdEntrySlice<'a>,
    index: SdOptionsIndex<'a, 't>,
}

impl<'a, 't> SdEntryWithOptions<'a, 't> {
    /// The entry.
    pub fn entry(&self) -> &SdEntrySlice<'a> {
        &self.entry
    }

    /// The options of its first run.
    pub fn options_run_1(&self) -> SdOptionRunIter<'a, 't> {
        self.index.run(
            self.entry.start_index_options_1(),
            self.entry.number_of_options_1(),
        )
    }

    /// The options of its second run.
    pub fn options_run_2(&self) -> SdOptionRunIter<'a, 't> {
        self.index.run(
            self.entry.start_index_options_2(),
            self.entry.number_of_options_2(),
        )
    }
}

/// The entries of a payload with their runs of options.
#[derive(Clone, Debug, PartialEq, Eq)]
pub struct SdEntriesWithOptionsIterator<'a, 't> {
    entries: SdEntriesIterator<'a>,
    index: SdOptionsIndex<'a, 't>,
}

impl<'a, 't> SdEntriesWithOptionsIterator<'a, 't> {
    pub(super) fn new(entries: SdEntriesIterator<'a>, index: SdOptionsIndex<'a, 't>) -> Self {
        SdEntriesWithOptionsIterator { entries, index }
    }
}

impl<'a, 't> Iterator for SdEntriesWithOptionsIterator<'a, 't> {
    type Item = Result<SdEntryWithOptions<'a, 't>, Refusal>;

    fn next(&mut self) -> Option<Self::Item> {
        let index = self.index;
        let with_options = |entry| SdEntryWithOptions { entry, index };
        Some(self.entries.next()?.map(with_options))
    }
}
