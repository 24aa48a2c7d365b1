//! The offset table that a caller lends, the options found by their place, and runs of them.

use super::{entries::U4, SdOptionSlice, Settings};
use crate::{ffi, Refusal};
use core::fmt;
use core::ops::{Deref, DerefMut};

/// The slots that a reading needs: no options part has more options.
pub const MAX_SD_OPTIONS_USIZE: usize = ffi::MAX_SD_OPTIONS;

/// The table that a reading is lent: where each option starts. Any `&mut [u16]` of at least as many slots serves as well.
#[derive(Clone, PartialEq, Eq)]
pub struct OffsetTable([u16; MAX_SD_OPTIONS_USIZE]);

impl OffsetTable {
    /// A table of zeros. What it holds before a reading does not matter, so one table serves for reading after reading.
    pub const fn new() -> Self {
        OffsetTable([0; MAX_SD_OPTIONS_USIZE])
    }
}

impl fmt::Debug for OffsetTable {
    /// The slots up to the last that is not 0.
    fn fmt(&self, f: &mut fmt::Formatter<'_>) -> fmt::Result {
        let used = self.0.iter().rposition(|slot| *slot != 0);
        let used = &self.0[..used.map_or(0, |last| last + 1)];
        write!(f, "OffsetTable({used:?}, then 0)")
    }
}

impl Default for OffsetTable {
    fn default() -> Self {
        OffsetTable::new()
    }
}

impl Deref for OffsetTable {
    type Target = [u16];

    fn deref(&self) -> &[u16] {
        &self.0
    }
}

impl DerefMut for OffsetTable {
    fn deref_mut(&mut self) -> &mut [u16] {
        &mut self.0
    }
}

/// The options of a payload, found by their place.
///
/// ```
/// use viaductle::sd::{OffsetTable, SdOptionSlice, SdOptionsIndex};
///
/// let options = [0, 9, 0x04, 0, 192, 168, 1, 1, 0, 0x06, 0x1f, 0x90];
/// let mut table = OffsetTable::new();
/// let index = SdOptionsIndex::from_slice(&options, &mut table)?;
/// assert_eq!(index.len(), 1);
/// assert!(matches!(index.get(0), Some(SdOptionSlice::Ipv4Endpoint(_))));
/// assert!(index.get(1).is_none());
/// # Ok::<(), viaductle::Refusal>(())
/// ```
#[derive(Clone, Copy)]
pub struct SdOptionsIndex<'a, 't> {
    options: &'a [u8],
    table: &'t [u16],
    len: usize,
}

impl<'a, 't> SdOptionsIndex<'a, 't> {
    /// Reads an options part into the lent table, all settings off. Refused by 22, 13, then 7, 8 and 9 of the first option that is wrong, whose place
    /// is counted from the part's first byte.
    ///
    /// After a refusal the table's 347 slots hold 0; after 22 nothing has changed. Slots past 347 are never touched.
    pub fn from_slice(options: &'a [u8], table: &'t mut [u16]) -> Result<Self, Refusal> {
        Self::from_slice_with(options, table, Settings::new())
    }

    /// The same as the settings say: under the strict setting also refused by 23. Unknown options pass in any case.
    pub fn from_slice_with(
        options: &'a [u8],
        table: &'t mut [u16],
        settings: Settings,
    ) -> Result<Self, Refusal> {
        let answer = ffi::index(options, table, settings.word());
        let [len, ..] = answer.accepted_among_options()?;
        Ok(Self::from_table(options, table, len as usize))
    }

    /// The index of an options part that was read earlier: its table, as it was then, and its number of options. Nothing is judged here; with
    /// a table of other bytes [`lookup`](Self::lookup) says 21, and `get` and `run` find nothing.
    pub fn from_table(options: &'a [u8], table: &'t [u16], len: usize) -> Self {
        SdOptionsIndex {
            options,
            table,
            len,
        }
    }

    /// The options part.
    pub fn options(&self) -> &'a [u8] {
        self.options
    }

    /// The number of options.
    pub fn len(&self) -> usize {
        self.len
    }

    /// Whether there are none.
    pub fn is_empty(&self) -> bool {
        self.len == 0
    }

    /// The option at this place, counted from 0.
    pub fn get(&self, index: usize) -> Option<SdOptionSlice<'a>> {
        self.lookup(index).ok()
    }

    /// The same with the refusal: 20 past the last, 21 where the table does not fit these bytes, which no reading leaves behind.
    pub fn lookup(&self, index: usize) -> Result<SdOptionSlice<'a>, Refusal> {
        let answer = ffi::lookup(self.options, self.table, self.len, index);
        SdOptionSlice::found(answer, self.options)
    }

    /// The `count` options from place `start` on; it ends early where the run leaves the list.
    pub fn run(&self, start: u8, count: U4) -> SdOptionRunIter<'a, 't> {
        SdOptionRunIter {
            index: *self,
            next: start.into(),
            left: count.value().into(),
        }
    }
}

impl PartialEq for SdOptionsIndex<'_, '_> {
    /// The same bytes, found at the same places: a table's other slots do not count.
    fn eq(&self, other: &Self) -> bool {
        self.options == other.options
            && self.len == other.len
            && self
                .table
                .iter()
                .take(self.len)
                .eq(other.table.iter().take(other.len))
    }
}

impl Eq for SdOptionsIndex<'_, '_> {}

/// The options of a run, one after the other.
#[derive(Clone, PartialEq, Eq)]
pub struct SdOptionRunIter<'a, 't> {
    index: SdOptionsIndex<'a, 't>,
    next: usize,
    left: usize,
}

impl<'a> SdOptionRunIter<'a, '_> {
    /// The next option, or why there is none: 20 at the run's end or where it leaves the list, 21 where the table does not fit these bytes. A
    /// refusal leaves the iterator where it was.
    pub fn advance(&mut self) -> Result<SdOptionSlice<'a>, Refusal> {
        let SdOptionsIndex {
            options,
            table,
            len,
        } = self.index;
        let answer = ffi::next_of_run(options, table, len, self.next, self.left);
        let option = SdOptionSlice::found(answer, options)?;
        self.next += 1;
        self.left -= 1;
        Ok(option)
    }
}

impl<'a> Iterator for SdOptionRunIter<'a, '_> {
    type Item = SdOptionSlice<'a>;

    fn next(&mut self) -> Option<Self::Item> {
        self.advance().ok()
    }

    fn size_hint(&self) -> (usize, Option<usize>) {
        (0, Some(self.left))
    }
}
