//! A whole payload.

use super::{
    entries::ENTRY_LEN, SdEntriesIterator, SdEntriesWithOptionsIterator, SdOptionsIndex,
    SdOptionsIterator,
};
use crate::{ffi, Refusal};

/// What a reading may be told. All settings are off at first, and each is turned on by its name. A further one will change nothing that is written
/// so, nor a literal that ends with `..Default::default()`.
///
/// ```
/// use viaductle::sd::Settings;
///
/// const BOTH: Settings = Settings::new().strict(true).discard_unknown_option(true);
/// assert!(BOTH.strict && BOTH.discard_unknown_option);
/// assert_eq!(Settings::new(), Settings::default());
/// assert_eq!(Settings::new().strict(true), Settings { strict: true, ..Default::default() });
/// ```
///
/// A multicast address with TCP, which the strict setting refuses:
///
/// ```
/// use viaductle::sd::{OffsetTable, SdSlice, Settings};
/// use viaductle::{Place, Refusal};
///
/// let payload = [
///     0, 0, 0, 0, 0, 0, 0, 0, 0, 0, 0, 12, // no entries; 12 bytes of options
///     0, 9, 0x14, 0, 239, 0, 0, 1, 0, 0x06, 0x77, 0x1a,
/// ];
/// let mut table = OffsetTable::new();
/// assert!(SdSlice::from_slice(&payload, &mut table).is_ok());
///
/// let strict = Settings::new().strict(true);
/// let refusal = SdSlice::from_slice_with(&payload, &mut table, strict).unwrap_err();
/// let place = Place::Options(9);
/// assert_eq!(refusal, Refusal::TransportProtocolInvalid { protocol: 0x06, place });
/// ```
#[derive(Clone, Copy, Debug, Default, PartialEq, Eq, Hash)]
pub struct Settings {
    /// Whether an option of unknown type passes though it may not be discarded; otherwise it is 10. An index, an option alone and an iterator pass
    /// it in any case.
    pub discard_unknown_option: bool,
    /// Whether the six kinds of options with an address have to have the transport protocol 0x06 (TCP) or 0x11 (UDP), and the two multicast ones
    /// 0x11; with another one it is 23. Otherwise any protocol passes.
    pub strict: bool,
}

impl Settings {
    /// All settings off.
    pub const fn new() -> Self {
        Settings {
            discard_unknown_option: false,
            strict: false,
        }
    }

    /// These settings with [`discard_unknown_option`](#structfield.discard_unknown_option) turned on or off.
    pub const fn discard_unknown_option(mut self, on: bool) -> Self {
        self.discard_unknown_option = on;
        self
    }

    /// These settings with [`strict`](#structfield.strict) turned on or off.
    pub const fn strict(mut self, on: bool) -> Self {
        self.strict = on;
        self
    }

    /// The word of bits that the library is told.
    pub(super) fn word(self) -> u32 {
        let bit = |on: bool, bit: u32| if on { bit } else { 0 };
        bit(self.discard_unknown_option, ffi::DISCARD) | bit(self.strict, ffi::STRICT)
    }
}

/// The three flags of a payload's first byte.
#[derive(Clone, Debug, PartialEq, Eq, Hash)]
#[allow(missing_docs)]
pub struct SdHeaderFlags {
    pub reboot: bool,
    pub unicast: bool,
    pub explicit_initial_data_control: bool,
}

/// A payload that was read: its flags, entries and options, which stay where they are.
///
/// ```
/// use viaductle::sd::{OffsetTable, SdSlice, Settings};
/// use viaductle::Place;
///
/// // No entries, and one option of unknown type 0x77 that may not be discarded.
/// let payload = [0, 0, 0, 0, 0, 0, 0, 0, 0, 0, 0, 4, 0, 1, 0x77, 0];
/// let mut table = OffsetTable::new();
/// let refusal = SdSlice::from_slice(&payload, &mut table).unwrap_err();
/// assert_eq!((refusal.number(), refusal.values()[0]), (10, 0x77));
/// assert_eq!(refusal.place(), Some(Place::Options(3)));
///
/// let settings = Settings::new().discard_unknown_option(true);
/// let sd = SdSlice::from_slice_with(&payload, &mut table, settings)?;
/// assert_eq!((sd.entries().count(), sd.options().count()), (0, 1));
/// println!("{sd:#?}"); // for a person: flags, and each entry and option by its fields
/// # Ok::<(), viaductle::Refusal>(())
/// ```
#[derive(Clone, PartialEq, Eq)]
pub struct SdSlice<'a, 't> {
    flags: SdHeaderFlags,
    entries: &'a [u8],
    options_index: SdOptionsIndex<'a, 't>,
}

impl<'a, 't> SdSlice<'a, 't> {
    /// Reads a payload into the lent table, all settings off: unknown options that may not be discarded are refused, and any transport protocol
    /// passes.
    ///
    /// Refused by 22, 1 to 9, 10, 11 and 12, in the rules' order; the place of 7 to 10 is counted from the options part's first byte. After a
    /// refusal the table's 347 slots hold 0; after 22 nothing has changed. Slots past 347 are never touched.
    pub fn from_slice(payload: &'a [u8], table: &'t mut [u16]) -> Result<Self, Refusal> {
        Self::from_slice_with(payload, table, Settings::new())
    }

    /// [`from_slice_with`](Self::from_slice_with), told the one setting that someip_parse has.
    pub fn from_slice_with_flag(
        payload: &'a [u8],
        table: &'t mut [u16],
        discard_unknown_option: bool,
    ) -> Result<Self, Refusal> {
        let settings = Settings::new().discard_unknown_option(discard_unknown_option);
        Self::from_slice_with(payload, table, settings)
    }

    /// Reads a payload into the lent table as the settings say; refusals as with [`from_slice`](Self::from_slice), and under the strict setting
    /// 23 of an option, after its 7 and before anything of a later one. What is then handed out does not depend on the settings any more.
    pub fn from_slice_with(
        payload: &'a [u8],
        table: &'t mut [u16],
        settings: Settings,
    ) -> Result<Self, Refusal> {
        let answer = ffi::read(payload, table, settings.word());
        Self::of(answer, payload, table)
    }

    /// The payload that the library read into the table.
    pub(super) fn of(
        answer: ffi::Answer,
        payload: &'a [u8],
        table: &'t [u16],
    ) -> Result<Self, Refusal> {
        let [flags, entries, options, ..] = answer.accepted_among_options()?;
        let parts = ffi::parts(payload, answer);
        debug_assert_eq!(entries * ENTRY_LEN as u64, parts.entries_len);
        let part = |at: u64, len: u64| &payload[at as usize..][..len as usize];
        let options_part = part(parts.options_at, parts.options_len);
        Ok(SdSlice {
            flags: SdHeaderFlags {
                reboot: flags & 0x80 != 0,
                unicast: flags & 0x40 != 0,
                explicit_initial_data_control: flags & 0x20 != 0,
            },
            entries: part(parts.entries_at, parts.entries_len),
            options_index: SdOptionsIndex::from_table(options_part, table, options as usize),
        })
    }

    /// The flags.
    pub fn flags(&self) -> &SdHeaderFlags {
        &self.flags
    }

    /// The entries part.
    pub fn entries_slice(&self) -> &'a [u8] {
        self.entries
    }

    /// The entries. None is refused, since the reading judged them all.
    pub fn entries(&self) -> SdEntriesIterator<'a> {
        SdEntriesIterator::new(self.entries)
    }

    /// The options. None is refused, since the reading judged them all.
    pub fn options(&self) -> SdOptionsIterator<'a> {
        SdOptionsIterator::new(self.options_index.options())
    }

    /// The options by their place.
    pub fn options_index(&self) -> &SdOptionsIndex<'a, 't> {
        &self.options_index
    }

    /// The entries with their runs of options.
    pub fn entries_with_options(&self) -> SdEntriesWithOptionsIterator<'a, 't> {
        SdEntriesWithOptionsIterator::new(self.entries(), self.options_index)
    }
}
