//! What is refused: the rules' number, its values, and a text for the person who reads the log.

use crate::ffi::{Answer, LAST_NUMBER, MAX_LIMIT, MAX_RANGES, MAX_SD_OPTIONS, VALUES};
use core::fmt;

/// Why something was refused. Variants and fields have someip_parse's names where it has them; [`number`](Refusal::number) and
/// [`values`](Refusal::values) are those of the rules (docs/RULES.md).
///
/// ```
/// use viaductle::sd::{OffsetTable, SdSlice};
/// use viaductle::Refusal;
///
/// let refusal = SdSlice::from_slice(&[0; 13], &mut OffsetTable::new()).unwrap_err();
/// assert_eq!(refusal, Refusal::SdPayloadLengthMismatch { expected_len: 12, actual_len: 13 });
/// assert_eq!((refusal.number(), &refusal.values()[..]), (6, &[12, 13][..]));
/// assert_eq!(
///     refusal.to_string(),
///     "refused, 6: by its own length fields the payload takes 12 bytes, but 13 were handed in",
/// );
/// ```
#[derive(Clone, Copy, Debug, PartialEq, Eq, Hash)]
#[non_exhaustive]
pub enum Refusal {
    /// 1: the bytes end too soon; how many are needed.
    UnexpectedEndOfSlice(usize),
    /// 2: the entries length is too large.
    SdEntriesArrayLengthTooLarge(u32),
    /// 3: the entries length is no multiple of 16.
    SdEntriesArrayLengthInvalid(u32),
    /// 4: the options length is too large.
    SdOptionsArrayLengthTooLarge(u32),
    /// 5: the payload is too large.
    SdPayloadLengthTooLarge(u32),
    /// 6: bytes follow the options.
    #[allow(missing_docs)]
    SdPayloadLengthMismatch {
        expected_len: usize,
        actual_len: usize,
    },
    /// 7: an option's length does not fit the bytes, or its type. The place is the option's first byte.
    #[allow(missing_docs)]
    OptionLen {
        required_len: usize,
        len: usize,
        len_source: LenSource,
        place: Place,
    },
    /// 8: an option's length field is 0. The place is the option's first byte.
    #[allow(missing_docs)]
    OptionLengthZero { place: Place },
    /// 9: a configuration string is wrong. The place is the first byte of the item at fault, which is its length byte; the closing zero byte where
    /// others follow it; and where there is none, the string's end, one past its last byte.
    #[allow(missing_docs)]
    ConfigurationString {
        error: SdConfigurationStringError,
        place: Place,
    },
    /// 10: an option of unknown type that may not be discarded. The place is the byte with the discardable bit, the option's fourth.
    #[allow(missing_docs)]
    UnknownSdOptionType { option_type: u8, place: Place },
    /// 11: an entry of unknown type.
    UnknownSdServiceEntryType(u8),
    /// 12: an entry's run of options leaves the list.
    #[allow(missing_docs)]
    SdOptionRunOutOfBounds {
        run: u8,
        start_index: u8,
        number_of_options: u8,
        options_len: usize,
    },
    /// 13: more bytes than an options part can have were to be indexed.
    OptionsArrayLengthTooLarge(usize),
    /// 14: not the message id of service discovery.
    SdMessageIdInvalid(u32),
    /// 15: the client id is not 0.
    SdClientIdInvalid(u16),
    /// 16: the session id is 0.
    SdSessionIdZero,
    /// 17: the interface version is not 1.
    SdInterfaceVersionInvalid(u8),
    /// 18: the message type is no notification.
    SdMessageTypeInvalid(u8),
    /// 19: the return code is not 0.
    SdReturnCodeInvalid(u8),
    /// 20: no option or entry at this place; someip_parse's `None`.
    NothingThere,
    /// 21: the offset table does not belong to these bytes; someip_parse panics.
    TableMisfit,
    /// 22: the lent offset table has too few slots; how many it has.
    TableTooShort(usize),
    /// 23: an option with an address has a transport protocol that the strict setting refuses. The place is the byte with the protocol: the
    /// option's byte 9 with an IPv4 address, 21 with an IPv6 one. Never given without [`Settings::strict`](crate::sd::Settings).
    #[allow(missing_docs)]
    TransportProtocolInvalid { protocol: u8, place: Place },
    /// 30: the bytes are not one TP segment; someip_parse panics, or refused them earlier.
    NotASegment,
    /// 31: a segment passes the stream's payload limit.
    #[allow(missing_docs)]
    SegmentTooBig {
        offset: u32,
        payload_len: usize,
        max: u32,
    },
    /// 32: more follows, and the segment's length is no multiple of 16.
    #[allow(missing_docs)]
    UnalignedTpPayloadLen { offset: u32, payload_len: usize },
    /// 33: a segment passes the known end, or is a final one with another end. Or a final one ends below data that is held, which someip_parse takes: the
    /// previous end is then the greatest end held.
    #[allow(missing_docs)]
    ConflictingEnd {
        previous_end: u32,
        conflicting_end: u32,
    },
    /// 34: the lent buffer is too short; how many bytes are needed. someip_parse's `AllocationFailure`.
    BufferTooShort(usize),
    /// 35: no room for another range.
    RangesFull,
    /// 36: the payload limit asked for is too high.
    LimitTooLarge(u32),
    /// 37: the report is not complete; someip_parse's `None`.
    NotComplete,
    /// 38: the words are no state of a stream.
    MalformedState,
    /// 39: no number is left for a further segment, until the stream is cleared.
    CountFull,
    /// A number that this crate does not know: the library is newer than it.
    #[allow(missing_docs)]
    Other {
        number: u64,
        values: [u64; MAX_REFUSAL_VALUES],
    },
}

/// The byte at which an option or a configuration string was refused, and what it is counted from: [`Refusal::place`].
///
/// ```
/// use viaductle::sd::{OffsetTable, SdOptionSlice, SdOptionsIndex};
/// use viaductle::Place;
///
/// // An option of four bytes, and one of length 0.
/// let options = [0, 1, 0x77, 0x80, 0, 0, 0x77];
/// let refusal = SdOptionsIndex::from_slice(&options, &mut OffsetTable::new()).unwrap_err();
/// assert_eq!(refusal.place(), Some(Place::Options(4)));
/// assert_eq!(
///     refusal.to_string(),
///     "refused, 8: option at byte 4 of the options: its length field is 0; it is at least 1",
/// );
///
/// let refusal = SdOptionSlice::from_slice(&options[4..]).unwrap_err();
/// assert_eq!(refusal.place(), Some(Place::Alone(0)));
/// assert_eq!(refusal.place().unwrap().to_string(), "byte 0 of what was read");
/// ```
#[derive(Clone, Copy, Debug, PartialEq, Eq, Hash)]
pub enum Place {
    /// Counted from the first byte of the options part, where all options are read: of a payload, of a message, or for an index.
    Options(usize),
    /// Counted from the first byte of the option or the string that is read alone, by an iterator too.
    Alone(usize),
}

impl Place {
    /// The byte's number, from 0.
    pub fn byte(self) -> usize {
        match self {
            Place::Options(byte) | Place::Alone(byte) => byte,
        }
    }
}

impl fmt::Display for Place {
    fn fmt(&self, f: &mut fmt::Formatter<'_>) -> fmt::Result {
        match self {
            Place::Options(byte) => write!(f, "byte {byte} of the options"),
            Place::Alone(byte) => write!(f, "byte {byte} of what was read"),
        }
    }
}

/// What gave the length that an option was judged by.
#[derive(Clone, Copy, Debug, PartialEq, Eq, Hash)]
pub enum LenSource {
    /// The bytes that are left (0).
    Slice,
    /// The option's own length field (1).
    SdOptionLength,
}

/// The six errors of a configuration string. `item_offset` is where the item's length byte stands in the string, `byte_offset` the number of
/// a byte among the item's own, from 0.
#[derive(Clone, Copy, Debug, PartialEq, Eq, Hash)]
#[allow(missing_docs)]
pub enum SdConfigurationStringError {
    MissingTerminator,
    ItemLengthExceedsRemaining {
        item_offset: usize,
        item_length: u8,
        remaining: usize,
    },
    TrailingDataAfterTerminator {
        terminator_offset: usize,
    },
    EmptyKey {
        item_offset: usize,
    },
    InvalidKeyByte {
        item_offset: usize,
        byte_offset: usize,
        value: u8,
    },
    KeyContainsOnlyWhitespace {
        item_offset: usize,
    },
}

/// As many values as a refusal has at most.
pub const MAX_REFUSAL_VALUES: usize = VALUES;

/// The values of a refusal in the rules' order; it is a slice of none to [`MAX_REFUSAL_VALUES`] numbers.
#[derive(Clone, Copy, PartialEq, Eq, Hash)]
pub struct Values {
    all: [u64; VALUES],
    count: usize,
}

impl core::fmt::Debug for Values {
    fn fmt(&self, f: &mut core::fmt::Formatter<'_>) -> core::fmt::Result {
        (**self).fmt(f)
    }
}

impl core::ops::Deref for Values {
    type Target = [u64];

    fn deref(&self) -> &[u64] {
        &self.all[..self.count]
    }
}

/// A number with its values.
fn said<const N: usize>(number: u64, values: [u64; N]) -> (u64, Values) {
    let mut all = [0; VALUES];
    all[..N].copy_from_slice(&values);
    (number, Values { all, count: N })
}

impl SdConfigurationStringError {
    fn said(self, place: u64) -> (u64, Values) {
        use SdConfigurationStringError::*;
        match self {
            MissingTerminator => said(9, [1, place]),
            ItemLengthExceedsRemaining {
                item_offset,
                item_length,
                remaining,
            } => said(
                9,
                [
                    2,
                    item_offset as u64,
                    item_length.into(),
                    remaining as u64,
                    place,
                ],
            ),
            TrailingDataAfterTerminator { terminator_offset } => {
                said(9, [3, terminator_offset as u64, place])
            }
            EmptyKey { item_offset } => said(9, [4, item_offset as u64, place]),
            InvalidKeyByte {
                item_offset,
                byte_offset,
                value,
            } => said(
                9,
                [
                    5,
                    item_offset as u64,
                    byte_offset as u64,
                    value.into(),
                    place,
                ],
            ),
            KeyContainsOnlyWhitespace { item_offset } => said(9, [6, item_offset as u64, place]),
        }
    }

    /// The error that these values tell, and the place behind its numbers.
    fn of(values: [u64; VALUES]) -> Option<(Self, u64)> {
        use SdConfigurationStringError::*;
        let [which, first, second, third, fourth] = values;
        let item_offset = first as usize;
        Some(match which {
            1 => (MissingTerminator, first),
            2 => (
                ItemLengthExceedsRemaining {
                    item_offset,
                    item_length: second as u8,
                    remaining: third as usize,
                },
                fourth,
            ),
            3 => (
                TrailingDataAfterTerminator {
                    terminator_offset: first as usize,
                },
                second,
            ),
            4 => (EmptyKey { item_offset }, second),
            5 => (
                InvalidKeyByte {
                    item_offset,
                    byte_offset: second as usize,
                    value: third as u8,
                },
                fourth,
            ),
            6 => (KeyContainsOnlyWhitespace { item_offset }, second),
            _ => return None,
        })
    }
}

impl Refusal {
    /// The rules' number.
    pub fn number(&self) -> u64 {
        self.said().0
    }

    /// The rules' values. Those of 9 are which of the six errors it is, counted from 1, and then its numbers; the last of 7 to 10 and of
    /// 23 is the place.
    pub fn values(&self) -> Values {
        self.said().1
    }

    /// The byte at which an option or a string was refused: of 7, 8, 9, 10 and 23.
    pub fn place(&self) -> Option<Place> {
        use Refusal::*;
        match *self {
            OptionLen { place, .. }
            | OptionLengthZero { place }
            | ConfigurationString { place, .. }
            | UnknownSdOptionType { place, .. }
            | TransportProtocolInvalid { place, .. } => Some(place),
            _ => None,
        }
    }

    fn said(&self) -> (u64, Values) {
        use Refusal::*;
        match *self {
            UnexpectedEndOfSlice(needed) => said(1, [needed as u64]),
            SdEntriesArrayLengthTooLarge(len) => said(2, [len.into()]),
            SdEntriesArrayLengthInvalid(len) => said(3, [len.into()]),
            SdOptionsArrayLengthTooLarge(len) => said(4, [len.into()]),
            SdPayloadLengthTooLarge(len) => said(5, [len.into()]),
            SdPayloadLengthMismatch {
                expected_len,
                actual_len,
            } => said(6, [expected_len as u64, actual_len as u64]),
            OptionLen {
                required_len,
                len,
                len_source,
                place,
            } => said(
                7,
                [
                    required_len as u64,
                    len as u64,
                    len_source as u64,
                    place.byte() as u64,
                ],
            ),
            OptionLengthZero { place } => said(8, [place.byte() as u64]),
            ConfigurationString { error, place } => error.said(place.byte() as u64),
            UnknownSdOptionType { option_type, place } => {
                said(10, [option_type.into(), place.byte() as u64])
            }
            UnknownSdServiceEntryType(code) => said(11, [code.into()]),
            SdOptionRunOutOfBounds {
                run,
                start_index,
                number_of_options,
                options_len,
            } => said(
                12,
                [
                    run.into(),
                    start_index.into(),
                    number_of_options.into(),
                    options_len as u64,
                ],
            ),
            OptionsArrayLengthTooLarge(len) => said(13, [len as u64]),
            SdMessageIdInvalid(id) => said(14, [id.into()]),
            SdClientIdInvalid(id) => said(15, [id.into()]),
            SdSessionIdZero => said(16, []),
            SdInterfaceVersionInvalid(version) => said(17, [version.into()]),
            SdMessageTypeInvalid(code) => said(18, [code.into()]),
            SdReturnCodeInvalid(code) => said(19, [code.into()]),
            NothingThere => said(20, []),
            TableMisfit => said(21, []),
            TableTooShort(slots) => said(22, [slots as u64]),
            TransportProtocolInvalid { protocol, place } => {
                said(23, [protocol.into(), place.byte() as u64])
            }
            NotASegment => said(30, []),
            SegmentTooBig {
                offset,
                payload_len,
                max,
            } => said(31, [offset.into(), payload_len as u64, max.into()]),
            UnalignedTpPayloadLen {
                offset,
                payload_len,
            } => said(32, [offset.into(), payload_len as u64]),
            ConflictingEnd {
                previous_end,
                conflicting_end,
            } => said(33, [previous_end.into(), conflicting_end.into()]),
            BufferTooShort(needed) => said(34, [needed as u64]),
            RangesFull => said(35, []),
            LimitTooLarge(limit) => said(36, [limit.into()]),
            NotComplete => said(37, []),
            MalformedState => said(38, []),
            CountFull => said(39, []),
            Other { number, values } => said(number, values),
        }
    }

    /// The refusal that the library gave to a call that counts places from there. Numbers are as wide as in the library's own enum, from which they
    /// come.
    fn of(answer: Answer, counted: fn(usize) -> Place) -> Refusal {
        use Refusal::*;
        let Answer { number, values } = answer;
        let counted = |place: u64| counted(place as usize);
        let [first, second, third, fourth, ..] = values;
        let refusal = match number {
            1 => UnexpectedEndOfSlice(first as usize),
            2 => SdEntriesArrayLengthTooLarge(first as u32),
            3 => SdEntriesArrayLengthInvalid(first as u32),
            4 => SdOptionsArrayLengthTooLarge(first as u32),
            5 => SdPayloadLengthTooLarge(first as u32),
            6 => SdPayloadLengthMismatch {
                expected_len: first as usize,
                actual_len: second as usize,
            },
            7 => OptionLen {
                required_len: first as usize,
                len: second as usize,
                len_source: match third {
                    0 => LenSource::Slice,
                    _ => LenSource::SdOptionLength,
                },
                place: counted(fourth),
            },
            8 => OptionLengthZero {
                place: counted(first),
            },
            9 => match SdConfigurationStringError::of(values) {
                Some((error, place)) => ConfigurationString {
                    error,
                    place: counted(place),
                },
                None => Other { number, values },
            },
            10 => UnknownSdOptionType {
                option_type: first as u8,
                place: counted(second),
            },
            11 => UnknownSdServiceEntryType(first as u8),
            12 => SdOptionRunOutOfBounds {
                run: first as u8,
                start_index: second as u8,
                number_of_options: third as u8,
                options_len: fourth as usize,
            },
            13 => OptionsArrayLengthTooLarge(first as usize),
            14 => SdMessageIdInvalid(first as u32),
            15 => SdClientIdInvalid(first as u16),
            16 => SdSessionIdZero,
            17 => SdInterfaceVersionInvalid(first as u8),
            18 => SdMessageTypeInvalid(first as u8),
            19 => SdReturnCodeInvalid(first as u8),
            20 => NothingThere,
            21 => TableMisfit,
            22 => TableTooShort(first as usize),
            23 => TransportProtocolInvalid {
                protocol: first as u8,
                place: counted(second),
            },
            30 => NotASegment,
            31 => SegmentTooBig {
                offset: first as u32,
                payload_len: second as usize,
                max: third as u32,
            },
            32 => UnalignedTpPayloadLen {
                offset: first as u32,
                payload_len: second as usize,
            },
            33 => ConflictingEnd {
                previous_end: first as u32,
                conflicting_end: second as u32,
            },
            34 => BufferTooShort(first as usize),
            35 => RangesFull,
            36 => LimitTooLarge(first as u32),
            37 => NotComplete,
            38 => MalformedState,
            39 => CountFull,
            _ => Other { number, values },
        };
        // Nothing was lost: another width, or a value that the rules have not, would show here.
        debug_assert_eq!((refusal.number(), refusal.values().all), (number, values));
        refusal
    }
}

impl Answer {
    /// The values of an acceptance, or the refusal. A place is counted from what is read alone.
    pub(crate) fn accepted(self) -> Result<[u64; VALUES], Refusal> {
        self.counted_from(Place::Alone)
    }

    /// The same of a call that reads a whole options part, and counts places from its first byte.
    pub(crate) fn accepted_among_options(self) -> Result<[u64; VALUES], Refusal> {
        self.counted_from(Place::Options)
    }

    fn counted_from(self, counted: fn(usize) -> Place) -> Result<[u64; VALUES], Refusal> {
        match self.number {
            0 => Ok(self.values),
            _ => Err(Refusal::of(self, counted)),
        }
    }
}

impl fmt::Display for SdConfigurationStringError {
    fn fmt(&self, f: &mut fmt::Formatter<'_>) -> fmt::Result {
        use SdConfigurationStringError::*;
        match *self {
            MissingTerminator => write!(f, "it ends without a closing zero byte"),
            ItemLengthExceedsRemaining {
                item_offset,
                item_length,
                remaining,
            } => write!(
                f,
                "the item at byte {item_offset} says that {item_length} bytes follow, but {remaining} are left"
            ),
            TrailingDataAfterTerminator { terminator_offset } => write!(
                f,
                "bytes follow the closing zero byte, which is byte {terminator_offset}"
            ),
            EmptyKey { item_offset } => {
                write!(f, "the item at byte {item_offset} has nothing before its '='")
            }
            InvalidKeyByte {
                item_offset,
                byte_offset,
                value,
            } => write!(
                f,
                "in the item at byte {item_offset}, byte {byte_offset} of the key is {value:#04x}; keys are 0x20 to 0x7e"
            ),
            KeyContainsOnlyWhitespace { item_offset } => {
                write!(f, "the item at byte {item_offset} has a key of spaces only")
            }
        }
    }
}

impl fmt::Display for Refusal {
    fn fmt(&self, f: &mut fmt::Formatter<'_>) -> fmt::Result {
        use Refusal::*;
        write!(f, "refused, {}: ", self.number())?;
        match *self {
            UnexpectedEndOfSlice(needed) => {
                write!(f, "the bytes end too soon: at least {needed} are needed")
            }
            SdEntriesArrayLengthTooLarge(len) => {
                write!(f, "the payload says that its entries take {len} bytes; at most 1388 fit")
            }
            SdEntriesArrayLengthInvalid(len) => write!(
                f,
                "the payload says that its entries take {len} bytes; an entry takes 16, and this is no multiple of it"
            ),
            SdOptionsArrayLengthTooLarge(len) => {
                write!(f, "the payload says that its options take {len} bytes; at most 1388 fit")
            }
            SdPayloadLengthTooLarge(len) => write!(
                f,
                "by its own length fields the payload takes {len} bytes; at most 1400 are allowed"
            ),
            SdPayloadLengthMismatch {
                expected_len,
                actual_len,
            } => write!(
                f,
                "by its own length fields the payload takes {expected_len} bytes, but {actual_len} were handed in"
            ),
            OptionLen {
                required_len,
                len,
                len_source: LenSource::Slice,
                place,
            } => write!(
                f,
                "option at {place}: it needs {required_len} bytes, but only {len} are left"
            ),
            OptionLen {
                required_len,
                len,
                len_source: LenSource::SdOptionLength,
                place,
            } => write!(
                f,
                "option at {place}: its length field says {len}, but an option of its type has {required_len}"
            ),
            OptionLengthZero { place } => {
                write!(f, "option at {place}: its length field is 0; it is at least 1")
            }
            ConfigurationString { error, place } => {
                write!(f, "configuration string wrong at {place}: {error}")
            }
            UnknownSdOptionType { option_type, place } => write!(
                f,
                "option of unknown type {option_type:#04x} may not be discarded, by {place}; the discard setting would pass it"
            ),
            UnknownSdServiceEntryType(code) => write!(
                f,
                "an entry has the unknown type {code:#04x}; known are 0x00, 0x01, 0x06 and 0x07"
            ),
            SdOptionRunOutOfBounds {
                run,
                start_index,
                number_of_options,
                options_len,
            } => write!(
                f,
                "run {run} of an entry starts at option {start_index}, counted from 0, and takes {number_of_options}, but the payload has {options_len}"
            ),
            OptionsArrayLengthTooLarge(len) => write!(
                f,
                "{len} bytes of options were handed in for an index; at most 1388 fit"
            ),
            SdMessageIdInvalid(id) => write!(
                f,
                "the message id is {id:#010x}; service discovery has 0xffff8100"
            ),
            SdClientIdInvalid(id) => write!(
                f,
                "the client id is {id:#06x}; service discovery has 0"
            ),
            SdSessionIdZero => write!(f, "the session id is 0; service discovery counts from 1"),
            SdInterfaceVersionInvalid(version) => write!(
                f,
                "the interface version is {version}; service discovery has 1"
            ),
            SdMessageTypeInvalid(code) => write!(
                f,
                "the message type is {code:#04x}; service discovery has 0x02, a notification"
            ),
            SdReturnCodeInvalid(code) => write!(
                f,
                "the return code is {code:#04x}; service discovery has 0x00"
            ),
            NothingThere => write!(f, "there is no option or entry at this place"),
            TableMisfit => write!(
                f,
                "the offset table does not belong to these options: it is another payload's, or was changed"
            ),
            TableTooShort(slots) => write!(
                f,
                "the lent offset table has {slots} slots; {MAX_SD_OPTIONS} are needed"
            ),
            TransportProtocolInvalid { protocol, place } => write!(
                f,
                "the transport protocol is {protocol:#04x}, by {place}; the strict setting takes 0x06 (TCP) and 0x11 (UDP), for multicast 0x11 alone"
            ),
            NotASegment => write!(
                f,
                "not one TP segment: under 20 bytes, or a length field that is not the byte count less 8, or a protocol version other than 1, or no TP message type"
            ),
            SegmentTooBig {
                offset,
                payload_len,
                max,
            } => write!(
                f,
                "a segment of {payload_len} bytes at offset {offset} passes the stream's payload limit of {max}"
            ),
            UnalignedTpPayloadLen {
                offset,
                payload_len,
            } => write!(
                f,
                "a segment of {payload_len} bytes at offset {offset} says that more follows; its length is then a multiple of 16"
            ),
            ConflictingEnd {
                previous_end,
                conflicting_end,
            } if conflicting_end < previous_end => write!(
                f,
                "a final segment ends at {conflicting_end}, but the report is known to reach {previous_end}"
            ),
            ConflictingEnd {
                previous_end,
                conflicting_end,
            } => write!(
                f,
                "a segment ends at {conflicting_end}, but the report's end is known to be {previous_end}"
            ),
            BufferTooShort(needed) => {
                write!(f, "the lent buffer is too short: {needed} bytes are needed")
            }
            RangesFull => write!(
                f,
                "too many gaps: {MAX_RANGES} separate ranges are held, and this segment joins none of them"
            ),
            LimitTooLarge(limit) => write!(
                f,
                "a payload limit of {limit} was asked for; at most {MAX_LIMIT} is possible"
            ),
            NotComplete => write!(f, "the report is not complete"),
            MalformedState => write!(
                f,
                "these words are no state of a stream: they come from elsewhere, or were changed; begin the stream anew"
            ),
            CountFull => write!(
                f,
                "{LAST_NUMBER} segments were taken since the stream was begun or cleared, and no number is left: clear it"
            ),
            Other { values, .. } => write!(
                f,
                "values {values:?}; this crate does not know the number: the library is newer"
            ),
        }
    }
}

impl core::error::Error for SdConfigurationStringError {}

impl core::error::Error for Refusal {}
