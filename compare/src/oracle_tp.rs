//! The crate's `TpBuf` as one stream: its answers as the rules' numbers and values, and its state, which it shows only to a `Hasher`.

use crate::calls::{Answer, MOST_RANGES};
use someip_parse::err::TpReassembleError;
use someip_parse::{SomeipMsgSlice, TpBuf, TpBufConfig, TpRange};
use std::hash::{Hash, Hasher};

/// Keeps what it is fed: the data's length and bytes, the number of ranges and each start and end, 0 or 1 and the end, and the configuration.
#[derive(Default)]
struct Tape {
    words: Vec<u64>,
    bytes: Vec<u8>,
}

impl Hasher for Tape {
    fn finish(&self) -> u64 {
        0
    }
    fn write(&mut self, bytes: &[u8]) {
        self.bytes.extend_from_slice(bytes)
    }
    fn write_u32(&mut self, number: u32) {
        self.words.push(number.into())
    }
    fn write_usize(&mut self, number: usize) {
        self.words.push(number as u64)
    }
    fn write_isize(&mut self, number: isize) {
        self.words.push(number as u64)
    }
}

/// A stream's state as it can be seen: ranges in ascending order, the end if it is known, and the data, unset outside the ranges.
#[derive(Clone, Debug, Default, PartialEq, Eq)]
pub struct Seen {
    pub ranges: Vec<(u32, u32)>,
    pub end: Option<u32>,
    pub data: Vec<u8>,
}

#[derive(Clone)]
pub struct Stream {
    buffer: TpBuf,
    /// A segment at offset 0 came: the 16 header bytes are set.
    pub header_set: bool,
}

impl Stream {
    pub fn begin(limit: u32) -> Stream {
        let config = TpBufConfig::new(0, limit).expect("the limit is small");
        Stream {
            buffer: TpBuf::new(config),
            header_set: false,
        }
    }

    /// 30 where the crate cannot be asked: `SomeipMsgSlice` does not accept the bytes whole, or `consume_tp` would assert.
    pub fn consume(&mut self, segment: &[u8]) -> Answer {
        let Some(message) = as_segment(segment) else {
            return Answer::new(30, &[]);
        };
        let offset = message.tp_header().map_or(0, |header| header.offset());
        match self.buffer.consume_tp(message) {
            Ok(()) => {
                self.header_set |= offset == 0;
                Answer::default()
            }
            Err(error) => reassemble_error(&error),
        }
    }

    /// Whether the segment, if it is accepted, leaves more ranges than the rules' comparison domain has.
    pub fn would_overflow(&self, segment: &[u8]) -> bool {
        let Some(message) = as_segment(segment) else {
            return false;
        };
        let start = message.tp_header().map_or(0, |header| header.offset());
        let Some(end) = start.checked_add(message.payload().len() as u32) else {
            return false;
        };
        let new = TpRange { start, end };
        let held = self.seen().ranges;
        let apart = held
            .iter()
            .filter(|(start, end)| {
                let (start, end) = (*start, *end);
                new.merge(TpRange { start, end }).is_none()
            })
            .count();
        apart + 1 > MOST_RANGES
    }

    pub fn complete(&self) -> bool {
        self.buffer.is_complete()
    }

    /// The report's length and the report, or 37.
    pub fn take(&mut self) -> (Answer, Option<Vec<u8>>) {
        match self.buffer.try_finalize() {
            Some(message) => {
                let report = message.slice().to_vec();
                (Answer::new(0, &[report.len() as u64]), Some(report))
            }
            None => (Answer::new(37, &[]), None),
        }
    }

    pub fn clear(&mut self) {
        self.buffer.clear();
        self.header_set = false;
    }

    pub fn seen(&self) -> Seen {
        let mut tape = Tape::default();
        self.buffer.hash(&mut tape);
        let mut words = tape.words.into_iter();
        let mut next = || words.next().expect("the crate hashes all fields");
        let length = next() as usize;
        let count = next() as usize;
        let mut ranges: Vec<(u32, u32)> =
            (0..count).map(|_| (next() as u32, next() as u32)).collect();
        ranges.sort_unstable();
        let end = (next() == 1).then(|| next() as u32);
        tape.bytes.truncate(length);
        Seen {
            ranges,
            end,
            data: tape.bytes,
        }
    }
}

/// Whether the crate accepts the front of the bytes as a message and ignores the rest; 30 is then the rules' alone.
pub fn has_bytes_behind(bytes: &[u8]) -> bool {
    SomeipMsgSlice::from_slice(bytes).is_ok_and(|message| message.slice().len() != bytes.len())
}

/// The bytes as a segment that the crate takes whole.
fn as_segment(bytes: &[u8]) -> Option<SomeipMsgSlice<'_>> {
    let message = SomeipMsgSlice::from_slice(bytes).ok()?;
    (message.is_tp() && message.slice().len() == bytes.len()).then_some(message)
}

fn reassemble_error(error: &TpReassembleError) -> Answer {
    use TpReassembleError::*;
    match *error {
        SegmentTooBig {
            offset,
            payload_len,
            max,
        } => Answer::new(31, &[offset.into(), payload_len as u64, max.into()]),
        UnalignedTpPayloadLen {
            offset,
            payload_len,
        } => Answer::new(32, &[offset.into(), payload_len as u64]),
        ConflictingEnd {
            previous_end,
            conflicting_end,
        } => Answer::new(33, &[previous_end.into(), conflicting_end.into()]),
        AllocationFailure { len } => Answer::new(34, &[len as u64]),
    }
}

#[cfg(test)]
mod tests {
    use super::*;
    use crate::tp_inputs::segment;

    fn plain(offset: u32, more: bool, length: usize) -> Vec<u8> {
        segment(offset, more, &vec![7; length])
    }

    /// The rules, 'Both sides of each line': TP.
    #[test]
    fn streams_of_the_rules() {
        let mut stream = Stream::begin(65_520);
        assert!(stream.consume(&plain(0, true, 16)).accepted());
        assert_eq!(stream.take().0.number, 37);
        assert!(stream.consume(&plain(16, false, 16)).accepted());
        let (answer, report) = stream.take();
        assert_eq!(answer, Answer::new(0, &[48]));
        assert_eq!(report.unwrap()[4..8], [0, 0, 0, 40]);
        assert_eq!(stream.seen().ranges, [(0, 32)]);
        assert_eq!(stream.seen().end, Some(32));
        assert_eq!(stream.seen().data.len(), 48);

        let mut stream = Stream::begin(64);
        assert_eq!(
            stream.consume(&plain(0, true, 15)),
            Answer::new(32, &[0, 15])
        );
        assert!(stream.consume(&plain(0, false, 15)).accepted());
        let mut stream = Stream::begin(64);
        assert!(stream.consume(&plain(0, false, 16)).accepted());
        assert_eq!(
            stream.consume(&plain(16, true, 16)),
            Answer::new(33, &[16, 32])
        );
        let mut stream = Stream::begin(32);
        assert!(stream.consume(&plain(32, true, 0)).accepted());
        assert_eq!(
            stream.consume(&plain(48, true, 0)),
            Answer::new(31, &[48, 0, 32])
        );
        stream.clear();
        assert!(stream.consume(&plain(0, false, 0)).accepted());
        assert_eq!(stream.take().1.unwrap()[4..8], [0, 0, 0, 8]);
    }
}
