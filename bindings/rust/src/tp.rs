//! One stream of TP segments, joined in a lent buffer.

use crate::{ffi, Refusal, SomeipMsgSlice};
use core::fmt;
use core::hash::{Hash, Hasher};

/// The highest payload limit of a stream.
pub const MAX_TP_PAYLOAD_LEN: u32 = ffi::MAX_LIMIT;

/// How many ranges a stream holds at most: parts of the report that have arrived, with gaps between them.
pub const MAX_TP_RANGES: usize = ffi::MAX_RANGES;

/// The last number that an accepted segment can have: see [`TpStream::count`].
pub const MAX_TP_NUMBER: u32 = ffi::LAST_NUMBER;

/// The words of a stream's state: five, and three for each of [`MAX_TP_RANGES`] ranges.
pub const TP_STREAM_WORDS: usize = ffi::WORDS;

/// A part of the report that has arrived: offsets into its payload, the end not included, and the number of the latest accepted segment in it.
///
/// Segments are numbered as they are accepted, from 1 on, since the stream was begun or cleared; no clock is asked. So of two ranges the one with the
/// larger number has the newer segment, and no two have the same.
#[derive(Clone, Copy, PartialEq, Eq, PartialOrd, Ord, Hash)]
#[allow(missing_docs)]
pub struct TpRange {
    pub start: u32,
    pub end: u32,
    pub number: u32,
}

impl fmt::Debug for TpRange {
    fn fmt(&self, f: &mut fmt::Formatter<'_>) -> fmt::Result {
        write!(f, "{}..{} #{}", self.start, self.end, self.number)
    }
}

/// The state of a stream, apart from its buffer: for a caller who keeps many streams and lends each its buffer call by call. [`TpBuf`] is one
/// with its buffer.
///
/// Segments come in any order. As long as each is accepted, none is empty and no two overlap, whether the report is complete and every byte of it are
/// the same whichever came first; where two overlap, the newest bytes win.
///
/// It is a value of plain words, and equal to another where all words that count are: those of places that hold no range do not. Words that
/// are no state of a stream are refused by 38, and are not complete.
///
/// ```
/// let stream = viaductle::TpStream::new(1024)?;
/// assert_eq!(format!("{stream:?}"), "TpStream { limit: 1024, end: None, count: 0, ranges: [] }");
/// # Ok::<(), viaductle::Refusal>(())
/// ```
#[derive(Clone, Copy)]
pub struct TpStream {
    words: [u32; TP_STREAM_WORDS],
}

impl TpStream {
    /// A stream that has received nothing, for reports of at most `limit` bytes of payload; 36 above [`MAX_TP_PAYLOAD_LEN`].
    pub fn new(limit: u32) -> Result<Self, Refusal> {
        let mut words = [0; TP_STREAM_WORDS];
        ffi::begin(&mut words, limit).accepted()?;
        Ok(TpStream { words })
    }

    /// The stream of these words, which are not judged here: limit, how many ranges are held, 1 if an end is known and else 0, the end, how many
    /// segments were accepted, then start, end and number of each of [`MAX_TP_RANGES`] ranges.
    pub fn from_words(words: [u32; TP_STREAM_WORDS]) -> Self {
        TpStream { words }
    }

    /// The words, to keep them elsewhere.
    pub fn words(&self) -> &[u32; TP_STREAM_WORDS] {
        &self.words
    }

    /// One segment, a whole message with its header, comes. Refused by 38, 30, 31, 32, 33, 34, 35 and 39, in this order; a refusal leaves
    /// stream and buffer as they were.
    ///
    /// That all segments of a stream have one sender, message id and request id is the caller's care, as with someip_parse.
    pub fn consume_tp(&mut self, segment: &[u8], buffer: &mut [u8]) -> Result<(), Refusal> {
        ffi::consume(&mut self.words, segment, buffer).accepted()?;
        Ok(())
    }

    /// Whether the whole report has arrived.
    pub fn is_complete(&self) -> bool {
        matches!(ffi::complete(&self.words).accepted(), Ok([1, ..]))
    }

    /// The report, which is the front of the buffer, its length field set; refused by 38, 37 and 34. The stream stays as it is.
    pub fn take<'b>(&self, buffer: &'b mut [u8]) -> Result<SomeipMsgSlice<'b>, Refusal> {
        let [len, ..] = ffi::take(&self.words, buffer).accepted()?;
        SomeipMsgSlice::of(&buffer[..len as usize]).ok_or(Refusal::NotComplete)
    }

    /// Forgets ranges, end and count, keeps the limit, touches no byte of a buffer.
    ///
    /// Words that do not even tell whether an end is known stay as they are, and are refused by 38 as before; only
    /// [`from_words`](Self::from_words) makes a stream of such.
    pub fn clear(&mut self) {
        // What is refused here is refused by every call that follows.
        let _ = ffi::clear(&mut self.words);
    }

    /// The payload limit.
    pub fn limit(&self) -> u32 {
        self.words[0]
    }

    /// The report's end, once a final segment came.
    pub fn end(&self) -> Option<u32> {
        (self.words[2] != 0).then_some(self.words[3])
    }

    /// How many segments were accepted since the stream was begun or cleared, refused ones left out; 38 where the words are no state of a stream.
    ///
    /// An accepted segment has the count after it as its number. At [`MAX_TP_NUMBER`] a further one is refused by 39 until the stream is cleared.
    pub fn count(&self) -> Result<u32, Refusal> {
        let [count, ..] = ffi::count(&self.words).accepted()?;
        Ok(count as u32)
    }

    /// Of the ranges that begin at `from` or behind it the one that begins first; 38 where the words are no state of a stream, 20 where there is none.
    pub fn range_from(&self, from: u32) -> Result<TpRange, Refusal> {
        let [start, end, number, ..] = ffi::range(&self.words, from).accepted()?;
        Ok(TpRange {
            start: start as u32,
            end: end as u32,
            number: number as u32,
        })
    }

    /// What has arrived, in the order of the report, each part with its number; nothing where the words are no state of a stream.
    pub fn ranges(&self) -> impl Iterator<Item = TpRange> + '_ {
        let next = |last: &TpRange| self.range_from(last.end + 1).ok();
        core::iter::successors(self.range_from(0).ok(), next)
    }

    /// The words that count: places that hold no range are left out.
    fn counted(&self) -> &[u32] {
        let ranges = ffi::MAX_RANGES.min(self.words[1] as usize);
        &self.words[..ffi::FRONT_WORDS + ffi::RANGE_WORDS * ranges]
    }
}

impl PartialEq for TpStream {
    fn eq(&self, other: &Self) -> bool {
        self.counted() == other.counted()
    }
}

impl Eq for TpStream {}

impl Hash for TpStream {
    fn hash<H: Hasher>(&self, state: &mut H) {
        self.counted().hash(state);
    }
}

impl fmt::Debug for TpStream {
    fn fmt(&self, f: &mut fmt::Formatter<'_>) -> fmt::Result {
        let mut shown = f.debug_struct("TpStream");
        let Ok(count) = self.count() else {
            let words = format_args!("no state of a stream, {:?}", self.counted());
            return shown.field("words", &words).finish();
        };
        shown
            .field("limit", &self.limit())
            .field("end", &self.end())
            .field("count", &count)
            .field("ranges", &Ranges(self))
            .finish()
    }
}

/// The ranges of a stream, for a person.
struct Ranges<'a>(&'a TpStream);

impl fmt::Debug for Ranges<'_> {
    fn fmt(&self, f: &mut fmt::Formatter<'_>) -> fmt::Result {
        f.debug_list().entries(self.0.ranges()).finish()
    }
}

/// A stream with the buffer that it was lent.
///
/// ```
/// use viaductle::TpBuf;
///
/// // Two segments of a report: 16 bytes at 0 with more to follow, and 4 at 16.
/// let segment = |offset_and_more: u8, payload: &[u8]| {
///     let mut bytes = vec![0x12, 0x34, 0x80, 0x01, 0, 0, 0, 12 + payload.len() as u8];
///     bytes.extend([0, 0, 0, 1, 1, 1, 0x22, 0, 0, 0, 0, offset_and_more]);
///     bytes.extend(payload);
///     bytes
/// };
/// let mut buffer = [0; 16 + 1024];
/// let mut stream = TpBuf::new(1024, &mut buffer)?;
/// stream.consume_tp(&segment(16, b"done"))?;
/// assert!(stream.try_finalize().is_none());
/// stream.consume_tp(&segment(0 | 1, b"sixteen bytes, a"))?;
/// assert!(stream.is_complete());
/// let report = stream.try_finalize().unwrap();
/// assert_eq!((report.message_id(), report.length()), (0x1234_8001, 8 + 20));
/// assert_eq!(report.payload(), b"sixteen bytes, adone");
/// stream.clear();
/// # Ok::<(), viaductle::Refusal>(())
/// ```
pub struct TpBuf<'b> {
    stream: TpStream,
    buffer: &'b mut [u8],
}

impl fmt::Debug for TpBuf<'_> {
    fn fmt(&self, f: &mut fmt::Formatter<'_>) -> fmt::Result {
        f.debug_struct("TpBuf")
            .field("stream", &self.stream)
            .field("buffer", &format_args!("{} bytes", self.buffer.len()))
            .finish()
    }
}

impl<'b> TpBuf<'b> {
    /// A stream that has received nothing, for reports of at most `limit` bytes of payload; 36 above [`MAX_TP_PAYLOAD_LEN`].
    ///
    /// A buffer of 16 plus the limit holds every report; with a shorter one a segment past it is refused by 34. Bytes that no segment
    /// covers keep what the caller left there.
    pub fn new(limit: u32, buffer: &'b mut [u8]) -> Result<Self, Refusal> {
        Ok(Self::resume(TpStream::new(limit)?, buffer))
    }

    /// A stream that was kept apart, with its buffer.
    pub fn resume(stream: TpStream, buffer: &'b mut [u8]) -> Self {
        TpBuf { stream, buffer }
    }

    /// The stream's state: limit, end, count and ranges.
    pub fn stream(&self) -> &TpStream {
        &self.stream
    }

    /// One segment comes: see [`TpStream::consume_tp`].
    pub fn consume_tp(&mut self, segment: &[u8]) -> Result<(), Refusal> {
        self.stream.consume_tp(segment, self.buffer)
    }

    /// Whether the whole report has arrived.
    pub fn is_complete(&self) -> bool {
        self.stream.is_complete()
    }

    /// The report, if it is complete.
    pub fn try_finalize(&mut self) -> Option<SomeipMsgSlice<'_>> {
        self.take().ok()
    }

    /// The same with the refusal: see [`TpStream::take`].
    pub fn take(&mut self) -> Result<SomeipMsgSlice<'_>, Refusal> {
        self.stream.take(self.buffer)
    }

    /// Forgets what has arrived and keeps limit and buffer, for the next report.
    pub fn clear(&mut self) {
        self.stream.clear();
    }
}
