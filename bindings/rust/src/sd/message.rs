//! A whole message of service discovery.

use super::{SdSlice, Settings};
use crate::{ffi, Refusal, SomeipMsgSlice};

/// A message with the header of service discovery, and its payload, which was read.
///
/// ```
/// use viaductle::sd::{OffsetTable, SdMessage};
///
/// let message = [
///     0xff, 0xff, 0x81, 0x00, 0, 0, 0, 20, 0, 0, 0, 7, 1, 1, 2, 0, // header: session 7
///     0x40, 0, 0, 0, 0, 0, 0, 0, 0, 0, 0, 0, // payload: unicast, nothing inside
/// ];
/// let mut table = OffsetTable::new();
/// let sd = SdMessage::from_slice(&message, &mut table)?;
/// assert_eq!(sd.header().session_id(), 7);
/// assert!(sd.sd().flags().unicast);
/// # Ok::<(), viaductle::Refusal>(())
/// ```
#[derive(Clone, Debug, PartialEq, Eq)]
pub struct SdMessage<'a, 't> {
    header: SomeipMsgSlice<'a>,
    sd: SdSlice<'a, 't>,
}

impl<'a, 't> SdMessage<'a, 't> {
    /// Reads a message into the lent table, all settings off.
    ///
    /// Refused by 22, 1 with 16 below 16 bytes, 14 to 19, then as a payload is, all bytes after the header being the payload; places too are
    /// those of the payload. The length field and the protocol version are not judged.
    pub fn from_slice(message: &'a [u8], table: &'t mut [u16]) -> Result<Self, Refusal> {
        Self::from_slice_with(message, table, Settings::new())
    }

    /// The same as the settings say; under the strict setting also refused by 23, as a payload is.
    pub fn from_slice_with(
        message: &'a [u8],
        table: &'t mut [u16],
        settings: Settings,
    ) -> Result<Self, Refusal> {
        let answer = ffi::read_message(message, table, settings.word());
        answer.accepted_among_options()?;
        let header = SomeipMsgSlice::of(message).ok_or(Refusal::UnexpectedEndOfSlice(16))?;
        let sd = SdSlice::of(answer, header.payload(), table)?;
        Ok(SdMessage { header, sd })
    }

    /// The message, to ask for its header's fields.
    pub fn header(&self) -> SomeipMsgSlice<'a> {
        self.header
    }

    /// The payload.
    pub fn sd(&self) -> &SdSlice<'a, 't> {
        &self.sd
    }
}
