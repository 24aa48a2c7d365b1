//! A message that the library accepted or put together: its 16 header bytes and what follows.

use core::fmt;

/// A whole message, handed out by [`SdMessage`](crate::sd::SdMessage) or [`TpBuf`](crate::TpBuf). Its fields are read here, not by the
/// library.
#[derive(Clone, Copy, PartialEq, Eq, Hash)]
pub struct SomeipMsgSlice<'a> {
    header: &'a [u8; HEADER],
    slice: &'a [u8],
}

const HEADER: usize = 16;

impl<'a> SomeipMsgSlice<'a> {
    /// These bytes, if there are at least 16.
    pub(crate) fn of(slice: &'a [u8]) -> Option<Self> {
        let header = slice.first_chunk()?;
        Some(SomeipMsgSlice { header, slice })
    }

    fn be16(&self, at: usize) -> u16 {
        u16::from_be_bytes([self.header[at], self.header[at + 1]])
    }

    fn be32(&self, at: usize) -> u32 {
        u32::from(self.be16(at)) << 16 | u32::from(self.be16(at + 2))
    }

    /// All its bytes.
    pub fn slice(&self) -> &'a [u8] {
        self.slice
    }

    /// The message id: service, then event or method.
    pub fn message_id(&self) -> u32 {
        self.be32(0)
    }

    /// The service id.
    pub fn service_id(&self) -> u16 {
        self.be16(0)
    }

    /// The event or method id, with the event bit.
    pub fn event_or_method_id(&self) -> u16 {
        self.be16(2)
    }

    /// The length field. Service discovery does not judge it.
    pub fn length(&self) -> u32 {
        self.be32(4)
    }

    /// The request id: client, then session.
    pub fn request_id(&self) -> u32 {
        self.be32(8)
    }

    /// The client id.
    pub fn client_id(&self) -> u16 {
        self.be16(8)
    }

    /// The session id.
    pub fn session_id(&self) -> u16 {
        self.be16(10)
    }

    /// The protocol version. Service discovery does not judge it.
    pub fn protocol_version(&self) -> u8 {
        self.header[12]
    }

    /// The interface version.
    pub fn interface_version(&self) -> u8 {
        self.header[13]
    }

    /// The message type.
    pub fn message_type_raw(&self) -> u8 {
        self.header[14]
    }

    /// The return code.
    pub fn return_code(&self) -> u8 {
        self.header[15]
    }

    /// What follows the header.
    pub fn payload(&self) -> &'a [u8] {
        &self.slice[HEADER..]
    }
}

impl fmt::Debug for SomeipMsgSlice<'_> {
    fn fmt(&self, f: &mut fmt::Formatter<'_>) -> fmt::Result {
        f.debug_struct("SomeipMsgSlice")
            .field("message_id", &format_args!("{:#010x}", self.message_id()))
            .field("length", &self.length())
            .field("client_id", &format_args!("{:#06x}", self.client_id()))
            .field("session_id", &self.session_id())
            .field("protocol_version", &self.protocol_version())
            .field("interface_version", &self.interface_version())
            .field(
                "message_type",
                &format_args!("{:#04x}", self.message_type_raw()),
            )
            .field("return_code", &format_args!("{:#04x}", self.return_code()))
            .field("payload", &format_args!("{} bytes", self.payload().len()))
            .finish()
    }
}
