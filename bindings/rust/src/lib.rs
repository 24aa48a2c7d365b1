//! SOME/IP service discovery reading and TP reassembly, under the names of someip_parse, over a library that is proved.
//!
//! The work is done by the static library `libhub.a`, written in Rattle: what each of its functions answers, for every input, is stated and
//! proved there. This crate wraps them safely and adds no rule of its own. Nothing is allocated: the caller lends the offset table of a
//! reading and the buffer of a stream.
//!
//! ```
//! use viaductle::sd::{OffsetTable, SdOptionSlice, SdSlice};
//!
//! // An offer of service 0x1234 for an hour, at 192.168.1.1, TCP, 8080.
//! let payload = [
//!     0x80, 0, 0, 0, 0, 0, 0, 16, // reboot; 16 bytes of entries
//!     0x01, 0, 0, 0x10, 0x12, 0x34, 0x56, 0x78, 1, 0, 0x0e, 0x10, 1, 0, 0, 0, // the offer
//!     0, 0, 0, 12, // 12 bytes of options
//!     0, 9, 0x04, 0, 192, 168, 1, 1, 0, 0x06, 0x1f, 0x90, // the endpoint
//! ];
//! let mut table = OffsetTable::new();
//! let sd = SdSlice::from_slice(&payload, &mut table)?;
//! assert!(sd.flags().reboot);
//! for entry in sd.entries_with_options() {
//!     let entry = entry?;
//!     assert_eq!(entry.entry().service_id(), 0x1234);
//!     assert_eq!(entry.entry().ttl().value(), 3600);
//!     for option in entry.options_run_1() {
//!         let SdOptionSlice::Ipv4Endpoint(endpoint) = option else { panic!() };
//!         assert_eq!((endpoint.ipv4_address(), endpoint.port()), ([192, 168, 1, 1], 8080));
//!     }
//! }
//! # Ok::<(), viaductle::Refusal>(())
//! ```
//!
//! What a reading may be told is in [`sd::Settings`]. Streams of TP segments are in [`TpBuf`]. What is refused is a [`Refusal`], with the number that
//! the rules give it, and for an option with the [`Place`] at which it is wrong. docs/MOVING.md leads from someip_parse to this crate, call by call.

#![no_std]
#![deny(unsafe_code)]
#![warn(missing_docs)]

#[allow(unsafe_code)]
mod ffi;
mod message;
mod refusal;
pub mod sd;
mod tp;

pub use message::SomeipMsgSlice;
pub use refusal::{
    LenSource, Place, Refusal, SdConfigurationStringError, Values, MAX_REFUSAL_VALUES,
};
pub use tp::{
    TpBuf, TpRange, TpStream, MAX_TP_NUMBER, MAX_TP_PAYLOAD_LEN, MAX_TP_RANGES, TP_STREAM_WORDS,
};

/// The examples of the README and of docs/MOVING.md, run with the others.
#[cfg(doctest)]
mod pages {
    #[doc = include_str!("../README.md")]
    struct Readme;
    #[doc = include_str!("../../../docs/MOVING.md")]
    struct Moving;
}
