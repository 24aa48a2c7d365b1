//! One entry of 16 bytes. Its fields are read by the library.

use crate::{ffi, Refusal};
use core::fmt;

/// The bytes of an entry.
pub const ENTRY_LEN: usize = 16;

/// A number of at most four bits.
#[derive(Clone, Copy, Debug, Default, PartialEq, Eq, PartialOrd, Ord, Hash)]
pub struct U4(u8);

impl U4 {
    /// The number, if it has at most four bits.
    pub const fn try_new(value: u8) -> Option<U4> {
        if value <= 0x0f {
            Some(U4(value))
        } else {
            None
        }
    }

    /// The number.
    pub const fn value(self) -> u8 {
        self.0
    }
}

/// A number of at most 24 bits.
#[derive(Clone, Copy, Debug, Default, PartialEq, Eq, PartialOrd, Ord, Hash)]
pub struct U24(u32);

impl U24 {
    /// The number.
    pub const fn value(self) -> u32 {
        self.0
    }
}

/// The two types of service entries.
#[derive(Clone, Copy, Debug, PartialEq, Eq, Hash)]
#[allow(missing_docs)]
pub enum SdServiceEntryType {
    FindService = 0x00,
    OfferService = 0x01,
}

/// The two types of eventgroup entries.
#[derive(Clone, Copy, Debug, PartialEq, Eq, Hash)]
#[allow(missing_docs)]
pub enum EventGroupEntryType {
    SubscribeOrStop = 0x06,
    SubscribeAckOrNack = 0x07,
}

/// What every entry has after its type.
#[derive(Clone, Copy, PartialEq, Eq, Hash)]
struct Head {
    start1: u8,
    start2: u8,
    count1: U4,
    count2: U4,
    service: u16,
    instance: u16,
    major: u8,
    ttl: U24,
}

impl Head {
    /// For `Debug`: what it has, and the two runs as numbers of options.
    fn show(&self, shown: &mut fmt::DebugStruct<'_, '_>) {
        let run = |start: u8, count: U4| u16::from(start)..u16::from(start) + u16::from(count.0);
        shown
            .field("service_id", &format_args!("{:#06x}", self.service))
            .field("instance_id", &format_args!("{:#06x}", self.instance))
            .field("major_version", &self.major)
            .field("ttl", &self.ttl.0)
            .field("run_1", &run(self.start1, self.count1))
            .field("run_2", &run(self.start2, self.count2));
    }
}

macro_rules! head_accessors {
    ($first:ident, $second:ident) => {
        /// The entry's 16 bytes.
        pub fn slice(&self) -> &'a [u8] {
            self.slice
        }

        /// Where the first run of options starts, in options.
        pub fn $first(&self) -> u8 {
            self.head.start1
        }

        /// Where the second run of options starts, in options.
        pub fn $second(&self) -> u8 {
            self.head.start2
        }

        /// How many options the first run has.
        pub fn number_of_options_1(&self) -> U4 {
            self.head.count1
        }

        /// How many options the second run has.
        pub fn number_of_options_2(&self) -> U4 {
            self.head.count2
        }

        /// The service id.
        pub fn service_id(&self) -> u16 {
            self.head.service
        }

        /// The instance id.
        pub fn instance_id(&self) -> u16 {
            self.head.instance
        }

        /// The major version.
        pub fn major_version(&self) -> u8 {
            self.head.major
        }

        /// The time to live, in seconds.
        pub fn ttl(&self) -> U24 {
            self.head.ttl
        }
    };
}

/// A find or an offer.
#[derive(Clone, Copy, PartialEq, Eq, Hash)]
pub struct ServiceEntrySlice<'a> {
    slice: &'a [u8],
    head: Head,
    entry_type: SdServiceEntryType,
    minor_version: u32,
}

impl<'a> ServiceEntrySlice<'a> {
    head_accessors!(start_index_options_1, start_index_options_2);

    /// Which of the two types it is.
    pub fn entry_type(&self) -> SdServiceEntryType {
        self.entry_type
    }

    /// The minor version.
    pub fn minor_version(&self) -> u32 {
        self.minor_version
    }
}

impl fmt::Debug for ServiceEntrySlice<'_> {
    fn fmt(&self, f: &mut fmt::Formatter<'_>) -> fmt::Result {
        let mut shown = f.debug_struct(match self.entry_type {
            SdServiceEntryType::FindService => "FindService",
            SdServiceEntryType::OfferService => "OfferService",
        });
        self.head.show(&mut shown);
        shown.field("minor_version", &self.minor_version).finish()
    }
}

/// A subscribe or its acknowledgement.
#[derive(Clone, Copy, PartialEq, Eq, Hash)]
pub struct EventGroupEntrySlice<'a> {
    slice: &'a [u8],
    head: Head,
    entry_type: EventGroupEntryType,
    reserved: u8,
    initial_data_requested: bool,
    spare: u8,
    counter: U4,
    eventgroup_id: u16,
}

impl<'a> EventGroupEntrySlice<'a> {
    head_accessors!(index_first_option_run, index_second_option_run);

    /// Which of the two types it is.
    pub fn entry_type(&self) -> EventGroupEntryType {
        self.entry_type
    }

    /// Whether the server shall send initial data.
    pub fn initial_data_requested(&self) -> bool {
        self.initial_data_requested
    }

    /// What tells identical subscribes of one subscriber apart.
    pub fn counter(&self) -> U4 {
        self.counter
    }

    /// The eventgroup id.
    pub fn eventgroup_id(&self) -> u16 {
        self.eventgroup_id
    }

    /// The reserved byte before the flags, as sent.
    pub fn reserved(&self) -> u8 {
        self.reserved
    }

    /// The three reserved bits between the flag and the counter, as sent.
    pub fn spare(&self) -> u8 {
        self.spare
    }
}

impl fmt::Debug for EventGroupEntrySlice<'_> {
    fn fmt(&self, f: &mut fmt::Formatter<'_>) -> fmt::Result {
        let mut shown = f.debug_struct(match self.entry_type {
            EventGroupEntryType::SubscribeOrStop => "SubscribeOrStop",
            EventGroupEntryType::SubscribeAckOrNack => "SubscribeAckOrNack",
        });
        self.head.show(&mut shown);
        shown
            .field(
                "eventgroup_id",
                &format_args!("{:#06x}", self.eventgroup_id),
            )
            .field("counter", &self.counter.0)
            .field("initial_data_requested", &self.initial_data_requested)
            .finish()
    }
}

/// One entry, of either kind.
#[derive(Clone, Copy, PartialEq, Eq, Hash)]
#[allow(missing_docs)]
pub enum SdEntrySlice<'a> {
    Service(ServiceEntrySlice<'a>),
    Eventgroup(EventGroupEntrySlice<'a>),
}

impl fmt::Debug for SdEntrySlice<'_> {
    fn fmt(&self, f: &mut fmt::Formatter<'_>) -> fmt::Result {
        match self {
            SdEntrySlice::Service(entry) => entry.fmt(f),
            SdEntrySlice::Eventgroup(entry) => entry.fmt(f),
        }
    }
}

/// Asks either kind.
macro_rules! either {
    ($self:ident, $service:ident, $eventgroup:ident) => {
        match $self {
            SdEntrySlice::Service(entry) => entry.$service(),
            SdEntrySlice::Eventgroup(entry) => entry.$eventgroup(),
        }
    };
}

impl<'a> SdEntrySlice<'a> {
    /// The entry in front of these bytes; later bytes are not read. Refused by 1 below 16 bytes, then by 11.
    pub fn from_slice(slice: &'a [u8]) -> Result<Self, Refusal> {
        Self::of(ffi::read_entry(slice), slice)
    }

    /// The entry in front of `slice`, which the library read.
    pub(super) fn of(read: ffi::Entry, slice: &'a [u8]) -> Result<Self, Refusal> {
        read.answer.accepted()?;
        let slice = &slice[..ENTRY_LEN];
        let head = Head {
            start1: read.start1 as u8,
            start2: read.start2 as u8,
            count1: U4(read.count1 as u8),
            count2: U4(read.count2 as u8),
            service: read.service as u16,
            instance: read.instance as u16,
            major: read.major as u8,
            ttl: U24(read.ttl as u32),
        };
        let service = |entry_type| {
            Self::Service(ServiceEntrySlice {
                slice,
                head,
                entry_type,
                minor_version: read.minor as u32,
            })
        };
        let eventgroup = |entry_type| {
            Self::Eventgroup(EventGroupEntrySlice {
                slice,
                head,
                entry_type,
                reserved: read.reserved as u8,
                initial_data_requested: read.initial_data != 0,
                spare: read.spare as u8,
                counter: U4(read.counter as u8),
                eventgroup_id: read.eventgroup as u16,
            })
        };
        Ok(match read.code {
            0x00 => service(SdServiceEntryType::FindService),
            0x01 => service(SdServiceEntryType::OfferService),
            0x06 => eventgroup(EventGroupEntryType::SubscribeOrStop),
            0x07 => eventgroup(EventGroupEntryType::SubscribeAckOrNack),
            code => return Err(Refusal::UnknownSdServiceEntryType(code as u8)),
        })
    }

    /// The entry's 16 bytes.
    pub fn slice(&self) -> &'a [u8] {
        either!(self, slice, slice)
    }

    /// Where the first run of options starts, in options.
    pub fn start_index_options_1(&self) -> u8 {
        either!(self, start_index_options_1, index_first_option_run)
    }

    /// Where the second run of options starts, in options.
    pub fn start_index_options_2(&self) -> u8 {
        either!(self, start_index_options_2, index_second_option_run)
    }

    /// How many options the first run has.
    pub fn number_of_options_1(&self) -> U4 {
        either!(self, number_of_options_1, number_of_options_1)
    }

    /// How many options the second run has.
    pub fn number_of_options_2(&self) -> U4 {
        either!(self, number_of_options_2, number_of_options_2)
    }

    /// The service id.
    pub fn service_id(&self) -> u16 {
        either!(self, service_id, service_id)
    }

    /// The instance id.
    pub fn instance_id(&self) -> u16 {
        either!(self, instance_id, instance_id)
    }

    /// The major version.
    pub fn major_version(&self) -> u8 {
        either!(self, major_version, major_version)
    }

    /// The time to live, in seconds.
    pub fn ttl(&self) -> U24 {
        either!(self, ttl, ttl)
    }
}
