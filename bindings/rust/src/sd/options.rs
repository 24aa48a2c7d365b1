//! One option. Its kind, its part and its fields are read by the library; a configuration option's string and its discardable bit are cut
//! off its part here, since lookups do not scan the string again.

use super::{iterators::handed, shown::All, Settings};
use crate::{ffi, Refusal};
use core::fmt;
use core::net::IpAddr;

/// The bit of an option's first byte by which a receiver may discard it.
pub const DISCARDABLE_FLAG: u8 = 0x80;

/// The transport protocol of an endpoint or a multicast address. Only the strict setting judges it: TCP or UDP, and for multicast UDP.
#[derive(Clone, Copy, Debug, PartialEq, Eq, Hash)]
#[allow(missing_docs)]
pub enum TransportProtocol {
    Tcp,
    Udp,
    Generic(u8),
}

impl From<u8> for TransportProtocol {
    fn from(code: u8) -> Self {
        match code {
            0x06 => TransportProtocol::Tcp,
            0x11 => TransportProtocol::Udp,
            other => TransportProtocol::Generic(other),
        }
    }
}

impl From<TransportProtocol> for u8 {
    fn from(protocol: TransportProtocol) -> u8 {
        match protocol {
            TransportProtocol::Tcp => 0x06,
            TransportProtocol::Udp => 0x11,
            TransportProtocol::Generic(other) => other,
        }
    }
}

/// Whether a configuration string is well-formed; 9 where it is not.
///
/// ```
/// use viaductle::sd::options::validate_configuration_string;
/// use viaductle::{Place, Refusal, SdConfigurationStringError};
///
/// assert_eq!(validate_configuration_string(b"\x03a=1\0"), Ok(()));
/// let refusal = Refusal::ConfigurationString {
///     error: SdConfigurationStringError::EmptyKey { item_offset: 4 },
///     place: Place::Alone(4), // of the string
/// };
/// assert_eq!(validate_configuration_string(b"\x03a=1\x02=1\0"), Err(refusal));
/// ```
pub fn validate_configuration_string(string: &[u8]) -> Result<(), Refusal> {
    ffi::string(string).accepted()?;
    Ok(())
}

/// A configuration option (0x01).
#[derive(Clone, Copy, PartialEq, Eq, Hash)]
pub struct ConfigurationSlice<'a> {
    slice: &'a [u8],
}

impl<'a> ConfigurationSlice<'a> {
    /// The bytes after the type.
    pub fn slice(&self) -> &'a [u8] {
        self.slice
    }

    /// Whether a receiver may discard it.
    pub fn discardable(&self) -> bool {
        self.slice[0] & DISCARDABLE_FLAG != 0
    }

    /// The string, its closing zero byte included.
    pub fn configuration_string(&self) -> &'a [u8] {
        &self.slice[1..]
    }

    /// The string's items. None is refused, unless the option comes from a lookup over bytes that were never read.
    pub fn items(&self) -> ConfigurationItems<'a> {
        ConfigurationItems::new(self.configuration_string())
    }
}

impl fmt::Debug for ConfigurationSlice<'_> {
    fn fmt(&self, f: &mut fmt::Formatter<'_>) -> fmt::Result {
        f.debug_struct("Configuration")
            .field("discardable", &self.discardable())
            .field("items", &All(self.items()))
            .finish()
    }
}

/// One item of a configuration string: a key, and a value behind a `=` if there is one.
#[derive(Clone, Copy, PartialEq, Eq, Hash)]
pub struct ConfigurationItem<'a> {
    slice: &'a [u8],
}

impl<'a> ConfigurationItem<'a> {
    /// Its bytes, without the length byte.
    pub fn slice(&self) -> &'a [u8] {
        self.slice
    }

    fn equals(&self) -> Option<usize> {
        self.slice.iter().position(|byte| *byte == b'=')
    }

    /// The key: what stands before the first `=`, or all.
    pub fn key(&self) -> &'a [u8] {
        &self.slice[..self.equals().unwrap_or(self.slice.len())]
    }

    /// The value: what stands behind the first `=`. Any bytes may.
    pub fn value(&self) -> Option<&'a [u8]> {
        self.equals().map(|at| &self.slice[at + 1..])
    }
}

impl fmt::Debug for ConfigurationItem<'_> {
    fn fmt(&self, f: &mut fmt::Formatter<'_>) -> fmt::Result {
        write!(f, "\"{}\"", self.slice.escape_ascii())
    }
}

/// The items of a configuration string, one after the other; it ends after the first refusal, and at the closing zero byte.
///
/// ```
/// use viaductle::sd::options::ConfigurationItems;
///
/// let mut items = ConfigurationItems::new(b"\x03a=1\x04flag\0");
/// let first = items.next().unwrap()?;
/// assert_eq!((first.key(), first.value()), (&b"a"[..], Some(&b"1"[..])));
/// let second = items.next().unwrap()?;
/// assert_eq!((second.key(), second.value()), (&b"flag"[..], None));
/// assert!(items.next().is_none());
/// # Ok::<(), viaductle::Refusal>(())
/// ```
#[derive(Clone, PartialEq, Eq)]
pub struct ConfigurationItems<'a> {
    string: &'a [u8],
    at: usize,
    ended: bool,
}

impl<'a> ConfigurationItems<'a> {
    /// The items of this string. Whether it is closed, and with nothing behind that, [`validate_configuration_string`] says.
    pub fn new(string: &'a [u8]) -> Self {
        ConfigurationItems {
            string,
            at: 0,
            ended: false,
        }
    }

    /// The next item, or why there is none: 20 at the closing zero byte and with no bytes left, 9 of an item that is wrong, with its offset and
    /// place counted from the string's first byte. A refusal leaves the iterator where it was.
    pub fn advance(&mut self) -> Result<ConfigurationItem<'a>, Refusal> {
        let [start, len, ..] = ffi::next_item(self.string, self.at).accepted()?;
        let slice = &self.string[start as usize..][..len as usize];
        self.at = (start + len) as usize;
        Ok(ConfigurationItem { slice })
    }
}

impl<'a> Iterator for ConfigurationItems<'a> {
    type Item = Result<ConfigurationItem<'a>, Refusal>;

    fn next(&mut self) -> Option<Self::Item> {
        if self.ended {
            return None;
        }
        let answer = self.advance();
        handed(answer, &mut self.ended)
    }
}

/// A load balancing option (0x02).
#[derive(Clone, Copy, PartialEq, Eq, Hash)]
pub struct LoadBalancingSlice<'a> {
    slice: &'a [u8],
    discardable: bool,
    priority: u16,
    weight: u16,
}

impl<'a> LoadBalancingSlice<'a> {
    /// The bytes after the type.
    pub fn slice(&self) -> &'a [u8] {
        self.slice
    }

    /// Whether a receiver may discard it.
    pub fn discardable(&self) -> bool {
        self.discardable
    }

    /// The priority.
    pub fn priority(&self) -> u16 {
        self.priority
    }

    /// The weight.
    pub fn weight(&self) -> u16 {
        self.weight
    }
}

impl fmt::Debug for LoadBalancingSlice<'_> {
    fn fmt(&self, f: &mut fmt::Formatter<'_>) -> fmt::Result {
        f.debug_struct("LoadBalancing")
            .field("discardable", &self.discardable)
            .field("priority", &self.priority)
            .field("weight", &self.weight)
            .finish()
    }
}

/// An option of another type.
#[derive(Clone, Copy, PartialEq, Eq, Hash)]
pub struct UnknownSlice<'a> {
    slice: &'a [u8],
    option_type: u8,
    discardable: bool,
}

impl<'a> UnknownSlice<'a> {
    /// The bytes after the type.
    pub fn slice(&self) -> &'a [u8] {
        self.slice
    }

    /// The type.
    pub fn option_type(&self) -> u8 {
        self.option_type
    }

    /// Whether a receiver may discard it.
    pub fn discardable(&self) -> bool {
        self.discardable
    }
}

impl fmt::Debug for UnknownSlice<'_> {
    fn fmt(&self, f: &mut fmt::Formatter<'_>) -> fmt::Result {
        f.debug_struct("Unknown")
            .field("option_type", &format_args!("{:#04x}", self.option_type))
            .field("discardable", &self.discardable)
            .field("slice", &format_args!("{:02x?}", self.slice))
            .finish()
    }
}

/// An option with an address: six types differ in their names and the address's width.
macro_rules! addressed {
    ($name:ident, $address:ident, $width:literal, $what:literal) => {
        #[doc = $what]
        #[derive(Clone, Copy, PartialEq, Eq, Hash)]
        pub struct $name<'a> {
            slice: &'a [u8],
            address: [u8; $width],
            transport_protocol: TransportProtocol,
            port: u16,
        }

        impl<'a> $name<'a> {
            /// The option, whose bytes are `option`, with the fields that the library read.
            fn of(read: &ffi::Opt, option: &'a [u8]) -> Self {
                debug_assert_eq!(read.address_len, $width);
                let mut address = [0; $width];
                address.copy_from_slice(&option[read.address_at as usize..][..$width]);
                $name {
                    slice: &option[HEADER..],
                    address,
                    transport_protocol: (read.protocol as u8).into(),
                    port: read.port as u16,
                }
            }

            /// The bytes after the type.
            pub fn slice(&self) -> &'a [u8] {
                self.slice
            }

            /// The address.
            pub fn $address(&self) -> [u8; $width] {
                self.address
            }

            /// The transport protocol, which only the strict setting judges.
            pub fn transport_protocol(&self) -> TransportProtocol {
                self.transport_protocol
            }

            /// The port.
            pub fn port(&self) -> u16 {
                self.port
            }
        }

        impl fmt::Debug for $name<'_> {
            fn fmt(&self, f: &mut fmt::Formatter<'_>) -> fmt::Result {
                f.debug_struct(stringify!($name).trim_end_matches("Slice"))
                    .field(stringify!($address), &IpAddr::from(self.address))
                    .field("transport_protocol", &self.transport_protocol)
                    .field("port", &self.port)
                    .finish()
            }
        }
    };
}

addressed!(
    Ipv4EndpointSlice,
    ipv4_address,
    4,
    "An IPv4 endpoint (0x04)."
);
addressed!(
    Ipv6EndpointSlice,
    ipv6_address,
    16,
    "An IPv6 endpoint (0x06)."
);
addressed!(
    Ipv4MulticastSlice,
    ipv4_address,
    4,
    "An IPv4 multicast address (0x14)."
);
addressed!(
    Ipv6MulticastSlice,
    ipv6_address,
    16,
    "An IPv6 multicast address (0x16)."
);
addressed!(
    Ipv4SdEndpointSlice,
    ipv4_address,
    4,
    "An IPv4 endpoint of service discovery (0x24)."
);
addressed!(
    Ipv6SdEndpointSlice,
    ipv6_address,
    16,
    "An IPv6 endpoint of service discovery (0x26)."
);

/// One option, of any kind.
#[derive(Clone, Copy, PartialEq, Eq, Hash)]
#[allow(missing_docs)]
pub enum SdOptionSlice<'a> {
    Configuration(ConfigurationSlice<'a>),
    LoadBalancing(LoadBalancingSlice<'a>),
    Ipv4Endpoint(Ipv4EndpointSlice<'a>),
    Ipv6Endpoint(Ipv6EndpointSlice<'a>),
    Ipv4Multicast(Ipv4MulticastSlice<'a>),
    Ipv6Multicast(Ipv6MulticastSlice<'a>),
    Ipv4SdEndpoint(Ipv4SdEndpointSlice<'a>),
    Ipv6SdEndpoint(Ipv6SdEndpointSlice<'a>),
    Unknown(UnknownSlice<'a>),
}

impl fmt::Debug for SdOptionSlice<'_> {
    fn fmt(&self, f: &mut fmt::Formatter<'_>) -> fmt::Result {
        match self {
            Self::Configuration(option) => option.fmt(f),
            Self::LoadBalancing(option) => option.fmt(f),
            Self::Ipv4Endpoint(option) => option.fmt(f),
            Self::Ipv6Endpoint(option) => option.fmt(f),
            Self::Ipv4Multicast(option) => option.fmt(f),
            Self::Ipv6Multicast(option) => option.fmt(f),
            Self::Ipv4SdEndpoint(option) => option.fmt(f),
            Self::Ipv6SdEndpoint(option) => option.fmt(f),
            Self::Unknown(option) => option.fmt(f),
        }
    }
}

/// The bytes of an option before its part: length and type.
const HEADER: usize = 3;

impl<'a> SdOptionSlice<'a> {
    /// The option in front of these bytes, and the bytes after it, all settings off. Refused by 7, 8 and 9, with the place counted from its
    /// first byte.
    pub fn from_slice(slice: &'a [u8]) -> Result<(Self, &'a [u8]), Refusal> {
        Self::from_slice_with(slice, Settings::new())
    }

    /// The same as the settings say: under the strict setting also refused by 23. An unknown option passes in any case.
    pub fn from_slice_with(
        slice: &'a [u8],
        settings: Settings,
    ) -> Result<(Self, &'a [u8]), Refusal> {
        let read = ffi::read_option(slice, settings.word());
        read.answer.accepted()?;
        let (option, rest) = slice.split_at(read.size as usize);
        Ok((Self::of(&read, option), rest))
    }

    /// The option that a lookup or a cursor found among `options`. What was judged is not judged again: a configuration string is not scanned,
    /// and the other kinds' fields are read with all settings off.
    pub(super) fn found(answer: ffi::Answer, options: &'a [u8]) -> Result<Self, Refusal> {
        let [code, at, size, ..] = answer.accepted()?;
        let option = &options[at as usize..][..size as usize];
        if code == CONFIGURATION {
            return Ok(Self::configuration(option));
        }
        let read = ffi::read_option(option, Settings::new().word());
        read.answer.accepted()?;
        Ok(Self::of(&read, option))
    }

    fn configuration(option: &'a [u8]) -> Self {
        Self::Configuration(ConfigurationSlice {
            slice: &option[HEADER..],
        })
    }

    /// The option, whose bytes are `option`, with the fields that the library read.
    fn of(read: &ffi::Opt, option: &'a [u8]) -> Self {
        let slice = &option[HEADER..];
        let discardable = read.discardable != 0;
        match read.code {
            CONFIGURATION => {
                debug_assert_eq!(
                    [read.string_at, read.string_len],
                    [4, slice.len() as u64 - 1]
                );
                Self::configuration(option)
            }
            0x02 => Self::LoadBalancing(LoadBalancingSlice {
                slice,
                discardable,
                priority: read.priority as u16,
                weight: read.weight as u16,
            }),
            0x04 => Self::Ipv4Endpoint(Ipv4EndpointSlice::of(read, option)),
            0x06 => Self::Ipv6Endpoint(Ipv6EndpointSlice::of(read, option)),
            0x14 => Self::Ipv4Multicast(Ipv4MulticastSlice::of(read, option)),
            0x16 => Self::Ipv6Multicast(Ipv6MulticastSlice::of(read, option)),
            0x24 => Self::Ipv4SdEndpoint(Ipv4SdEndpointSlice::of(read, option)),
            0x26 => Self::Ipv6SdEndpoint(Ipv6SdEndpointSlice::of(read, option)),
            code => Self::Unknown(UnknownSlice {
                slice,
                option_type: code as u8,
                discardable,
            }),
        }
    }
}

const CONFIGURATION: u64 = 0x01;
