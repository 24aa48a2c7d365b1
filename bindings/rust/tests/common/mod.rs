//! Bytes for the tests, and the settings.
#![allow(dead_code)]

use viaductle::sd::Settings;

/// The rules' whole payload: an offer whose first run holds one IPv4 endpoint.
pub const WHOLE: &str =
    "80000000 00000010 01000010 12345678 01000E10 01000000 0000000C 00090400 C0A80101 00061F90";

/// The header of a service discovery message, session 7.
pub const HEADER: &str = "FFFF8100 00000000 00000007 01010200";

/// The bytes of hex text, spaces left out.
pub fn hex(text: &str) -> Vec<u8> {
    let digits: Vec<u32> = text.chars().filter_map(|c| c.to_digit(16)).collect();
    digits
        .chunks(2)
        .map(|pair| (pair[0] << 4 | pair[1]) as u8)
        .collect()
}

/// A payload of these entries and options.
pub fn payload(entries: &[u8], options: &[u8]) -> Vec<u8> {
    let mut bytes = vec![0; 4];
    for part in [entries, options] {
        bytes.extend((part.len() as u32).to_be_bytes());
        bytes.extend(part);
    }
    bytes
}

/// The six kinds with an address: the type, and at which byte of the option the transport protocol stands.
pub const ADDRESSED: [(u8, usize); 6] = [
    (0x04, 9),
    (0x06, 21),
    (0x14, 9),
    (0x16, 21),
    (0x24, 9),
    (0x26, 21),
];

/// Whether a kind with an address is multicast.
pub fn is_multicast(code: u8) -> bool {
    code == 0x14 || code == 0x16
}

/// An option of a kind with an address. Its protocol stands at the byte whose number is also its length; all that is not judged is 0x55.
pub fn addressed(code: u8, at: usize, protocol: u8) -> Vec<u8> {
    let mut option = vec![0x55; 3 + at];
    option[..3].copy_from_slice(&[0, at as u8, code]);
    option[at] = protocol;
    option
}

pub const STRICT: Settings = Settings::new().strict(true);

/// Both settings off, each alone, and both.
pub const EVERY_SETTING: [Settings; 4] = [
    Settings::new(),
    Settings::new().discard_unknown_option(true),
    STRICT,
    STRICT.discard_unknown_option(true),
];

/// A notification's TP segment.
pub fn segment(offset: u32, more: bool, payload: &[u8]) -> Vec<u8> {
    let mut bytes = hex("12348001");
    bytes.extend((12 + payload.len() as u32).to_be_bytes());
    bytes.extend(hex("00000001 01012200"));
    bytes.extend((offset | u32::from(more)).to_be_bytes());
    bytes.extend(payload);
    bytes
}
