//! At which byte refusals 7 to 10 say that it went wrong, and which option the strict setting refuses by 23. The crate tells no place and has no such
//! setting: this is a walk of the comparison's own over the bytes, written from the rules and neither from the port nor from the crate. What it finds
//! must be what the crate refused, or the two are no answer; 23 is the walk's alone.

use crate::calls::Settings;
use std::collections::BTreeMap;
use std::fmt;

/// What the walk found to be wrong.
#[derive(Clone, Copy, Debug, PartialEq, Eq, PartialOrd, Ord)]
pub enum Cause {
    /// 7: under three bytes, which hold no length and type.
    NoHead,
    /// 7: fewer bytes than the option's length says.
    CutShort,
    /// 7: another length than its kind has.
    OtherLength,
    /// 8.
    LengthZero,
    /// 9, by its error.
    Text(u64),
    /// 10.
    Unknown,
    /// 23: a transport protocol that is neither TCP nor UDP, by the option's type.
    OtherProtocol(u8),
    /// 23: TCP in a multicast option, by its type.
    MulticastTcp(u8),
}

impl Cause {
    /// Those that any settings refuse.
    pub const PLAIN: [Cause; 11] = [
        Cause::NoHead,
        Cause::CutShort,
        Cause::OtherLength,
        Cause::LengthZero,
        Cause::Text(1),
        Cause::Text(2),
        Cause::Text(3),
        Cause::Text(4),
        Cause::Text(5),
        Cause::Text(6),
        Cause::Unknown,
    ];

    /// Those that the strict setting alone refuses.
    pub const STRICT: [Cause; 8] = [
        Cause::OtherProtocol(0x04),
        Cause::OtherProtocol(0x06),
        Cause::OtherProtocol(0x14),
        Cause::OtherProtocol(0x16),
        Cause::OtherProtocol(0x24),
        Cause::OtherProtocol(0x26),
        Cause::MulticastTcp(0x14),
        Cause::MulticastTcp(0x16),
    ];

    /// The number by which it is refused.
    pub fn number(self) -> u64 {
        match self {
            Cause::NoHead | Cause::CutShort | Cause::OtherLength => 7,
            Cause::LengthZero => 8,
            Cause::Text(_) => 9,
            Cause::Unknown => 10,
            Cause::OtherProtocol(_) | Cause::MulticastTcp(_) => 23,
        }
    }
}

impl fmt::Display for Cause {
    fn fmt(&self, f: &mut fmt::Formatter<'_>) -> fmt::Result {
        match self {
            Cause::NoHead => f.write_str("7, under three bytes"),
            Cause::CutShort => f.write_str("7, its whole length"),
            Cause::OtherLength => f.write_str("7, its kind's length"),
            Cause::LengthZero => f.write_str("8"),
            Cause::Text(error) => write!(f, "9, string error {error}"),
            Cause::Unknown => f.write_str("10"),
            Cause::OtherProtocol(code) => write!(f, "23, neither TCP nor UDP in {code:#04x}"),
            Cause::MulticastTcp(code) => write!(f, "23, TCP in multicast {code:#04x}"),
        }
    }
}

/// What is wrong, in which option, and at which byte; both counted from the same byte.
#[derive(Clone, Copy, Debug, PartialEq, Eq)]
pub struct Fault {
    pub cause: Cause,
    /// Where the refused option begins; 0 in a string alone.
    pub option: usize,
    pub place: usize,
}

impl Fault {
    /// Of an option, at this one of its bytes.
    fn at(cause: Cause, place: usize) -> Fault {
        Fault {
            cause,
            option: 0,
            place,
        }
    }

    /// The same, counted from `bytes` bytes before the option.
    fn behind(self, bytes: usize) -> Fault {
        Fault {
            option: self.option + bytes,
            place: self.place + bytes,
            ..self
        }
    }
}

/// How often lists of options were refused for an option, by why: for their first one, and for a later one.
#[derive(Default)]
pub struct Faults(pub BTreeMap<Cause, [u64; 2]>);

impl Faults {
    pub fn count(&mut self, fault: Option<Fault>) {
        if let Some(fault) = fault {
            let counts = self.0.entry(fault.cause).or_default();
            counts[usize::from(fault.option > 0)] += 1;
        }
    }

    pub fn add(&mut self, other: Faults) {
        for (cause, [first, later]) in other.0 {
            let counts = self.0.entry(cause).or_default();
            counts[0] += first;
            counts[1] += later;
        }
    }

    pub fn print(&self) {
        if !self.0.is_empty() {
            println!("payloads, messages and options parts refused for their first option, and for a later one:");
        }
        for (cause, [first, later]) in &self.0 {
            println!("  {first:>12} {later:>12}  {cause}");
        }
    }
}

// ---- strings

/// What is wrong with the key of an item that has at least one byte: by which error it is refused.
fn key_error(item: &[u8]) -> Option<u64> {
    let end = item.iter().position(|byte| *byte == b'=');
    let key = &item[..end.unwrap_or(item.len())];
    if key.is_empty() {
        Some(4)
    } else if key.iter().any(|byte| *byte < 0x20 || *byte > 0x7e) {
        Some(5)
    } else if key.iter().all(|byte| *byte == 0x20) {
        Some(6)
    } else {
        None
    }
}

/// The item whose length byte is byte `at` of a string, which is the place. A closing 0 is no item, and neither is no byte at all.
pub fn in_item(string: &[u8], at: usize) -> Option<Fault> {
    let length = match string.get(at) {
        None | Some(0) => return None,
        Some(length) => usize::from(*length),
    };
    let first = at + 1;
    let error = if string.len() - first < length {
        2
    } else {
        key_error(&string[first..first + length])?
    };
    Some(Fault::at(Cause::Text(error), at))
}

/// A string: the place is the length byte of the item at fault, the closing 0 with bytes behind it, or the string's end where no 0 closes it.
pub fn in_string(string: &[u8]) -> Option<Fault> {
    let mut at = 0;
    while at < string.len() {
        if string[at] == 0 {
            let last = string.len() - 1;
            return (at != last).then_some(Fault::at(Cause::Text(3), at));
        }
        if let Some(fault) = in_item(string, at) {
            return Some(fault);
        }
        at += 1 + usize::from(string[at]);
    }
    Some(Fault::at(Cause::Text(1), string.len()))
}

// ---- options

/// How many bytes an option takes by its length field.
fn size(option: &[u8]) -> usize {
    3 + 256 * usize::from(option[0]) + usize::from(option[1])
}

/// The length of a kind that has a fixed one.
fn kind_length(code: u8) -> Option<usize> {
    match code {
        0x02 => Some(5),
        0x04 | 0x14 | 0x24 => Some(9),
        0x06 | 0x16 | 0x26 => Some(21),
        _ => None,
    }
}

const TCP: u8 = 0x06;
const UDP: u8 = 0x11;

/// Which byte of an option with an address is its transport protocol: behind the length (2), the type, the first byte, the address (4 or 16) and a
/// reserved byte.
fn protocol_place(code: u8) -> Option<usize> {
    match code {
        0x04 | 0x14 | 0x24 => Some(9),
        0x06 | 0x16 | 0x26 => Some(21),
        _ => None,
    }
}

/// An option whose length is right, under the strict setting: one with an address carries TCP or UDP, and multicast (0x14, 0x16) only UDP. The
/// protocol's byte is the place.
fn in_protocol(option: &[u8]) -> Option<Fault> {
    let code = option[2];
    let place = protocol_place(code)?;
    let multicast = code == 0x14 || code == 0x16;
    let cause = match option[place] {
        UDP => return None,
        TCP if multicast => Cause::MulticastTcp(code),
        TCP => return None,
        _ => Cause::OtherProtocol(code),
    };
    Some(Fault::at(cause, place))
}

/// The option in front of these bytes, counted from its first byte, which is the place for 7 and 8; for 9 the place is one in the string, which
/// begins at byte 4. Whether unknown options are discarded makes no difference here.
pub fn in_option(bytes: &[u8], settings: Settings) -> Option<Fault> {
    if bytes.len() < 3 {
        return Some(Fault::at(Cause::NoHead, 0));
    }
    let size = size(bytes);
    if size == 3 {
        return Some(Fault::at(Cause::LengthZero, 0));
    }
    if size > bytes.len() {
        return Some(Fault::at(Cause::CutShort, 0));
    }
    if bytes[2] == 0x01 {
        let fault = in_string(&bytes[4..size])?;
        return Some(Fault::at(fault.cause, 4 + fault.place));
    }
    match kind_length(bytes[2]) {
        Some(length) if 3 + length != size => Some(Fault::at(Cause::OtherLength, 0)),
        _ if settings.strict => in_protocol(bytes),
        _ => None,
    }
}

/// The first option of an options part that is wrong by itself, counted from the part's first byte.
pub fn in_options(options: &[u8], settings: Settings) -> Option<Fault> {
    let mut at = 0;
    while at < options.len() {
        let rest = &options[at..];
        if let Some(fault) = in_option(rest, settings) {
            return Some(fault.behind(at));
        }
        at += size(rest);
    }
    None
}

/// The first option of unknown type without the discardable bit; the byte with that bit, the option's fourth, is the place. Each option of the
/// part is right by itself.
fn unknown_in(options: &[u8]) -> Option<Fault> {
    let mut at = 0;
    while at < options.len() {
        let rest = &options[at..];
        let known = rest[2] == 0x01 || kind_length(rest[2]).is_some();
        if !known && rest[3] & 0x80 == 0 {
            return Some(Fault::at(Cause::Unknown, 3).behind(at));
        }
        at += size(rest);
    }
    None
}

/// The options part of a payload whose lengths are right. Of a message the payload is what is behind the header.
pub fn options_part(payload: &[u8]) -> Option<&[u8]> {
    let field = payload.get(4..8)?;
    let entries = field
        .iter()
        .fold(0, |number, byte| 256 * number + usize::from(*byte));
    payload.get(8 + entries + 4..)
}

/// The options of a payload whose lengths are right, counted from the first byte of its options part.
pub fn in_payload(payload: &[u8], settings: Settings) -> Option<Fault> {
    let options = options_part(payload)?;
    match in_options(options, settings) {
        None if !settings.discard => unknown_in(options),
        fault => fault,
    }
}

#[cfg(test)]
mod tests {
    use super::*;
    use crate::calls::{DISCARD, STRICT};

    fn hex(text: &str) -> Vec<u8> {
        let digits: Vec<u8> = text.bytes().filter(|b| *b != b' ').collect();
        digits
            .chunks(2)
            .map(|pair| u8::from_str_radix(std::str::from_utf8(pair).unwrap(), 16).unwrap())
            .collect()
    }

    /// Strings with their error and its place, counted by hand.
    const STRINGS: [(&str, u64, usize); 20] = [
        // No closing 0: one past the last byte.
        ("", 1, 0),
        ("01 41", 1, 2),
        ("03 61 3D 31 02 62 63", 1, 7),
        // An item that says more than is left: its length byte.
        ("05 41 00", 2, 0),
        ("01", 2, 0),
        ("01 41 05 42 00", 2, 2),
        ("02 61 3D FF", 2, 3),
        // Bytes behind the closing 0: the closing 0.
        ("00 00", 3, 0),
        ("01 41 00 00", 3, 2),
        ("03 61 3D 00 00 01 41 00", 3, 4),
        // An item's key: its length byte, wherever in the key the fault is.
        ("01 3D 00", 4, 0),
        ("01 41 02 3D 3D 00", 4, 2),
        ("02 41 FF 00", 5, 0),
        ("01 41 05 42 42 42 1F 3D 00", 5, 2),
        ("01 7F 00", 5, 0),
        ("02 20 1F 00", 5, 0),
        ("01 20 00", 6, 0),
        ("04 61 3D 3D 3D 03 20 20 3D 00", 6, 5),
        // The first item that is wrong; nothing behind it is looked at.
        ("01 20 05 41", 6, 0),
        ("01 41 01 3D 00 00", 4, 2),
    ];

    #[test]
    fn strings() {
        for (text, error, place) in STRINGS {
            let want = Fault::at(Cause::Text(error), place);
            assert_eq!(in_string(&hex(text)), Some(want), "{text}");
        }
        for good in ["00", "03 41 3D FF 00", "01 7E 01 21 02 20 41 00"] {
            assert_eq!(in_string(&hex(good)), None, "{good}");
        }
    }

    #[test]
    fn items() {
        let string = hex("01 41 02 3D 42 05 43 00");
        assert_eq!(in_item(&string, 0), None);
        assert_eq!(in_item(&string, 2), Some(Fault::at(Cause::Text(4), 2)));
        assert_eq!(in_item(&string, 5), Some(Fault::at(Cause::Text(2), 5)));
        assert_eq!((in_item(&string, 7), in_item(&string, 8)), (None, None));
        assert_eq!(in_item(&string, usize::MAX), None);
    }

    /// Options with what is wrong and at which of their own bytes, counted by hand.
    fn bad_options() -> Vec<(Vec<u8>, Cause, usize)> {
        let mut all = vec![
            (hex("00"), Cause::NoHead, 0),
            (hex("00 01"), Cause::NoHead, 0),
            (hex("00 05 02 80"), Cause::CutShort, 0),
            (hex("00 01 77"), Cause::CutShort, 0),
            (hex("01 00 77 80"), Cause::CutShort, 0),
            (hex("00 01 02 80"), Cause::OtherLength, 0),
            (hex("00 06 02 80 00 00 00 00 00"), Cause::OtherLength, 0),
            (hex("00 05 04 00 00 00 00 00"), Cause::OtherLength, 0),
            (hex("00 05 26 00 00 00 00 00"), Cause::OtherLength, 0),
            (hex("00 00 77"), Cause::LengthZero, 0),
            (hex("00 00 01"), Cause::LengthZero, 0),
        ];
        // A string begins at the option's byte 4.
        for (text, error, place) in STRINGS {
            let string = hex(text);
            let mut option = vec![0, 1 + string.len() as u8, 0x01, 0x80];
            option.extend(string);
            all.push((option, Cause::Text(error), 4 + place));
        }
        all
    }

    #[test]
    fn options() {
        for settings in Settings::ALL {
            for (option, cause, place) in bad_options() {
                let found = in_option(&option, settings);
                assert_eq!(found, Some(Fault::at(cause, place)));
            }
            let empty = in_option(&[], settings);
            assert_eq!(empty, Some(Fault::at(Cause::NoHead, 0)));
            for good in [
                "00 01 77 00",
                "00 02 01 00 00",
                "00 05 02 00 00 00 00 00",
                "00 09 14 00 EF 00 00 01 00 11 75 30",
                "00 01 77 80 FF", // what is behind is not looked at
            ] {
                assert_eq!(in_option(&hex(good), settings), None, "{good}");
            }
        }
    }

    /// Options with an address whose protocol is wrong, with its place, counted by hand.
    fn wrong_protocols() -> Vec<(Vec<u8>, Cause, usize)> {
        [
            (
                "00 09 04 00 C0 A8 01 01 00 99 1F 90",
                Cause::OtherProtocol(0x04),
                9,
            ),
            // Beside the protocol stand bytes that would do.
            (
                "00 09 24 06 06 11 06 11 06 00 11 06",
                Cause::OtherProtocol(0x24),
                9,
            ),
            (
                "00 09 14 11 EF 11 11 11 11 12 11 11",
                Cause::OtherProtocol(0x14),
                9,
            ),
            (
                "00 09 14 00 EF 00 00 01 11 06 11 30",
                Cause::MulticastTcp(0x14),
                9,
            ),
            (
                "00 15 06 00 FD 00 00 00 00 09 00 11 00 00 00 00 00 00 00 01 11 05 11 90",
                Cause::OtherProtocol(0x06),
                21,
            ),
            (
                "00 15 26 80 06 06 06 06 06 06 06 06 06 06 06 06 06 06 06 06 06 FF 06 06",
                Cause::OtherProtocol(0x26),
                21,
            ),
            (
                "00 15 16 00 FF 02 00 00 00 11 11 11 11 11 11 11 11 11 11 01 11 91 11 11",
                Cause::OtherProtocol(0x16),
                21,
            ),
            (
                "00 15 16 00 FF 02 00 00 00 11 11 11 11 11 11 11 11 11 11 01 11 06 11 11",
                Cause::MulticastTcp(0x16),
                21,
            ),
        ]
        .map(|(text, cause, place)| (hex(text), cause, place))
        .to_vec()
    }

    /// What the strict setting refuses, and it alone; after the length, and in no other kind.
    #[test]
    fn protocols() {
        for (option, cause, place) in wrong_protocols() {
            for strict in [STRICT, DISCARD | STRICT].map(Settings::of) {
                let want = Some(Fault::at(cause, place));
                assert_eq!(in_option(&option, strict), want, "{option:02x?}");
                let mut good = option.clone();
                good[place] = UDP;
                assert_eq!(in_option(&good, strict), None);
                good[place] = TCP;
                let multicast = [0x14, 0x16].contains(&option[2]);
                let want = multicast.then_some(Fault::at(Cause::MulticastTcp(option[2]), place));
                assert_eq!(in_option(&good, strict), want);
                // One byte fewer than its kind has, and none at all.
                let mut short = option.clone();
                short[1] -= 1;
                let want = Some(Fault::at(Cause::OtherLength, 0));
                assert_eq!(in_option(&short, strict), want);
                short[1] = 0;
                let want = Some(Fault::at(Cause::LengthZero, 0));
                assert_eq!(in_option(&short, strict), want);
                let cut = &option[..option.len() - 1];
                let want = Some(Fault::at(Cause::CutShort, 0));
                assert_eq!(in_option(cut, strict), want);
                // An unknown type with the same bytes behind it.
                let mut unknown = option.clone();
                unknown[2] = 0x34;
                assert_eq!(in_option(&unknown, strict), None);
            }
            for lenient in [0, DISCARD].map(Settings::of) {
                assert_eq!(in_option(&option, lenient), None);
            }
        }
    }

    /// Behind 4 and behind 4 + 12 + 9 bytes of good options, and in front of nothing.
    #[test]
    fn options_parts() {
        let front = "00 01 77 80";
        let more = "00 01 77 80 00 09 04 00 C0 A8 01 01 00 06 1F 90 00 06 01 00 03 61 3D 31 00";
        for (good, start) in [("", 0), (front, 4), (more, 25)] {
            let behind = |cause, place| {
                Some(Fault {
                    cause,
                    option: start,
                    place: start + place,
                })
            };
            for (option, cause, place) in bad_options() {
                let options = [hex(good), option].concat();
                for settings in Settings::ALL {
                    let found = in_options(&options, settings);
                    assert_eq!(found, behind(cause, place));
                }
            }
            for settings in Settings::ALL {
                assert_eq!(in_options(&hex(good), settings), None);
            }
            for (option, cause, place) in wrong_protocols() {
                let options = [hex(good), option].concat();
                let found = in_options(&options, Settings::STRICT);
                assert_eq!(found, behind(cause, place));
                assert_eq!(in_options(&options, Settings::OFF), None);
                // In front of an option that is wrong by itself, the protocol comes first; behind it, it is not come to.
                for (other, reason, at) in bad_options() {
                    let found = in_options(&[&options[..], &other].concat(), Settings::STRICT);
                    assert_eq!(found, behind(cause, place));
                    let late = [&hex(good)[..], &other, &options[start..]].concat();
                    let found = in_options(&late, Settings::STRICT);
                    if ![Cause::NoHead, Cause::CutShort].contains(&reason) {
                        assert_eq!(found, behind(reason, at));
                    }
                }
            }
        }
    }

    /// Counted from the options part, whatever is in front of it; 10 comes after all options are read, unless unknown ones are discarded.
    #[test]
    fn payloads() {
        let payload = |entries: usize, options: &str| {
            let mut bytes = vec![0x80, 0, 0, 0, 0, 0, 0, entries as u8];
            bytes.resize(8 + entries, 0);
            let options = hex(options);
            bytes.extend((options.len() as u32).to_be_bytes());
            bytes.extend(options);
            bytes
        };
        for entries in [0, 16, 48] {
            let under = |text, word| in_payload(&payload(entries, text), Settings::of(word));
            let fault = |text, discard| under(text, if discard { DISCARD } else { 0 });
            let unknown = |option| {
                Some(Fault {
                    cause: Cause::Unknown,
                    option,
                    place: option + 3,
                })
            };
            assert_eq!(fault("00 01 77 00", false), unknown(0));
            assert_eq!(fault("00 01 77 00", true), None);
            assert_eq!(
                fault(
                    "00 02 77 80 00 00 02 01 00 00 00 01 78 7F 00 01 77 00",
                    false
                ),
                unknown(10)
            );
            let later = Some(Fault {
                cause: Cause::LengthZero,
                option: 4,
                place: 4,
            });
            assert_eq!(fault("00 01 77 00 00 00 77", false), later);
            assert_eq!(fault("00 01 77 00 00 00 77", true), later);
            assert_eq!(fault("", false), None);
            // A protocol is judged with its option: in front of 10, wherever the unknown option stands, and in front of a later 8.
            let protocol = |option| {
                Some(Fault {
                    cause: Cause::OtherProtocol(0x04),
                    option,
                    place: option + 9,
                })
            };
            let counterfeit = "00 09 04 00 C0 A8 01 01 00 99 1F 90";
            let behind = format!("00 01 77 00 {counterfeit}");
            let before = format!("{counterfeit} 00 01 77 00 00 00 77");
            for strict in [STRICT, DISCARD | STRICT] {
                assert_eq!(under(counterfeit, strict), protocol(0));
                assert_eq!(under(&behind, strict), protocol(4));
                assert_eq!(under(&before, strict), protocol(0));
            }
            assert_eq!(under(&behind, 0), unknown(0));
            assert_eq!(under(&behind, DISCARD), None);
            assert_eq!(under("00 01 77 00", STRICT), unknown(0));
        }
        assert_eq!(in_payload(&[0; 7], Settings::OFF), None);
        assert_eq!(in_payload(&[0xff; 12], Settings::STRICT), None);
    }
}
