//! Seeded inputs for the service discovery side: payloads of many families, messages with SD header, options parts, strings, and the
//! exhaustive short ones. An input is a function of the seed, its family and its number, so that each can be made again.

use crate::places::{self, Cause};
use crate::random::Random;
use someip_parse::sd::entries::{EventGroupEntryType, SdServiceEntryType};
use someip_parse::sd::options::*;
use someip_parse::sd::{SdEntry, SdHeader, SdOption};

/// The known type codes with their lengths; 0 stands for the configuration option, which has no fixed one.
pub const KINDS: [(u8, usize); 8] = [
    (0x01, 0),
    (0x02, 5),
    (0x04, 9),
    (0x06, 21),
    (0x14, 9),
    (0x16, 21),
    (0x24, 9),
    (0x26, 21),
];

const MOST_OPTIONS: usize = 1388;
const MOST_ENTRIES: usize = 1376;

// ---- parts

fn be16(n: usize) -> [u8; 2] {
    (n as u16).to_be_bytes()
}

/// A type code that is no known kind.
fn unknown_type(r: &mut Random) -> u8 {
    loop {
        let code = r.byte();
        if KINDS.iter().all(|(known, _)| *known != code) {
            return code;
        }
    }
}

/// One option of any type and length, its first byte given.
fn push_option(r: &mut Random, code: u8, length: usize, first: u8, out: &mut Vec<u8>) {
    out.extend_from_slice(&be16(length));
    out.push(code);
    if length > 0 {
        out.push(first);
        r.bytes(length - 1, out);
    }
}

/// A configuration string of some good items.
pub fn good_string(r: &mut Random, items: usize, out: &mut Vec<u8>) {
    good_items(r, items, out);
    out.push(0);
}

fn good_items(r: &mut Random, items: usize, out: &mut Vec<u8>) {
    for _ in 0..items {
        let key = r.between(1, 10);
        let value = if r.once_in(3) {
            None
        } else {
            Some(r.below(16))
        };
        out.push((key + value.map_or(0, |n| n + 1)) as u8);
        for _ in 0..key {
            out.push(r.pick(b"abcdefghijklmnopqrstuvwxyz0123456789-_.~ !Z"));
        }
        let at = out.len() - 1;
        if out[at] == b' ' {
            out[at] = b'k';
        }
        if let Some(length) = value {
            out.push(b'=');
            r.bytes(length, out);
        }
    }
}

/// A string that is refused by this one of the six errors, in front or behind some good items.
fn bad_string(r: &mut Random, error: u64, out: &mut Vec<u8>) {
    let items = r.below(4);
    good_items(r, items, out);
    let mut item = Vec::new();
    match error {
        1 => return,
        2 => {
            let (some, missing) = (r.below(6), r.between(1, 100));
            out.push((some + missing) as u8);
            return r.bytes(some, out);
        }
        3 => {
            let behind = r.between(1, 5);
            out.push(0);
            return r.bytes(behind, out);
        }
        4 => item.push(b'='),
        5 => {
            let key = r.between(1, 8);
            item.extend((0..key).map(|_| r.pick(b"abcXYZ 019~")));
            item[r.below(key)] = r.pick(&[0, 1, 0x1f, 0x7f, 0x80, 0xff]);
        }
        _ => item.resize(r.between(1, 8), b' '),
    }
    if r.once_in(2) {
        let value = r.below(4);
        item.push(b'=');
        r.bytes(value, &mut item);
    }
    out.push(item.len() as u8);
    out.extend(item);
    // What is behind the item is not looked at.
    let items = r.below(3);
    good_string(r, items, out);
}

/// A good string with a few bytes changed, cut or added.
pub fn damaged_string(r: &mut Random, out: &mut Vec<u8>) {
    let mut string = Vec::new();
    let items = r.below(4);
    good_string(r, items, &mut string);
    for _ in 0..r.between(1, 3) {
        let at = r.below(string.len() + 1);
        let telling = r.pick(&[0, 1, 2, 0x1f, 0x20, 0x3d, 0x41, 0x7e, 0x7f, 0x80, 0xff]);
        match r.below(7) {
            0 if at < string.len() => string[at] = r.byte(),
            1 if at < string.len() => string[at] = telling,
            2 => string.truncate(at),
            3 => string.insert(at, telling),
            4 => {
                // An item whose key is empty, or all spaces.
                let item: &[u8] = r.pick(&[b"\x01=", b"\x02=v", b"\x01 ", b"\x02  ", b"\x03 =v"]);
                string.splice(0..0, item.iter().copied());
            }
            _ => {
                string.push(telling);
            }
        }
    }
    out.extend_from_slice(&string);
}

fn push_configuration(r: &mut Random, string: &[u8], out: &mut Vec<u8>) {
    out.extend_from_slice(&be16(1 + string.len()));
    out.push(0x01);
    out.push(r.byte());
    out.extend_from_slice(string);
}

/// One option that reads well, of a kind as recorded traffic has them.
fn push_good_option(r: &mut Random, out: &mut Vec<u8>) {
    match r.below(20) {
        0..=9 => push_option(r, 0x04, 9, 0, out),
        10..=11 => {
            let (code, length) = r.pick(&KINDS[1..]);
            let first = r.byte();
            push_option(r, code, length, first, out)
        }
        12..=13 => push_option(r, 0x06, 21, 0, out),
        14..=15 => push_option(r, 0x14, 9, 0, out),
        16..=17 => {
            let items = r.below(5);
            let mut string = Vec::new();
            good_string(r, items, &mut string);
            push_configuration(r, &string, out)
        }
        18 => push_option(r, 0x02, 5, 0, out),
        _ => {
            let (code, length) = (unknown_type(r), r.between(1, 12));
            let first = r.byte() | 0x80;
            push_option(r, code, length, first, out)
        }
    }
}

/// One option that is refused, alone or for its place.
fn push_bad_option(r: &mut Random, out: &mut Vec<u8>) {
    match r.below(8) {
        0 => {
            let (code, length) = r.pick(&KINDS[1..]);
            let other = r.pick(&[1, length - 1, length + 1, length + 12, 21, 9, 5]);
            push_option(r, code, other, 0, out)
        }
        1 => push_option(r, 0x04, 0, 0, out),
        2 => {
            let start = out.len();
            push_good_option(r, out);
            out[start + 1] = out[start + 1].wrapping_add(r.between(1, 40) as u8);
        }
        3 => {
            let some = r.between(1, 2);
            r.bytes(some, out)
        }
        4 | 5 => {
            let mut string = Vec::new();
            damaged_string(r, &mut string);
            push_configuration(r, &string, out)
        }
        _ => push_unknown_option(r, out),
    }
}

/// One option of unknown type that may not be discarded.
fn push_unknown_option(r: &mut Random, out: &mut Vec<u8>) {
    let (code, length) = (unknown_type(r), r.between(1, 12));
    let first = r.byte() & 0x7f;
    push_option(r, code, length, first, out)
}

// ---- transport protocols, which the options above leave to chance: some two in 256 are TCP or UDP

const TCP: u8 = 0x06;
const UDP: u8 = 0x11;

/// The kinds with an address, as in `KINDS`.
fn addressed_kinds() -> &'static [(u8, usize)] {
    &KINDS[2..]
}

fn is_multicast(code: u8) -> bool {
    code == 0x14 || code == 0x16
}

/// One that a strict reading takes in this type.
fn good_protocol(r: &mut Random, code: u8) -> u8 {
    if is_multicast(code) {
        UDP
    } else {
        r.pick(&[TCP, UDP])
    }
}

/// One that is neither TCP nor UDP, one time in two a bit or a step away from them, or the counterfeit unit's 0x99.
fn other_protocol(r: &mut Random) -> u8 {
    loop {
        let protocol = if r.once_in(2) {
            r.pick(&[
                0x00, 0x01, 0x05, 0x07, 0x10, 0x12, 0x16, 0x84, 0x86, 0x91, 0x99, 0x99, 0xff,
            ])
        } else {
            r.byte()
        };
        if protocol != TCP && protocol != UDP {
            return protocol;
        }
    }
}

/// One that a strict reading refuses in this type.
fn wrong_protocol(r: &mut Random, code: u8) -> u8 {
    if is_multicast(code) && r.once_in(2) {
        TCP
    } else {
        other_protocol(r)
    }
}

/// One option with an address, with this protocol.
fn push_addressed(r: &mut Random, code: u8, protocol: u8, out: &mut Vec<u8>) {
    let length = addressed_kinds().iter().find(|kind| kind.0 == code);
    let length = length.expect("a kind with an address").1;
    let (start, first) = (out.len(), r.byte());
    push_option(r, code, length, first, out);
    set_protocols(&mut out[start..], |_| protocol);
}

/// Gives each option with an address another protocol, as far as the options' lengths lead.
fn set_protocols(options: &mut [u8], mut choose: impl FnMut(u8) -> u8) {
    let mut at = 0;
    while at + 3 <= options.len() {
        let length = 256 * usize::from(options[at]) + usize::from(options[at + 1]);
        let code = options[at + 2];
        // The third byte from the option's end, in front of the port.
        let place = at + length;
        if addressed_kinds().contains(&(code, length)) && place < options.len() {
            options[place] = choose(code);
        }
        at += 3 + length;
    }
}

/// Protocols that a strict reading takes.
pub fn mend_protocols(r: &mut Random, options: &mut [u8]) {
    set_protocols(options, |code| good_protocol(r, code));
}

/// Protocols for a strict reading of some options: two times in five it takes all, two times it refuses one in three; else they stay as they are.
pub fn vary_protocols(r: &mut Random, options: &mut [u8]) {
    match r.below(5) {
        0 | 1 => mend_protocols(r, options),
        2 | 3 => set_protocols(options, |code| {
            if r.once_in(3) {
                wrong_protocol(r, code)
            } else {
                good_protocol(r, code)
            }
        }),
        _ => {}
    }
}

/// The same in a payload, if its entries' length leads to its options.
pub fn vary_protocols_of_payload(r: &mut Random, payload: &mut [u8]) {
    let Some(options) = places::options_part(payload).map(<[u8]>::len) else {
        return;
    };
    let start = payload.len() - options;
    vary_protocols(r, &mut payload[start..]);
}

/// Protocols for a strict reading of options of which the one at `start` is refused for something else: in front of it all are taken, and behind it
/// every second time, else they stay as they are.
pub fn protocols_around(r: &mut Random, options: &mut [u8], start: usize) {
    mend_protocols(r, &mut options[..start]);
    if r.once_in(2) {
        mend_protocols(r, &mut options[start..]);
    }
}

// ---- options of which one is refused

/// An options part that is refused for one option, for this cause: in front of all, or behind one to four good ones. Returns where it begins.
/// For 10 the part itself is good, and a payload of it is refused. For 23 it is a strict reading that refuses it; in front of that option stands
/// nothing else that such a reading refuses at once, but at times an unknown one for which 10 would come.
pub fn refused_option(r: &mut Random, cause: Cause, out: &mut Vec<u8>) -> usize {
    out.clear();
    if !r.once_in(2) {
        for _ in 0..r.between(1, 4) {
            push_good_option(r, out);
        }
        if cause.number() == 23 {
            if r.once_in(4) {
                push_unknown_option(r, out);
            }
            mend_protocols(r, out);
        }
    }
    let start = out.len();
    match cause {
        Cause::NoHead => {
            let some = r.between(1, 2);
            r.bytes(some, out);
            return start;
        }
        Cause::CutShort => {
            push_good_option(r, out);
            let size = out.len() - start;
            let more = r.pick(&[1, 2, 40, 255]);
            out[start..start + 2].copy_from_slice(&be16(size - 3 + more));
            let less = r.below(size - 2);
            out.truncate(out.len() - less);
            return start;
        }
        Cause::OtherLength => {
            let (code, length) = r.pick(&KINDS[1..]);
            let other = r.pick(&[1, length - 1, length + 1, length + 12]);
            let first = r.byte();
            push_option(r, code, other, first, out);
        }
        Cause::LengthZero => {
            let code = r.byte();
            out.extend_from_slice(&[0, 0, code]);
        }
        Cause::Text(error) => {
            let mut string = Vec::new();
            bad_string(r, error, &mut string);
            push_configuration(r, &string, out);
        }
        Cause::Unknown => push_unknown_option(r, out),
        Cause::OtherProtocol(code) => {
            let protocol = other_protocol(r);
            push_addressed(r, code, protocol, out);
        }
        Cause::MulticastTcp(code) => push_addressed(r, code, TCP, out),
    }
    for _ in 0..r.below(3) {
        if cause == Cause::Unknown || r.once_in(2) {
            push_good_option(r, out)
        } else {
            push_bad_option(r, out)
        }
    }
    start
}

/// A payload of these options, with some entries.
pub fn payload_of(r: &mut Random, options: &[u8], out: &mut Vec<u8>) {
    out.clear();
    let mut entries = Vec::new();
    for _ in 0..r.below(4) {
        push_entry(r, 1, false, &mut entries);
    }
    lay(r, &entries, options, out)
}

/// Gives the first entry of such a payload, if it has one, an unknown type.
pub fn spoil_entry(r: &mut Random, payload: &mut [u8]) {
    if payload[7] > 0 {
        payload[8] = unknown_entry_type(r);
    }
}

/// Puts a good header in front of a payload.
pub fn message_of(r: &mut Random, out: &mut Vec<u8>) {
    let header = good_header(r, out.len());
    out.splice(0..0, header);
}

/// Options that fill exactly `length` bytes, where 4 or more are asked for; returns how many.
fn fill_options(r: &mut Random, length: usize, out: &mut Vec<u8>) -> usize {
    let mut left = length;
    let mut count = 0;
    while left >= 4 {
        let most = if r.once_in(4) { left } else { left.min(40) };
        let mut size = r.between(4, most);
        if left - size < 4 {
            size = left;
        }
        let code = unknown_type(r);
        let first = r.byte() | 0x80;
        push_option(r, code, size - 3, first, out);
        left -= size;
        count += 1;
    }
    r.bytes(left, out);
    count
}

/// A start and a count near the end of a list of `options`, mostly inside it.
fn run_near(r: &mut Random, options: usize, inside: bool) -> (u8, u8) {
    if r.once_in(4) {
        return (r.byte(), 0);
    }
    let count = if inside {
        r.below(16).min(options)
    } else {
        r.below(16)
    };
    let last = options.saturating_sub(count).min(255);
    let start = match r.below(4) {
        0 => last,
        1 if !inside => (last + 1).min(255),
        2 if !inside => r.below(256),
        _ => r.below(last + 1),
    };
    (start as u8, count as u8)
}

/// One entry of a known type over `options` options.
fn push_entry(r: &mut Random, options: usize, inside: bool, out: &mut Vec<u8>) {
    let (start1, count1) = run_near(r, options, inside);
    let (start2, count2) = if r.once_in(2) {
        (0, 0)
    } else {
        run_near(r, options, inside)
    };
    let code = r.pick(&[0x00, 0x01, 0x01, 0x01, 0x06, 0x06, 0x07]);
    out.extend_from_slice(&[code, start1, start2, (count1 << 4) | count2]);
    r.bytes(12, out);
}

fn unknown_entry_type(r: &mut Random) -> u8 {
    r.pick(&[0x02, 0x03, 0x04, 0x05, 0x08, 0x77, 0xff])
}

/// Flags, both lengths as they are, entries, options.
fn lay(r: &mut Random, entries: &[u8], options: &[u8], out: &mut Vec<u8>) {
    out.push(r.pick(&[0x00, 0x40, 0x80, 0xc0, 0xe0, 0x1f, 0xff]));
    out.extend_from_slice(&[0, 0, 0]);
    if r.once_in(8) {
        for byte in &mut out[1..4] {
            *byte = r.byte();
        }
    }
    out.extend_from_slice(&(entries.len() as u32).to_be_bytes());
    out.extend_from_slice(entries);
    out.extend_from_slice(&(options.len() as u32).to_be_bytes());
    out.extend_from_slice(options);
}

// ---- families of payloads

/// Well-formed, as recorded traffic is: a few entries over a few options.
fn tidy(r: &mut Random, out: &mut Vec<u8>) {
    let (mut entries, mut options) = (Vec::new(), Vec::new());
    let count = r.below(7);
    for _ in 0..count {
        push_good_option(r, &mut options);
    }
    for _ in 0..r.below(6) {
        push_entry(r, count, true, &mut entries);
    }
    lay(r, &entries, &options, out)
}

/// A well-formed one with a few bytes changed, cut or added.
fn damaged(r: &mut Random, out: &mut Vec<u8>) {
    tidy(r, out);
    for _ in 0..r.between(1, 3) {
        let at = r.below(out.len() + 1);
        let inside = at < out.len();
        match r.below(7) {
            0 | 1 if inside => out[at] ^= 1 << r.below(8),
            2 if inside => out[at] = r.byte(),
            3 if inside => out[at] = out[at].wrapping_add(r.pick(&[1, 255])),
            4 => out.truncate(at),
            5 => {
                let more = r.between(1, 4);
                r.bytes(more, out)
            }
            _ => out.insert(at, r.byte()),
        }
    }
}

/// Good and bad options and entries mixed, so that the order of the refusals shows.
fn mixed(r: &mut Random, out: &mut Vec<u8>) {
    let (mut entries, mut options) = (Vec::new(), Vec::new());
    let count = r.below(6);
    for _ in 0..count {
        if r.once_in(5) {
            push_bad_option(r, &mut options)
        } else {
            push_good_option(r, &mut options)
        }
    }
    for _ in 0..r.below(5) {
        let inside = !r.once_in(3);
        push_entry(r, count, inside, &mut entries);
        if r.once_in(8) {
            let at = entries.len() - 16;
            entries[at] = unknown_entry_type(r);
        }
    }
    lay(r, &entries, &options, out)
}

/// Lengths at, just under and just past every limit, announced and real.
fn boundary(r: &mut Random, out: &mut Vec<u8>) {
    let announced = match r.below(8) {
        0 => r.pick(&[1, 8, 15, 17, 31, 1375, 1377, 1387, 1388]),
        1 => r.pick(&[1389, 1392, 1400, 65_536, 1 << 24, u32::MAX as usize]),
        2 => r.pick(&[1360, MOST_ENTRIES]),
        _ => 16 * r.below(4),
    };
    let real = (announced / 16 * 16).min(MOST_ENTRIES);
    let room = MOST_OPTIONS - real;
    let length = match r.below(8) {
        0 => room,
        1 => room + 1,
        2 => r.pick(&[1387, 1388, 1389, 1390, 2000]),
        3 => room.saturating_sub(r.below(6)),
        _ => r.below(24),
    };
    let mut options = Vec::new();
    let count = fill_options(r, length.min(MOST_OPTIONS + 12), &mut options);
    let mut entries = Vec::new();
    for _ in 0..real / 16 {
        push_entry(r, count, true, &mut entries);
    }
    lay(r, &entries, &options, out);
    out[4..8].copy_from_slice(&(announced as u32).to_be_bytes());
    if r.once_in(3) {
        let at = 8 + real;
        let other = match r.below(5) {
            0 => length + 1,
            1 => length.saturating_sub(1),
            2 => r.pick(&[0, 1388, 1389, 1 << 16, u32::MAX as usize]),
            3 => (room + 1 + r.below(real + 1)).min(MOST_OPTIONS),
            _ => r.below(1500),
        };
        out[at..at + 4].copy_from_slice(&(other as u32).to_be_bytes());
    }
    match r.below(6) {
        0 => {
            let more = r.between(1, 3);
            r.bytes(more, out)
        }
        1 => {
            let less = r.between(1, 14).min(out.len());
            out.truncate(out.len() - less)
        }
        _ => {}
    }
}

/// A short payload that announces more than 1,400 bytes in all, each part within its own limit.
pub fn announcing_too_much(r: &mut Random, out: &mut Vec<u8>) {
    out.clear();
    let mut entries = Vec::new();
    for _ in 0..r.between(1, 4) {
        push_entry(r, 3, true, &mut entries);
    }
    lay(r, &entries, &[], out);
    let announced = MOST_OPTIONS - r.below(entries.len());
    let at = 8 + entries.len();
    out[at..at + 4].copy_from_slice(&(announced as u32).to_be_bytes());
}

/// Lists of the smallest options, with runs at and past the list's end.
fn small_options(r: &mut Random, out: &mut Vec<u8>) {
    let count = if r.once_in(6) {
        r.pick(&[254, 255, 256, 268, 270, 271, 345, 346, 347, 348])
    } else {
        r.below(20)
    };
    let (mut entries, mut options) = (Vec::new(), Vec::new());
    let code = unknown_type(r);
    for _ in 0..count {
        options.extend_from_slice(&[0, 1, code, 0x80]);
    }
    if r.once_in(6) && count > 0 {
        let at = r.below(count) * 4;
        options[at + 3] = 0;
    }
    let room = (MOST_OPTIONS.saturating_sub(options.len())) / 16;
    for _ in 0..r.below(4).min(room + 1) {
        let inside = !r.once_in(4);
        push_entry(r, count, inside, &mut entries);
    }
    lay(r, &entries, &options, out)
}

/// Configuration options, some damaged.
fn configured(r: &mut Random, out: &mut Vec<u8>) {
    let mut options = Vec::new();
    let count = r.between(1, 4);
    for _ in 0..count {
        let mut string = Vec::new();
        if r.once_in(3) {
            damaged_string(r, &mut string)
        } else {
            let items = r.below(7);
            good_string(r, items, &mut string)
        }
        push_configuration(r, &string, &mut options);
    }
    let mut entries = Vec::new();
    for _ in 0..r.below(3) {
        push_entry(r, count, true, &mut entries);
    }
    lay(r, &entries, &options, out)
}

/// Short bytes of no plan, most with small lengths where the lengths stand.
fn noise(r: &mut Random, out: &mut Vec<u8>) {
    let length = r.below(64);
    r.bytes(length, out);
    match r.below(16) {
        0..=3 => return,
        4 => return announcing_too_much(r, out),
        _ => {}
    }
    let announced = 16 * r.below(3);
    for (at, length) in [
        (4, announced),
        (8 + announced, out.len().saturating_sub(12 + announced)),
    ] {
        if at + 4 <= out.len() {
            out[at..at + 4].copy_from_slice(&(length as u32).to_be_bytes());
        }
    }
}

/// As the crate's own `SdHeader` writes it.
fn written(r: &mut Random, out: &mut Vec<u8>) {
    let mut header = SdHeader::default();
    header.flags.reboot = r.once_in(2);
    header.flags.unicast = r.once_in(2);
    header.flags.explicit_initial_data_control = r.once_in(2);
    let count = r.below(8);
    for _ in 0..count {
        header.add_option(owned_option(r)).expect("room");
    }
    for _ in 0..r.below(6) {
        header.add_entry(owned_entry(r, count)).expect("room");
    }
    out.extend_from_slice(&header.to_bytes_vec().expect("runs inside"));
}

fn owned_option(r: &mut Random) -> SdOption {
    let transport_protocol: TransportProtocol = r.pick(&[0x06, 0x11, 0x84]).into();
    let port = r.next() as u16;
    let word = (r.next() as u32).to_be_bytes();
    let ipv6_address = [word, word, word, word].concat().try_into().expect("16");
    match r.below(8) {
        0 => {
            let mut string = Vec::new();
            let items = r.below(3);
            good_string(r, items, &mut string);
            let mut option = ConfigurationOption {
                discardable: r.once_in(2),
                configuration_string: Default::default(),
            };
            option.configuration_string.extend(string);
            option.into()
        }
        1 => LoadBalancingOption {
            discardable: r.once_in(2),
            priority: port,
            weight: r.next() as u16,
        }
        .into(),
        2 | 3 => Ipv4EndpointOption {
            ipv4_address: word,
            transport_protocol,
            port,
        }
        .into(),
        4 => Ipv6EndpointOption {
            ipv6_address,
            transport_protocol,
            port,
        }
        .into(),
        5 => Ipv4MulticastOption {
            ipv4_address: word,
            transport_protocol,
            port,
        }
        .into(),
        6 => Ipv4SdEndpointOption {
            ipv4_address: word,
            transport_protocol,
            port,
        }
        .into(),
        _ => Ipv6SdEndpointOption {
            ipv6_address,
            transport_protocol,
            port,
        }
        .into(),
    }
}

fn owned_entry(r: &mut Random, options: usize) -> SdEntry {
    let (start1, count1) = run_near(r, options, true);
    let (start2, count2) = run_near(r, options, true);
    let (service, instance) = (r.next() as u16, r.next() as u16);
    let (major, ttl) = (r.byte(), r.next() as u32 & 0x00ff_ffff);
    if r.once_in(2) {
        let kind = if r.once_in(3) {
            SdServiceEntryType::FindService
        } else {
            SdServiceEntryType::OfferService
        };
        let minor = r.next() as u32;
        SdEntry::new_service_entry(
            kind, start1, start2, count1, count2, service, instance, major, ttl, minor,
        )
        .expect("in range")
    } else {
        let kind = if r.once_in(2) {
            EventGroupEntryType::SubscribeOrStop
        } else {
            EventGroupEntryType::SubscribeAckOrNack
        };
        let (initial, counter) = (r.once_in(2), r.byte() & 0x0f);
        let group = r.next() as u16;
        SdEntry::new_eventgroup(
            kind, start1, start2, count1, count2, service, instance, major, ttl, initial, counter,
            group,
        )
        .expect("in range")
    }
}

type Maker = fn(&mut Random, &mut Vec<u8>);

/// The families of payloads, each with its share in a hundred.
pub const FAMILIES: [(&str, usize, Maker); 8] = [
    ("well-formed", 20, tidy),
    ("damaged copies of well-formed", 24, damaged),
    ("good and bad parts mixed", 20, mixed),
    ("around the size limits", 8, boundary),
    ("many small options, runs at the end", 8, small_options),
    ("configuration strings", 8, configured),
    ("noise", 8, noise),
    ("written by the crate's SdHeader", 4, written),
];

/// The family of the payload that `payload` makes with this draw.
fn family(r: &mut Random) -> usize {
    let mut draw = r.below(100);
    for (number, (_, share, _)) in FAMILIES.iter().enumerate() {
        if draw < *share {
            return number;
        }
        draw -= share;
    }
    unreachable!("the shares are a hundred")
}

/// A payload of some family, whose number is returned.
pub fn payload(r: &mut Random, out: &mut Vec<u8>) -> usize {
    out.clear();
    let number = family(r);
    FAMILIES[number].2(r, out);
    number
}

/// A payload of the well-formed family.
pub fn well_formed(r: &mut Random, out: &mut Vec<u8>) {
    out.clear();
    tidy(r, out);
}

/// A header of service discovery in front of so many bytes.
fn good_header(r: &mut Random, payload: usize) -> [u8; 16] {
    let mut header = [0xff, 0xff, 0x81, 0x00, 0, 0, 0, 0, 0, 0, 0, 1, 1, 1, 2, 0];
    header[4..8].copy_from_slice(&(payload as u32 + 8).to_be_bytes());
    header[10..12].copy_from_slice(&(r.next() as u16 | 1).to_be_bytes());
    header
}

/// A message with SD header: a payload behind 16 bytes, of which at times some are wrong. Its length field is right.
pub fn message(r: &mut Random, out: &mut Vec<u8>) {
    payload(r, out);
    let mut header = good_header(r, out.len());
    if !r.once_in(3) {
        for _ in 0..r.between(1, 2) {
            match r.below(7) {
                0 => header[r.below(4)] ^= 1 << r.below(8),
                1 => header[r.between(8, 9)] ^= 1 << r.below(8),
                2 => header[10..12].fill(0),
                3 => header[13] = r.byte(),
                4 => header[14] = r.pick(&[0x00, 0x01, 0x02, 0x80, 0x81, 0x22, 0x20]),
                5 => header[15] = r.byte(),
                _ => {}
            }
        }
    }
    out.splice(0..0, header);
}

/// An options part for the index alone.
pub fn options(r: &mut Random, out: &mut Vec<u8>) {
    out.clear();
    match r.below(8) {
        0 => {
            let length = r.pick(&[1380, 1384, 1387, 1388, 1389, 1392, 1500]);
            fill_options(r, length, out);
        }
        1 => {
            let count = r.pick(&[1, 2, 345, 346, 347, 348]);
            out.extend([0, 1, 0x77, 0].repeat(count))
        }
        2 => {
            let length = r.below(40);
            r.bytes(length, out)
        }
        _ => {
            for _ in 0..r.below(8) {
                if r.once_in(6) {
                    push_bad_option(r, out)
                } else {
                    push_good_option(r, out)
                }
            }
        }
    }
}

/// One option alone, often refused, at times with bytes behind it.
pub fn option(r: &mut Random, out: &mut Vec<u8>) {
    out.clear();
    if r.once_in(2) {
        push_bad_option(r, out)
    } else {
        push_good_option(r, out)
    }
    if r.once_in(3) {
        let more = r.below(5);
        r.bytes(more, out)
    }
    if r.once_in(6) {
        let some = r.below(out.len() + 1);
        out.truncate(some)
    }
}

/// One entry alone, at times short or of an unknown type.
pub fn entry(r: &mut Random, out: &mut Vec<u8>) {
    out.clear();
    push_entry(r, 20, false, out);
    if r.once_in(3) {
        out[0] = r.byte();
    }
    if r.once_in(6) {
        let some = r.below(16);
        out.truncate(some)
    } else if r.once_in(3) {
        let more = r.below(20);
        r.bytes(more, out)
    }
}

/// A configuration string alone.
pub fn string(r: &mut Random, out: &mut Vec<u8>) {
    out.clear();
    match r.below(4) {
        0 => {
            let items = r.below(8);
            good_string(r, items, out)
        }
        1 => {
            let length = r.below(24);
            for _ in 0..length {
                out.push(r.pick(&[0, 1, 2, 3, 0x1f, 0x20, 0x20, 0x3d, 0x41, 0x7e, 0x7f, 0xff]));
            }
        }
        _ => damaged_string(r, out),
    }
}

/// A string of 1 to 4 items of 1 to 255 bytes, one item in four of spaces, with up to three bytes anywhere in an item at which the check turns; one
/// string in eight is cut.
pub fn long_string(r: &mut Random, out: &mut Vec<u8>) {
    out.clear();
    for _ in 0..r.between(1, 4) {
        let length = r.between(1, 255);
        let letters: &[u8] = r.pick(&[
            b" ",
            b"abcdefghijklm",
            b"nopqrstuvwxyz",
            b"0123456789-_.~ !Z",
        ]);
        out.push(length as u8);
        let first = out.len();
        out.extend((0..length).map(|_| r.pick(letters)));
        for _ in 0..r.below(4) {
            out[first + r.below(length)] =
                r.pick(&[0, 0x1f, 0x20, 0x21, 0x3d, 0x3d, 0x7e, 0x7f, 0x80, 0xff]);
        }
    }
    out.push(0);
    if r.once_in(8) {
        let some = r.below(out.len());
        out.truncate(some);
    }
}

// ---- exhaustive short inputs

/// The bytes at which a string check turns: lengths, both ends of the key range, the space and the `=`.
pub const TELLING: [u8; 11] = [
    0x00, 0x01, 0x02, 0x03, 0x1f, 0x20, 0x21, 0x3d, 0x7e, 0x7f, 0xff,
];

/// String number `n` of those with `length` bytes from `alphabet`.
pub fn nth_string(alphabet: &[u8], length: usize, n: usize, out: &mut Vec<u8>) {
    out.clear();
    let mut left = n;
    for _ in 0..length {
        out.push(alphabet[left % alphabet.len()]);
        left /= alphabet.len();
    }
}

/// How many options `nth_option` has.
pub const SHORT_OPTIONS: usize = 256 * 26 * 30 * 2;

/// Every type with every length field from 0 to 25 and 0 to 29 bytes in all, once with the discardable bit. The bytes after the type make a
/// good string when they are the body of a configuration option.
pub fn nth_option(n: usize, out: &mut Vec<u8>) {
    out.clear();
    let (code, n) = (n % 256, n / 256);
    let (length, n) = (n % 26, n / 26);
    let (total, n) = (n % 30, n / 30);
    out.extend_from_slice(&[0, length as u8, code as u8, (n as u8) << 7]);
    for at in 4..total {
        let left = (3 + length).saturating_sub(at + 1);
        out.push(match (at, left) {
            (_, 0) => 0,
            (4, _) => (left - 1) as u8,
            _ => 0x41,
        });
    }
    out.truncate(total);
}

/// How many options `nth_addressed` has.
pub const ADDRESSED_OPTIONS: usize = 6 * 256;

/// Every kind with an address with every transport protocol. Every other byte behind the type is the protocol's complement, so that a reading of
/// another byte shows.
pub fn nth_addressed(n: usize, out: &mut Vec<u8>) {
    out.clear();
    let ((code, length), protocol) = (addressed_kinds()[n / 256], n as u8);
    out.extend_from_slice(&[0, length as u8, code]);
    out.resize(3 + length, !protocol);
    set_protocols(out, |_| protocol);
}

/// A payload of these options, with an offer whose first run is all of them.
pub fn offered(options: &[u8], count: u8, out: &mut Vec<u8>) {
    out.clear();
    out.extend_from_slice(&[0xc0, 0, 0, 0, 0, 0, 0, 16, 0x01, 0, 0, count << 4]);
    out.extend((0..12).map(|i| 17 * i));
    out.extend_from_slice(&(options.len() as u32).to_be_bytes());
    out.extend_from_slice(options);
}

/// How many entries `nth_entry` has.
pub const SHORT_ENTRIES: usize = 256 * 16 * 256 + 256 * 34;

/// Every type with every value of every one other byte; then every type with every length from 0 to 33.
pub fn nth_entry(n: usize, out: &mut Vec<u8>) {
    out.clear();
    let single = 256 * 16 * 256;
    if n < single {
        out.extend((0..16).map(|i| 17 * i as u8));
        out[n / 256 % 16] = (n / 4096) as u8;
        out[0] = n as u8;
    } else {
        let n = n - single;
        out.extend((0..n / 256).map(|i| 7 * i as u8));
        if let Some(first) = out.first_mut() {
            *first = n as u8;
        }
    }
}

#[cfg(test)]
mod tests {
    use super::*;
    use crate::calls::Settings;
    use crate::oracle;

    #[test]
    fn same_seed_same_payload() {
        let (mut a, mut b) = (Vec::new(), Vec::new());
        for n in 0..1000 {
            payload(&mut Random::of(1, 0, n), &mut a);
            payload(&mut Random::of(1, 0, n), &mut b);
            assert_eq!(a, b);
        }
    }

    #[test]
    fn shares_are_a_hundred() {
        assert_eq!(FAMILIES.iter().map(|f| f.1).sum::<usize>(), 100);
    }

    /// The well-formed families are accepted; each other one is accepted at times and refused at times.
    #[test]
    fn families_are_what_they_say() {
        for (number, (name, _, make)) in FAMILIES.iter().enumerate() {
            let mut accepted = 0;
            for n in 0..2000 {
                let mut out = Vec::new();
                make(&mut Random::of(3, number as u64, n), &mut out);
                accepted += usize::from(oracle::read(&out, Settings::OFF).is_ok());
            }
            match *name {
                "well-formed" | "written by the crate's SdHeader" => assert_eq!(accepted, 2000),
                _ => assert!((1..2000).contains(&accepted), "{name}: {accepted}"),
            }
        }
    }

    /// Every refusal of a payload, and every error of a string, comes up.
    #[test]
    fn every_refusal_comes_up() {
        let mut seen = [false; 20];
        let mut strings = [false; 7];
        let mut out = Vec::new();
        for n in 0..200_000 {
            payload(&mut Random::of(5, 0, n), &mut out);
            let settings = Settings {
                discard: n % 2 == 0,
                ..Settings::OFF
            };
            if let Err(answer) = oracle::read(&out, settings) {
                seen[answer.number as usize] = true;
                if answer.number == 9 {
                    strings[answer.values[0] as usize] = true;
                }
            }
        }
        assert_eq!(seen[1..=12], [true; 12]);
        assert_eq!(strings[1..], [true; 6]);
    }

    /// Each cause comes up where it is asked for, at the first option and at later ones; alone, in a payload, and behind a header.
    #[test]
    fn refused_options_are_what_they_say() {
        let (mut options, mut out) = (Vec::new(), Vec::new());
        for cause in Cause::PLAIN.into_iter().chain(Cause::STRICT) {
            let settings = Settings {
                strict: cause.number() == 23,
                ..Settings::OFF
            };
            let mut first = 0;
            for n in 0..1000 {
                let mut r = Random::of(6, cause.number(), n);
                let start = refused_option(&mut r, cause, &mut options);
                first += usize::from(start == 0);
                let is = |fault: Option<places::Fault>| {
                    fault.map(|fault| (fault.cause, fault.option)) == Some((cause, start))
                };
                payload_of(&mut r, &options, &mut out);
                let found = places::in_payload(&out, settings);
                assert!(is(found), "{cause}: {out:02x?}");
                let said = oracle::read(&out, settings).err().map(|said| said.number);
                assert_eq!(said, Some(cause.number()));
                let alone = places::in_option(&options[start..], settings);
                assert_eq!(alone.is_some(), cause != Cause::Unknown);
                let found = places::in_options(&options, settings);
                assert_eq!(is(found), cause != Cause::Unknown);
                message_of(&mut r, &mut out);
                let said = oracle::read_message(&out, settings).map(|said| said.err());
                assert_eq!(said.flatten().map(|said| said.number), Some(cause.number()));
            }
            assert!((400..600).contains(&first), "{cause}: {first}");
        }
    }

    /// Mended protocols are taken; varied ones are refused at times, for each cause; and nothing but the protocols is changed.
    #[test]
    fn protocols_are_what_they_say() {
        let mut causes = std::collections::BTreeMap::new();
        let (mut accepted, mut out) = (0, Vec::new());
        for n in 0..20_000 {
            let mut r = Random::of(8, 0, n);
            well_formed(&mut r, &mut out);
            let before = out.clone();
            vary_protocols_of_payload(&mut r, &mut out);
            let changed = before.iter().zip(&out).filter(|(a, b)| a != b).count();
            assert!(before.len() == out.len() && changed <= 6);
            assert!(oracle::read(&out, Settings::OFF).is_ok());
            match oracle::read(&out, Settings::STRICT) {
                Ok(_) => accepted += 1,
                Err(refusal) => assert_eq!(refusal.number, 23),
            }
            if let Some(fault) = places::in_payload(&out, Settings::STRICT) {
                *causes.entry(fault.cause).or_insert(0) += 1;
            }
            let start = out.len() - places::options_part(&out).unwrap().len();
            mend_protocols(&mut r, &mut out[start..]);
            assert!(oracle::read(&out, Settings::STRICT).is_ok());
        }
        assert!((8_000..14_000).contains(&accepted), "{accepted}");
        for cause in Cause::STRICT {
            assert!(causes[&cause] > 20, "{cause}: {}", causes[&cause]);
        }
    }

    #[test]
    fn addressed_options_are_all() {
        let (mut out, mut payload) = (Vec::new(), Vec::new());
        let mut taken = 0;
        for n in 0..ADDRESSED_OPTIONS {
            nth_addressed(n, &mut out);
            offered(&out, 1, &mut payload);
            assert!(oracle::read(&payload, Settings::OFF).is_ok());
            taken += usize::from(oracle::read(&payload, Settings::STRICT).is_ok());
            let option = oracle::read_option(&out, Settings::OFF);
            assert_eq!(option.protocol as usize, n % 256);
        }
        // TCP and UDP in four kinds, UDP in two.
        assert_eq!(taken, 10);
    }

    #[test]
    fn short_inputs_are_all_different_enough() {
        let mut out = Vec::new();
        nth_option(SHORT_OPTIONS - 1, &mut out);
        assert_eq!(out.len(), 29);
        nth_entry(SHORT_ENTRIES - 1, &mut out);
        assert_eq!(out.len(), 33);
        nth_string(&TELLING, 3, 1330, &mut out);
        assert_eq!(out, [0xff, 0xff, 0xff]);
    }
}
