//! Speed: reading with index beside `SdSlice::from_slice`, and joining beside `TpBuf`. Both sides in one process, in alternating passes,
//! medians. A time says little of another machine; the ratio is what counts. Instructions, counted by an emulator, do not hang on its load.
//! The crate has no strict setting: what reading costs under it stands beside what it costs without, over the same payloads.

use crate::calls::{Calls, MOST_LIMIT, MOST_RANGES, SLOTS, STRICT, WORDS};
use crate::plan::family;
use crate::random::Random;
use crate::tp_inputs::segment;
use someip_parse::sd::SdSlice;
use someip_parse::{SomeipMsgSlice, TpBuf, TpBufConfig};
use std::ffi::c_long;
use std::hint::black_box;
use std::io::Read;
use std::os::fd::AsRawFd;
use std::os::unix::net::UnixStream;
use std::sync::OnceLock;
use std::time::Instant;

const PAYLOADS: usize = 10_000;

/// Of each kind beside the mix.
const FEWER: usize = 1_000;

// ---- payloads in recorded style

type Maker = fn(&mut Random) -> Vec<u8>;

/// The kinds of payload, each with its share in a hundred.
const KINDS: [(&str, usize, Maker); 5] = [
    ("small offers", 40, small_offer),
    ("subscribes", 25, subscribe),
    ("configuration", 15, configuration),
    ("many small options", 10, many_small),
    ("refused", 10, refused),
];

/// Kinds that are not in the mix: the ends of what a configuration string can be.
const BESIDE: [(&str, u64, Maker); 2] = [
    ("long keys", family::LONG_KEYS, long_keys),
    ("one short item", family::SHORT_ITEM, short_item),
];

/// TCP or UDP, and of multicast UDP, so that a strict reading takes it.
fn push_ipv4(r: &mut Random, code: u8, out: &mut Vec<u8>) {
    out.extend_from_slice(&[0, 9, code, 0, 192, 168, r.byte(), r.byte(), 0]);
    let protocol = r.pick(&[6, 17]);
    out.push(if code == 0x14 { 17 } else { protocol });
    out.extend_from_slice(&(r.next() as u16).to_be_bytes());
}

fn push_ipv6(r: &mut Random, code: u8, out: &mut Vec<u8>) {
    out.extend_from_slice(&[0, 21, code, 0]);
    r.bytes(16, out);
    out.extend_from_slice(&[0, 17]);
    out.extend_from_slice(&(r.next() as u16).to_be_bytes());
}

/// An item: a key of so many letters and a value of 0 to 20 bytes.
fn push_item(r: &mut Random, key: usize, string: &mut Vec<u8>) {
    let value = r.below(21);
    string.push((key + 1 + value) as u8);
    string.extend((0..key).map(|_| r.pick(b"abcdefghijklmnopqrstuvwxyz")));
    string.push(b'=');
    string.extend((0..value).map(|_| r.pick(b"abcdefghijklmnopqrstuvwxyz0123456789./")));
}

/// A configuration option of these items.
fn push_configuration(items: &[u8], out: &mut Vec<u8>) {
    out.extend_from_slice(&(2 + items.len() as u16).to_be_bytes());
    out.extend_from_slice(&[1, 0]);
    out.extend_from_slice(items);
    out.push(0);
}

fn push_entry(r: &mut Random, code: u8, start: usize, count: usize, out: &mut Vec<u8>) {
    out.extend_from_slice(&[code, start as u8, 0, (count as u8) << 4]);
    r.bytes(12, out);
}

fn lay(entries: &[u8], options: &[u8]) -> Vec<u8> {
    let mut out = vec![0xc0, 0, 0, 0];
    out.extend_from_slice(&(entries.len() as u32).to_be_bytes());
    out.extend_from_slice(entries);
    out.extend_from_slice(&(options.len() as u32).to_be_bytes());
    out.extend_from_slice(options);
    out
}

/// No entry at all one time in twenty; else 1 to 4 offers, each with one IPv4 endpoint (UDP or TCP) of its own, at times two.
fn small_offer(r: &mut Random) -> Vec<u8> {
    let (mut entries, mut options) = (Vec::new(), Vec::new());
    if r.once_in(20) {
        return lay(&entries, &options);
    }
    let mut next = 0;
    for _ in 0..r.between(1, 4) {
        let count = if r.once_in(3) { 2 } else { 1 };
        for _ in 0..count {
            push_ipv4(r, 0x04, &mut options);
        }
        push_entry(r, 0x01, next, count, &mut entries);
        next += count;
    }
    lay(&entries, &options)
}

/// 1 to 12 subscribes or acknowledgements over 1 to 3 endpoints, one in four of them IPv6, acknowledgements with a multicast address.
fn subscribe(r: &mut Random) -> Vec<u8> {
    let (mut entries, mut options) = (Vec::new(), Vec::new());
    let acknowledge = r.once_in(2);
    let endpoints = r.between(1, 3);
    for _ in 0..endpoints {
        match (acknowledge, r.once_in(4)) {
            (false, false) => push_ipv4(r, 0x04, &mut options),
            (false, true) => push_ipv6(r, 0x06, &mut options),
            (true, false) => push_ipv4(r, 0x14, &mut options),
            (true, true) => push_ipv6(r, 0x16, &mut options),
        }
    }
    for _ in 0..r.between(1, 12) {
        let code = if acknowledge { 0x07 } else { 0x06 };
        let start = r.below(endpoints);
        push_entry(r, code, start, 1, &mut entries);
    }
    lay(&entries, &options)
}

/// 1 to 5 offers, each with an endpoint and a configuration option of 1 to 8 items with keys of 3 to 10 letters.
fn configuration(r: &mut Random) -> Vec<u8> {
    let (mut entries, mut options) = (Vec::new(), Vec::new());
    for at in 0..r.between(1, 5) {
        push_ipv4(r, 0x04, &mut options);
        let mut items = Vec::new();
        for _ in 0..r.between(1, 8) {
            let key = r.between(3, 10);
            push_item(r, key, &mut items);
        }
        push_configuration(&items, &mut options);
        push_entry(r, 0x01, 2 * at, 2, &mut entries);
    }
    lay(&entries, &options)
}

/// An offer with one configuration option of these items.
fn configured(r: &mut Random, items: &[u8]) -> Vec<u8> {
    let (mut entries, mut options) = (Vec::new(), Vec::new());
    push_configuration(items, &mut options);
    push_entry(r, 0x01, 0, 1, &mut entries);
    lay(&entries, &options)
}

/// The option has 300 to 1,340 bytes, its keys 30 to 120 letters.
fn long_keys(r: &mut Random) -> Vec<u8> {
    let least = r.between(300, 1199);
    let mut items = Vec::new();
    while 5 + items.len() < least {
        let key = r.between(30, 120);
        push_item(r, key, &mut items);
    }
    configured(r, &items)
}

/// The option has one item, its key 3 to 10 letters.
fn short_item(r: &mut Random) -> Vec<u8> {
    let mut items = Vec::new();
    let key = r.between(3, 10);
    push_item(r, key, &mut items);
    configured(r, &items)
}

/// 20 to 300 options of 4 to 8 bytes, half of them load balancing, over 1 to 10 entries.
fn many_small(r: &mut Random) -> Vec<u8> {
    let (mut entries, mut options) = (Vec::new(), Vec::new());
    let most = r.between(80, 1220);
    let mut count = 0;
    while options.len() + 8 <= most {
        if r.once_in(2) {
            options.extend_from_slice(&[0, 5, 0x02, 0, 0, r.byte(), 0, r.byte()]);
        } else {
            options.extend_from_slice(&[0, 1, 0x77, 0x80]);
        }
        count += 1;
    }
    for _ in 0..r.between(1, 10) {
        let start = r.below(count.min(240));
        push_entry(r, 0x01, start, 1, &mut entries);
    }
    lay(&entries, &options)
}

/// One of the above with one fault: cut, a byte behind, an unknown entry, a run past the list, an option's length wrong, or an unknown option
/// that must not be discarded.
fn refused(r: &mut Random) -> Vec<u8> {
    loop {
        let make = KINDS[r.below(4)].2;
        let mut payload = make(r);
        let entries = usize::from(payload[6]) * 256 + usize::from(payload[7]);
        let options = 12 + entries;
        match r.below(6) {
            0 => {
                let some = r.below(payload.len());
                payload.truncate(some)
            }
            1 => payload.push(0),
            2 if entries > 0 => payload[8 + 16 * r.below(entries / 16)] = 0x05,
            3 if entries > 0 => payload[9 + 16 * r.below(entries / 16)] = 250,
            4 if payload.len() > options => payload[options + 1] ^= 2,
            _ if payload.len() > options => payload[options + 2] = 0x55,
            _ => {}
        }
        if SdSlice::from_slice(&payload).is_err() {
            return payload;
        }
    }
}

// ---- measuring

/// What is measured, in how many passes of each side.
pub struct Meter {
    unit: &'static str,
    passes: usize,
    read: fn() -> u64,
}

pub const TIME: Meter = Meter {
    unit: "ns",
    passes: 41,
    read: nanoseconds,
};
pub const INSTRUCTIONS: Meter = Meter {
    unit: "instructions",
    passes: 3,
    read: instructions,
};

fn nanoseconds() -> u64 {
    static START: OnceLock<Instant> = OnceLock::new();
    START.get_or_init(Instant::now).elapsed().as_nanos() as u64
}

/// As the emulator's plugin (../count.c) answers a system call that there is not: it writes the count into the file that is named.
fn instructions() -> u64 {
    extern "C" {
        fn syscall(number: c_long, ...) -> c_long;
    }
    let (mut here, there) = UnixStream::pair().expect("two sockets");
    here.set_nonblocking(true).expect("a socket");
    // SAFETY: no address is handed over.
    unsafe { syscall(4242, c_long::from(there.as_raw_fd())) };
    let mut count = [0; 8];
    here.read_exact(&mut count)
        .expect("an emulator that counts instructions");
    u64::from_ne_bytes(count)
}

fn median(values: &mut [f64]) -> f64 {
    values.sort_by(f64::total_cmp);
    values[values.len() / 2]
}

/// For each of `count` pieces of work: the medians of all sides over alternating passes.
fn beside<const SIDES: usize>(
    meter: &Meter,
    count: usize,
    mut sides: [&mut dyn FnMut(); SIDES],
) -> [f64; SIDES] {
    let mut measured = [(); SIDES].map(|()| Vec::new());
    for _ in 0..meter.passes {
        for (side, passes) in sides.iter_mut().zip(&mut measured) {
            let start = (meter.read)();
            side();
            passes.push(((meter.read)() - start) as f64 / count as f64);
        }
    }
    measured.map(|mut passes| median(&mut passes))
}

/// Whether two figures for the same payloads are within a tenth of each other.
fn alike(a: f64, b: f64) -> bool {
    (a - b).abs() <= b / 10.0
}

/// A row without its end: theirs, ours and the ratio.
fn print_row(name: &str, detail: &str, theirs: f64, ours: f64) {
    let ratio = ours / theirs;
    print!("| {name} | {detail} | {theirs:.0} | {ours:.0} | {ratio:.2} |");
}

/// A row of reading, with what is read strictly and its ratio to what is not.
fn reading_row(name: &str, detail: &str, [theirs, ours, strict]: [f64; 3]) {
    print_row(name, detail, theirs, ours);
    println!(" {strict:.0} | {:.2} |", strict / ours);
}

/// Reading a list of payloads, the table lent afresh each time: the crate, the port with no setting on, and the port under the strict one.
fn reading<P: Calls>(port: &P, meter: &Meter, payloads: &[&Vec<u8>]) -> [f64; 3] {
    let mut theirs = || {
        for payload in payloads {
            let read = SdSlice::from_slice(black_box(payload));
            let _ = black_box(&read);
        }
    };
    let under = |settings: u32| {
        for payload in payloads {
            let mut table = [0; SLOTS];
            black_box(&mut table);
            let read = port.read(black_box(payload), &mut table, settings);
            black_box((&read, &table));
        }
    };
    let (mut ours, mut strict) = (|| under(0), || under(STRICT));
    beside(meter, payloads.len(), [&mut theirs, &mut ours, &mut strict])
}

/// The segments of a report of 65,520 bytes, so many in each but the last.
fn report_segments(length: usize) -> Vec<Vec<u8>> {
    let total = MOST_LIMIT as usize;
    let payload: Vec<u8> = (0..total).map(|at| at as u8).collect();
    (0..total)
        .step_by(length)
        .map(|at| {
            let end = total.min(at + length);
            segment(at as u32, end < total, &payload[at..end])
        })
        .collect()
}

/// Every second segment, and then the others.
fn odd_even(segments: &[Vec<u8>]) -> Vec<&Vec<u8>> {
    let others = segments.iter().skip(1).step_by(2);
    segments.iter().step_by(2).chain(others).collect()
}

/// One random order.
fn shuffled(segments: &[Vec<u8>], seed: u64) -> Vec<&Vec<u8>> {
    let mut order: Vec<&Vec<u8>> = segments.iter().collect();
    Random::of(seed, family::SHUFFLED, segments.len() as u64).shuffle(&mut order);
    order
}

/// Joining one report: the same memory each time, cleared before, taken after.
fn joining<P: Calls>(port: &P, meter: &Meter, segments: &[&Vec<u8>]) -> [f64; 2] {
    const REPORTS: usize = 50;
    let limit = MOST_LIMIT;
    let config = TpBufConfig::new(limit as usize, limit).expect("the limit is small");
    let mut theirs = TpBuf::new(config);
    let mut state = [0; WORDS];
    let mut buffer = vec![0; 16 + limit as usize];
    port.begin(&mut state, limit);
    let mut crate_side = || {
        for _ in 0..REPORTS {
            theirs.clear();
            for segment in segments {
                let message = SomeipMsgSlice::from_slice(black_box(segment)).expect("a segment");
                theirs.consume_tp(message).expect("accepted");
            }
            black_box(theirs.try_finalize().expect("complete"));
        }
    };
    let mut port_side = || {
        for _ in 0..REPORTS {
            port.clear(&mut state);
            for segment in segments {
                let answer = port.consume(&mut state, black_box(segment), &mut buffer);
                assert!(answer.accepted());
            }
            let report = black_box(port.take(&state, &mut buffer));
            assert!(report.accepted());
        }
    };
    beside(meter, REPORTS, [&mut crate_side, &mut port_side])
}

/// So many segments of 16 bytes, each two 16 bytes apart.
fn apart_segments(count: usize) -> Vec<Vec<u8>> {
    (0..count)
        .map(|at| segment(32 * at as u32, true, &[at as u8; 16]))
        .collect()
}

/// A segment that has come already comes again, to a stream that holds so many ranges: it is the middle one of them.
fn held<P: Calls>(port: &P, meter: &Meter, ranges: usize) -> [f64; 2] {
    const TIMES: usize = 1_000;
    let limit = MOST_LIMIT;
    let config = TpBufConfig::new(limit as usize, limit).expect("the limit is small");
    let mut theirs = TpBuf::new(config);
    let mut state = [0; WORDS];
    let mut buffer = vec![0; 16 + limit as usize];
    port.begin(&mut state, limit);
    let segments = apart_segments(ranges);
    for segment in &segments {
        let message = SomeipMsgSlice::from_slice(segment).expect("a segment");
        theirs.consume_tp(message).expect("accepted");
        let answer = port.consume(&mut state, segment, &mut buffer);
        assert!(answer.accepted());
    }
    let middle = &segments[ranges / 2];
    let mut crate_side = || {
        for _ in 0..TIMES {
            let message = SomeipMsgSlice::from_slice(black_box(middle)).expect("a segment");
            theirs.consume_tp(message).expect("accepted");
        }
    };
    let mut port_side = || {
        for _ in 0..TIMES {
            let answer = port.consume(&mut state, black_box(middle), &mut buffer);
            assert!(answer.accepted());
        }
    };
    beside(meter, TIMES, [&mut crate_side, &mut port_side])
}

/// A payload of the mix, with its kind.
fn one_of_the_mix(seed: u64, number: u64) -> (usize, Vec<u8>) {
    let mut r = Random::of(seed, family::BENCH, number);
    let mut draw = r.below(100);
    let mut kind = 0;
    while draw >= KINDS[kind].1 {
        draw -= KINDS[kind].1;
        kind += 1;
    }
    loop {
        let payload = KINDS[kind].2(&mut r);
        if payload.len() <= 1400 {
            return (kind, payload);
        }
    }
}

pub fn run<P: Calls>(port: &P, meter: &Meter, seed: u64) {
    let Meter { unit, passes, .. } = meter;
    let payloads: Vec<_> = (0..PAYLOADS as u64)
        .map(|number| one_of_the_mix(seed, number))
        .collect();
    println!("seed {seed}, {PAYLOADS} payloads, {passes} passes of each side in turn, medians\n");
    println!("| payloads | number, mean bytes | crate, {unit} each | Viaductle, {unit} each | ratio | strict, {unit} each | strict to not strict |");
    println!("|---|---|---|---|---|---|---|");
    let whole: Vec<&Vec<u8>> = payloads.iter().map(|(_, payload)| payload).collect();
    let measured = reading(port, meter, &whole);
    reading_row("whole mix", &size(&whole), measured);
    let mut sums = [0.0; 3];
    for (number, (name, ..)) in KINDS.iter().enumerate() {
        let some: Vec<&Vec<u8>> = payloads
            .iter()
            .filter(|(kind, _)| *kind == number)
            .map(|(_, payload)| payload)
            .collect();
        let each = reading(port, meter, &some);
        reading_row(name, &size(&some), each);
        for (sum, each) in sums.iter_mut().zip(each) {
            *sum += each * some.len() as f64;
        }
    }
    let weighted = sums.map(|sum| sum / PAYLOADS as f64);
    reading_row(
        "the five kinds, weighted by number",
        &size(&whole),
        weighted,
    );
    for (name, family, make) in BESIDE {
        let made: Vec<Vec<u8>> = (0..FEWER as u64)
            .map(|number| make(&mut Random::of(seed, family, number)))
            .collect();
        let some: Vec<&Vec<u8>> = made.iter().collect();
        let name = format!("{name}, not in the mix");
        reading_row(&name, &size(&some), reading(port, meter, &some));
    }
    if measured.iter().zip(weighted).any(|(a, b)| !alike(*a, b)) {
        println!("\nThe whole mix is not what its kinds add up to: do not believe it, and run again on a quiet machine.");
    }
    println!("\n| joining 65,520 bytes | segments, bytes | crate, {unit} a report | Viaductle, {unit} a report | ratio |");
    println!("|---|---|---|---|---|");
    // Of the longest segments, and of some that half way are as many ranges as may be held.
    for length in [1392, 512] {
        let segments = report_segments(length);
        for (name, order) in [
            ("in order", segments.iter().collect()),
            ("every second, then the others", odd_even(&segments)),
            ("reversed", segments.iter().rev().collect()),
            ("shuffled", shuffled(&segments, seed)),
        ] {
            let [theirs, ours] = joining(port, meter, &order);
            print_row(name, &format!("{}, {length}", order.len()), theirs, ours);
            println!();
        }
    }
    println!(
        "\n| one segment of 16 bytes | ranges held | crate, {unit} | Viaductle, {unit} | ratio |"
    );
    println!("|---|---|---|---|---|");
    for ranges in [1, 2, 4, 8, 16, 32, MOST_RANGES] {
        let [theirs, ours] = held(port, meter, ranges);
        print_row("come again", &ranges.to_string(), theirs, ours);
        println!();
    }
}

fn size(payloads: &[&Vec<u8>]) -> String {
    let bytes: usize = payloads.iter().map(|payload| payload.len()).sum();
    format!("{}, {}", payloads.len(), bytes / payloads.len().max(1))
}

#[cfg(test)]
mod tests {
    use super::*;
    use crate::calls::Settings;
    use crate::oracle;

    /// The strict setting changes no answer to a payload of the mix, so that its figures are of the same work and the check.
    #[test]
    fn strict_readings_answer_the_same() {
        let answer = |payload: &[u8], settings| match oracle::read(payload, settings) {
            Ok(sd) => oracle::read_answer(&sd),
            Err(refusal) => refusal,
        };
        for number in 0..PAYLOADS as u64 {
            let (kind, payload) = one_of_the_mix(1, number);
            let strict = answer(&payload, Settings::STRICT);
            assert_eq!(strict, answer(&payload, Settings::OFF));
            assert_eq!(strict.accepted(), kind != 4);
        }
    }

    /// All kinds but the refused are accepted.
    #[test]
    fn kinds_are_what_they_say() {
        for (number, (name, _, make)) in KINDS.iter().enumerate() {
            for n in 0..500 {
                let payload = make(&mut Random::of(1, family::BENCH, n));
                let read = SdSlice::from_slice(&payload);
                assert_eq!(read.is_ok(), number != 4, "{name}: {read:?}");
            }
        }
        assert_eq!(KINDS.iter().map(|kind| kind.1).sum::<usize>(), 100);
        for (name, family, make) in BESIDE {
            for n in 0..500 {
                let payload = make(&mut Random::of(1, family, n));
                let option = payload.len() - 12 - 16;
                assert!(SdSlice::from_slice(&payload).is_ok(), "{name}");
                assert_eq!((300..=1340).contains(&option), name == "long keys");
            }
        }
        assert_eq!(report_segments(1392).len(), 48);
        assert_eq!(report_segments(512).len(), 2 * MOST_RANGES);
    }
}
