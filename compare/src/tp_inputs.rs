//! Seeded sequences of segments for one stream: cut messages in every order, overlaps, repeats, empty segments, conflicting ends, gaps up to
//! as many ranges as may be held and one more, and bytes that are no segments; reports in odd-even order and in two orders; and the exhaustive short
//! sequences.

use crate::calls::{MOST_LIMIT, MOST_RANGES};
use crate::random::Random;

#[derive(Clone, Debug)]
pub enum Step {
    Segment(Vec<u8>),
    Take,
    Clear,
}

/// One stream: its limit, and what is done with it. The buffer has 16 plus the limit and `spare` bytes.
#[derive(Clone, Debug, Default)]
pub struct Sequence {
    pub limit: u32,
    pub spare: usize,
    pub steps: Vec<Step>,
}

/// A segment with a plain header.
pub fn segment(offset: u32, more: bool, payload: &[u8]) -> Vec<u8> {
    let mut bytes = Vec::with_capacity(20 + payload.len());
    bytes.extend_from_slice(&[0x12, 0x34, 0x80, 0x01]);
    bytes.extend_from_slice(&(12 + payload.len() as u32).to_be_bytes());
    bytes.extend_from_slice(&[0, 0, 0, 7, 1, 1, 0x22, 0]);
    bytes.extend_from_slice(&(offset | u32::from(more)).to_be_bytes());
    bytes.extend_from_slice(payload);
    bytes
}

/// A segment with random payload, and a header that varies where the stream does not look.
fn random_segment(r: &mut Random, offset: usize, more: bool, length: usize) -> Vec<u8> {
    let mut payload = Vec::new();
    r.bytes(length, &mut payload);
    let mut bytes = segment(offset as u32, more, &payload);
    if r.once_in(3) {
        for at in [0, 1, 2, 3, 8, 9, 10, 11, 13, 15] {
            bytes[at] = r.byte();
        }
    }
    bytes[14] = r.pick(&[0x20, 0x21, 0x22, 0x22, 0xa0, 0xa1]);
    bytes[19] |= r.byte() & 0x0e;
    bytes
}

/// Bytes that are no segment: short, with a wrong length field, version or type, or with bytes behind.
fn not_a_segment(r: &mut Random) -> Vec<u8> {
    let mut bytes = random_segment(r, 0, true, 16);
    match r.below(5) {
        0 => {
            let some = r.below(bytes.len());
            bytes.truncate(some)
        }
        1 => bytes[7] = bytes[7].wrapping_add(r.pick(&[1, 255, 4])),
        2 => bytes[12] = r.pick(&[0, 2, 255]),
        3 => bytes[14] = r.pick(&[0x00, 0x02, 0x23, 0x40, 0x80, 0xa2, 0xff]),
        _ => {
            bytes.truncate(r.between(16, 19));
            let length = bytes.len() as u8 - 8;
            bytes[4..8].copy_from_slice(&[0, 0, 0, length]);
        }
    }
    bytes
}

/// A message cut into pieces of whole sixteens, the last of any length: offset, whether more follow, length.
fn cut(r: &mut Random, total: usize, most: usize) -> Vec<(usize, bool, usize)> {
    let mut pieces = Vec::new();
    let mut at = 0;
    loop {
        let length = 16 * r.between(1, most);
        if at + length >= total {
            pieces.push((at, false, total - at));
            return pieces;
        }
        pieces.push((at, true, length));
        at += length;
    }
}

/// A cut message in random order, with repeats, overlaps, wrong ends, empty pieces and lost pieces at times.
fn cut_message(r: &mut Random, total: usize, most: usize, steps: &mut Vec<Step>) {
    let mut pieces = cut(r, total, most);
    match r.below(4) {
        0 => {}
        1 => pieces.reverse(),
        _ => r.shuffle(&mut pieces),
    }
    let mut all = Vec::new();
    for (at, more, length) in pieces {
        if r.once_in(20) {
            continue;
        }
        all.push((at, more, length));
        if r.once_in(8) {
            all.push((at, more, length));
        }
        if r.once_in(8) {
            let longer = if more {
                length + 16
            } else {
                length + r.below(17)
            };
            all.push((at.saturating_sub(16), more, longer));
        }
        if r.once_in(12) {
            all.push((at, r.once_in(2), 0));
        }
        if r.once_in(16) {
            all.push((at, !more, length));
        }
    }
    for (at, more, length) in all {
        steps.push(Step::Segment(random_segment(r, at, more, length)));
        if r.once_in(6) {
            steps.push(Step::Take);
        }
    }
}

/// Segments of no plan near and past the limit.
fn wild(r: &mut Random, limit: usize, steps: &mut Vec<Step>) {
    for _ in 0..r.between(1, 12) {
        let offset = match r.below(12) {
            0 => 0xffff_fff0,
            1 => limit / 16 * 16,
            2 => limit / 16 * 16 + 16,
            3 => 0,
            _ => 16 * r.below(limit / 16 + 2),
        };
        let more = !r.once_in(4);
        let length = match r.below(8) {
            0 => r.below(40),
            1 => 0,
            2 => limit.saturating_sub(offset).min(600),
            3 => (limit.saturating_sub(offset) + 1).min(600),
            _ => 16 * r.below(4),
        };
        steps.push(Step::Segment(random_segment(r, offset, more, length)));
        match r.below(24) {
            0..=2 => steps.push(Step::Take),
            3 => steps.push(Step::Clear),
            4 | 5 => steps.push(Step::Segment(not_a_segment(r))),
            _ => {}
        }
    }
}

/// Ranges with gaps between them, at most one too many; then the gaps filled in any order: a place freed by joining is used again.
fn gaps(r: &mut Random, steps: &mut Vec<Step>) -> usize {
    let most = MOST_RANGES;
    let count = r.pick(&[3, 8, most - 1, most, most, most + 1]);
    let mut islands: Vec<usize> = (0..count).collect();
    r.shuffle(&mut islands);
    for at in &islands {
        let more = !(*at == count - 1 && r.once_in(2));
        steps.push(Step::Segment(random_segment(r, 32 * at, more, 16)));
    }
    let mut fillers: Vec<usize> = (0..count - 1).collect();
    r.shuffle(&mut fillers);
    let some = r.below(fillers.len() + 1);
    for at in &fillers[..some] {
        steps.push(Step::Segment(random_segment(r, 32 * at + 16, true, 16)));
        if r.once_in(10) {
            steps.push(Step::Take);
        }
    }
    for at in islands {
        if r.once_in(8) {
            steps.push(Step::Segment(random_segment(r, 32 * at, true, 16)));
        }
    }
    32 * count
}

/// Every second one, beginning with the first or the second.
fn every_second<T: Copy>(all: &[T], first: usize) -> impl Iterator<Item = T> + '_ {
    all.iter().copied().skip(first).step_by(2)
}

/// A 64 KB report from segments of 1,392 bytes, in any order.
fn large(r: &mut Random, steps: &mut Vec<Step>) {
    let total = r.pick(&[65_520, 65_519, 65_505, 30_000]);
    let mut pieces: Vec<usize> = (0..total).step_by(1392).collect();
    match r.below(4) {
        0 => {}
        1 => pieces.reverse(),
        2 => {
            pieces = every_second(&pieces, 0)
                .chain(every_second(&pieces, 1))
                .collect()
        }
        _ => r.shuffle(&mut pieces),
    }
    for at in pieces {
        let length = 1392.min(total - at);
        steps.push(Step::Segment(random_segment(
            r,
            at,
            at + length < total,
            length,
        )));
    }
}

/// A seeded sequence.
pub fn sequence(r: &mut Random) -> Sequence {
    let mut steps = Vec::new();
    let limit = match r.below(400) {
        0 => {
            large(r, &mut steps);
            r.pick(&[65_520, 65_519, 65_505])
        }
        1..=30 => {
            let needed = gaps(r, &mut steps);
            needed - r.pick(&[0, 0, 16, 8])
        }
        31..=230 => {
            let total = r.below(200);
            let most = r.between(1, 4);
            cut_message(r, total, most, &mut steps);
            let tight = total / 16 * 16 + r.below(34);
            r.pick(&[total, tight, 240, 256, 1024])
        }
        231..=240 => {
            let total = r.below(2000);
            cut_message(r, total, 12, &mut steps);
            r.pick(&[total, 2048, MOST_LIMIT as usize])
        }
        _ => {
            let limit = r.pick(&[0, 1, 15, 16, 17, 31, 32, 48, 63, 64, 100, 128, 160]);
            wild(r, limit, &mut steps);
            limit
        }
    };
    if r.once_in(20) {
        let again = steps.clone();
        steps.push(Step::Clear);
        steps.extend(again);
    }
    steps.push(Step::Take);
    Sequence {
        limit: limit as u32,
        spare: r.pick(&[0, 0, 1, 9]),
        steps,
    }
}

/// How many segments a report in odd-even order has at most: a range more than may be held comes up.
pub const MOST_ODD_EVEN: usize = 2 * MOST_RANGES + 1;

/// A report of so many segments of `length` bytes, the last shorter at times: every second one, beginning with the first or the second, and then the
/// others; each half front to back, or back to front, or in any order.
pub fn odd_even(r: &mut Random, segments: usize, length: usize) -> Sequence {
    let pieces: Vec<usize> = (0..segments).collect();
    let total = segments * length - r.pick(&[0, 0, 1, length - 1]);
    let first = r.below(2);
    let mut steps = Vec::new();
    for half in [first, 1 - first] {
        let mut half: Vec<usize> = every_second(&pieces, half).collect();
        match r.below(4) {
            0 => half.reverse(),
            1 => r.shuffle(&mut half),
            _ => {}
        }
        for piece in half {
            let (at, end) = (piece * length, total.min((piece + 1) * length));
            let bytes = random_segment(r, at, end < total, end - at);
            steps.push(Step::Segment(bytes));
            if r.once_in(10) {
                steps.push(Step::Take);
            }
        }
    }
    steps.push(Step::Take);
    Sequence {
        limit: r.pick(&[total, total, segments * length]) as u32,
        spare: r.pick(&[0, 0, 1, 9]),
        steps,
    }
}

/// A message cut into pieces, each of which comes once, in two orders; one in eight lacks a piece. One in 64 has so many pieces that an order of them
/// may get 35.
pub fn two_orders(r: &mut Random) -> [Sequence; 2] {
    let (total, most) = match r.below(64) {
        0 => (16 * r.between(240, 320), 1),
        1..=7 => (r.between(1, 20_000), 87),
        _ => (r.between(1, 400), r.between(1, 4)),
    };
    let mut segments = Vec::new();
    for (at, more, length) in cut(r, total, most) {
        segments.push(Step::Segment(random_segment(r, at, more, length)));
    }
    if r.once_in(8) {
        segments.remove(r.below(segments.len()));
    }
    let limit = r.pick(&[total, total, MOST_LIMIT as usize]) as u32;
    let spare = r.pick(&[0, 0, 1, 9]);
    let order = |r: &mut Random| {
        let mut steps = segments.clone();
        r.shuffle(&mut steps);
        steps.push(Step::Take);
        Sequence {
            limit,
            spare,
            steps,
        }
    };
    [order(r), order(r)]
}

/// The segments of the exhaustive sequences: offsets 0 to 48, lengths 0, 16 and 32, more or final. The limit is 64.
pub const LETTERS: usize = 4 * 3 * 2;
pub const SHORT_LIMIT: u32 = 64;

/// Sequence number `n` of those with `length` segments.
pub fn nth_sequence(length: usize, n: usize) -> Sequence {
    let mut steps = Vec::with_capacity(length + 1);
    let mut left = n;
    for place in 0..length {
        let letter = left % LETTERS;
        left /= LETTERS;
        let payload = [0x10 * (place as u8 + 1) + letter as u8; 32];
        let (offset, size) = (16 * (letter % 4), 16 * (letter / 4 % 3));
        steps.push(Step::Segment(segment(
            offset as u32,
            letter < 12,
            &payload[..size],
        )));
    }
    steps.push(Step::Take);
    Sequence {
        limit: SHORT_LIMIT,
        spare: 0,
        steps,
    }
}

/// The cut messages whose every order is tried: the pieces' offsets, whether more follow, and lengths.
pub const ORDERED: [&[(u32, bool, usize)]; 6] = [
    &[
        (0, true, 16),
        (16, true, 16),
        (32, true, 16),
        (48, true, 16),
        (64, true, 16),
        (80, false, 7),
    ],
    &[
        (0, true, 32),
        (16, true, 32),
        (32, true, 32),
        (48, true, 32),
        (64, true, 32),
        (80, false, 16),
    ],
    &[
        (0, true, 16),
        (32, true, 16),
        (64, true, 16),
        (16, true, 16),
        (48, true, 16),
        (80, false, 0),
    ],
    &[
        (0, true, 0),
        (0, true, 16),
        (16, true, 0),
        (16, false, 16),
        (32, true, 0),
        (32, false, 0),
    ],
    &[
        (0, true, 16),
        (16, false, 16),
        (16, false, 20),
        (32, false, 16),
        (0, true, 48),
        (16, true, 16),
    ],
    &[
        (0, false, 96),
        (0, true, 96),
        (16, true, 64),
        (32, true, 32),
        (96, false, 0),
        (80, false, 16),
    ],
];

/// All orders of `n` things, as lists of places.
pub fn orders(n: usize) -> Vec<Vec<usize>> {
    if n == 0 {
        return vec![vec![]];
    }
    let mut all = Vec::new();
    for shorter in orders(n - 1) {
        for at in 0..n {
            let mut longer = shorter.clone();
            longer.insert(at, n - 1);
            all.push(longer);
        }
    }
    all
}

/// One order of one of the cut messages.
pub fn ordered_sequence(pieces: &[(u32, bool, usize)], order: &[usize]) -> Sequence {
    let mut steps = Vec::new();
    for (place, piece) in order.iter().enumerate() {
        let (offset, more, length) = pieces[*piece];
        let payload = vec![(place * 16 + piece) as u8 + 1; length];
        steps.push(Step::Segment(segment(offset, more, &payload)));
        steps.push(Step::Take);
    }
    Sequence {
        limit: 96,
        spare: 3,
        steps,
    }
}

#[cfg(test)]
mod tests {
    use super::*;

    #[test]
    fn all_orders_once() {
        let mut all = orders(6);
        assert_eq!(all.len(), 720);
        all.sort();
        all.dedup();
        assert_eq!(all.len(), 720);
    }

    #[test]
    fn same_seed_same_sequence() {
        for n in 0..200 {
            let (a, b) = (
                sequence(&mut Random::of(1, 0, n)),
                sequence(&mut Random::of(1, 0, n)),
            );
            assert_eq!(format!("{a:?}"), format!("{b:?}"));
        }
    }
}
