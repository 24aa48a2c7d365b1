//! Which final segments of a sequence end behind data that is held. The rules refuse them by 33, with the greatest end held and their own, and the
//! crate takes them: such sequences are no equal runs (docs/DIFFERENCES.md, D15). Told by a walk of the comparison's own over the sequence, which was
//! written from the rules, and neither from the port nor from the crate.

use crate::calls::{Answer, MOST_RANGES};
use crate::tp_inputs::{Sequence, Step};

/// A stream as the walk keeps it: what was accepted since it was begun or cleared.
pub struct Walk {
    limit: u64,
    room: u64,
    ranges: Vec<(u64, u64)>,
    end: Option<u64>,
}

/// The steps that are such segments, with the answer that is due, for a buffer of `room` bytes.
pub fn behind(sequence: &Sequence, room: usize) -> Vec<(usize, Answer)> {
    let mut walk = Walk::new(sequence.limit, room);
    let mut found = Vec::new();
    for (number, step) in sequence.steps.iter().enumerate() {
        match step {
            Step::Segment(segment) => {
                found.extend(walk.comes(segment).map(|answer| (number, answer)))
            }
            Step::Take => {}
            Step::Clear => walk = Walk::new(sequence.limit, room),
        }
    }
    found
}

/// The answer that is due to a step, if it is such a segment.
pub fn due(behind: &[(usize, Answer)], number: usize) -> Option<Answer> {
    let found = behind.iter().find(|(step, _)| *step == number);
    found.map(|(_, answer)| *answer)
}

fn be32(bytes: &[u8]) -> u64 {
    bytes
        .iter()
        .take(4)
        .fold(0, |sum, byte| 256 * sum + u64::from(*byte))
}

impl Walk {
    pub fn new(limit: u32, room: usize) -> Walk {
        Walk {
            limit: limit.into(),
            room: room as u64,
            ranges: Vec::new(),
            end: None,
        }
    }

    /// A segment comes: the answer that is due if it is final and ends behind the data. It is held if nothing refuses it.
    pub fn comes(&mut self, segment: &[u8]) -> Option<Answer> {
        let bytes = segment.len() as u64;
        if bytes < 20
            || be32(&segment[4..]) + 8 != bytes
            || segment[12] != 1
            || ![0x20, 0x21, 0x22, 0xa0, 0xa1].contains(&segment[14])
        {
            return None; // 30
        }
        let word = be32(&segment[16..]);
        let (start, more, length) = (word - word % 16, word % 2 == 1, bytes - 20);
        let end = start + length;
        if end > self.limit || more && length % 16 != 0 {
            return None; // 31, 32
        }
        if self.end.is_some_and(|e| e < end || !more && e != end) {
            return None; // 33, by the end that is known
        }
        let greatest = self.ranges.iter().map(|(_, end)| *end).max().unwrap_or(0);
        if !more && end < greatest {
            return Some(Answer::new(33, &[greatest, end]));
        }
        let touches = |range: &(u64, u64)| range.0 <= end && start <= range.1;
        let (touched, mut apart): (Vec<_>, Vec<_>) = self.ranges.iter().copied().partition(touches);
        if self.room < 16 + end || apart.len() == MOST_RANGES {
            return None; // 34, 35
        }
        let joined = touched
            .iter()
            .fold((start, end), |a, b| (a.0.min(b.0), a.1.max(b.1)));
        apart.push(joined);
        self.ranges = apart;
        if !more {
            self.end = Some(end);
        }
        None
    }
}

#[cfg(test)]
mod tests {
    use super::*;
    use crate::tp_inputs::segment;

    const MORE: bool = true;
    const FINAL: bool = false;

    fn steps(pieces: &[(u32, bool, usize)]) -> Vec<Step> {
        let one = |(at, more, length): &(u32, bool, usize)| segment(*at, *more, &vec![7; *length]);
        pieces.iter().map(one).map(Step::Segment).collect()
    }

    fn found(limit: u32, steps: Vec<Step>, room: usize) -> Vec<(usize, Vec<u64>)> {
        let sequence = Sequence {
            limit,
            spare: 0,
            steps,
        };
        let told = |(step, answer): &(usize, Answer)| {
            assert_eq!(answer.number, 33);
            (*step, answer.values[..2].to_vec())
        };
        behind(&sequence, room).iter().map(told).collect()
    }

    fn of(pieces: &[(u32, bool, usize)]) -> Vec<(usize, Vec<u64>)> {
        found(64, steps(pieces), 80)
    }

    #[test]
    fn ends_below_the_greatest_end_held() {
        let held = [(0, MORE, 16), (16, MORE, 16)];
        let with = |last: (u32, bool, usize)| of(&[held[0], held[1], last]);
        assert_eq!(with((0, FINAL, 16)), [(2, vec![32, 16])]);
        assert_eq!(with((16, FINAL, 15)), [(2, vec![32, 31])]);
        assert_eq!(with((0, FINAL, 0)), [(2, vec![32, 0])]);
        for last in [(16, FINAL, 16), (32, FINAL, 0), (0, MORE, 16)] {
            assert_eq!(with(last), []);
        }
        // Neither the first range nor the last ends last.
        let three = [(0, MORE, 16), (48, MORE, 16), (32, MORE, 0), (16, FINAL, 4)];
        assert_eq!(of(&three), [(3, vec![64, 20])]);
        assert_eq!(of(&[(0, FINAL, 0)]), []);
    }

    #[test]
    fn only_what_is_held_counts() {
        // 33 by the end that is known, 31, 32.
        assert_eq!(of(&[(16, FINAL, 16), (0, FINAL, 16)]), []);
        assert_eq!(of(&[(64, MORE, 16), (0, FINAL, 16)]), []);
        assert_eq!(of(&[(16, MORE, 15), (0, FINAL, 16)]), []);
        // 30, and a stream that is cleared.
        let both = steps(&[(16, MORE, 16), (0, FINAL, 16)]);
        let mut none = both.clone();
        let Step::Segment(bytes) = &mut none[0] else {
            unreachable!()
        };
        bytes[12] = 2;
        assert_eq!(found(64, none, 80), []);
        let cleared = vec![both[0].clone(), Step::Clear, both[1].clone()];
        assert_eq!(found(64, cleared, 80), []);
        // 34; and 33 comes before it.
        assert_eq!(found(64, both.clone(), 47), []);
        assert_eq!(found(64, both, 48), [(1, vec![32, 16])]);
        // 35: the 65th range is not held, and what is refused counts nowhere.
        let mut many: Vec<_> = (0..65).map(|at| (32 * at, MORE, 16)).collect();
        many.push((64 * 32, FINAL, 0));
        many.push((63 * 32, FINAL, 0));
        let told = found(4096, steps(&many), 5000);
        assert_eq!(told, [(66, vec![63 * 32 + 16, 63 * 32])]);
    }
}
