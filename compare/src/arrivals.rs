//! A count of the comparison's own: which segments were accepted since a stream was begun or cleared, one after the other, and from that the numbers
//! that are due. The crate has none; written from the rules, and neither from the port nor from the crate.

use crate::calls::RANGE_WORDS;

/// Where the accepted segments begin and end, in the order in which they came.
#[derive(Clone, Default)]
pub struct Arrivals {
    spans: Vec<(u32, u32)>,
}

impl Arrivals {
    /// A segment was accepted.
    pub fn add(&mut self, segment: &[u8]) {
        let offset =
            u32::from_be_bytes([segment[16], segment[17], segment[18], segment[19] & 0xf0]);
        let end = offset + (segment.len() - 20) as u32;
        self.spans.push((offset, end));
    }

    /// How many there are.
    pub fn count(&self) -> u64 {
        self.spans.len() as u64
    }

    /// The place, from 1, of the latest of them that lies in a range.
    fn latest(&self, start: u32, end: u32) -> Option<u32> {
        let within = |span: &(u32, u32)| start <= span.0 && span.1 <= end;
        let place = self.spans.iter().rposition(within)?;
        Some(place as u32 + 1)
    }

    /// The ranges with the numbers that are due.
    pub fn numbered(&self, ranges: &[(u32, u32)]) -> Vec<[u32; RANGE_WORDS]> {
        let number = |range: &(u32, u32)| self.latest(range.0, range.1).unwrap_or(0);
        let one = |range: &(u32, u32)| [range.0, range.1, number(range)];
        ranges.iter().map(one).collect()
    }
}

#[cfg(test)]
mod tests {
    use super::*;
    use crate::tp_inputs::segment;

    #[test]
    fn the_latest_that_lies_in_a_range() {
        let mut arrivals = Arrivals::default();
        let mut comes =
            |offset, length: usize| arrivals.add(&segment(offset, true, &vec![7; length]));
        comes(0, 16);
        comes(64, 16);
        comes(16, 16);
        comes(80, 0);
        assert_eq!(arrivals.count(), 4);
        let ranges = [(0, 32), (64, 80), (96, 112)];
        let due = [[0, 32, 3], [64, 80, 4], [96, 112, 0]];
        assert_eq!(arrivals.numbered(&ranges), due);
        // One that reaches out of a range does not lie in it.
        assert_eq!(arrivals.numbered(&[(0, 24)]), [[0, 24, 1]]);
    }
}
