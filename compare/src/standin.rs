//! A port for tests that need no library: the crate's own readings for service discovery, with the strict setting judged by the fields that it tells,
//! and the rules' plain machine for a stream.

use crate::calls::*;
use crate::oracle;
use someip_parse::TpRange;

pub struct StandIn;

impl StandIn {
    /// Writes the 347 slots unless there are fewer, which is 22.
    fn lent(
        table: &mut [u16],
        index: Option<&someip_parse::sd::SdOptionsIndex>,
        said: Answer,
    ) -> Answer {
        let slots = table.len() as u64;
        let Some(front) = table.get_mut(..SLOTS) else {
            return Answer::new(22, &[slots]);
        };
        let mut filled = [0; SLOTS];
        if let Some(index) = index {
            oracle::fill_table(index, &mut filled);
        }
        front.copy_from_slice(&filled);
        said
    }
}

/// The settings without the strict one.
fn lenient(settings: u32) -> Settings {
    Settings::of(settings & !STRICT)
}

/// The refusal of an option that the crate reads, for the protocol that it tells; the place, counted from the option, is in front of the port.
fn refused_strictly(option: &Opt) -> Option<Answer> {
    let taken: &[u64] = match option.code {
        0x04 | 0x06 | 0x24 | 0x26 => &[0x06, 0x11],
        0x14 | 0x16 => &[0x11],
        _ => return None,
    };
    let wrong = !taken.contains(&option.protocol);
    wrong.then_some(Answer::new(23, &[option.protocol, option.size - 3]))
}

/// The first such refusal among the options that the crate reads, counted from the first byte of all.
fn first_refused_strictly(options: &[u8]) -> Option<Answer> {
    let mut at = 0;
    while at < options.len() {
        let option = oracle::read_option(&options[at..], Settings::OFF);
        if !option.answer.accepted() {
            return None;
        }
        if let Some(mut refusal) = refused_strictly(&option) {
            refusal.values[1] += at as u64;
            return Some(refusal);
        }
        at += option.size as usize;
    }
    None
}

/// The crate's answer to some bytes under the settings; their options begin at `start`, if it came to them.
fn judged<T>(
    said: Result<T, Answer>,
    settings: u32,
    bytes: &[u8],
    start: fn(&[u8]) -> usize,
) -> Result<T, Answer> {
    let early = matches!(&said, Err(refusal) if !(7..=12).contains(&refusal.number));
    if early || settings & STRICT == 0 {
        return said;
    }
    match first_refused_strictly(&bytes[start(bytes)..]) {
        Some(refusal) => Err(refusal),
        None => said,
    }
}

fn options_at(payload: &[u8]) -> usize {
    oracle::places_by_sizes(payload).options_at as usize
}

fn be32(bytes: &[u8]) -> u32 {
    u32::from_be_bytes([bytes[0], bytes[1], bytes[2], bytes[3]])
}

/// A range with its number.
#[derive(Clone, Copy)]
struct Held {
    range: TpRange,
    number: u32,
}

/// The ranges held, or `None` for a malformed state.
fn held(state: &[u32]) -> Option<Vec<Held>> {
    let (limit, count) = (*state.first()?, state[1] as usize);
    if state.len() < WORDS || state[2] > 1 || limit > MOST_LIMIT || count > MOST_RANGES {
        return None;
    }
    let one = |[start, end, number]: [u32; RANGE_WORDS]| Held {
        range: TpRange { start, end },
        number,
    };
    let ranges: Vec<Held> = ranges_of(state).map(one).collect();
    let top = if state[2] != 0 { state[3] } else { limit };
    let misplaced = |r: TpRange| r.end < r.start || r.end > limit.min(top);
    let bad = |held: &Held| misplaced(held.range) || !(1..=state[4]).contains(&held.number);
    let touch = |a: Held, b: Held| a.range.merge(b.range).is_some();
    let touching = (1..count).any(|i| (0..i).any(|j| touch(ranges[i], ranges[j])));
    let past = state[2] != 0 && state[3] > limit;
    (!ranges.iter().any(bad) && !touching && !past).then_some(ranges)
}

fn put(state: &mut [u32], ranges: &[Held]) {
    state[1] = ranges.len() as u32;
    for (place, held) in ranges.iter().enumerate() {
        let range = [held.range.start, held.range.end, held.number];
        put_range(state, place, range);
    }
}

impl Calls for StandIn {
    fn read(&self, payload: &[u8], table: &mut [u16], settings: u32) -> Answer {
        let said = oracle::read(payload, lenient(settings));
        match judged(said, settings, payload, options_at) {
            Ok(sd) => Self::lent(table, Some(sd.options_index()), oracle::read_answer(&sd)),
            Err(answer) => Self::lent(table, None, answer),
        }
    }

    fn read_message(&self, message: &[u8], table: &mut [u16], settings: u32) -> Answer {
        if table.len() >= SLOTS && message.len() < 16 {
            return Self::lent(table, None, Answer::new(1, &[16]));
        }
        let Some(said) = oracle::read_message(message, lenient(settings)) else {
            return Answer::new(99, &[]);
        };
        match judged(said, settings, &message[16..], options_at) {
            Ok(sd) => Self::lent(table, Some(sd.options_index()), oracle::read_answer(&sd)),
            Err(answer) => Self::lent(table, None, answer),
        }
    }

    fn index(&self, options: &[u8], table: &mut [u16], settings: u32) -> Answer {
        let said = oracle::index(options, Settings::OFF);
        match judged(said, settings, options, |_| 0) {
            Ok(index) => Self::lent(table, Some(&index), Answer::new(0, &[index.len() as u64])),
            Err(answer) => Self::lent(table, None, answer),
        }
    }

    fn parts(&self, payload: &[u8], answer: Answer) -> Places {
        if !answer.accepted() {
            return Places::default();
        }
        match oracle::read(payload, Settings::OFF) {
            Err(refusal) if refusal.number <= 6 => Places::default(),
            _ => oracle::places_by_sizes(payload),
        }
    }

    fn lookup(&self, options: &[u8], table: &[u16], count: usize, ordinal: usize) -> Answer {
        oracle::lookup_in(options, table, count, ordinal)
    }

    fn next_option(&self, options: &[u8], at: usize, settings: u32) -> Answer {
        let answer = oracle::next_option(options, at, Settings::OFF);
        if !answer.accepted() {
            return answer;
        }
        match self.read_option(&options[at..], settings).answer {
            refusal if !refusal.accepted() => refusal,
            _ => answer,
        }
    }

    fn next_of_run(
        &self,
        options: &[u8],
        table: &[u16],
        count: usize,
        next: usize,
        left: usize,
    ) -> Answer {
        if left == 0 {
            return NOTHING;
        }
        oracle::lookup_in(options, table, count, next)
    }

    fn string(&self, string: &[u8]) -> Answer {
        oracle::string(string)
    }

    fn next_item(&self, string: &[u8], at: usize) -> Answer {
        oracle::next_item(string, at)
    }

    fn next_entry(&self, entries: &[u8], at: usize) -> Entry {
        oracle::next_entry(entries, at)
    }

    fn read_option(&self, option: &[u8], settings: u32) -> Opt {
        let said = oracle::read_option(option, Settings::OFF);
        match refused_strictly(&said) {
            Some(answer) if settings & STRICT != 0 => Opt {
                answer,
                ..Opt::default()
            },
            _ => said,
        }
    }

    fn begin(&self, state: &mut [u32], limit: u32) -> Answer {
        if state.len() < WORDS {
            return Answer::new(38, &[]);
        }
        state[1..].fill(0);
        state[0] = if limit > MOST_LIMIT { 0 } else { limit };
        if limit > MOST_LIMIT {
            return Answer::new(36, &[limit.into()]);
        }
        Answer::default()
    }

    fn consume(&self, state: &mut [u32], segment: &[u8], buffer: &mut [u8]) -> Answer {
        let Some(ranges) = held(state) else {
            return Answer::new(38, &[]);
        };
        let types = [0x20, 0x21, 0x22, 0xa0, 0xa1];
        if segment.len() < 20
            || be32(&segment[4..]) as usize != segment.len() - 8
            || segment[12] != 1
            || !types.contains(&segment[14])
        {
            return Answer::new(30, &[]);
        }
        let word = be32(&segment[16..]);
        let (offset, more, payload) = (word & !15, word & 1 == 1, &segment[20..]);
        let (start, length) = (u64::from(offset), payload.len() as u64);
        let end = start + length;
        if end > state[0].into() {
            return Answer::new(31, &[start, length, state[0].into()]);
        }
        if more && length % 16 != 0 {
            return Answer::new(32, &[start, length]);
        }
        let known = u64::from(state[3]);
        if state[2] != 0 && (end > known || !more && end != known) {
            return Answer::new(33, &[known, end]);
        }
        let furthest = ranges.iter().map(|held| u64::from(held.range.end)).max();
        if let (false, Some(furthest)) = (more, furthest.filter(|furthest| *furthest > end)) {
            return Answer::new(33, &[furthest, end]);
        }
        if (buffer.len() as u64) < 16 + end {
            return Answer::new(34, &[16 + end]);
        }
        let mut new = TpRange {
            start: offset,
            end: end as u32,
        };
        let mut apart = Vec::new();
        for held in ranges {
            match new.merge(held.range) {
                Some(merged) => new = merged,
                None => apart.push(held),
            }
        }
        if apart.len() == MOST_RANGES {
            return Answer::new(35, &[]);
        }
        if state[4] == LAST_NUMBER {
            return Answer::new(39, &[]);
        }
        state[4] += 1;
        apart.push(Held {
            range: new,
            number: state[4],
        });
        put(state, &apart);
        if !more {
            (state[2], state[3]) = (1, end as u32);
        }
        if offset == 0 {
            buffer[..16].copy_from_slice(&segment[..16]);
            buffer[14] &= !0x20;
        }
        buffer[16 + offset as usize..16 + end as usize].copy_from_slice(payload);
        Answer::default()
    }

    fn complete(&self, state: &[u32]) -> Answer {
        let complete = held(state)
            .is_some_and(|held| state[2] != 0 && held.len() == 1 && held[0].range.start == 0);
        Answer::new(0, &[complete.into()])
    }

    fn take(&self, state: &[u32], buffer: &mut [u8]) -> Answer {
        let Some(ranges) = held(state) else {
            return Answer::new(38, &[]);
        };
        if self.complete(state).values[0] == 0 {
            return Answer::new(37, &[]);
        }
        let end = ranges[0].range.end;
        let length = 16 + u64::from(end);
        if (buffer.len() as u64) < length {
            return Answer::new(34, &[length]);
        }
        buffer[4..8].copy_from_slice(&(end + 8).to_be_bytes());
        Answer::new(0, &[length])
    }

    fn clear(&self, state: &mut [u32]) -> Answer {
        if state.len() < WORDS || state[2] > 1 {
            return Answer::new(38, &[]);
        }
        state[1..FRONT_WORDS].fill(0);
        Answer::default()
    }

    fn count(&self, state: &[u32]) -> Answer {
        match held(state) {
            Some(_) => Answer::new(0, &[state[4].into()]),
            None => Answer::new(38, &[]),
        }
    }

    fn range(&self, state: &[u32], from: u32) -> Answer {
        let Some(ranges) = held(state) else {
            return Answer::new(38, &[]);
        };
        let behind = ranges.iter().filter(|held| held.range.start >= from);
        match behind.min_by_key(|held| held.range.start) {
            Some(held) => {
                let TpRange { start, end } = held.range;
                Answer::new(0, &[start.into(), end.into(), held.number.into()])
            }
            None => NOTHING,
        }
    }
}
