//! The calls that are compared, with their answers as the rules' numbers and values.
//! `port.rs` answers them by the exported functions; `sabotage.rs` by those with a fault.

use std::fmt;

/// As many values as an answer has at most.
pub const VALUES: usize = 5;

/// The rules' number, 0 for accepted, and its values in order; unused ones are 0.
#[derive(Clone, Copy, Debug, Default, PartialEq, Eq)]
#[repr(C)]
pub struct Answer {
    pub number: u64,
    pub values: [u64; VALUES],
}

impl Answer {
    /// A number with its values.
    pub fn new(number: u64, values: &[u64]) -> Answer {
        let mut all = [0; VALUES];
        all[..values.len()].copy_from_slice(values);
        Answer {
            number,
            values: all,
        }
    }

    pub fn accepted(self) -> bool {
        self.number == 0
    }

    /// How many values the rules give with this number (nothing is said of 0, which differs by call).
    pub fn value_count(self) -> usize {
        match self.number {
            16 | 20 | 21 | 30 | 35 | 37 | 38 | 39 => 0,
            1..=5 | 8 | 11 | 13..=15 | 17..=19 | 22 | 34 | 36 => 1,
            6 | 10 | 23 | 32 | 33 => 2,
            31 => 3,
            9 => match self.values[0] {
                1 => 2,
                3 | 4 | 6 => 3,
                _ => 5,
            },
            7 | 12 => 4,
            _ => VALUES,
        }
    }

    /// Whether this number comes with a byte place: the refusals of an option do.
    pub fn tells_place(self) -> bool {
        matches!(self.number, 7..=10 | 23)
    }

    /// The place that is told: the last of the values.
    pub fn place(&mut self) -> Option<&mut u64> {
        if !self.tells_place() {
            return None;
        }
        let last = self.value_count() - 1;
        Some(&mut self.values[last])
    }
}

/// No option, entry or range at this place.
pub const NOTHING: Answer = Answer {
    number: 20,
    values: [0; VALUES],
};

/// One entry with all its fields; those that its kind has not are 0, and all are 0 after a refusal.
#[derive(Clone, Copy, Debug, Default, PartialEq, Eq)]
#[repr(C)]
pub struct Entry {
    pub answer: Answer,
    pub code: u64,
    pub start1: u64,
    pub start2: u64,
    pub count1: u64,
    pub count2: u64,
    pub service: u64,
    pub instance: u64,
    pub major: u64,
    pub ttl: u64,
    pub minor: u64,
    pub initial_data: u64,
    pub counter: u64,
    pub eventgroup: u64,
    pub reserved: u64,
    pub spare: u64,
}

/// One option with all its fields, places counted from its first byte; those that its kind has not are 0, and all are 0 after a refusal.
#[derive(Clone, Copy, Debug, Default, PartialEq, Eq)]
#[repr(C)]
pub struct Opt {
    pub answer: Answer,
    pub code: u64,
    pub size: u64,
    pub discardable: u64,
    pub priority: u64,
    pub weight: u64,
    pub address_at: u64,
    pub address_len: u64,
    pub protocol: u64,
    pub port: u64,
    pub string_at: u64,
    pub string_len: u64,
}

/// Where the two parts of a payload start and how many bytes they have; all 0 after a refusal.
#[derive(Clone, Copy, Debug, Default, PartialEq, Eq)]
#[repr(C)]
pub struct Places {
    pub entries_at: u64,
    pub entries_len: u64,
    pub options_at: u64,
    pub options_len: u64,
}

/// The bit of the settings by which unknown options pass though they may not be discarded.
pub const DISCARD: u32 = 0x1;
/// The bit by which an option with an address is refused for its transport protocol.
pub const STRICT: u32 = 0x2;

/// The settings of a reading, by name.
#[derive(Clone, Copy, Debug, PartialEq, Eq, PartialOrd, Ord)]
pub struct Settings {
    pub strict: bool,
    pub discard: bool,
}

impl Settings {
    pub const OFF: Settings = Settings::of(0);
    pub const STRICT: Settings = Settings::of(STRICT);
    pub const ALL: [Settings; 4] = [
        Settings::OFF,
        Settings::of(DISCARD),
        Settings::STRICT,
        Settings::of(DISCARD | STRICT),
    ];

    /// Those of a word, whose other bits are ignored.
    pub const fn of(word: u32) -> Settings {
        Settings {
            strict: word & STRICT != 0,
            discard: word & DISCARD != 0,
        }
    }

    /// The same, not strict.
    pub fn lenient(self) -> Settings {
        Settings {
            strict: false,
            ..self
        }
    }

    pub fn word(self) -> u32 {
        let discard = if self.discard { DISCARD } else { 0 };
        let strict = if self.strict { STRICT } else { 0 };
        discard | strict
    }
}

impl fmt::Display for Settings {
    fn fmt(&self, f: &mut fmt::Formatter<'_>) -> fmt::Result {
        f.write_str(match (self.discard, self.strict) {
            (false, false) => "no setting on",
            (true, false) => "discard",
            (false, true) => "strict",
            (true, true) => "discard and strict",
        })
    }
}

/// The slots of a table that a reading fills.
pub const SLOTS: usize = 347;
/// How many ranges a stream holds at most; runs are equal as far as the crate holds no more.
pub const MOST_RANGES: usize = 64;
/// The words before the ranges of a stream's state: limit, how many ranges, whether an end is known, the end, how many segments were accepted.
pub const FRONT_WORDS: usize = 5;
/// Those of one range: start, end, number.
pub const RANGE_WORDS: usize = 3;
/// The words of a stream's state.
pub const WORDS: usize = FRONT_WORDS + RANGE_WORDS * MOST_RANGES;
/// The last number that a segment can have.
pub const LAST_NUMBER: u32 = u32::MAX;
pub const MOST_LIMIT: u32 = 65_520;

/// One method for each exported function.
pub trait Calls: Sync {
    fn read(&self, payload: &[u8], table: &mut [u16], settings: u32) -> Answer;
    fn read_message(&self, message: &[u8], table: &mut [u16], settings: u32) -> Answer;
    fn index(&self, options: &[u8], table: &mut [u16], settings: u32) -> Answer;
    fn parts(&self, payload: &[u8], answer: Answer) -> Places;
    fn lookup(&self, options: &[u8], table: &[u16], count: usize, ordinal: usize) -> Answer;
    fn next_option(&self, options: &[u8], at: usize, settings: u32) -> Answer;
    fn next_of_run(
        &self,
        options: &[u8],
        table: &[u16],
        count: usize,
        next: usize,
        left: usize,
    ) -> Answer;
    fn string(&self, string: &[u8]) -> Answer;
    fn next_item(&self, string: &[u8], at: usize) -> Answer;
    fn next_entry(&self, entries: &[u8], at: usize) -> Entry;
    fn read_option(&self, option: &[u8], settings: u32) -> Opt;

    fn begin(&self, state: &mut [u32], limit: u32) -> Answer;
    fn consume(&self, state: &mut [u32], segment: &[u8], buffer: &mut [u8]) -> Answer;
    fn complete(&self, state: &[u32]) -> Answer;
    fn take(&self, state: &[u32], buffer: &mut [u8]) -> Answer;
    fn clear(&self, state: &mut [u32]) -> Answer;
    fn count(&self, state: &[u32]) -> Answer;
    fn range(&self, state: &[u32], from: u32) -> Answer;
}

/// The range at a place of a state's words: start, end, number.
pub fn range_at(state: &[u32], place: usize) -> [u32; RANGE_WORDS] {
    let at = FRONT_WORDS + RANGE_WORDS * place;
    [state[at], state[at + 1], state[at + 2]]
}

/// Writes a range at a place.
pub fn put_range(state: &mut [u32], place: usize, range: [u32; RANGE_WORDS]) {
    let at = FRONT_WORDS + RANGE_WORDS * place;
    state[at..at + RANGE_WORDS].copy_from_slice(&range);
}

/// The ranges that a state holds, in the order of its words.
pub fn ranges_of(state: &[u32]) -> impl Iterator<Item = [u32; RANGE_WORDS]> + '_ {
    let held = (state[1] as usize).min(MOST_RANGES);
    (0..held).map(|place| range_at(state, place))
}
