//! How much is compared, and the families of a run's generator.

/// How much is compared.
#[derive(Clone, Copy)]
pub struct Plan {
    pub seed: u64,
    /// Seeded payloads and messages.
    pub payloads: u64,
    /// Seeded sequences of segments.
    pub sequences: u64,
    pub exhaustive: Exhaustive,
    pub threads: usize,
}

/// Which of the exhaustive inputs are compared beside the seeded ones.
#[derive(Clone, Copy, PartialEq, Eq, PartialOrd, Ord)]
pub enum Exhaustive {
    None,
    /// Without the longest strings and sequences.
    Short,
    /// All, among them the 16,777,216 strings of three bytes and the 331,776 sequences of four segments.
    Long,
}

/// The families of a run's generator; an input's number within one makes it again.
pub mod family {
    pub const PAYLOAD: u64 = 1;
    pub const INDEX: u64 = 2;
    pub const ALONE: u64 = 3;
    pub const FOREIGN: u64 = 4;
    pub const SEQUENCE: u64 = 5;
    pub const SHORT: u64 = 6;
    pub const RECORD: u64 = 7;
    pub const BENCH: u64 = 8;
    pub const LONG_KEYS: u64 = 9;
    pub const SHORT_ITEM: u64 = 10;
    pub const LONG_STRING: u64 = 11;
    pub const REFUSED_OPTION: u64 = 12;
    pub const REFUSED_RECORD: u64 = 13;
    pub const WRONG_PROTOCOL: u64 = 14;
    pub const STRICT_RECORD: u64 = 15;
    pub const STRICT_REFUSED_RECORD: u64 = 16;
    pub const WRONG_PROTOCOL_RECORD: u64 = 17;
    pub const ODD_EVEN: u64 = 18;
    pub const ODD_EVEN_RECORD: u64 = 19;
    pub const SHUFFLED: u64 = 20;
    pub const TWO_ORDERS: u64 = 21;

    /// Added to a family: what is drawn for the strict setting beside its inputs, which stay what they are without it.
    pub const STRICTLY: u64 = 100;
}
