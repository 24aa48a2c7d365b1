//! Service discovery: a payload or a message, its entries and its options.

pub mod entries;
pub mod options;

mod index;
mod iterators;
mod message;
mod shown;
mod slice;

pub use entries::SdEntrySlice;
pub use index::{OffsetTable, SdOptionRunIter, SdOptionsIndex, MAX_SD_OPTIONS_USIZE};
pub use iterators::{
    SdEntriesIterator, SdEntriesWithOptionsIterator, SdEntryWithOptions, SdOptionsIterator,
};
pub use message::SdMessage;
pub use options::SdOptionSlice;
pub use slice::{SdHeaderFlags, SdSlice, Settings};
