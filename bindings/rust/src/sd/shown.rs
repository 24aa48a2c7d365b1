//! How readings show themselves to a person (`Debug`): each entry and option by its fields, and a refusal by its words.

use super::options::ConfigurationItems;
use super::{
    SdEntriesIterator, SdEntryWithOptions, SdOptionRunIter, SdOptionsIndex, SdOptionsIterator,
    SdSlice,
};
use crate::Refusal;
use core::fmt::{self, Debug, Formatter};

/// What a cursor handed out.
struct Handed<T>(Result<T, Refusal>);

impl<T: Debug> Debug for Handed<T> {
    fn fmt(&self, f: &mut Formatter<'_>) -> fmt::Result {
        match &self.0 {
            Ok(thing) => thing.fmt(f),
            Err(refusal) => write!(f, "{refusal}"),
        }
    }
}

/// All that an iterator has still to hand out.
pub(super) struct All<I>(pub I);

impl<T: Debug, I: Iterator<Item = Result<T, Refusal>> + Clone> Debug for All<I> {
    fn fmt(&self, f: &mut Formatter<'_>) -> fmt::Result {
        f.debug_list().entries(self.0.clone().map(Handed)).finish()
    }
}

/// The options of a run that are still to come.
struct Run<'r, 'a, 't>(&'r SdOptionRunIter<'a, 't>);

impl Debug for Run<'_, '_, '_> {
    fn fmt(&self, f: &mut Formatter<'_>) -> fmt::Result {
        f.debug_list().entries(self.0.clone()).finish()
    }
}

impl Debug for SdSlice<'_, '_> {
    fn fmt(&self, f: &mut Formatter<'_>) -> fmt::Result {
        f.debug_struct("SdSlice")
            .field("flags", self.flags())
            .field("entries", &All(self.entries()))
            .field("options", &All(self.options()))
            .finish()
    }
}

impl Debug for SdOptionsIndex<'_, '_> {
    fn fmt(&self, f: &mut Formatter<'_>) -> fmt::Result {
        f.debug_struct("SdOptionsIndex")
            .field("len", &self.len())
            .field("options", &All(SdOptionsIterator::new(self.options())))
            .finish()
    }
}

impl Debug for SdEntryWithOptions<'_, '_> {
    fn fmt(&self, f: &mut Formatter<'_>) -> fmt::Result {
        f.debug_struct("SdEntryWithOptions")
            .field("entry", self.entry())
            .field("options_run_1", &Run(&self.options_run_1()))
            .field("options_run_2", &Run(&self.options_run_2()))
            .finish()
    }
}

/// The iterators, by what they have still to hand out.
macro_rules! to_come {
    ($name:ident, $all:ident) => {
        impl Debug for $name<'_> {
            fn fmt(&self, f: &mut Formatter<'_>) -> fmt::Result {
                f.debug_tuple(stringify!($name))
                    .field(&$all(self.clone()))
                    .finish()
            }
        }
    };
}

to_come!(SdEntriesIterator, All);
to_come!(SdOptionsIterator, All);
to_come!(ConfigurationItems, All);

impl Debug for SdOptionRunIter<'_, '_> {
    fn fmt(&self, f: &mut Formatter<'_>) -> fmt::Result {
        f.debug_tuple("SdOptionRunIter").field(&Run(self)).finish()
    }
}
