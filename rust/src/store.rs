//! The calls over stores: with rooms made here, and with rooms that the caller lends.

use crate::boundary::{
    bahrufaz_admit, bahrufaz_build, bahrufaz_list, bahrufaz_plan, BUILD_STACK, PLAN_STACK,
    PLAN_WORDS,
};
use crate::bytes::{PatternBytes, StoreBytes};
use crate::error::Error;
use crate::listing::{Listed, Listing};
use crate::number::{checked, Call, Number, Refusal};
use crate::plan::Plan;
use crate::stack;
use std::ops::Deref;

/// No store is longer: header, nodes, edges, constraints, groups and entries at their limits.
const MAX_STORE: usize = 48 + 8 * 65_535 + 8 * 262_144 + 12 * 32 + 24 * 262_144 + 8 * 1_048_576;
const FIRST_ROOM_WORDS: usize = 1 << 14;
/// A room for matches grows up to 1 GiB.
const MOST_ROOM_WORDS: usize = 1 << 28;

/// A store that is admitted: building from its own records gives the same bytes.
///
/// What is listed in it are the matches of the whole graph. It comes from building, or from bytes that
/// were admitted; there is no other way to one. Planning needs no admitted store, so it stands with
/// [`StoreBytes`], and works here too.
///
/// A store and a pattern cannot be taken for one another, nor bytes for an admitted store:
///
/// ```
/// # use bahrufaz::{Error, Listing, PatternBytes, Store};
/// fn listed(store: &Store, pattern: &PatternBytes) -> Result<Listing, Error> {
///     store.list(pattern)
/// }
/// ```
/// ```compile_fail,E0308
/// # use bahrufaz::{Error, Listing, PatternBytes, Store};
/// fn listed(store: &Store, pattern: &PatternBytes) -> Result<Listing, Error> {
///     store.list(store)
/// }
/// ```
/// ```compile_fail,E0599
/// # use bahrufaz::{Error, Listing, PatternBytes, StoreBytes};
/// fn listed(store: &StoreBytes, pattern: &PatternBytes) -> Result<Listing, Error> {
///     store.list(pattern)
/// }
/// ```
#[derive(Debug, Clone, PartialEq, Eq)]
pub struct Store<'a>(StoreBytes<'a>);

impl<'a> Store<'a> {
    /// Takes bytes for a store if building from its own records gives the same bytes.
    ///
    /// # Errors
    /// Refused with 1 to 5.
    pub fn admit(bytes: impl Into<StoreBytes<'a>>) -> Result<Store<'a>, Error> {
        let store = bytes.into();
        let run = store.as_ref();
        let number = stack::with(BUILD_STACK, || {
            // SAFETY: the length comes with the slice; the stack is there.
            unsafe { bahrufaz_admit(run.as_ptr(), run.len()) }
        })?;
        checked(Call::Admit, number)?;
        Ok(Store(store))
    }

    /// The matches of a pattern in the whole graph.
    ///
    /// # Errors
    /// Refused with 6, 7 or 8, and with 10 where the matches need more than 1 GiB; too little memory
    /// or stack.
    pub fn list(&self, pattern: &PatternBytes) -> Result<Listing, Error> {
        self.0.list_unadmitted(pattern)
    }

    /// Writes the matches of a pattern in the whole graph into the room, a word for each of their
    /// nodes; `work` needs 2T words.
    ///
    /// Answers, and refusals with [`Number::Room`], leave the first 2T words of `work` 0 and the rest
    /// unchanged; any other refusal changes none.
    ///
    /// # Errors
    /// Refused with 6 to 10; too little stack.
    pub fn list_into(
        &self,
        pattern: &PatternBytes,
        work: &mut [u32],
        room: &mut [u32],
    ) -> Result<Listed, Error> {
        self.0.list_unadmitted_into(pattern, work, room)
    }

    /// The bytes of the store.
    pub fn into_bytes(self) -> StoreBytes<'a> {
        self.0
    }
}

impl<'a> Deref for Store<'a> {
    type Target = StoreBytes<'a>;

    fn deref(&self) -> &StoreBytes<'a> {
        &self.0
    }
}

impl StoreBytes<'_> {
    /// The store of a draft.
    ///
    /// # Errors
    /// Refused with 1 to 4 or 11; too little stack.
    pub fn build(&self) -> Result<Store<'static>, Error> {
        let mut room = vec![0; MAX_STORE];
        let length = self.build_length(&mut room)?;
        room.truncate(length);
        room.shrink_to_fit();
        Ok(Store(room.into()))
    }

    /// Builds the store of a draft in the room; what lies past it is unchanged.
    ///
    /// # Errors
    /// Refused with 1 to 4, 10 or 11, and the room is unchanged; too little stack.
    pub fn build_into<'r>(&self, room: &'r mut [u8]) -> Result<Store<'r>, Error> {
        let length = self.build_length(room)?;
        let (store, _) = room.split_at(length.min(room.len()));
        Ok(Store(store.into()))
    }

    fn build_length(&self, room: &mut [u8]) -> Result<usize, Error> {
        let (draft, mut results) = (self.as_ref(), [0; 8]);
        let number = stack::with(BUILD_STACK, || {
            let (from, to) = (draft.as_ptr(), room.as_mut_ptr());
            // SAFETY: lengths, alignment and no overlap come with the slices; the stack is there.
            unsafe { bahrufaz_build(from, draft.len(), to, room.len(), results.as_mut_ptr()) }
        })?;
        checked(Call::Build, number)?;
        let [length, ..] = results;
        Ok(length as usize)
    }

    /// The plan of a pattern over the constraints of a store or draft, admitted or not.
    ///
    /// # Errors
    /// Refused with 1, 3, 6, 7 or 8; too little stack.
    pub fn plan(&self, pattern: &PatternBytes) -> Result<Plan, Error> {
        let mut room = [0; PLAN_WORDS];
        let bound = self.plan_into(pattern, &mut room)?;
        Ok(Plan::of_words(bound, &room, pattern.nodes().saturating_add(pattern.edges())))
    }

    /// Writes the rows of the plan into the room, 8 words each; the bound T. 512 words are always
    /// enough, and what lies past the rows is unchanged.
    ///
    /// # Errors
    /// Refused with 1, 3, 6, 7, 8 or 10, and the room is unchanged; too little stack.
    pub fn plan_into(&self, pattern: &PatternBytes, room: &mut [u32]) -> Result<u32, Error> {
        let (store, pattern, mut results) = (self.as_ref(), pattern.as_ref(), [0; 8]);
        let number = stack::with(PLAN_STACK, || {
            let (from, wanted) = (store.as_ptr(), pattern.as_ptr());
            let (to, told) = (room.as_mut_ptr(), results.as_mut_ptr());
            // SAFETY: as in `build_length`.
            unsafe { bahrufaz_plan(from, store.len(), wanted, pattern.len(), to, room.len(), told) }
        })?;
        checked(Call::Plan, number)?;
        let [bound, ..] = results;
        Ok(bound)
    }

    /// What listing gives on these bytes, whether they are an admitted store or not.
    ///
    /// On a store that is not admitted, matches of the graph may be missing, and nothing says so:
    /// [`Store::list`] is the call for all but those who want just that.
    ///
    /// # Errors
    /// Refused with 1, 3, 5, 6, 7 or 8, and with 10 where the matches need more than 1 GiB; too little
    /// memory or stack.
    pub fn list_unadmitted(&self, pattern: &PatternBytes) -> Result<Listing, Error> {
        let bound = self.plan(pattern).map_err(of_listing)?.bound;
        let mut work = zeros(2 * bound as usize)?;
        let mut words = FIRST_ROOM_WORDS;
        loop {
            let mut room = zeros(words)?;
            let told = self.list_unadmitted_into(pattern, &mut work, &mut room);
            match (told.map_err(|error| error.number()), larger(words)) {
                (Err(Some(Number::Room)), Some(more)) => words = more,
                _ => return told.map(|told| Listing::of_room(told, room, pattern.nodes())),
            }
        }
    }

    /// As [`Store::list_into`], whether these bytes are an admitted store or not: matches of the graph
    /// may be missing.
    ///
    /// # Errors
    /// Refused with 1, 3 or 5 to 10; too little stack.
    pub fn list_unadmitted_into(
        &self,
        pattern: &PatternBytes,
        work: &mut [u32],
        room: &mut [u32],
    ) -> Result<Listed, Error> {
        let (store, pattern, mut results) = (self.as_ref(), pattern.as_ref(), [0; 8]);
        let number = stack::with(PLAN_STACK, || {
            let (from, wanted) = (store.as_ptr(), pattern.as_ptr());
            let (scratch, to, told) = (work.as_mut_ptr(), room.as_mut_ptr(), results.as_mut_ptr());
            let (m, n, o, p) = (store.len(), pattern.len(), work.len(), room.len());
            // SAFETY: as in `build_length`.
            unsafe { bahrufaz_list(from, m, wanted, n, scratch, o, to, p, told) }
        })?;
        checked(Call::List, number)?;
        Ok(Listed::of_results(results))
    }
}

/// A refusal of planning as one of listing, which looks at the same things first.
fn of_listing(error: Error) -> Error {
    match error {
        Error::Refused(refusal) => Refusal { call: Call::List, ..refusal }.into(),
        other => other,
    }
}

/// The room that is tried after one of so many words was too short.
fn larger(words: usize) -> Option<usize> {
    (words < MOST_ROOM_WORDS).then(|| words.saturating_mul(8).min(MOST_ROOM_WORDS))
}

/// A room of words: its length follows from what is lent, so that there may be no memory for it.
fn zeros(words: usize) -> Result<Vec<u32>, Error> {
    let mut room = Vec::new();
    room.try_reserve_exact(words).map_err(|_| Error::Memory(words.saturating_mul(4)))?;
    room.resize(words, 0);
    Ok(room)
}

#[cfg(test)]
mod tests {
    use super::*;

    #[test]
    fn rooms_grow_up_to_the_most_and_no_further() {
        let rooms: Vec<usize> =
            std::iter::successors(Some(FIRST_ROOM_WORDS), |&words| larger(words)).collect();
        assert_eq!(rooms.last(), Some(&MOST_ROOM_WORDS));
        assert!(rooms.windows(2).all(|pair| pair[0] < pair[1]), "{rooms:?}");
    }

    #[test]
    fn a_room_that_no_memory_holds_is_told() {
        assert_eq!(zeros(usize::MAX / 8), Err(Error::Memory(usize::MAX / 8 * 4)));
    }
}
