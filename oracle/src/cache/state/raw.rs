// SPDX-License-Identifier: Apache-2.0
//! The private fields of the original `State` and `LoadToken`, read and made.

use core::cell::{Cell, RefCell};

use super::index::Index;
use super::index::invariant_failure;
use super::index::raw::{narrow_all, widen_all};
use super::{CacheKey, EvictionHeap, LoadToken, Slot, State};
use crate::picture::{CLEAN, LOADING, Picture, Record, VACANT};

/// The original's LoadToken, whose fields are private.
#[derive(Clone, Copy, Debug, Default, Eq, PartialEq)]
pub struct Token {
    pub slot: usize,
    pub generation: u64,
    pub key: CacheKey,
    pub access_sequence: u64,
}

impl From<LoadToken> for Token {
    fn from(token: LoadToken) -> Self {
        let LoadToken { slot, generation, key, access_sequence } = token;
        Self { slot, generation, key, access_sequence }
    }
}

impl From<Token> for LoadToken {
    fn from(token: Token) -> Self {
        let Token { slot, generation, key, access_sequence } = token;
        Self { slot, generation, key, access_sequence }
    }
}

/// "A slot becomes a record with a kind number (0 vacant, 1 loading, 2 clean), its unused fields 0."
fn record(slot: &Slot) -> Record {
    match *slot {
        Slot::Vacant => Record::default(),
        Slot::Loading { key, generation } => Record { kind: LOADING, key, generation, last_access: 0 },
        Slot::Clean { key, last_access } => Record { kind: CLEAN, key, generation: 0, last_access },
    }
}

fn slot(record: &Record) -> Slot {
    let Record { kind, key, generation, last_access } = *record;
    match kind {
        VACANT => Slot::Vacant,
        LOADING => Slot::Loading { key, generation },
        CLEAN => Slot::Clean { key, last_access },
        _ => panic!("a made-up table has kinds 0, 1 and 2"),
    }
}

impl State {
    pub(in crate::cache) fn copy(&self) -> Self {
        let [heads, next, free] = self.index.raw();
        Self {
            slots: self.slots.clone(),
            index: Index::from_raw(heads.clone(), next.clone(), free.clone()),
            eviction: self.eviction.copy(),
            ..*self
        }
    }

    pub(in crate::cache) fn last_use_given(&self) -> u64 {
        self.next_access_sequence
    }

    /// The numbers that `inherit_history` carries over.
    pub(in crate::cache) fn numbers(&self) -> [u64; 7] {
        [self.next_load_generation, self.next_access_sequence, self.hits, self.misses, self.evictions, self.in_progress, self.capacity_busy]
    }

    pub(in crate::cache) fn key_of(&self, slot: usize) -> Option<CacheKey> {
        self.slots[slot].key()
    }

    /// How many slots the original's search of the key walks where it comes to the end of its chain; None where it finds the key. Access and lookup search
    /// as the original's private `find` does, `peek_clean` (`peek`) passes all slots that are not clean.
    pub(in crate::cache) fn walked(&self, key: CacheKey, peek: bool) -> Option<usize> {
        let walked = Cell::new(0);
        let found = self.index.find(key, |slot| {
            walked.set(walked.get() + 1);
            match self.slots[slot] {
                Slot::Clean { key: held, .. } => held == key,
                _ if peek => false,
                Slot::Loading { key: held, .. } => held == key,
                Slot::Vacant => invariant_failure(),
            }
        });
        found.is_none().then(|| walked.get())
    }

    /// The original's search along the key's chain, to the first slot at which it is to end, or to the end of the chain: how many slots it visits, and
    /// whether the chain ended. At each slot `ends` is given the slot, the key that is in it, if any, and whether it is clean.
    pub(in crate::cache) fn search(&self, key: CacheKey, ends: impl FnMut(usize, Option<CacheKey>, bool) -> bool) -> (usize, bool) {
        let (visited, ends) = (Cell::new(0), RefCell::new(ends));
        let ended = self.index.find(key, |slot| {
            visited.set(visited.get() + 1);
            let held = &self.slots[slot];
            ends.borrow_mut()(slot, held.key(), matches!(held, Slot::Clean { .. }))
        });
        (visited.get(), ended.is_none())
    }

    /// Without the kept lengths, which stand beside this table.
    pub(in crate::cache) fn picture(&self) -> Picture {
        let [heads, next, free] = self.index.raw().map(|numbers| narrow_all(numbers));
        let entries = self.eviction.entries();
        Picture {
            capacity: self.slots.len() as u64,
            clean: self.clean as u64,
            loading: self.loading as u64,
            counters: [self.hits, self.misses, self.evictions, self.in_progress, self.capacity_busy],
            next_load_generation: self.next_load_generation,
            next_access_sequence: self.next_access_sequence,
            slots: self.slots.iter().map(record).collect(),
            buckets: heads.len() as u64,
            heads,
            lengths: Default::default(),
            next,
            free_len: free.len() as u64,
            free,
            heap_len: entries.len() as u64,
            entries,
            positions: self.eviction.positions(),
        }
    }

    /// The table of a picture that passes the first test of 10.
    pub(in crate::cache) fn from_picture(picture: &Picture) -> Self {
        let [hits, misses, evictions, in_progress, capacity_busy] = picture.counters;
        Self {
            slots: picture.slots.iter().map(slot).collect(),
            index: Index::from_raw(widen_all(&picture.heads), widen_all(&picture.next), widen_all(&picture.free)),
            eviction: EvictionHeap::from_raw(&picture.entries, &picture.positions),
            next_load_generation: picture.next_load_generation,
            next_access_sequence: picture.next_access_sequence,
            hits,
            misses,
            evictions,
            in_progress,
            capacity_busy,
            clean: picture.clean as usize,
            loading: picture.loading as usize,
        }
    }
}
