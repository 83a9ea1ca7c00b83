// SPDX-License-Identifier: Apache-2.0
//! The original table with public functions. Each call below runs the original; nothing here decides an answer but that the
//! original's stop is 10. Document 01's own rules stand in front of these calls, in calls.rs. Document 02's chain lengths are kept here beside the
//! original table; what they decide stands in calls.rs too.

use alloc::rc::Rc;
use core::cell::{Cell, RefCell};
use std::collections::HashSet;
use std::panic::{AssertUnwindSafe, catch_unwind, set_hook, take_hook};
use std::sync::Once;

#[path = "gate_raw.rs"]
pub mod gate;

use self::gate::Gate;
pub use super::key::CacheKey;
pub use super::state::raw::Token;
use super::state::{self, State};
use super::{Budget, CacheAccess, CacheError, CacheState, FileDataCache, Maintenance, OwnedPage, memory};
use crate::picture::{CLEAN, NONE, Picture, Record, narrow};

pub const STOP: u8 = 10;

pub struct Table {
    state: State,
    /// The kept length of each bucket's chain: one less for each key that left it, one more for each that came in. It is below 0 where more keys left than
    /// were kept, which calls.rs takes back.
    lengths: Vec<i16>,
}

#[derive(Clone, Copy, Debug, Eq, PartialEq)]
pub enum Access {
    Hit(usize),
    Loading,
    Reserved { token: Token, evicted: bool },
    Busy,
}

#[derive(Clone, Copy, Debug, Eq, PartialEq)]
pub enum Maintained {
    Unchanged,
    Busy,
    /// `emptied`: the original took the old table for one without a key and made a fresh one. `overwritten`: it moved two pages to one new slot, so that only
    /// the second is found there. `below`: the keys that were removed from the old table take a kept length of it below 0.
    Resized {
        capacity: usize,
        emptied: bool,
        overwritten: bool,
        below: bool,
    },
}

impl Clone for Table {
    fn clone(&self) -> Self {
        Self { state: self.state.copy(), lengths: self.lengths.clone() }
    }
}

impl Table {
    pub fn try_new(capacity: usize) -> Result<Self, u8> {
        State::try_new(capacity).map(Self::walked_anew).map_err(refusal)
    }

    pub fn from_picture(picture: &Picture) -> Self {
        Self { state: State::from_picture(picture), lengths: picture.lengths.iter().map(|length| i16::from(*length)).collect() }
    }

    /// A table that was made by inserts alone: its lengths are those of its chains.
    fn walked_anew(state: State) -> Self {
        let lengths = state.picture().walked().into_iter().map(i16::from).collect();
        Self { state, lengths }
    }

    pub fn picture(&self) -> Picture {
        let lengths = self.lengths.iter().map(|length| u8::try_from(*length).expect("a length that calls.rs let be")).collect();
        Picture { lengths, ..self.state.picture() }
    }

    /// The length kept for the key's chain.
    pub fn length_of(&self, key: CacheKey) -> usize {
        self.lengths[self.bucket(key)] as usize
    }

    /// Whether more keys left a chain than were kept.
    pub fn below(&self) -> bool {
        self.lengths.iter().any(|length| *length < 0)
    }

    /// How many slots a search of the key walks where it comes to the end of its chain, by the original's own search; None where it finds the key or stops.
    /// `peek`: the search of `peek_clean`, else that of access and lookup.
    pub fn walked(&self, key: CacheKey, peek: bool) -> Option<usize> {
        stopped(|| self.state.walked(key, peek)).flatten()
    }

    /// How many slots the original's search along the key's chain visits until `ends` says so at one, and whether the chain ended before. At each slot
    /// `ends` is given the slot, the key that is in it, if any, and whether it is clean. None where the original stops.
    pub fn search(&self, key: CacheKey, ends: impl FnMut(usize, Option<CacheKey>, bool) -> bool) -> Option<(usize, bool)> {
        stopped(|| self.state.search(key, ends))
    }

    fn bucket(&self, key: CacheKey) -> usize {
        key.bucket_of(self.lengths.len() as u64) as usize
    }

    /// The lengths after a call: a key that was in a slot and is no longer has left its chain, and one that is and was not has come into its chain.
    fn keep_lengths(&mut self, before: &State) {
        for slot in 0..before.capacity() {
            let (was, is) = (before.key_of(slot), self.state.key_of(slot));
            if was == is {
                continue;
            }
            for (key, by) in [(was, -1), (is, 1)] {
                if let Some(key) = key {
                    let bucket = self.bucket(key);
                    self.lengths[bucket] += by;
                }
            }
        }
    }

    pub fn capacity(&self) -> usize {
        self.state.capacity()
    }

    pub fn clean(&self) -> usize {
        self.state.clean()
    }

    pub fn loading(&self) -> usize {
        self.state.loading()
    }

    pub fn last_use_given(&self) -> u64 {
        self.state.last_use_given()
    }

    /// The original's `evictable` is "has a page that is not pinned"; document 01 gives it pin bytes.
    pub fn access(&mut self, key: CacheKey, allow: bool, pins: &[u8]) -> Result<Access, u8> {
        let access = self.run(|state| state.access_with_victim(key, allow, |slot| pins[slot] == 0))?;
        Ok(match access {
            state::Access::Hit { slot } => Access::Hit(slot),
            state::Access::LoadInProgress => Access::Loading,
            state::Access::Reserved { token, evicted } => Access::Reserved { token: token.into(), evicted },
            state::Access::CapacityBusy => Access::Busy,
        })
    }

    /// The original `FileDataCache::access` through the gate, its admission set as loading is allowed, on a table without fault. The heap of a damaged
    /// one may name a slot that has no page, which the original passes over and document 01 does not: there `access_with_victim` is run, with
    /// loading allowed as the original's own `prefetch_allowed` says. Where both can be run they must agree.
    pub fn access_through(&mut self, gate: &mut Gate, key: CacheKey, allow: bool, pins: &[u8]) -> Result<Access, u8> {
        let cache = self.cache(pins, &Dropped::default(), |kind, _| kind == CLEAN);
        gate.set(&cache);
        cache.set_admission(allow);
        let before = self.state.picture();
        let answer = self.access(key, cache.prefetch_allowed(), pins);
        if before.fault_of_original().is_some() {
            return answer;
        }
        let through = stopped(|| cache.access(key)).expect("no stop on a table without fault").map_err(cache_refusal);
        let through = through.map(|access| match access {
            CacheAccess::Hit(page) => Access::Hit(page.value().slot),
            CacheAccess::LoadInProgress => Access::Loading,
            CacheAccess::Load(reservation) => {
                let token = reservation.into_token();
                Access::Reserved { token, evicted: before.slots[token.slot].kind == CLEAN }
            }
            CacheAccess::CapacityBusy => Access::Busy,
        });
        *gate = Gate::of(&cache);
        let after = cache.state.with(|control| control.table.take()).expect("a table after access").model;
        assert_eq!(
            (&through, after.picture()),
            (&answer, self.state.picture()),
            "access through the gate, and with loading allowed as it says"
        );
        self.state = after;
        through
    }

    pub fn publish(&mut self, token: Token) -> Result<(), u8> {
        self.run(|state| state.publish(token.into()))
    }

    pub fn abort(&mut self, token: Token) -> Result<(), u8> {
        self.run(|state| state.abort(token.into()))
    }

    pub fn lookup(&mut self, key: CacheKey) -> Result<Option<usize>, u8> {
        self.run(|state| state.lookup(key))
    }

    pub fn remove_clean(&mut self, slot: usize) -> Result<(), u8> {
        self.run(|state| Ok(state.remove_clean(slot)))
    }

    pub fn detach_clean(&mut self, slot: usize) -> Result<(), u8> {
        self.run(|state| Ok(state.detach_clean(slot)))
    }

    pub fn validate(&mut self, token: Token) -> Result<(), u8> {
        self.run(|state| state.validate(token.into()))
    }

    pub fn peek_clean(&mut self, key: CacheKey) -> Result<Option<usize>, u8> {
        self.run(|state| Ok(state.peek_clean(key)))
    }

    pub fn clean_entry(&mut self, slot: usize) -> Result<Option<(CacheKey, u64)>, u8> {
        self.run(|state| Ok(state.clean_entry(slot)))
    }

    pub fn oldest_clean(&mut self) -> Result<Option<usize>, u8> {
        self.run(|state| Ok(state.oldest_clean()))
    }

    pub fn cold_candidate(&mut self, place: usize) -> Result<Option<usize>, u8> {
        self.run(|state| Ok(state.cold_candidate(place)))
    }

    /// The original `maintain_capacity` through the gate; a stop leaves table and gate as they were. The list gets the new slot of each old one,
    /// or 65535.
    pub fn resize(&mut self, gate: &mut Gate, asked: usize, pins: &[u8], list: &mut [u16]) -> Result<Maintained, u8> {
        let dropped = Dropped::default();
        let cache = self.cache(pins, &dropped, |kind, pin| kind == CLEAN || pin != 0);
        gate.set(&cache);
        let answer = stopped(|| cache.maintain_capacity(asked)).ok_or(STOP)?;
        *gate = Gate::of(&cache);
        let new = cache.state.with(|control| control.table.take()).expect("a table after resize");
        let unmade = match answer {
            Ok(Maintenance::Resized) => None,
            Ok(Maintenance::Unchanged) => Some(Ok(Maintained::Unchanged)),
            Ok(Maintenance::Busy) => Some(Ok(Maintained::Busy)),
            Err(error) => Some(Err(cache_refusal(error))),
        };
        if let Some(answer) = unmade {
            self.state = new.model;
            return answer;
        }
        let emptied = self.clean() == 0 && new.model.capacity() < self.capacity();
        let removed = if emptied { Removed::default() } else { self.removed(&new, pins, &dropped.borrow()) };
        self.fill_list(&new, &removed, list);
        let mut pages = vec![NONE; list.len()];
        for (slot, page) in new.pages.iter().enumerate() {
            if let Some(page) = page {
                pages[page.value.slot] = slot as u16;
            }
        }
        assert!(pages.iter().zip(&*list).all(|(page, new)| *page == NONE || page == new), "the list is off the pages");
        let overwritten = *pages != *list;
        let capacity = new.model.capacity();
        for slot in removed.all() {
            let bucket = self.bucket(self.state.key_of(slot).expect("the key of a clean slot"));
            self.lengths[bucket] -= 1;
        }
        let below = self.below();
        *self = Self::walked_anew(new.model);
        Ok(Maintained::Resized { capacity, emptied, overwritten, below })
    }

    /// The last generation and the last use number given, and the five counters.
    pub fn numbers(&self) -> [u64; 7] {
        self.state.numbers()
    }

    /// The original's `inherit_history`: these numbers of the old table.
    pub fn inherit(&mut self, old: &Self) {
        self.state.inherit_history(&old.state);
    }

    /// Which keys a resize that made a new table, and did not take the old one for one without a key, removed from the old one.
    /// `dropped` tells those removed to make room: its first pages are those that were overwritten while the keys of pinned slots were moved,
    /// the next ones are those removed to make room.
    fn removed(&self, new: &CacheState<Page>, pins: &[u8], dropped: &[usize]) -> Removed {
        let (old, new) = (&self.state, &new.model);
        let clean = || (0..old.capacity()).filter_map(|slot| Some((slot, old.clean_entry(slot)?.0)));
        let pinned: Vec<CacheKey> = clean().filter(|(slot, _)| pins[*slot] != 0).map(|(_, key)| key).collect();
        let keys: HashSet<CacheKey> = pinned.iter().copied().collect();
        let moved: Vec<usize> = clean().filter(|(_, key)| keys.contains(key)).map(|(slot, _)| slot).collect();
        let overwritten = moved.len() - keys.len();
        let for_room = (old.clean() - moved.len()).saturating_sub(new.capacity() - pinned.len());
        let for_room = dropped[overwritten..overwritten + for_room].to_vec();
        let stays = |slot: &usize| !moved.contains(slot) && !for_room.contains(slot);
        let refused: Vec<usize> =
            clean().filter(|(slot, key)| stays(slot) && new.peek_clean(*key).is_none()).map(|(slot, _)| slot).collect();
        let evictions = |state: &State| state.picture().counters[2];
        let counted = evictions(old).saturating_add((for_room.len() + refused.len()) as u64);
        assert_eq!(evictions(new), counted, "each key removed to make room, and each that a chain refused, is an eviction");
        Removed { moved, for_room, refused }
    }

    /// Each clean old slot gets what `peek_clean` of its key says in the new table when the original moves its page, which
    /// is what it says at the end, since a key is restored there once or before all moves. Where a key stands once, that is
    /// where its page is found. Keys that were removed to make room get none, though a double of them may have been moved.
    fn fill_list(&self, new: &CacheState<Page>, removed: &Removed, list: &mut [u16]) {
        list.fill(NONE);
        if new.model.clean() == 0 {
            return;
        }
        for slot in 0..self.capacity() {
            if let Some((key, _)) = self.state.clean_entry(slot)
                && !removed.for_room.contains(&slot)
            {
                list[slot] = new.model.peek_clean(key).map_or(NONE, narrow);
            }
        }
    }

    /// The original `reclaim_batch`: the slots that left, in order. A slot has a page if it is clean, as in the original,
    /// or in any case (`every_page`).
    pub fn reclaim(&mut self, limit: usize, pins: &[u8], every_page: bool) -> Result<Vec<u16>, u8> {
        let dropped = Dropped::default();
        let cache = self.cache(pins, &dropped, |kind, _| kind == CLEAN || every_page);
        let count = stopped(|| cache.reclaim_batch(limit)).ok_or(STOP)?;
        let slots: Vec<u16> = dropped.borrow().iter().map(|slot| narrow(*slot)).collect();
        assert_eq!(count, slots.len(), "pages dropped and pages counted");
        let before =
            std::mem::replace(&mut self.state, cache.state.with(|control| control.table.take()).expect("a table after reclaim").model);
        self.keep_lengths(&before);
        Ok(slots)
    }

    /// A cache with a copy of this table, and a page in each slot for which `paged` (its kind and pin) says so.
    fn cache(&self, pins: &[u8], dropped: &Dropped, paged: impl Fn(u8, u8) -> bool) -> FileDataCache<Page> {
        let budget = memory::shared(Budget::new(self.capacity())).unwrap();
        let page = |(slot, record): (usize, &Record)| {
            paged(record.kind, pins[slot]).then(|| {
                let permit = Budget::reserve(&budget).expect("room in the budget");
                let value = Page { slot, dropped: dropped.clone() };
                let page = memory::shared(OwnedPage::new(value, permit)).unwrap();
                if pins[slot] != 0 {
                    page.retain_mapping();
                }
                page
            })
        };
        let pages = self.state.picture().slots.iter().enumerate().map(page).collect();
        let table = CacheState { model: self.state.copy(), pages, metadata_pages: 0 };
        FileDataCache::from_parts(Some(table), budget)
    }

    /// An original call. Where it stops, the table is as it was before.
    fn run<A>(&mut self, call: impl FnOnce(&mut State) -> Result<A, state::Error>) -> Result<A, u8> {
        let before = self.state.copy();
        match stopped(|| call(&mut self.state)) {
            Some(answer) => {
                self.keep_lengths(&before);
                answer.map_err(refusal)
            }
            None => {
                self.state = before;
                Err(STOP)
            }
        }
    }
}

/// The old slots whose keys a resize removed from the old table. A key that simply moved to the new table is not removed from the old one.
#[derive(Default)]
struct Removed {
    /// Those with the key of a pinned slot, which leave the old table first.
    moved: Vec<usize>,
    for_room: Vec<usize>,
    /// Those that a chain of the new table refused.
    refused: Vec<usize>,
}

impl Removed {
    fn all(&self) -> impl Iterator<Item = usize> {
        [&self.moved, &self.for_room, &self.refused].into_iter().flatten().copied()
    }
}

/// A page that knows the slot it was made for, and writes it down when the original gives the page up.
struct Page {
    slot: usize,
    dropped: Dropped,
}

type Dropped = Rc<RefCell<Vec<usize>>>;

impl Drop for Page {
    fn drop(&mut self) {
        self.dropped.borrow_mut().push(self.slot);
    }
}

fn refusal(error: state::Error) -> u8 {
    cache_refusal(error.into())
}

fn cache_refusal(error: CacheError) -> u8 {
    match error {
        CacheError::InvalidCapacity => 1,
        CacheError::Allocation => 2,
        CacheError::StaleLoad => 6,
        CacheError::SequenceExhausted => 7,
    }
}

thread_local! {
    static INSIDE: Cell<bool> = const { Cell::new(false) };
}

/// None where the original stops: its invariant failure, an index or a sum out of range. Only such a panic is silent.
fn stopped<A>(call: impl FnOnce() -> A) -> Option<A> {
    static HOOK: Once = Once::new();
    HOOK.call_once(|| {
        let usual = take_hook();
        set_hook(Box::new(move |info| {
            if !INSIDE.get() {
                usual(info);
            }
        }));
    });
    INSIDE.set(true);
    let answer = catch_unwind(AssertUnwindSafe(call)).ok();
    INSIDE.set(false);
    answer
}
