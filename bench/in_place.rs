// SPDX-License-Identifier: Apache-2.0
//! A run sheet through the original's calls, in place on one table. bench/run puts this file below the original's `cache::raw`, where
//! the calls can be named. `run` makes of the answers the same checksum as crates/bench; `lines` prints what `runsheet` prints.

use super::super::state::{self, LoadToken, State};
use super::super::{Budget, CacheState, FileDataCache, Maintenance, OwnedPage, memory};
use super::{CacheKey, Token};
use crate::picture::{CLEAN, LOADING, NONE, Picture};
use crate::sheet::{RECORD, Record};
use hyper::mm::FallibleArc;
use std::collections::HashMap;
use std::hint::black_box;
use std::io::Write;

/// Where a sheet's calls find the table.
trait Place {
    fn new(capacity: usize) -> Self;
    fn table<A>(&mut self, call: impl FnOnce(&mut State) -> A) -> A;
    fn publish(&mut self, token: LoadToken) -> Result<(), state::Error>;
    fn resize(&mut self, capacity: usize) -> u64;
    fn reclaim(&mut self, limit: usize) -> u64;
}

/// The table alone, for sheets without resize and reclaim.
impl Place for State {
    fn new(capacity: usize) -> Self {
        State::try_new(capacity).expect("a table")
    }

    fn table<A>(&mut self, call: impl FnOnce(&mut State) -> A) -> A {
        call(self)
    }

    fn publish(&mut self, token: LoadToken) -> Result<(), state::Error> {
        State::publish(self, token)
    }

    fn resize(&mut self, _: usize) -> u64 {
        unreachable!()
    }

    fn reclaim(&mut self, _: usize) -> u64 {
        unreachable!()
    }
}

/// The table in its cache: the original's resize and reclaim look at the pages, so publishing puts one there.
struct Cache {
    cache: FileDataCache<()>,
    budget: FallibleArc<Budget>,
}

impl Place for Cache {
    fn new(capacity: usize) -> Self {
        let budget = memory::shared(Budget::new(capacity)).expect("a budget");
        let table = CacheState::try_new(capacity).expect("a table");
        Self { cache: FileDataCache::from_parts(Some(table), budget.clone()), budget }
    }

    fn table<A>(&mut self, call: impl FnOnce(&mut State) -> A) -> A {
        self.cache.state.with(|control| call(&mut control.table.as_mut().expect("a table").model))
    }

    fn publish(&mut self, token: LoadToken) -> Result<(), state::Error> {
        let permit = Budget::reserve(&self.budget).expect("room in the budget");
        let page = memory::shared(OwnedPage::new((), permit)).expect("a page");
        self.cache.state.with(|control| {
            let table = control.table.as_mut().expect("a table");
            table.pages[token.slot()] = Some(page);
            table.model.publish(token)
        })
    }

    fn resize(&mut self, capacity: usize) -> u64 {
        match self.cache.maintain_capacity(capacity).expect("an answer") {
            Maintenance::Unchanged => 8000,
            Maintenance::Busy => 5000,
            Maintenance::Resized => 9000 + self.table(|table| table.capacity()) as u64,
        }
    }

    fn reclaim(&mut self, limit: usize) -> u64 {
        10000 + self.cache.reclaim_batch(limit) as u64
    }
}

/// The keys of a batch, code 11: the record's and the 63 behind it, so many pages apart.
fn reel(key: CacheKey, stride: u64) -> impl Iterator<Item = CacheKey> {
    (0..64).map(move |place| CacheKey { index: key.index.wrapping_add(stride.wrapping_mul(place)), ..key })
}

/// How many slots are visited along the key's chain, until one of these kinds holds the key or the chain ends.
fn walk(table: &Picture, key: CacheKey, kinds: &[u8]) -> u64 {
    let mut visited = 0;
    let mut slot = table.heads[key.bucket_of(table.buckets) as usize];
    while slot != NONE {
        visited += 1;
        let held = &table.slots[usize::from(slot)];
        if kinds.contains(&held.kind) && held.key == key {
            break;
        }
        slot = table.next[usize::from(slot)];
    }
    visited
}

/// The slots that a batch visits, which walks each chain as far as the farthest of its keys, and those that single peeks of the same keys visit.
#[derive(Clone, Copy)]
pub struct Visits {
    pub batch: u64,
    pub single: u64,
}

impl Visits {
    fn of(table: &Picture, key: CacheKey, stride: u64) -> Self {
        let mut chains = HashMap::new();
        for key in reel(key, stride) {
            let farthest = chains.entry(key.bucket_of(table.buckets)).or_insert(0);
            *farthest = walk(table, key, &[LOADING, CLEAN]).max(*farthest);
        }
        Self { batch: chains.into_values().sum(), single: reel(key, stride).map(|key| walk(table, key, &[CLEAN])).sum() }
    }
}

/// Those of each batch of a sheet without resize and reclaim, told by walks along the original's chains.
pub fn visits(sheet: &[u64]) -> Vec<Visits> {
    let mut all = Vec::new();
    let visited = |table: &State, key, stride| {
        let visits = Visits::of(&table.picture(), key, stride);
        all.push(visits);
        visits.batch
    };
    run_in::<State>(sheet, visited, || unreachable!());
    all
}

/// Those of each cost of a sheet without batches and resizes, told by the build that counts them.
pub fn restores(sheet: &[u64]) -> Vec<u64> {
    let mut all = Vec::new();
    let restored = || {
        let restores = crate::restores::taken();
        all.push(restores);
        restores
    };
    run_in::<Cache>(sheet, |_, _, _| unreachable!(), restored);
    all
}

/// `visits`: those of the sheet's batches; `restores`: those of its costs. The original's calls count neither, and here nothing is to slow them down.
pub fn run(sheet: &[u64], maintained: bool, visits: &[Visits], restores: &[u64]) -> u64 {
    let (mut visits, mut restores) = (visits.iter(), restores.iter());
    let visited = |_: &State, _, _| visits.next().expect("the visits of a batch").batch;
    let restored = || *restores.next().expect("the restores of a cost");
    if maintained { run_in::<Cache>(sheet, visited, restored) } else { run_in::<State>(sheet, visited, restored) }
}

/// The number of an access; a reservation puts its token in the named place.
fn accessed(answer: Result<state::Access, state::Error>, place: &mut LoadToken) -> u64 {
    match answer {
        Ok(state::Access::Hit { slot }) => 1000 + slot as u64,
        Ok(state::Access::LoadInProgress) => 2000,
        Ok(state::Access::Reserved { token, evicted }) => {
            *place = token;
            (if evicted { 4000 } else { 3000 }) + token.slot() as u64
        }
        Ok(state::Access::CapacityBusy) => 5000,
        Err(_) => 0,
    }
}

/// `visited`: the slots that a batch visits; `restored`: the restores of the cost that was just told.
fn run_in<P: Place>(sheet: &[u64], mut visited: impl FnMut(&State, CacheKey, u64) -> u64, mut restored: impl FnMut() -> u64) -> u64 {
    let mut place = P::new(1);
    let mut tokens: [LoadToken; 16] = [Token::default().into(); 16];
    let pins = [0_u8; 256];
    let (mut first, mut second) = (0_u64, 0_u64);
    let mut add = |number: u64| {
        first = first.wrapping_add(number);
        second = second.wrapping_add(first);
    };
    for record in sheet.chunks_exact(3) {
        let head = record[0];
        let key = CacheKey { file: record[1], kind: (head >> 16) as u8, index: record[2] };
        let token = (head >> 24) as usize % 16;
        let number = (head >> 32) as usize;
        let answer = match head as u8 {
            1 => {
                place = P::new(number);
                6000
            }
            2 => accessed(place.table(|table| table.access_with_victim(key, true, |slot| pins[slot] == 0)), &mut tokens[token]),
            10 => {
                // The test of the original's `FileDataCache::access`. The gate is open, which the compiler is not to know.
                let (maintenance_pending, admission_pauses) = black_box((false, 0_usize));
                let allow = !maintenance_pending && admission_pauses == 0;
                accessed(place.table(|table| table.access_with_victim(key, allow, |slot| pins[slot] == 0)), &mut tokens[token])
            }
            3 => place.publish(tokens[token]).map_or(0, |()| 6000),
            4 => place.table(|table| table.abort(tokens[token])).map_or(0, |()| 6000),
            5 => match place.table(|table| table.lookup(key)) {
                Ok(Some(slot)) => 1000 + slot as u64,
                Ok(None) => 7000,
                Err(_) => 0,
            },
            8 => place.resize(number),
            11 => {
                let stride = number as u64;
                add(6000);
                add(place.table(|table| visited(table, key, stride)));
                for key in reel(key, stride) {
                    let found = place.table(|table| table.peek_clean(key));
                    add(found.map_or(u64::from(NONE), |slot| slot as u64));
                }
                continue;
            }
            12 => place.table(|table| table.peek_clean(key)).map_or(7000, |slot| 1000 + slot as u64),
            13 => {
                // The resize itself, and what it leaves. The sheet's next record is a new table.
                let clean = place.table(|table| table.clean());
                add(place.resize(number));
                add(place.table(|table| table.capacity()) as u64);
                add((clean - place.table(|table| table.clean())) as u64);
                add(restored());
                continue;
            }
            _ => place.reclaim(number),
        };
        add(answer);
    }
    let end = place.table(|table| table.picture());
    let [hits, misses, evictions, ..] = end.counters;
    for number in [hits, misses, evictions, end.clean, end.loading, end.next_access_sequence] {
        add(number);
    }
    second
}

/// Run sheets of every code, to lines. No table is copied, and no stop is caught: none comes on a sheet. Document 01's rules that the original does not
/// have (1 and 2 for a capacity, 5, 6, 8 and 9) stand in front of the calls, and document 02's for the numbers of an emptied table behind a resize.
#[derive(Default)]
pub struct Lines {
    cache: Option<Cache>,
    pins: Vec<u8>,
    tokens: [Option<LoadToken>; 16],
    number: u64,
}

/// A word with its number, or a refusal.
type Said = Result<(&'static str, Option<usize>), u8>;

impl Lines {
    /// The lines of some records; false after a bad one.
    pub fn run(&mut self, records: &[u8], out: &mut Vec<u8>) -> bool {
        for bytes in records.chunks(RECORD) {
            let record = bytes.try_into().map_or(Record::default(), Record::read);
            if !record.in_range() || (self.cache.is_none() && record.code != 1) {
                writeln!(out, "{} bad", self.number).expect("room");
                return false;
            }
            let said = self.step(&record);
            let (clean, loading) = self.cache.as_mut().map_or((0, 0), |cache| cache.table(|table| (table.clean(), table.loading())));
            let number = self.number;
            match said {
                Ok((word, Some(value))) => writeln!(out, "{number} {word} {value} {clean} {loading}"),
                Ok((word, None)) => writeln!(out, "{number} {word} - {clean} {loading}"),
                Err(refusal) => writeln!(out, "{number} refused {refusal} {clean} {loading}"),
            }
            .expect("room");
            self.number += 1;
        }
        true
    }

    fn step(&mut self, record: &Record) -> Said {
        let number = record.number as usize;
        if record.code == 1 {
            self.cache = Some(Cache::new(capacity(number)?));
            self.pins = vec![0; number];
            self.tokens = [None; 16];
            return Ok(("made", Some(number)));
        }
        let Self { cache: Some(cache), pins, tokens, .. } = self else { unreachable!() };
        let place = usize::from(record.place);
        let key = CacheKey { file: record.file, kind: record.kind, index: record.index };
        match record.code {
            2 => match cache.table(|table| table.access_with_victim(key, record.allow == 1, |slot| pins[slot] == 0)) {
                Ok(state::Access::Hit { slot }) => Ok(("hit", Some(slot))),
                Ok(state::Access::LoadInProgress) => Ok(("loading", None)),
                Ok(state::Access::Reserved { token, evicted }) => {
                    tokens[place] = Some(token);
                    cache.page(token.slot(), |page| *page = None);
                    Ok((if evicted { "evicted" } else { "reserved" }, Some(token.slot())))
                }
                Ok(state::Access::CapacityBusy) => Ok(("busy", None)),
                Err(_) => Err(7),
            },
            3 => {
                let token = tokens[place].ok_or(6)?;
                cache.table(|table| table.validate(token)).map_err(|_| 6)?;
                if Token::from(token).access_sequence > cache.table(|table| table.last_use_given()) {
                    return Err(9);
                }
                cache.publish(token).map(|()| ("done", None)).map_err(|_| 6)
            }
            4 => {
                let token = tokens[place].ok_or(6)?;
                cache.table(|table| table.abort(token)).map(|()| ("done", None)).map_err(|_| 6)
            }
            5 => match cache.table(|table| table.lookup(key)) {
                Ok(Some(slot)) => Ok(("hit", Some(slot))),
                Ok(None) => Ok(("none", None)),
                Err(_) => Err(7),
            },
            6 => {
                cache.clean(number)?;
                cache.table(|table| table.remove_clean(number));
                cache.page(number, |page| *page = None);
                pins[number] = 0;
                Ok(("done", None))
            }
            7 => {
                cache.clean(number)?;
                cache.page(number, |page| match (page.as_ref().expect("a page"), pins[number], record.allow) {
                    (page, 0, 1) => page.retain_mapping(),
                    (page, 1, 0) => page.release_mapping(),
                    _ => {}
                });
                pins[number] = record.allow;
                Ok(("done", None))
            }
            8 => {
                let asked = capacity(number)?;
                let emptied = cache.emptied();
                match cache.cache.maintain_capacity(asked).expect("an answer") {
                    Maintenance::Unchanged => Ok(("unchanged", None)),
                    Maintenance::Busy => Ok(("busy", None)),
                    Maintenance::Resized => {
                        if let Some((numbers, old)) = emptied {
                            cache.table(|table| if table.capacity() < old { table.inherit_history(&numbers) });
                        }
                        *pins = cache.cache.state.with(|control| {
                            let pinned = |page: &Option<_>| page.as_ref().is_some_and(|page: &FallibleArc<OwnedPage<()>>| page.mapping_pinned());
                            control.table.as_ref().expect("a table").pages.iter().map(|page| pinned(page).into()).collect()
                        });
                        Ok(("resized", Some(pins.len())))
                    }
                }
            }
            _ => Ok(("reclaimed", Some(cache.cache.reclaim_batch(number)))),
        }
    }
}

/// Refusals 1 and 2.
fn capacity(asked: usize) -> Result<usize, u8> {
    match asked {
        0 => Err(1),
        1..=256 => Ok(asked),
        _ => Err(2),
    }
}

impl Cache {
    fn page<A>(&mut self, slot: usize, look: impl FnOnce(&mut Option<FallibleArc<OwnedPage<()>>>) -> A) -> A {
        self.cache.state.with(|control| look(&mut control.table.as_mut().expect("a table").pages[slot]))
    }

    /// Of a table with no clean slot: its numbers, in a table of one slot, and its capacity. Where it shrinks they carry over by document 02; the original
    /// begins them at 0.
    fn emptied(&mut self) -> Option<(State, usize)> {
        self.table(|table| {
            (table.clean() == 0).then(|| {
                let mut numbers = State::try_new(1).expect("a table");
                numbers.inherit_history(table);
                (numbers, table.capacity())
            })
        })
    }

    /// Refusals 5 and 8.
    fn clean(&mut self, slot: usize) -> Result<(), u8> {
        self.table(|table| {
            if slot >= table.capacity() {
                return Err(5);
            }
            table.clean_entry(slot).map(drop).ok_or(8)
        })
    }
}
