// SPDX-License-Identifier: Apache-2.0
//! Document 01's calls on the original table. Where document 01 has a rule that the original has not, the rule stands in
//! front of the original's call, under a comment that begins with DIFFERENCE, and is counted each time it decides. So do document 02's rules for the
//! kept lengths of the chains and, behind the call, for the numbers of an emptied table that shrinks.

use std::collections::BTreeMap;
use std::fmt::Debug;

use crate::picture::{CLEAN, MOST_SLOTS, NONE};
use crate::{Access, CacheKey, Gate, Maintained, Table, Token};

pub const INVALID_CAPACITY: u8 = 1;
pub const ALLOCATION: u8 = 2;
pub const PINS: u8 = 3;
pub const LIST: u8 = 4;
pub const SLOT: u8 = 5;
pub const STALE: u8 = 6;
pub const NOT_CLEAN: u8 = 8;
pub const NOT_GIVEN: u8 = 9;
pub const STOP: u8 = 10;

const MOST_CAPACITY: u64 = 1 << 62;
const BATCH: usize = 64;

/// How often each rule of documents 01 and 02 decided, with what the original does there.
#[derive(Default)]
pub struct Differences(BTreeMap<String, u64>);

impl Differences {
    /// The original's answer is asked of a copy of the table.
    pub fn note<A: Debug>(&mut self, rule: &str, original: Result<A, u8>) {
        let original = match original {
            Err(STOP) => "stops".to_string(),
            Err(number) => format!("refuses by {number}"),
            Ok(answer) => {
                let answer = format!("{answer:?}");
                let word = answer.split([' ', '(']).next().unwrap_or("");
                if word.is_empty() { "does it".to_string() } else { format!("is {word}") }
            }
        };
        self.count(&format!("{rule}; the Rust {original}"));
    }

    pub fn count(&mut self, name: &str) {
        if let Some(count) = self.0.get_mut(name) {
            *count += 1;
        } else {
            self.0.insert(name.to_string(), 1);
        }
    }

    pub fn total(&self) -> u64 {
        self.0.values().sum()
    }

    pub fn report(&self) {
        for (name, count) in &self.0 {
            eprintln!("{count:>10}  {name}");
        }
    }
}

/// Refusals 1 and 2.
fn capacity<A: Debug>(
    asked: u64,
    rule: &str,
    differences: &mut Differences,
    original: impl FnOnce(usize) -> Result<A, u8>,
) -> Result<usize, u8> {
    if asked == 0 || asked > MOST_CAPACITY {
        // No difference: the original's own test of the layouts gives InvalidCapacity.
        assert_eq!(original(asked as usize).err(), Some(INVALID_CAPACITY));
        return Err(INVALID_CAPACITY);
    }
    // DIFFERENCE capacities 257 to 2^62 (added limit): 2 at once, before Unchanged and Busy. The original
    // makes such a table if memory allows, and is Busy before it tries.
    if asked > MOST_SLOTS {
        differences.note(rule, original(asked as usize));
        return Err(ALLOCATION);
    }
    Ok(asked as usize)
}

pub fn new(asked: u64, differences: &mut Differences) -> Result<Table, u8> {
    Table::try_new(capacity(asked, "new, 2", differences, |asked| Table::try_new(asked).map(drop))?)
}

/// Refusal 3 (added). The original's pins are in its pages, as many as slots.
fn pins_fit(table: &Table, pins: &[u8]) -> Result<(), u8> {
    if pins.len() == table.capacity() { Ok(()) } else { Err(PINS) }
}

/// A call that searches the key's chain first. `peek`: as `peek_clean` does, else as access and lookup do.
fn searching<A: Debug>(
    table: &mut Table,
    key: CacheKey,
    peek: bool,
    differences: &mut Differences,
    call: impl Fn(&mut Table) -> Result<A, u8>,
) -> Result<A, u8> {
    // DIFFERENCE a search that comes to its chain's end: 10 where the slots that it walked are not as many as the kept length says. The original keeps no
    // lengths and goes on. Where it stops later on it is 10 in any case, and no difference.
    if table.walked(key, peek).is_some_and(|walked| walked != table.length_of(key)) {
        let original = call(&mut table.clone());
        if !matches!(original, Err(STOP)) {
            differences.note("search, 10 at a kept length that was not walked", original);
        }
        return Err(STOP);
    }
    call(table)
}

/// A call that may remove keys from their chains.
fn removing<A>(
    table: &mut Table,
    differences: &mut Differences,
    call: impl FnOnce(&mut Table, &mut Differences) -> Result<A, u8>,
) -> Result<A, u8> {
    let mut after = table.clone();
    let answer = call(&mut after, differences);
    below_0(after.below(), differences)?;
    *table = after;
    answer
}

/// DIFFERENCE a removal from a chain whose kept length is 0: 10, and nothing is changed. The original keeps no lengths and removes the key. Its own
/// refusals come first: it removes nothing then.
fn below_0(below: bool, differences: &mut Differences) -> Result<(), u8> {
    if below {
        differences.note("removal, 10 at a kept length of 0", Ok(()));
        return Err(STOP);
    }
    Ok(())
}

pub fn access(table: &mut Table, key: CacheKey, allow: bool, pins: &[u8], differences: &mut Differences) -> Result<Access, u8> {
    pins_fit(table, pins)?;
    removing(table, differences, |table, differences| searching(table, key, false, differences, |table| table.access(key, allow, pins)))
}

/// Document 02's access, by the original's own function where the table allows it. It leaves the gate as it was.
pub fn access_through(
    table: &mut Table,
    gate: &Gate,
    key: CacheKey,
    allow: bool,
    pins: &[u8],
    differences: &mut Differences,
) -> Result<Access, u8> {
    pins_fit(table, pins)?;
    removing(table, differences, |table, differences| {
        searching(table, key, false, differences, |table| {
            let mut after = *gate;
            let answer = table.access_through(&mut after, key, allow, pins);
            assert_eq!(after, *gate, "access does not turn the gate");
            answer
        })
    })
}

pub fn lookup(table: &mut Table, key: CacheKey, differences: &mut Differences) -> Result<Option<usize>, u8> {
    searching(table, key, false, differences, |table| table.lookup(key))
}

pub fn peek_clean(table: &mut Table, key: CacheKey, differences: &mut Differences) -> Result<Option<usize>, u8> {
    searching(table, key, true, differences, |table| table.peek_clean(key))
}

pub fn publish(table: &mut Table, token: Token, differences: &mut Differences) -> Result<(), u8> {
    table.validate(token)?;
    // DIFFERENCE publish 9 (added): a use number above the last given. The original takes it.
    if token.access_sequence > table.last_use_given() {
        differences.note("publish, 9", table.clone().publish(token));
        return Err(NOT_GIVEN);
    }
    table.publish(token)
}

pub fn abort(table: &mut Table, token: Token, differences: &mut Differences) -> Result<(), u8> {
    removing(table, differences, |table, _| table.abort(token))
}

/// The tests that remove, detach and the sheet's code 7 share.
fn clean_slot(table: &mut Table, slot: u64) -> Result<usize, u8> {
    if slot >= table.capacity() as u64 {
        return Err(SLOT);
    }
    if table.clean_entry(slot as usize)?.is_none() {
        return Err(NOT_CLEAN);
    }
    Ok(slot as usize)
}

pub fn remove(table: &mut Table, slot: u64, differences: &mut Differences) -> Result<(), u8> {
    // DIFFERENCE remove 5 and 8: the original stops.
    let slot = clean_slot(table, slot).inspect_err(|refusal| {
        differences.note(&format!("remove, {refusal}"), table.clone().remove_clean(slot as usize));
    })?;
    removing(table, differences, |table, _| table.remove_clean(slot))
}

pub fn detach(table: &mut Table, slot: u64, differences: &mut Differences) -> Result<(), u8> {
    // DIFFERENCE detach 5 and 8: the original stops.
    let slot = clean_slot(table, slot).inspect_err(|refusal| {
        differences.note(&format!("detach, {refusal}"), table.clone().detach_clean(slot as usize));
    })?;
    removing(table, differences, |table, _| table.detach_clean(slot))
}

/// Code 7 of a sheet. Pins are document 01's own (added), so there is no original call.
pub fn set_pin(table: &mut Table, pins: &mut [u8], slot: u64, pin: u8) -> Result<(), u8> {
    pins[clean_slot(table, slot)?] = pin;
    Ok(())
}

/// Document 02's resize; at an open gate it is document 01's.
pub fn resize(
    table: &mut Table,
    gate: &mut Gate,
    asked: u64,
    pins: &[u8],
    list: &mut [u16],
    differences: &mut Differences,
) -> Result<Maintained, u8> {
    let before = *gate;
    // The original's answer, and whether it went past its gate: there a generation is taken, and a stop cannot come earlier.
    let original = |table: &Table, asked| {
        let slots = table.capacity();
        let pins: Vec<u8> = (0..slots).map(|slot| pins.get(slot).copied().unwrap_or(0)).collect();
        let mut gate = before;
        let answer = table.clone().resize(&mut gate, asked, &pins, &mut vec![0; slots]);
        assert!(answer != Err(INVALID_CAPACITY) || gate == before, "1 comes before the gate");
        let past = gate.generation != before.generation || answer == Err(STOP);
        (answer, past)
    };
    let asked = capacity(asked, "resize, 2", differences, |asked| original(table, asked).0)?;
    pins_fit(table, pins)?;
    // Added: 4. The original has no list.
    if list.len() != table.capacity() {
        return Err(LIST);
    }
    // DIFFERENCE resize 8: after the gate (the first Unchanged, the first Busy and 7), before all else. The original counts
    // the pins first, so it may be Unchanged or make the fresh table; else it stops. The gate is as it was, where the original has taken a generation.
    if table.picture().slots.iter().zip(pins).any(|(slot, pin)| *pin != 0 && slot.kind != CLEAN) {
        let (answer, past) = original(table, asked);
        if past {
            differences.note("resize, 8", answer);
            return Err(NOT_CLEAN);
        }
    }
    // 10 leaves the gate and the list as they were: the original's table and gate are given up where it stops, and here where a key that it removed from
    // the old table takes a kept length below 0.
    let (mut new, mut turned, mut moved) = (table.clone(), *gate, list.to_vec());
    let answer = new.resize(&mut turned, asked, pins, &mut moved);
    below_0(matches!(answer, Ok(Maintained::Resized { below: true, .. })), differences)?;
    // DIFFERENCE the numbers of an emptied table that shrinks: counts and counters carry over (document 02, request 7). The original makes a fresh table, whose
    // seven numbers are 0; where the old table's are too there is no difference.
    if let Ok(Maintained::Resized { emptied: true, .. }) = answer {
        let fresh = new.numbers();
        assert_eq!(fresh, [0; 7], "the original begins them at 0");
        new.inherit(table);
        if new.numbers() != fresh {
            differences.count("resize, the numbers of an emptied table that shrinks; the Rust begins them at 0");
        }
    }
    (*table, *gate) = (new, turned);
    list.copy_from_slice(&moved);
    let answer = answer?;
    // DIFFERENCE resize's list for a key that stands twice: the list says where each page went, and in the
    // original the second page overwrites the first.
    if let Maintained::Resized { overwritten: true, .. } = answer {
        differences.count("resize, list of a doubled key; in the Rust the first page is overwritten");
    }
    // DIFFERENCE the mark after a later Busy, one for which a generation was taken: it is as it was. The original clears it, whatever it answers.
    if answer == Maintained::Busy && gate.generation != before.generation && gate.pending != before.pending {
        differences.count("resize, the mark after a later Busy; the Rust clears it");
        gate.pending = before.pending;
    }
    Ok(answer)
}

/// The slots that left, in order.
pub fn reclaim(table: &mut Table, limit: u64, pins: &[u8], differences: &mut Differences) -> Result<Vec<u16>, u8> {
    pins_fit(table, pins)?;
    removing(table, differences, |table, differences| reclaim_rounds(table, limit, pins, differences))
}

fn reclaim_rounds(table: &mut Table, limit: u64, pins: &[u8], differences: &mut Differences) -> Result<Vec<u16>, u8> {
    let limit = limit as usize;
    let picture = table.picture();
    let place = |slot: &u16| picture.positions.get(usize::from(*slot)).copied();
    let paged = picture
        .entries
        .iter()
        .enumerate()
        .all(|(at, (slot, _))| place(slot) == Some(at as u16) && picture.slots[usize::from(*slot)].kind == CLEAN);
    if paged {
        return table.reclaim(limit, pins, false);
    }
    // DIFFERENCE reclaim's pages: a victim is chosen by its pin byte alone. The original passes over a slot
    // without a page. Where each heap entry is the only one of a clean slot there is no such slot (above). Else every slot
    // has a page here, put back before each round.
    let mut after = table.clone();
    let mut slots = Vec::new();
    let answer = loop {
        if slots.len() == limit.min(BATCH) {
            break Ok(slots);
        }
        match after.reclaim(1, pins, true) {
            Err(refusal) => break Err(refusal),
            Ok(taken) if taken.is_empty() => break Ok(slots),
            Ok(taken) => slots.extend(taken),
        }
    };
    let original = table.clone().reclaim(limit, pins, false);
    if answer.is_ok() {
        assert_eq!(answer, original, "only a stop can differ");
        *table = after;
    } else if answer != original {
        differences.note("reclaim, 10 at a slot without a page", original.map(drop));
    }
    answer
}

/// "64 numbers of which the unused are 65535"
pub fn padded(slots: &[u16]) -> Vec<u16> {
    let mut all = vec![NONE; BATCH];
    all[..slots.len()].copy_from_slice(slots);
    all
}
