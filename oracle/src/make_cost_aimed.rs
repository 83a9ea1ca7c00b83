// SPDX-License-Identifier: Apache-2.0
//! Cost cases chosen by aim: each shows a rule that a program could have otherwise and still agree with most others. Beside each case stands what documents 01
//! and 02 say of it: the word, its number, and capacity, drops and restores.

use crate::CacheKey;
use crate::case::Case;
use crate::make_aimed::{call, clean_keys, half_mate, kept, key, loaded, mate, of_number, reserve};
use crate::picture::{LOADING, NONE, Picture, Record};
use crate::sheet::RESIZE;

const MAX: u64 = u64::MAX;

#[derive(Default)]
struct Aimed(Vec<(String, Case)>);

impl Aimed {
    fn resized(&mut self, case: Case, capacity: u64, drops: u64, restores: u64) {
        self.0.push((format!("resized {capacity} 3 {capacity} {drops} {restores}"), case));
    }

    /// With the old capacity.
    fn unchanged(&mut self, case: Case, capacity: u64) {
        self.0.push((format!("unchanged - 3 {capacity} 0 0"), case));
    }

    fn busy(&mut self, case: Case, capacity: u64, restores: u64) {
        self.0.push((format!("busy - 3 {capacity} 0 {restores}"), case));
    }

    fn refused(&mut self, case: Case, refusal: u8) {
        self.0.push((format!("refused {refusal} 3 0 0 0"), case));
    }
}

/// Files in a row: of one bucket in tables of up to 16 slots.
fn file(file: u64) -> CacheKey {
    CacheKey { file, kind: 0, index: 0 }
}

/// Files 1, 2 and so on in slots 0, 1 and so on, the first the oldest.
fn files(capacity: usize, count: u64) -> Picture {
    clean_keys(capacity, (1..=count).map(file))
}

/// Mates of half: two chains of 512, which a table of up to 128 slots has as one.
fn halves(capacity: usize, count: u64) -> Picture {
    clean_keys(capacity, (0..count).map(half_mate))
}

/// A resize with pins on those slots.
fn asked(table: &Picture, number: u64, pinned: impl IntoIterator<Item = usize>) -> Case {
    let mut case = Case { list_len: 0, ..of_number(RESIZE, table, number) };
    pinned.into_iter().for_each(|slot| case.pins[slot] = 1);
    case
}

/// The key of one slot in another too.
fn doubled(table: &Picture, from: usize, to: usize) -> Picture {
    let mut table = table.clone();
    table.slots[to].key = table.slots[from].key;
    table
}

fn changed(table: &Picture, change: impl FnOnce(&mut Picture)) -> Picture {
    let mut table = table.clone();
    change(&mut table);
    table
}

fn counted(table: &Picture, clean: u64) -> Picture {
    changed(table, |table| table.clean = clean)
}

/// Three keys in four slots: the capacity made, the keys for which there is no room, the restores of the others, pinned or not.
fn answers(all: &mut Aimed) {
    let three = files(4, 3);
    for (number, drops, restores) in [(1, 2, 1), (2, 1, 2), (3, 0, 3), (5, 0, 3), (8, 0, 3), (256, 0, 3)] {
        all.resized(asked(&three, number, []), number, drops, restores);
    }
    for slot in 0..3 {
        all.resized(asked(&three, 1, [slot]), 1, 2, 1);
        all.resized(asked(&three, 2, [slot]), 2, 1, 2);
        all.resized(asked(&three, 8, [slot]), 8, 0, 3);
    }
    // The asked capacity is raised by the pins, to one of the old table or beside it.
    for two in [[0, 1], [0, 2], [1, 2]] {
        all.resized(asked(&three, 1, two), 2, 1, 2);
        all.resized(asked(&three, 2, two), 2, 1, 2);
        all.resized(asked(&three, 3, two), 3, 0, 3);
        all.resized(asked(&three, 5, two), 5, 0, 3);
    }
    for number in 1..=4 {
        all.unchanged(asked(&three, number, 0..3), 4);
    }
    all.unchanged(asked(&three, 4, []), 4);
    all.unchanged(asked(&three, 4, [1]), 4);
    all.resized(asked(&three, 5, 0..3), 5, 0, 3);
    all.resized(asked(&three, 8, 0..3), 8, 0, 3);
    // K9, and the same asked for as it is.
    let full = files(3, 3);
    for number in [1, 2, 4] {
        all.resized(asked(&full, number, 0..3), 4, 0, 3);
    }
    all.unchanged(asked(&full, 3, 0..3), 3);
    all.resized(asked(&full, 2, []), 2, 1, 2);
    all.resized(asked(&full, 1, []), 1, 2, 1);
    // Any byte but 0 pins.
    let mut most = asked(&three, 1, []);
    most.pins[..2].copy_from_slice(&[255, 2]);
    all.resized(most, 2, 1, 2);
    let one = files(1, 1);
    all.unchanged(asked(&one, 1, []), 1);
    all.unchanged(asked(&one, 1, [0]), 1);
    all.resized(asked(&one, 2, []), 2, 0, 1);
    all.resized(asked(&one, 256, [0]), 256, 0, 1);
    // Counters at their ends, numbers spent.
    let spent = changed(&three, |table| {
        table.counters = [MAX; 5];
        (table.next_access_sequence, table.next_load_generation) = (MAX, MAX);
    });
    all.resized(asked(&spent, 2, []), 2, 1, 2);
    // Keys of many buckets.
    let many = clean_keys(66, (1..=66).map(key));
    all.resized(asked(&many, 67, []), 67, 0, 66);
    all.resized(asked(&many, 40, []), 40, 26, 40);
    all.resized(asked(&many, 1, 0..33), 64, 2, 64);
    all.resized(asked(&clean_keys(256, (1..=256).map(key)), 1, []), 1, 255, 1);
}

/// No key: no restore, and no drop. A vacant slot has 65535 in resize's list too.
fn empty(all: &mut Aimed) {
    let fresh = files(4, 0);
    let mut left = loaded(4, [1, 2]);
    left.remove_clean(0).expect("a clean slot");
    left.detach_clean(1).expect("a clean slot");
    for table in [fresh, left.picture()] {
        for number in [1, 2, 3, 5, 8, 256] {
            all.resized(asked(&table, number, []), number, 0, 0);
        }
        all.unchanged(asked(&table, 4, []), 4);
    }
}

/// Loads: Busy with the old capacity, before 8, and after Unchanged.
fn loads(all: &mut Aimed) {
    let mut table = loaded(4, [1]);
    reserve(&mut table, 2);
    let table = table.picture();
    for number in [1, 2, 3, 5, 8, 256] {
        all.busy(asked(&table, number, []), 4, 0);
        all.busy(asked(&table, number, [0]), 4, 0);
        // Pins on the slot that loads and on one that is vacant.
        all.busy(asked(&table, number, [1]), 4, 0);
        all.busy(asked(&table, number, [0, 2]), 4, 0);
        all.busy(asked(&table, number, 0..4), 4, 0);
    }
    all.unchanged(asked(&table, 4, []), 4);
    all.unchanged(asked(&table, 4, [1, 3]), 4);
    // By the count alone.
    let three = changed(&files(4, 3), |table| table.loading = 1);
    all.busy(asked(&three, 2, []), 4, 0);
    all.busy(asked(&three, 1, 0..3), 4, 0);
    all.unchanged(asked(&three, 4, 0..4), 4);
    all.busy(asked(&changed(&three, |table| table.loading = MAX), 2, []), 4, 0);
    // No load by the count: the slot that loads is no drop and no restore.
    let none = changed(&table, |table| table.loading = 0);
    for number in [1, 2, 8] {
        all.resized(asked(&none, number, []), number, 0, 1);
        all.resized(asked(&none, number, [0]), number, 0, 1);
        all.refused(asked(&none, number, [1]), 8);
    }
    // Nor where no key is clean by the count.
    all.resized(asked(&changed(&counted(&none, 0), |table| table.slots[0].kind = LOADING), 2, []), 2, 0, 0);
}

/// Chains that refuse a key. On tables that calls can leave: 65 keys of two chains of 512, all of one of 256.
fn chains(all: &mut Aimed) {
    for capacity in [129, 256] {
        let table = halves(capacity, 65);
        let old = capacity as u64;
        // All pinned: the 65th is tried and refused, and 128 is not below half the old capacity.
        for number in [1, 65, 128] {
            all.busy(asked(&table, number, 0..65), old, 65);
        }
        // 64 pinned: the 65th comes with the rest, is tried and dropped.
        all.resized(asked(&table, 128, 0..64), 128, 1, 65);
        all.resized(asked(&table, 128, 1..65), 128, 1, 65);
        all.resized(asked(&table, 65, 0..64), 65, 1, 65);
        // No room for it: it is dropped and not tried.
        all.resized(asked(&table, 64, 0..64), 64, 1, 64);
        all.resized(asked(&table, 1, 0..64), 64, 1, 64);
        // None pinned.
        all.resized(asked(&table, 128, []), 128, 1, 65);
        all.resized(asked(&table, 65, []), 65, 1, 65);
        all.resized(asked(&table, 64, []), 64, 1, 64);
    }
    // Two chains there too.
    let table = halves(256, 65);
    all.resized(asked(&table, 129, 0..65), 129, 0, 65);
    all.resized(asked(&table, 200, 0..65), 200, 0, 65);
    all.resized(asked(&halves(129, 65), 256, 0..65), 256, 0, 65);
    // Pinned keys behind the refused one are not tried, those in front of it are, and unpinned ones are not.
    let more = halves(256, 70);
    all.busy(asked(&more, 128, 0..70), 256, 65);
    all.busy(asked(&more, 1, 5..70), 256, 65);
    all.busy(asked(&more, 1, (0..70).step_by(2).chain((1..61).step_by(2))), 256, 65);
    all.resized(asked(&more, 128, []), 128, 6, 70);
    all.resized(asked(&more, 128, 0..64), 128, 6, 70);
    all.resized(asked(&more, 66, []), 66, 6, 66);
    let behind = clean_keys(256, (0..65).map(half_mate).chain((1..=10).map(key)));
    all.busy(asked(&behind, 1, 0..75), 256, 65);
    all.busy(asked(&behind, 128, 0..66), 256, 65);
    all.resized(asked(&behind, 128, 1..75), 128, 1, 75);
    all.resized(asked(&behind, 128, []), 128, 1, 75);
    all.resized(asked(&behind, 129, 0..75), 129, 0, 75);
    let in_front = clean_keys(256, (1..=10).map(key).chain((0..65).map(half_mate)));
    all.busy(asked(&in_front, 1, 0..75), 256, 75);
    all.busy(asked(&in_front, 1, 3..75), 256, 72);
    all.busy(asked(&in_front, 1, [0].into_iter().chain(10..75)), 256, 66);
    all.resized(asked(&in_front, 128, 0..74), 128, 1, 75);
    // A chain of 64 takes all.
    let full = clean_keys(65, (0..64).map(mate));
    all.resized(asked(&full, 64, 0..64), 64, 0, 64);
    all.resized(asked(&full, 1, 0..64), 64, 0, 64);
    all.unchanged(asked(&clean_keys(64, (0..64).map(mate)), 1, 0..64), 64);
    all.resized(asked(&full, 256, 0..64), 256, 0, 64);
    all.resized(asked(&full, 63, []), 63, 1, 63);
}

/// Clean counts that are not those of the slots.
fn counts(all: &mut Aimed) {
    let two = files(2, 2);
    // None: an emptied table that shrinks is remade, pinned keys go too.
    let none = counted(&two, 0);
    all.resized(asked(&none, 1, []), 1, 2, 0);
    all.resized(asked(&none, 1, [0]), 1, 2, 0);
    all.resized(asked(&none, 1, [1]), 1, 2, 0);
    all.unchanged(asked(&none, 1, 0..2), 2);
    all.resized(asked(&none, 4, []), 4, 0, 2);
    all.refused(asked(&none, 4, [0]), 10);
    all.resized(asked(&counted(&files(4, 3), 0), 2, []), 2, 3, 0);
    all.resized(asked(&counted(&files(4, 3), 0), 1, 0..2), 2, 3, 0);
    // Fewer: no room is made; a key for which no slot is vacant is tried and dropped, and where the count falls below 0 it is 10.
    all.resized(asked(&counted(&two, 1), 1, []), 1, 1, 2);
    all.refused(asked(&counted(&files(4, 3), 1), 1, []), 10);
    all.resized(asked(&counted(&files(4, 3), 2), 2, []), 2, 1, 3);
    all.resized(asked(&counted(&files(4, 3), 1), 2, []), 2, 1, 3);
    all.resized(asked(&counted(&files(4, 3), 1), 8, []), 8, 0, 3);
    all.refused(asked(&counted(&files(4, 3), 1), 8, 0..2), 10);
    // More: keys are dropped that would have room.
    let one = files(1, 1);
    all.resized(asked(&counted(&one, 3), 2, []), 2, 1, 0);
    all.refused(asked(&counted(&one, 4), 2, []), 10);
    all.resized(asked(&counted(&one, 3), 4, [0]), 4, 0, 1);
    all.resized(asked(&counted(&files(4, 3), 4), 3, []), 3, 1, 2);
    all.refused(asked(&counted(&files(4, 3), MAX), 3, []), 10);
}

/// A key in two slots: pinned, it is tried each time; not pinned, not where the new table has it.
fn doubles(all: &mut Aimed) {
    let double = doubled(&files(2, 2), 0, 1);
    for number in [3, 4, 8] {
        all.resized(asked(&double, number, [0]), number, 0, 1);
        all.resized(asked(&double, number, [1]), number, 0, 1);
        all.resized(asked(&double, number, [0, 1]), number, 0, 2);
        all.resized(asked(&double, number, []), number, 0, 1);
    }
    // With room for one: the other slot with the key leaves for the new one's sake where it is pinned; else the older is dropped and the younger tried.
    all.resized(asked(&double, 1, [0]), 1, 0, 1);
    all.resized(asked(&double, 1, [1]), 1, 0, 1);
    all.resized(asked(&double, 1, []), 1, 1, 1);
    // A twice and B, the youngest. A dropped twice counts twice.
    let three = doubled(&files(4, 3), 0, 1);
    all.resized(asked(&three, 1, []), 1, 2, 1);
    all.resized(asked(&three, 2, []), 2, 1, 2);
    all.resized(asked(&three, 3, []), 3, 0, 2);
    all.resized(asked(&three, 2, [0]), 2, 0, 2);
    all.resized(asked(&three, 1, [0]), 1, 1, 1);
    all.resized(asked(&three, 1, [2]), 1, 2, 1);
    all.resized(asked(&three, 1, 0..2), 2, 1, 2);
    all.unchanged(asked(&three, 1, 0..3), 4);
    all.resized(asked(&three, 8, 0..3), 8, 0, 3);
    // A, B, A: the older A is dropped, and its key stays with the younger.
    let three = doubled(&files(4, 3), 0, 2);
    all.resized(asked(&three, 2, []), 2, 1, 2);
    all.resized(asked(&three, 2, [1]), 2, 1, 2);
    all.resized(asked(&three, 2, [2]), 2, 0, 2);
    // 65 copies of one key, all pinned: a chain refuses the last while growing too.
    let copies = |capacity: usize, count: u64| {
        changed(&clean_keys(capacity, (1..=count).map(key)), |table| {
            table.slots[..count as usize].iter_mut().for_each(|slot| slot.key = mate(0))
        })
    };
    for (capacity, count) in [(65, 65), (66, 65), (70, 70), (127, 65)] {
        for number in [1, 128, 200, 256] {
            all.busy(asked(&copies(capacity, count), number, 0..count as usize), capacity as u64, 65);
        }
    }
    all.unchanged(asked(&copies(128, 65), 1, 0..65), 128);
    all.busy(asked(&copies(128, 65), 129, 0..65), 128, 65);
    all.busy(asked(&copies(129, 65), 1, 0..65), 129, 65);
    all.busy(asked(&copies(129, 65), 256, 0..65), 129, 65);
    all.busy(asked(&copies(256, 65), 1, 0..65), 256, 65);
    // 64 of them, in the chain that they are of.
    let copies = changed(&clean_keys(65, (0..64).map(mate)), |table| table.slots[..64].iter_mut().for_each(|slot| slot.key = mate(0)));
    all.resized(asked(&copies, 128, 0..64), 128, 0, 64);
    all.resized(asked(&copies, 128, 0..63), 128, 0, 63);
    all.resized(asked(&copies, 128, []), 128, 0, 1);
    all.resized(asked(&copies, 1, []), 1, 63, 1);
    all.resized(asked(&copies, 64, []), 64, 0, 1);
}

/// 10 in the steps, after restores or before any.
fn stops(all: &mut Aimed) {
    let three = files(4, 3);
    // The oldest cannot leave the heap, or the heap ends too early, or its root is past the capacity: where room must be made.
    for table in [
        changed(&three, |table| table.positions[0] = NONE),
        changed(&three, |table| table.positions[0] = 1),
        changed(&three, |table| (table.entries, table.heap_len) = (Vec::new(), 0)),
        changed(&three, |table| table.entries[0].0 = 700),
    ] {
        all.refused(asked(&table, 2, []), 10);
        all.refused(asked(&table, 1, []), 10);
        all.refused(asked(&table, 1, [2]), 10);
        all.resized(asked(&table, 3, []), 3, 0, 3);
        all.resized(asked(&table, 8, []), 8, 0, 3);
    }
    // The chain of a pinned key does not lead to its slot: it cannot leave the old table.
    let cut = changed(&three, |table| table.heads[0] = NONE);
    all.refused(asked(&cut, 8, [0]), 10);
    all.refused(asked(&cut, 2, []), 10);
    all.resized(asked(&cut, 8, []), 8, 0, 3);
    all.unchanged(asked(&cut, 4, [0]), 4);
    // Kept lengths: of a key that leaves the old table.
    for (length, drops) in [(0, None), (1, Some(1)), (255, Some(1))] {
        let table = kept(&three, file(1), length);
        match drops {
            None => {
                all.refused(asked(&table, 2, []), 10);
                all.refused(asked(&table, 8, [2]), 10);
            }
            Some(drops) => {
                all.resized(asked(&table, 2, []), 2, drops, 2);
                all.resized(asked(&table, 8, [2]), 8, 0, 3);
            }
        }
        all.resized(asked(&table, 8, []), 8, 0, 3);
        all.unchanged(asked(&table, 2, 0..3), 4);
    }
    // Two keys leave a chain whose kept length is 1.
    all.refused(asked(&kept(&three, file(1), 1), 1, []), 10);
    all.refused(asked(&kept(&three, file(1), 1), 8, 0..2), 10);
    // A key of the rest that the new table's chain refuses leaves the old one; the Busy of a pinned one removes none.
    let table = halves(129, 65);
    for length in [0, 1] {
        let last = kept(&table, half_mate(64), length);
        all.busy(asked(&last, 128, 0..65), 129, 65);
        if length == 0 {
            all.refused(asked(&last, 128, []), 10);
        } else {
            all.resized(asked(&last, 128, []), 128, 1, 65);
        }
    }
}

/// The first test of 10, then 1, 2 and 3, then Unchanged and Busy, then 8, then the rest.
fn refusals(all: &mut Aimed) {
    let three = files(4, 3);
    let with_pins =
        |table: &Picture, number: u64, pins: usize| Case { pins: vec![1; pins], table: table.clone(), ..asked(&three, number, []) };
    for table in [
        changed(&three, |table| table.buckets = 16),
        changed(&three, |table| table.buckets = 4),
        changed(&three, |table| (table.free_len, table.free) = (5, vec![3; 5])),
        changed(&three, |table| (table.heap_len, table.entries) = (5, vec![(0, 1); 5])),
        changed(&three, |table| table.capacity = 5),
        Picture::default(),
        changed(&three, |table| table.capacity = 257),
        changed(&three, |table| table.capacity = MAX),
    ] {
        let table = whole(table);
        let loading = changed(&table, |table| table.loading = 1);
        for number in [2, 4, 257, MAX] {
            all.refused(with_pins(&table, number, 4), 10);
        }
        all.refused(with_pins(&loading, 0, 7), 10);
    }
    let loading = changed(&three, |table| table.loading = 1);
    for table in [&three, &loading] {
        for pins in [0, 3, 4, 5] {
            for number in [0, (1 << 62) + 1, 1 << 63, MAX] {
                all.refused(with_pins(table, number, pins), 1);
            }
            for number in [257, 300, 65536, 1 << 32, 1 << 59, 1 << 60, 1 << 62] {
                all.refused(with_pins(table, number, pins), 2);
            }
        }
        for pins in [0, 3, 5, 300] {
            for number in [1, 2, 4, 5, 256] {
                all.refused(with_pins(table, number, pins), 3);
            }
        }
    }
    // 8: a pin on a vacant slot. It comes before the raised capacity, and before 10 of the steps.
    for number in [1, 2, 3, 5, 8, 256] {
        all.refused(asked(&three, number, [3]), 8);
        all.refused(asked(&three, number, 0..4), 8);
        all.busy(asked(&loading, number, [3]), 4, 0);
        all.refused(asked(&files(4, 0), number, [0]), 8);
        all.refused(asked(&changed(&three, |table| table.positions[0] = NONE), number, [3]), 8);
    }
    all.unchanged(asked(&three, 4, [3]), 4);
    all.unchanged(asked(&three, 4, 0..4), 4);
    all.refused(asked(&files(2, 1), 1, 0..2), 8);
    all.refused(asked(&counted(&files(2, 1), 0), 1, [1]), 8);
    // Not 4: no list is lent. What stands in its place does not matter, nor what a resize does not use.
    for list_len in [3, 4, 5, 65535] {
        all.resized(Case { list_len, ..asked(&three, 2, []) }, 2, 1, 2);
    }
    let mut other = Case { list_len: 0, allow: 0, ..call(RESIZE, &three) };
    (other.token.slot, other.token.key, other.token.generation, other.token.access_sequence) = (2, file(3), 9, MAX);
    all.resized(other, 2, 1, 2);
}

/// As many places in each list as its length says, at most those that there are.
fn whole(mut table: Picture) -> Picture {
    let slots = table.capacity.min(256) as usize;
    table.slots.resize(slots, Record::default());
    table.next.resize(slots, NONE);
    table.positions.resize(slots, NONE);
    table.heads.resize(table.buckets.min(512) as usize, NONE);
    table.lengths.resize(table.buckets.min(512) as usize, 0);
    table
}

pub fn cost_aimed() -> Vec<(String, Case)> {
    let mut all = Aimed::default();
    for part in [answers, empty, loads, chains, counts, doubles, stops, refusals] {
        part(&mut all);
    }
    all.0
}
