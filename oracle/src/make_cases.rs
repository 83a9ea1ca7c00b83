// SPDX-License-Identifier: Apache-2.0
//! Made-up tables by seed: the table of a sheet at some record, damaged in a few places, and one call. The kept lengths are those of the chains as they
//! then are; in one case of eight some of these are damaged too.

use crate::case::{CALLS, CLEAN_ENTRY, COLD_CANDIDATE, Case, DETACH, VALIDATE};
use crate::make_sheets::{Few, Maker};
use crate::picture::{CLEAN, LOADING, MOST_BUCKETS, MOST_SLOTS, NONE, Picture, Record, VACANT, bucket_count};
use crate::random::Random;
use crate::sheet::{ABORT, ACCESS, PUBLISH, RECLAIM, REMOVE, RESIZE};
use crate::{Access, CacheKey, Token};

/// How many cases are made of one sheet's table.
const EACH: u64 = 12;

pub fn cases(seed: u64, count: u64, emit: &mut impl FnMut(&Case)) {
    let mut random = Random::new(seed ^ 0x6d61_6465_2075_7021);
    tables(&mut random, count, &mut |table, few, random| {
        let mut case = call(table, few, random);
        damage_lengths(&mut case, random);
        emit(&case);
    });
}

/// Tables, each with the keys that it was made with and numbers for its call.
pub fn tables(random: &mut Random, count: u64, emit: &mut impl FnMut(Picture, Few, &mut Random)) {
    let mut left = count;
    while left > 0 {
        let records = random.between(2, 150);
        let mut maker = Maker::new(random.next(), records);
        while maker.left > 0 {
            maker.episode();
        }
        if random.chance(1, 2) {
            finish_loads(&mut maker, random);
        }
        if random.chance(1, 3) {
            fill(&mut maker);
        }
        let Some(table) = &maker.sheet.table else { continue };
        let undamaged = table.picture();
        let few = Few { keys: maker.keys, count: maker.key_count };
        for case in 0..EACH.min(left) {
            left -= 1;
            let mut table = undamaged.clone();
            let mut random = Random::new(random.next() ^ case);
            for _ in 0..random.below(5) {
                if table.sound() {
                    damage(&mut table, few, &mut random);
                }
            }
            table.lengths = table.walked();
            emit(table, few, &mut random);
        }
    }
}

fn finish_loads(maker: &mut Maker, random: &mut Random) {
    let Some(table) = &mut maker.sheet.table else { return };
    for token in maker.sheet.tokens.iter().flatten() {
        let _ = if random.chance(2, 3) { table.publish(*token) } else { table.abort(*token) };
    }
}

/// Further keys until every slot is taken, or a chain is full.
fn fill(maker: &mut Maker) {
    let Some(table) = &mut maker.sheet.table else { return };
    for number in 0..2 * table.capacity() as u64 {
        if let Ok(Access::Reserved { token, .. }) =
            table.access(maker.keys.key(100 + number), !table.picture().free.is_empty(), &maker.sheet.pins)
        {
            table.publish(token).expect("a load of an undamaged table");
        }
    }
}

fn any_slot(table: &Picture, random: &mut Random) -> u16 {
    let capacity = table.slots.len() as u64;
    match random.below(10) {
        0..6 => random.below(capacity) as u16,
        6..9 => NONE,
        _ => random.pick(&[capacity as u16, capacity as u16 + 1, 255, 256, 700, 65534]),
    }
}

fn any_place(table: &Picture, random: &mut Random) -> u16 {
    let entries = table.entries.len() as u16;
    match random.below(6) {
        0..3 => random.below(u64::from(entries) + 1) as u16,
        3 => NONE,
        _ => random.pick(&[entries, entries + 1, 256, 65534]),
    }
}

fn any_use(table: &Picture, random: &mut Random) -> u64 {
    let given = table.next_access_sequence;
    match random.below(6) {
        0 => given,
        1 => given.wrapping_add(1),
        2 => random.pick(&[0, u64::MAX, u64::MAX - 1, given.wrapping_add(5)]),
        _ => random.below(given.saturating_add(1)),
    }
}

fn any_count(count: u64, random: &mut Random) -> u64 {
    match random.below(6) {
        0 => count.wrapping_add(1),
        1 => count.saturating_sub(1),
        2 => 0,
        3 => count.wrapping_add(2),
        4 => random.pick(&[u64::MAX, u64::MAX - 1, 63, 64, 65, 256]),
        _ => random.below(count.saturating_add(3)),
    }
}

fn any_key(table: &Picture, few: Few, random: &mut Random) -> CacheKey {
    if random.chance(2, 3) && !table.slots.is_empty() {
        table.slots[random.below(table.slots.len() as u64) as usize].key
    } else {
        few.keys.key(random.below(few.count + 2))
    }
}

/// One place of the table is changed, or two that belong together.
pub fn damage(table: &mut Picture, few: Few, random: &mut Random) {
    let slot = any_slot(table, random);
    let at = random.below(table.slots.len() as u64) as usize;
    let heads = table.heads.len() as u64;
    let free = table.free.len() as u64;
    let entries = table.entries.len() as u64;
    match random.below(25) {
        0 | 1 => table.heads[random.below(heads) as usize] = slot,
        2 | 3 => table.next[at] = slot,
        4 if free > 0 => table.free[random.below(free) as usize] = slot,
        5 if free > 0 => {
            table.free.pop();
            table.free_len -= 1;
        }
        6 if free < table.capacity => {
            table.free.push(slot);
            table.free_len += 1;
        }
        7 if entries > 0 => table.entries[random.below(entries) as usize].0 = slot,
        8 if entries > 0 => table.entries[random.below(entries) as usize].1 = any_use(table, random),
        9 if entries > 0 => {
            table.entries.pop();
            table.heap_len -= 1;
        }
        10 if entries < table.capacity => {
            table.entries.push((slot, any_use(table, random)));
            table.heap_len += 1;
        }
        11 if entries > 1 => table.entries.swap(random.below(entries) as usize, random.below(entries) as usize),
        12 | 13 => table.positions[at] = any_place(table, random),
        14 => {
            let key = table.slots[at].key;
            table.slots[at] = record(random.below(3) as u8, key, any_use(table, random));
        }
        15 => {
            let key = any_key(table, few, random);
            table.slots[at] = record(table.slots[at].kind, key, table.slots[at].generation.max(table.slots[at].last_access));
        }
        16 => double(table, at, random),
        17 => {
            let key = table.slots[at].key;
            table.slots[at] = record(table.slots[at].kind, key, any_use(table, random));
        }
        18 | 19 => table.clean = any_count(table.clean, random),
        20 => table.loading = any_count(table.loading, random),
        21 => table.next_access_sequence = random.pick(&[u64::MAX, u64::MAX - 1, 0, 1]),
        22 => table.next_load_generation = random.pick(&[u64::MAX, u64::MAX - 1, 0]),
        23 => table.counters[random.below(5) as usize] = random.pick(&[u64::MAX, u64::MAX - 1]),
        24 if random.chance(1, 3) => shape(table, random),
        _ => {}
    }
}

/// A record of that kind with its unused fields 0.
fn record(kind: u8, key: CacheKey, number: u64) -> Record {
    match kind {
        LOADING => Record { kind, key, generation: number, last_access: 0 },
        CLEAN => Record { kind, key, generation: 0, last_access: number },
        _ => Record { kind: VACANT, ..Record::default() },
    }
}

/// The key of a slot a second time in another occupied slot of the same bucket, so that only the doubling is wrong.
pub fn double(table: &mut Picture, at: usize, random: &mut Random) {
    let bucket = |record: &Record| record.key.bucket_of(table.buckets);
    let of = bucket(&table.slots[at]);
    let same: Vec<usize> =
        (0..table.slots.len()).filter(|slot| table.slots[*slot].kind != VACANT && bucket(&table.slots[*slot]) == of).collect();
    if table.slots[at].kind != VACANT && !same.is_empty() {
        table.slots[random.pick(&same)].key = table.slots[at].key;
    }
}

/// Lengths off the rule: the first test of 10.
fn shape(table: &mut Picture, random: &mut Random) {
    match random.below(4) {
        0 => table.capacity = random.pick(&[0, 257, 300, u64::MAX, table.capacity + 1]),
        1 => table.buckets = random.pick(&[0, 1, 3, 2 * table.buckets, table.buckets / 2, u64::MAX]),
        2 => table.free_len = random.pick(&[table.capacity + 1, 256, 257, u64::MAX]),
        _ => table.heap_len = random.pick(&[table.capacity + 1, 256, 257, u64::MAX]),
    }
    let slots = table.capacity.min(MOST_SLOTS) as usize;
    table.slots.resize(slots, Record::default());
    table.next.resize(slots, 0);
    table.positions.resize(slots, 0);
    table.heads.resize(table.buckets.min(MOST_BUCKETS) as usize, 0);
    table.free.resize(table.free_len.min(MOST_SLOTS) as usize, 0);
    table.entries.resize(table.heap_len.min(MOST_SLOTS) as usize, (0, 0));
}

/// In one case of eight one to three kept lengths are other than their chains', half of these that of the call's key or of a key that it may remove.
pub fn damage_lengths(case: &mut Case, random: &mut Random) {
    if case.table.lengths.is_empty() || !random.chance(1, 8) {
        return;
    }
    for _ in 0..random.between(1, 3) {
        let table = &case.table;
        let of = |slot: usize| table.slots.get(slot).map(|record| record.key);
        // The victims of an access and a reclaim are the first heap places, those of a resize any.
        let entry = if [ACCESS, RECLAIM].contains(&case.code) { random.below(3) } else { random.below(table.entries.len() as u64) };
        let victim = table.entries.get(entry as usize).and_then(|(slot, _)| of(usize::from(*slot)));
        let key = match case.code {
            REMOVE | DETACH => of(case.token.slot),
            RECLAIM | RESIZE => victim,
            ACCESS if random.chance(1, 2) => victim,
            _ => Some(case.token.key),
        };
        let bucket = match key {
            Some(key) if random.chance(1, 2) => key.bucket_of(table.lengths.len() as u64),
            _ => random.below(table.lengths.len() as u64),
        };
        let length = &mut case.table.lengths[bucket as usize];
        *length = match random.below(4) {
            0 => length.wrapping_add(1),
            1 => length.wrapping_sub(1),
            2 => 0,
            _ => random.pick(&[63, 64, 65, 255]),
        };
    }
}

fn of_token(code: u8) -> bool {
    [PUBLISH, ABORT, VALIDATE].contains(&code)
}

fn call(table: Picture, few: Few, random: &mut Random) -> Case {
    // The first seven come more often: they have the most steps.
    let mut code = if random.chance(1, 2) { random.pick(&CALLS[..7]) } else { random.pick(&CALLS) };
    if of_token(code) && table.slots.iter().all(|slot| slot.kind != LOADING) && random.chance(4, 5) {
        code = random.pick(&[ACCESS, RESIZE, RECLAIM]);
    }
    call_of(code, table, few, random)
}

/// The call of that code on the table, with arguments that fit it, mostly.
pub fn call_of(code: u8, table: Picture, few: Few, random: &mut Random) -> Case {
    let capacity = table.capacity;
    let mut token = Token { slot: 0, generation: 0, key: any_key(&table, few, random), access_sequence: any_use(&table, random) };
    let wanted = if of_token(code) { LOADING } else { CLEAN };
    let slots: Vec<usize> = (0..table.slots.len()).filter(|slot| table.slots[*slot].kind == wanted).collect();
    token.slot = any_slot(&table, random).into();
    if !slots.is_empty() && random.chance(5, 6) {
        token.slot = random.pick(&slots);
        if wanted == LOADING {
            token.key = table.slots[token.slot].key;
            token.generation = table.slots[token.slot].generation;
        }
    }
    if code == ACCESS && random.chance(1, 2) {
        token.key = few.keys.key(90 + random.below(4));
    }
    if wanted == LOADING && random.chance(1, 8) {
        token.generation = token.generation.wrapping_add(1);
    }
    let (few, many) = (random.below(5) as usize, random.below(70) as usize);
    let place = random.below(table.entries.len() as u64 + 2) as usize;
    match code {
        REMOVE | DETACH | CLEAN_ENTRY if random.chance(1, 30) => token.slot = random.pick(&[1 << 32, usize::MAX, 65536]),
        COLD_CANDIDATE => token.slot = random.pick(&[place, place, 255, 256, usize::MAX]),
        RECLAIM => token.slot = random.pick(&[few, many, 64, usize::MAX]),
        RESIZE => token.slot = any_capacity(capacity, random) as usize,
        _ => {}
    }
    let density = random.below(4);
    let mut pins: Vec<u8> = (0..table.slots.len()).map(|_| if random.chance(density, 5) { random.pick(&[1, 2, 255]) } else { 0 }).collect();
    if code == RESIZE && !random.chance(1, 8) {
        pins.iter_mut().zip(&table.slots).filter(|(_, slot)| slot.kind != CLEAN).for_each(|(pin, _)| *pin = 0);
    }
    // The first heap places pinned, up to the search's limit, and the rest not.
    if random.chance(1, 12) {
        pins.fill(0);
        let first = random.pick(&[62, 63, 64, 65, place]);
        table.entries.iter().take(first).for_each(|(slot, _)| pins.iter_mut().skip(usize::from(*slot)).take(1).for_each(|pin| *pin = 1));
    }
    let mut list_len = pins.len() as u16;
    match random.below(60) {
        0 => drop(pins.pop()),
        1 => pins.push(0),
        2 => list_len += 1,
        3 => list_len = list_len.saturating_sub(1),
        _ => {}
    }
    Case { code, allow: u8::from(!random.chance(1, 12)), token, list_len, pins, table }
}

fn any_capacity(capacity: u64, random: &mut Random) -> u64 {
    match random.below(12) {
        0 => capacity,
        1 => random.pick(&[0, 257, 300, 1 << 59, 1 << 60, 1 << 62, (1 << 62) + 1, u64::MAX]),
        2 | 3 => capacity.saturating_add(1).min(MOST_SLOTS),
        4 | 5 => capacity.saturating_mul(2).min(MOST_SLOTS),
        6 | 7 => (capacity / 2).clamp(1, MOST_SLOTS),
        _ => random.between(1, bucket_count(capacity.min(MOST_SLOTS)).min(MOST_SLOTS).max(1)),
    }
}
