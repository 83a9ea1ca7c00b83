// SPDX-License-Identifier: Apache-2.0
//! Batch cases by seed: tables of sheets and tables with long chains, damaged or not, each with a few batches of keys.

use crate::batch::{BatchCase, MOST_KEYS};
use crate::case::{Case, PEEK_CLEAN};
use crate::make_cases::{damage_lengths, tables};
use crate::make_sheets::{Few, Keys, with_sum};
use crate::picture::{CLEAN, LOADING, MOST_SLOTS, NONE, Picture, Record, VACANT};
use crate::random::Random;
use crate::{Access, CacheKey, Table, Token};

const MAX: u64 = u64::MAX;
/// How many batches are made of one table.
const EACH: u64 = 3;
/// The greatest number of slots of the tables with long chains.
const MOST_LONG: u64 = 100;

pub fn batches(seed: u64, count: u64, emit: &mut impl FnMut(&BatchCase)) {
    let mut random = Random::new(seed ^ 0x7461_626c_6573_2121);
    let mut left = count;
    while left > 0 {
        let (some, long) = (random.between(1, 12), random.chance(1, 2));
        let mut of_table = |table: Picture, few: Few, random: &mut Random| {
            for _ in 0..EACH.min(left) {
                left -= 1;
                emit(&batch(table.clone(), few, random));
            }
        };
        if !long {
            tables(&mut random, some, &mut of_table);
            continue;
        }
        let (table, few) = long_chains(&mut random);
        for _ in 0..some {
            let mut table = table.clone();
            for _ in 0..random.pick(&[0, 0, 0, 1, 1, 2, 3]) {
                damage_chains(&mut table, &mut random);
            }
            table.lengths = table.walked();
            of_table(table, few, &mut random);
        }
    }
}

/// A table with one to three families of keys, of which some share a bucket. Some slots load.
fn long_chains(random: &mut Random) -> (Picture, Few) {
    let capacity = random.between(1, MOST_LONG);
    let mut table = Table::try_new(capacity as usize).expect("a capacity");
    let pins = vec![0; capacity as usize];
    let bucket = random.below(512);
    let mut few = Few { keys: Keys::Bucket(bucket), count: 0 };
    let loading = random.pick(&[0, 0, 1, 4, 8]);
    for _ in 0..random.between(1, 3) {
        let keys =
            random.pick(&[Keys::Bucket(bucket), Keys::Bucket(bucket), Keys::Two(bucket), Keys::Row, Keys::Files, Keys::Pages, Keys::Ends]);
        let few_keys = random.between(1, capacity);
        let count = random.pick(&[capacity, capacity, 64, few_keys]);
        few = Few { keys, count };
        for number in 0..count {
            let vacant = table.clean() + table.loading() < table.capacity();
            if let Ok(Access::Reserved { token, .. }) = table.access(keys.key(number), vacant, &pins)
                && !random.chance(loading, 8)
            {
                table.publish(token).expect("a load of an undamaged table");
            }
        }
    }
    (table.picture(), few)
}

/// The slots of a bucket's chain, 64 at most.
fn chain(table: &Picture, bucket: usize) -> Vec<usize> {
    let next = |slot: &u16| table.next.get(usize::from(*slot)).copied();
    let chain = std::iter::successors(table.heads.get(bucket).copied(), next).map(usize::from);
    chain.take(MOST_KEYS).take_while(|slot| *slot < table.slots.len()).collect()
}

/// A bucket, mostly one whose chain is not empty.
fn any_bucket(table: &Picture, random: &mut Random) -> usize {
    let held: Vec<usize> = (0..table.heads.len()).filter(|bucket| table.heads[*bucket] != NONE).collect();
    if held.is_empty() || random.chance(1, 10) { random.below(table.heads.len() as u64) as usize } else { random.pick(&held) }
}

/// One slot of a chain is changed, or one link.
fn damage_chains(table: &mut Picture, random: &mut Random) {
    let bucket = any_bucket(table, random);
    let chain = chain(table, bucket);
    if chain.is_empty() {
        table.heads[bucket] = random.pick(&[0, 300, table.capacity as u16]);
        return;
    }
    let (at, other) = (random.pick(&chain), random.pick(&chain));
    match random.below(12) {
        0 | 1 => table.slots[at].kind = LOADING,
        2 => table.slots[at].kind = CLEAN,
        3 => table.slots[at] = Record::default(),
        // A key twice, clean and loading by chance.
        4 | 5 => {
            table.slots[at].key = table.slots[other].key;
            table.slots[at].kind = random.pick(&[LOADING, CLEAN]);
        }
        6 => table.next[at] = other as u16,
        7 => table.next[at] = random.pick(&[300, table.capacity as u16, 65534]),
        8 => table.next[at] = NONE,
        9 => table.next[at] = random.below(table.capacity) as u16,
        // The key in a chain of another bucket.
        10 => table.slots[at].key.index = table.slots[at].key.index.wrapping_add(1),
        _ => table.heads[bucket] = random.pick(&[NONE, 300, other as u16]),
    }
    // A vacant slot has no key, and a slot no number of another kind.
    let record = &mut table.slots[at];
    let number = record.generation.max(record.last_access);
    *record = match record.kind {
        VACANT => Record::default(),
        LOADING => Record { generation: number, last_access: 0, ..*record },
        _ => Record { generation: 0, last_access: number, ..*record },
    };
}

fn batch(table: Picture, few: Few, random: &mut Random) -> BatchCase {
    let (keys, whole) = keys(&table, few, random);
    let token = Token { key: keys[random.below(whole) as usize], ..Token::default() };
    let mut case = Case { code: PEEK_CLEAN, token, table, ..Case::default() };
    damage_lengths(&mut case, random);
    let count = match random.below(40) {
        0 | 1 => 0,
        2 => 63,
        3..6 => 64,
        6 => 65,
        7 => random.pick(&[66, 128, 256, 65536, 65537, 1 << 32, MAX]),
        8..16 => random.between(1, 64),
        16..26 => random.between(1, 6),
        _ => whole,
    };
    let list_len = match random.below(120) {
        0 => count.wrapping_add(1) as u16 % 300,
        1 => count.wrapping_sub(1) as u16 % 300,
        2 => 0,
        _ => count.min(70) as u16,
    };
    BatchCase { count, list_len, keys, table: case.table }
}

/// All 64 keys, and how many of them ask for all that these are made of.
fn keys(table: &Picture, few: Few, random: &mut Random) -> ([CacheKey; MOST_KEYS], u64) {
    let of_slot = |slot: usize| table.slots[slot].key;
    let bucket = any_bucket(table, random);
    let mut pool: Vec<CacheKey> = match random.below(6) {
        0..3 => chain(table, bucket).into_iter().map(of_slot).collect(),
        3 => (0..3).flat_map(|_| chain(table, any_bucket(table, random))).map(of_slot).collect(),
        4 => (0..table.slots.len()).map(of_slot).collect(),
        _ => (0..few.count + 3).map(|number| few.keys.key(number)).collect(),
    };
    if pool.is_empty() {
        pool.push(few.keys.key(0));
    }
    match random.below(6) {
        // The last key of a chain in front.
        0 => pool.reverse(),
        1..4 => (1..pool.len()).rev().for_each(|at| pool.swap(at, random.below(at as u64 + 1) as usize)),
        _ => {}
    }
    match random.below(8) {
        0 => pool.truncate(1),
        1 | 2 => pool.truncate(1 + random.below(pool.len() as u64) as usize),
        _ => {}
    }
    let (absent, again) = (random.pick(&[0, 0, 0, 1, 4, 12]), random.pick(&[0, 0, 0, 1, 6]));
    let mut keys: Vec<CacheKey> = Vec::new();
    let mut from_pool = 0;
    while keys.len() < MOST_KEYS {
        keys.push(if random.chance(absent, 12) {
            absent_key(pool[0], table, random)
        } else if !keys.is_empty() && random.chance(again, 12) {
            random.pick(&keys)
        } else {
            from_pool += 1;
            pool[(from_pool - 1) % pool.len()]
        });
    }
    let whole = pool.len().min(MOST_KEYS) as u64;
    (keys.try_into().expect("64 keys"), whole)
}

/// A key that most likely no slot has: of the bucket of that key, or near it.
fn absent_key(key: CacheKey, table: &Picture, random: &mut Random) -> CacheKey {
    let buckets = table.buckets.clamp(1, 2 * MOST_SLOTS);
    let (file, kind) = (random.next(), random.below(256) as u8);
    match random.below(6) {
        0 => CacheKey { kind: key.kind.wrapping_add(1), ..key },
        1 => CacheKey { index: key.index.wrapping_add(1 + random.below(4)), ..key },
        2 => CacheKey { index: key.index.wrapping_add(buckets), ..key },
        _ => with_sum(key.sum().wrapping_add(buckets * random.below(9)), file, kind),
    }
}
