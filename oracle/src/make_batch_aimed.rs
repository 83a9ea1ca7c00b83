// SPDX-License-Identifier: Apache-2.0
//! Batch cases chosen by aim: each shows a rule that a program could have otherwise and still agree with most others. Beside each case stands what document
//! 02 says of it: the word, its number, the number of slots visited, and the list after the call.

use crate::batch::{BatchCase, KEYS, LENT, MOST_KEYS};
use crate::calls::STOP;
use crate::make_aimed::{clean, clean_keys, kept, key, loaded, mate, reserve};
use crate::make_sheets::with_sum;
use crate::picture::{CLEAN, LOADING, NONE, Picture, Record};
use crate::{CacheKey, Table};

const MAX: u64 = u64::MAX;

#[derive(Default)]
struct Aimed(Vec<(String, BatchCase)>);

impl Aimed {
    fn push(&mut self, table: &Picture, keys: &[CacheKey], count: u64, list_len: u16, words: String) {
        // Behind the keys stand those of the table's slots, which are not asked, and then some that are in no slot.
        let slots = table.slots.iter().map(|record| record.key);
        let mut all = keys.iter().copied().chain(slots).chain((1000..).map(key));
        let keys = [(); MOST_KEYS].map(|()| all.next().expect("a key"));
        self.0.push((words, BatchCase { count, list_len, keys, table: table.clone() }));
    }

    /// Answered: so many slots visited, and for each key its slot or NONE.
    fn done(&mut self, table: &Picture, keys: &[CacheKey], visited: usize, slots: &[u16]) {
        assert_eq!(keys.len(), slots.len(), "a slot for each key");
        let list: String = slots.iter().map(|slot| format!(" {slot}")).collect();
        self.push(table, keys, keys.len() as u64, keys.len() as u16, format!("done - {visited} {}{list}", keys.len()));
    }

    /// Refused, with that count and that length of the list.
    fn refused_of(&mut self, table: &Picture, keys: &[CacheKey], count: u64, list_len: u16, refusal: u8) {
        let list = format!(" {LENT}").repeat(list_len.into());
        self.push(table, keys, count, list_len, format!("refused {refusal} 0 {list_len}{list}"));
    }

    fn stops(&mut self, table: &Picture, keys: &[CacheKey]) {
        self.refused_of(table, keys, keys.len() as u64, keys.len() as u16, STOP);
    }

    /// The same for the keys of pages.
    fn pages(&mut self, table: &Picture, pages: &[u64], visited: usize, slots: &[u16]) {
        self.done(table, &of_pages(pages), visited, slots);
    }

    fn pages_stop(&mut self, table: &Picture, pages: &[u64]) {
        self.stops(table, &of_pages(pages));
    }
}

fn of_pages(pages: &[u64]) -> Vec<CacheKey> {
    pages.iter().map(|page| key(*page)).collect()
}

/// The chain of bucket 1 is slot 2 (page 17), slot 1 (page 9), slot 0 (page 1), that of bucket 2 slot 3 (page 2). Pages 25 and 33 are of bucket 1 too, page 10
/// of bucket 2; the other six chains are empty.
fn four() -> Picture {
    clean(4, [1, 9, 17, 2])
}

/// The table with a record of that kind and page in the slot.
fn with_record(table: &Picture, slot: usize, kind: u8, page: u64) -> Picture {
    let mut table = table.clone();
    let number = 1;
    table.slots[slot] = match kind {
        LOADING => Record { kind, key: key(page), generation: number, last_access: 0 },
        CLEAN => Record { kind, key: key(page), generation: 0, last_access: number },
        _ => Record::default(),
    };
    table
}

fn vacated(table: &Picture, slot: usize) -> Picture {
    with_record(table, slot, 0, 0)
}

fn linked(table: &Picture, slot: usize, next: u16) -> Picture {
    let mut table = table.clone();
    table.next[slot] = next;
    table
}

fn headed(table: &Picture, bucket: usize, head: u16) -> Picture {
    let mut table = table.clone();
    table.heads[bucket] = head;
    table
}

/// Each key's slot, with the keys far apart in the list, several times, and absent.
fn answers(all: &mut Aimed) {
    let table = four();
    for (pages, visited, slots) in [
        (&[17][..], 1, &[2][..]),
        (&[9], 2, &[1]),
        (&[1], 3, &[0]),
        (&[2], 1, &[3]),
        (&[1, 9, 17], 3, &[0, 1, 2]),
        (&[17, 9, 1], 3, &[2, 1, 0]),
        (&[9, 17], 2, &[1, 2]),
        (&[17, 9], 2, &[2, 1]),
        (&[9, 1, 17], 3, &[1, 0, 2]),
        // A key twice, one after the other and with others between.
        (&[17, 17], 1, &[2, 2]),
        (&[9, 9, 9], 2, &[1, 1, 1]),
        (&[1, 1], 3, &[0, 0]),
        (&[9, 17, 9], 2, &[1, 2, 1]),
        (&[9, 2, 9], 3, &[1, 3, 1]),
        // Two buckets: the counts are added up.
        (&[1, 2], 4, &[0, 3]),
        (&[2, 1], 4, &[3, 0]),
        (&[17, 2], 2, &[2, 3]),
        (&[2, 9], 3, &[3, 1]),
        (&[17, 2, 9, 2, 1], 4, &[2, 3, 1, 3, 0]),
        // Absent: to the end of the chain.
        (&[25], 3, &[NONE]),
        (&[25, 17], 3, &[NONE, 2]),
        (&[17, 25], 3, &[2, NONE]),
        (&[25, 33], 3, &[NONE, NONE]),
        (&[25, 25], 3, &[NONE, NONE]),
        (&[10], 1, &[NONE]),
        (&[10, 2], 1, &[NONE, 3]),
        (&[25, 10], 4, &[NONE, NONE]),
        // An empty chain: nothing is visited.
        (&[3], 0, &[NONE]),
        (&[3, 11, 3], 0, &[NONE, NONE, NONE]),
        (&[3, 1, 4], 3, &[NONE, 0, NONE]),
        // The first bucket and the last.
        (&[8, 7, 16, 15], 0, &[NONE; 4]),
        (&[8, 17, 7], 1, &[NONE, 2, NONE]),
    ] {
        all.pages(&table, pages, visited, slots);
    }
    let ends = clean(4, [8, 7, 16, 15]);
    all.pages(&ends, &[8, 7], 4, &[0, 1]);
    all.pages(&ends, &[15, 16, 7], 3, &[3, 2, 1]);
    let one = clean(1, [1]);
    all.pages(&one, &[1, 2, 3], 1, &[0, NONE, NONE]);
    all.pages(&one, &[2, 2], 0, &[NONE; 2]);
    all.pages(&clean(1, []), &[1, 2], 0, &[NONE; 2]);
    // Keys of one sum that differ in one part, and sums that wrap.
    let keys = [with_sum(1, 0, 0), with_sum(1, 0, 1), with_sum(1, 1, 0), with_sum(1, MAX, 255)];
    let parts = clean_keys(4, keys);
    for (at, key) in keys.into_iter().enumerate() {
        all.done(&parts, &[key], 4 - at, &[at as u16]);
    }
    all.done(&parts, &keys, 4, &[0, 1, 2, 3]);
    all.done(&parts, &[keys[3], keys[2]], 2, &[3, 2]);
    all.done(
        &parts,
        &[with_sum(1, MAX, 254), with_sum(1, MAX - 1, 255), CacheKey { index: keys[3].index.wrapping_add(8), ..keys[3] }],
        4,
        &[NONE; 3],
    );
    // A reel's pages, each of a bucket of its own.
    let reel: Vec<CacheKey> = (1..=64).map(key).collect();
    let slots: Vec<u16> = (0..64).collect();
    all.done(&clean(64, 1..=64), &reel, 64, &slots);
    let reversed: Vec<CacheKey> = (1..=64).rev().map(key).collect();
    let slots: Vec<u16> = (0..64).rev().collect();
    all.done(&clean(64, 1..=64), &reversed, 64, &slots);
}

/// No key, 63 and 64 keys, the same key 64 times.
fn counts(all: &mut Aimed) {
    let table = four();
    all.pages(&table, &[], 0, &[]);
    all.pages(&clean(1, []), &[], 0, &[]);
    for (page, visited, slot) in [(1, 3, 0), (17, 1, 2), (2, 1, 3), (25, 3, NONE), (3, 0, NONE)] {
        all.pages(&table, &[page; 64], visited, &[slot; 64]);
    }
    all.pages(&table, &[1; 63], 3, &[0; 63]);
    // Two keys of one bucket at the ends of the list, with others between.
    for (ends, between, visited, slots) in [
        ([1, 17], 2, 4, [0, 3, 2]),
        ([17, 1], 2, 4, [2, 3, 0]),
        ([9, 17], 3, 2, [1, NONE, 2]),
        ([17, 9], 25, 3, [2, NONE, 1]),
        ([2, 2], 9, 3, [3, 1, 3]),
        ([25, 9], 2, 4, [NONE, 3, 1]),
    ] {
        let (mut pages, mut answers) = ([between; 64], [slots[1]; 64]);
        (pages[0], pages[63]) = (ends[0], ends[1]);
        (answers[0], answers[63]) = (slots[0], slots[2]);
        all.pages(&table, &pages, visited, &answers);
    }
}

/// 13: more than 64 keys, or a list that is not as long; behind the first test of 10, and before every other 10.
fn thirteen(all: &mut Aimed) {
    let keys = of_pages(&[1; MOST_KEYS]);
    // Of a count too great also what its low bytes are.
    for (count, list_len) in [
        (65, 65),
        (65, 64),
        (65, 0),
        (128, 128),
        (256, 0),
        (257, 1),
        (1 << 16, 0),
        ((1 << 32) + 1, 1),
        (1 << 63, 0),
        (MAX, 0),
        (MAX, 64),
        (0, 1),
        (1, 0),
        (1, 2),
        (63, 62),
        (63, 64),
        (64, 63),
        (64, 65),
        (64, 0),
        (0, 64),
    ] {
        all.refused_of(&four(), &keys, count, list_len, KEYS);
    }
    all.refused_of(&four(), &[], MAX, u16::MAX, KEYS);
    all.refused_of(&four(), &of_pages(&[1]), 1, 300, KEYS);
    let mut stray = headed(&four(), 1, 300);
    stray.lengths.fill(9);
    for (count, list_len) in [(65, 65), (MAX, 0), (1, 0), (1, 2), (64, 63)] {
        all.refused_of(&stray, &keys, count, list_len, KEYS);
    }
    all.stops(&stray, &keys);
}

/// The first test of 10, which stands before 13, and fails with no key too.
fn unsound(all: &mut Aimed) {
    let sized = |capacity: u64| {
        let mut table = four();
        table.capacity = capacity;
        let slots = capacity.min(256) as usize;
        table.slots.resize(slots, Record::default());
        table.next.resize(slots, NONE);
        table.positions.resize(slots, NONE);
        table
    };
    let bucketed = |buckets: u64| {
        let mut table = four();
        table.buckets = buckets;
        table.heads.resize(buckets.min(512) as usize, NONE);
        table
    };
    let mut stack = four();
    (stack.free_len, stack.free) = (5, vec![0; 5]);
    let mut heap = four();
    (heap.heap_len, heap.entries) = (5, vec![(0, 1); 5]);
    let tables = [sized(0), sized(3), sized(5), bucketed(0), bucketed(1), bucketed(4), bucketed(7), bucketed(16), stack, heap];
    let small = tables.len();
    for (at, mut table) in tables.into_iter().chain([sized(257), sized(MAX), bucketed(MAX)]).enumerate() {
        table.lengths = table.walked();
        for (count, list_len) in [(65, 65), (1, 1), (0, 0), (1, 0), (MAX, 0), (64, 63)] {
            if at == 0 || count == 65 || at < small && count == 1 && list_len == 1 {
                all.refused_of(&table, &of_pages(&[1; MOST_KEYS]), count, list_len, STOP);
            }
        }
    }
}

/// "found, clean or loading": a key that loads is found at its slot and has none.
fn loading(all: &mut Aimed) {
    // Slot 2 loads page 17, in front of slots 1 and 0.
    let mut table = loaded(4, [1, 9]);
    reserve(&mut table, 17);
    let front = table.picture();
    for (pages, visited, slots) in [
        (&[17][..], 1, &[NONE][..]),
        (&[17, 17], 1, &[NONE, NONE]),
        (&[17, 9], 2, &[NONE, 1]),
        (&[9, 17], 2, &[1, NONE]),
        (&[1, 17], 3, &[0, NONE]),
        (&[17, 25], 3, &[NONE, NONE]),
        (&[9], 2, &[1]),
        (&[17; 64], 1, &[NONE; 64]),
    ] {
        all.pages(&front, pages, visited, slots);
    }
    // In the middle and at the end of a chain.
    for (loads, pages, visited, slots) in [
        (9, &[9][..], 2, &[NONE][..]),
        (9, &[9, 17], 2, &[NONE, 2]),
        (9, &[9, 1], 3, &[NONE, 0]),
        (9, &[25, 9], 3, &[NONE, NONE]),
        (1, &[1], 3, &[NONE]),
        (1, &[1, 9], 3, &[NONE, 1]),
        (1, &[9], 2, &[1]),
        (2, &[2, 17], 2, &[NONE, 2]),
    ] {
        let mut table = Table::try_new(4).expect("a capacity");
        for page in [1, 9, 17, 2] {
            let token = reserve(&mut table, page);
            if page != loads {
                table.publish(token).expect("its token");
            }
        }
        all.pages(&table.picture(), pages, visited, slots);
    }
    // All load.
    let mut table = Table::try_new(4).expect("a capacity");
    for page in [1, 9, 17, 2] {
        reserve(&mut table, page);
    }
    let all_load = table.picture();
    all.pages(&all_load, &[1, 9, 17, 2], 4, &[NONE; 4]);
    all.pages(&all_load, &[17, 9], 2, &[NONE; 2]);
    all.pages(&all_load, &[9], 2, &[NONE]);
    all.pages(&all_load, &[2], 1, &[NONE]);
    all.pages(&all_load, &[25], 3, &[NONE]);
}

/// A key twice in its chain: the first slot that has it decides.
fn doubles(all: &mut Aimed) {
    let table = clean(4, [1, 9, 17]);
    // Page 9 in slot 2, in front of slot 1; page 17 is in no slot then.
    for (front, behind, first) in [(CLEAN, CLEAN, 2), (CLEAN, LOADING, 2), (LOADING, CLEAN, NONE), (LOADING, LOADING, NONE)] {
        let table = with_record(&with_record(&table, 2, front, 9), 1, behind, 9);
        all.pages(&table, &[9], 1, &[first]);
        all.pages(&table, &[9, 1, 9], 3, &[first, 0, first]);
        all.pages(&table, &[17, 9], 3, &[NONE, first]);
        // Page 1 in slot 2, in front of slots 1 and 0.
        let table = with_record(&with_record(&clean(4, [1, 9, 17]), 2, front, 1), 0, behind, 1);
        all.pages(&table, &[9, 1], 2, &[1, first]);
        all.pages(&table, &[1, 25, 9], 3, &[first, NONE, 1]);
    }
}

/// A vacant slot in a chain is passed and counted, and has no key, not even that of all zeros.
fn vacant(all: &mut Aimed) {
    let table = clean(4, [1, 9, 17]);
    let middle = vacated(&table, 1);
    all.pages(&middle, &[17], 1, &[2]);
    all.pages(&middle, &[1], 3, &[0]);
    all.pages(&middle, &[17, 1], 3, &[2, 0]);
    all.pages(&middle, &[9], 3, &[NONE]);
    let last = vacated(&table, 0);
    all.pages(&last, &[9], 2, &[1]);
    all.pages(&last, &[1], 3, &[NONE]);
    all.pages(&last, &[1, 17], 3, &[NONE, 2]);
    let first = vacated(&table, 2);
    all.pages(&first, &[9], 2, &[1]);
    all.pages(&first, &[17, 1], 3, &[NONE, 0]);
    let none = vacated(&vacated(&first, 1), 0);
    all.pages(&none, &[1, 17], 3, &[NONE, NONE]);
    // Page 0 is the key of all zeros; a vacant slot stands in front of it, and one alone in its chain.
    let mut zero = clean(4, [0]);
    (zero.heads[0], zero.next[1]) = (1, 0);
    zero.lengths = zero.walked();
    all.pages(&zero, &[0], 2, &[0]);
    zero.next[1] = NONE;
    zero.lengths = zero.walked();
    all.pages(&zero, &[0], 1, &[NONE]);
    all.pages(&zero, &[8, 0], 1, &[NONE, NONE]);
}

/// A cycle, or a slot that is not below the capacity: 10 where a key is still sought, and else not looked at.
fn links(all: &mut Aimed) {
    let table = four();
    // Behind slot 1.
    for next in [2, 1, 300, 4] {
        let table = linked(&table, 1, next);
        all.pages(&table, &[9, 17], 2, &[1, 2]);
        all.pages(&table, &[2, 9], 3, &[3, 1]);
        all.pages_stop(&table, &[17, 1]);
        all.pages_stop(&table, &[2, 25]);
    }
    // Behind the last slot of the chain.
    for next in [2, 0, 300, 4] {
        let table = linked(&table, 0, next);
        all.pages(&table, &[1, 9, 17], 3, &[0, 1, 2]);
        all.pages_stop(&table, &[1, 25]);
    }
    // In front of all slots. The chain of another bucket does not matter, and no slot is visited for no key.
    for head in [300, 4, 65534] {
        let table = headed(&table, 1, head);
        all.pages_stop(&table, &[17]);
        all.pages_stop(&table, &[3, 2, 2, 25]);
        all.pages_stop(&table, &[17, 2]);
        all.pages(&table, &[3, 2, 10], 1, &[NONE, 3, NONE]);
        all.pages(&table, &[], 0, &[]);
    }
    // Every chain but one.
    let mut strays = table.clone();
    strays.heads.iter_mut().for_each(|head| *head = if *head == 3 { 3 } else { 300 });
    strays.lengths = strays.walked();
    all.pages(&strays, &[2, 10, 2], 1, &[3, NONE, 3]);
    all.pages_stop(&strays, &[2, 10, 3]);
    all.pages_stop(&strays, &[0]);
    // The damage stands behind a key that loads: the key is found, and nothing behind it is looked at.
    let loads = with_record(&table, 2, LOADING, 17);
    for next in [300, 2] {
        let table = linked(&loads, 2, next);
        all.pages(&table, &[17], 1, &[NONE]);
        all.pages(&table, &[17, 2, 17], 2, &[NONE, 3, NONE]);
        all.pages_stop(&table, &[17, 9]);
        all.pages_stop(&table, &[9, 17]);
        let table = linked(&loads, 1, next);
        all.pages(&table, &[17, 9], 2, &[NONE, 1]);
        all.pages_stop(&table, &[17, 1]);
    }
}

/// A key in a chain of another bucket is not found there, and a chain may go on into another.
fn other_buckets(all: &mut Aimed) {
    // Slot 3 has page 2; the chain of bucket 1 is slot 3, 2, 1, 0, that of bucket 2 is empty.
    let mut table = linked(&headed(&headed(&four(), 2, NONE), 1, 3), 3, 2);
    table.lengths = table.walked();
    all.pages(&table, &[2], 0, &[NONE]);
    all.pages(&table, &[17], 2, &[2]);
    all.pages(&table, &[2, 17], 2, &[NONE, 2]);
    all.pages(&table, &[17, 2], 2, &[2, NONE]);
    all.pages(&table, &[1, 2, 9, 2], 4, &[0, NONE, 1, NONE]);
    all.pages(&table, &[25, 2], 4, &[NONE, NONE]);
    // The chain of bucket 1 goes on to slot 3, so that it is in two chains.
    let mut table = linked(&four(), 0, 3);
    table.lengths = table.walked();
    all.pages(&table, &[25], 4, &[NONE]);
    all.pages(&table, &[2, 25], 5, &[3, NONE]);
    all.pages(&table, &[25, 2, 10], 5, &[NONE, 3, NONE]);
    all.pages(&table, &[1, 2], 4, &[0, 3]);
    // Both chains begin at slot 2, which has page 17.
    let mut table = headed(&four(), 2, 2);
    table.lengths = table.walked();
    all.pages(&table, &[2, 17], 4, &[NONE, 2]);
    all.pages(&table, &[17, 2, 1], 6, &[2, NONE, 0]);
}

/// A chain's end that is not at its kept length: 10 where the walk comes there. A walk that ends at the last key sought compares nothing.
fn kept_lengths(all: &mut Aimed) {
    for length in [0, 2, 4, 64, 255] {
        let table = kept(&four(), key(1), length);
        all.pages_stop(&table, &[25]);
        all.pages_stop(&table, &[17, 2, 25]);
        all.pages(&table, &[17], 1, &[2]);
        all.pages(&table, &[9, 1, 17], 3, &[1, 0, 2]);
        all.pages(&table, &[2, 10, 3], 1, &[3, NONE, NONE]);
    }
    // An empty chain that should not be.
    for length in [1, 64] {
        let table = kept(&four(), key(3), length);
        all.pages_stop(&table, &[1, 11]);
        all.pages(&table, &[1, 2], 4, &[0, 3]);
    }
    // A vacant slot counts.
    let vacant = vacated(&four(), 1);
    for (length, visited) in [(2, None), (3, Some(3)), (4, None)] {
        let table = kept(&vacant, key(1), length);
        match visited {
            Some(visited) => all.pages(&table, &[9, 17], visited, &[NONE, 2]),
            None => all.pages_stop(&table, &[9, 17]),
        }
        all.pages(&table, &[1, 17], 3, &[0, 2]);
    }
    // A key that loads at the chain's last slot, or in front of it, is found before the end. A single peek goes on and is 10.
    let mut table = loaded(4, [1]);
    reserve(&mut table, 9);
    let front = table.picture();
    let last = with_record(&clean(4, [1, 9]), 0, LOADING, 1);
    for length in [1, 3] {
        all.pages(&kept(&front, key(1), length), &[9], 1, &[NONE]);
        all.pages(&kept(&front, key(1), length), &[9, 1], 2, &[NONE, 0]);
        all.pages_stop(&kept(&front, key(1), length), &[9, 25]);
        all.pages(&kept(&last, key(1), length), &[1], 2, &[NONE]);
        all.pages(&kept(&last, key(1), length), &[1, 9], 2, &[NONE, 1]);
        all.pages_stop(&kept(&last, key(1), length), &[25, 1]);
    }
    all.pages(&front, &[9, 25], 2, &[NONE, NONE]);
    all.pages(&last, &[1, 25], 2, &[NONE, NONE]);
}

/// Chains of 63, 64 and more slots, and 64 keys of one bucket. The chain is slot n − 1 to slot 0.
fn full_chains(all: &mut Aimed) {
    let chain = |slots: u64| clean_keys(65, (0..slots).map(mate));
    let mates = |first: u64, last: u64| -> Vec<CacheKey> { (first..=last).map(mate).collect() };
    let slots = |first: u16, last: u16| -> Vec<u16> { (first..=last).collect() };
    let full = chain(64);
    all.done(&full, &mates(0, 63), 64, &slots(0, 63));
    let (mut reversed, mut reversed_slots) = (mates(0, 63), slots(0, 63));
    (reversed.reverse(), reversed_slots.reverse());
    all.done(&full, &reversed, 64, &reversed_slots);
    all.done(&full, &mates(1, 63), 63, &slots(1, 63));
    all.done(&full, &mates(32, 63), 32, &slots(32, 63));
    all.done(&full, &[mate(0); 64], 64, &[0; 64]);
    all.done(&full, &mates(64, 127), 64, &[NONE; 64]);
    all.done(&full, &[mate(64), key(1), mate(0)], 64, &[NONE, NONE, 0]);
    all.done(&chain(63), &[mate(0), mate(63)], 63, &[0, NONE]);
    // Kept lengths about the limit.
    all.stops(&kept(&full, mate(0), 63), &[mate(64)]);
    all.stops(&kept(&full, mate(0), 65), &[mate(64), mate(0)]);
    all.stops(&kept(&chain(63), mate(0), 64), &[mate(64)]);
    all.done(&kept(&full, mate(0), 0), &[mate(0)], 64, &[0]);
    // Slot 0, the last, is linked on: a cycle, a slot past the capacity.
    for next in [63, 300] {
        let table = linked(&full, 0, next);
        all.done(&table, &mates(0, 63), 64, &slots(0, 63));
        all.stops(&table, &[mate(63), mate(64), mate(0)]);
    }
    // Slot 64 in front of the chain of 64, so that slot 0 is the 65th.
    let mut long = headed(&clean_keys(65, (0..64).map(mate).chain([key(1)])), 1, NONE);
    long.slots[64].key = mate(64);
    (long.next[64], long.heads[0]) = (63, 64);
    for length in [64, 65] {
        let table = kept(&kept(&long, key(1), 0), mate(0), length);
        all.done(&table, &mates(1, 64), 64, &slots(1, 64));
        all.stops(&table, &[mate(0)]);
        all.stops(&table, &[mate(64), mate(65)]);
    }
    // The 64th slot loads its key, or is vacant, or so is one in front of it.
    let mut loads = full.clone();
    loads.slots[0] = Record { kind: LOADING, generation: 1, last_access: 0, ..loads.slots[0] };
    let mut last: Vec<u16> = slots(0, 63);
    last[0] = NONE;
    all.done(&loads, &mates(0, 63), 64, &last);
    all.done(&linked(&loads, 0, 63), &[mate(0)], 64, &[NONE]);
    all.stops(&linked(&vacated(&full, 0), 0, 63), &mates(0, 63));
    all.done(&vacated(&full, 5), &[mate(0), mate(5)], 64, &[0, NONE]);
    // All load.
    full.slots
        .iter()
        .zip(&mut loads.slots)
        .take(64)
        .for_each(|(held, load)| *load = Record { kind: LOADING, generation: 1, last_access: 0, ..*held });
    all.done(&loads, &mates(0, 63), 64, &[NONE; 64]);
    all.done(&loads, &mates(10, 20), 54, &[NONE; 11]);
}

/// The keys behind the count do not matter: neither their answers nor the chains that they are of.
fn behind(all: &mut Aimed) {
    let damaged = headed(&four(), 1, 300);
    for (count, visited, slots) in [(0, 0, &[][..]), (1, 1, &[3][..]), (2, 1, &[3, 3][..]), (63, 1, &[3; 63][..])] {
        let mut keys = of_pages(&[2; MOST_KEYS]);
        keys[count..].fill(key(1));
        let list: String = slots.iter().map(|slot| format!(" {slot}")).collect();
        all.push(&damaged, &keys, count as u64, count as u16, format!("done - {visited} {count}{list}"));
    }
    // The key is that of the last asked, or of its bucket and behind it in the chain.
    for (keys, visited, slots) in [([9, 9], 2, 1), ([17, 1], 1, 2), ([17, 25], 1, 2), ([25, 17], 3, NONE)] {
        all.push(&four(), &of_pages(&keys), 1, 1, format!("done - {visited} 1 {slots}"));
    }
}

pub fn batch_aimed() -> Vec<(String, BatchCase)> {
    let mut all = Aimed::default();
    for part in [answers, counts, thirteen, unsound, loading, doubles, vacant, links, other_buckets, kept_lengths, full_chains, behind] {
        part(&mut all);
    }
    all.0
}
