// SPDX-License-Identifier: Apache-2.0
//! A table in plain numbers, and its text: the trace's form (README.md, "The trace").

use crate::CacheKey;

pub const VACANT: u8 = 0;
pub const LOADING: u8 = 1;
pub const CLEAN: u8 = 2;
/// Stands for the original's NONE, the greatest usize, in our numbers. (In the free stack and the heap, where the original
/// has no NONE, 65535 is a number not below any capacity in both.)
pub const NONE: u16 = u16::MAX;

pub fn narrow(number: usize) -> u16 {
    if number == usize::MAX { NONE } else { u16::try_from(number).expect("a number of 16 bits, or NONE") }
}

pub fn widen(number: u16) -> usize {
    if number == NONE { usize::MAX } else { usize::from(number) }
}

pub const MOST_SLOTS: u64 = 256;
pub const MOST_BUCKETS: u64 = 512;

#[derive(Clone, Copy, Debug, Default, Eq, PartialEq)]
pub struct Record {
    pub kind: u8,
    pub key: CacheKey,
    pub generation: u64,
    pub last_access: u64,
}

/// The four lengths (capacity, buckets, free_len, heap_len) are those of the lists, but in a made-up table that fails the
/// first test of 10. There a list has at most 256 places (heads and lengths 512), whatever its length says.
#[derive(Clone, Debug, Default, Eq, PartialEq)]
pub struct Picture {
    pub capacity: u64,
    pub clean: u64,
    pub loading: u64,
    /// hits, misses, evictions, in_progress, capacity_busy
    pub counters: [u64; 5],
    pub next_load_generation: u64,
    pub next_access_sequence: u64,
    pub slots: Vec<Record>,
    pub buckets: u64,
    pub heads: Vec<u16>,
    /// The kept length of each bucket's chain, as document 02 has it. The original keeps none.
    pub lengths: Vec<u8>,
    pub next: Vec<u16>,
    pub free_len: u64,
    pub free: Vec<u16>,
    pub heap_len: u64,
    pub entries: Vec<(u16, u64)>,
    pub positions: Vec<u16>,
}

/// The least power of two not below twice the capacity.
pub fn bucket_count(capacity: u64) -> u64 {
    (2 * capacity).next_power_of_two()
}

impl Picture {
    /// "10 ... also capacity or bucket count off the rule, or stack or heap longer than the capacity, which is tested first"
    pub fn sound(&self) -> bool {
        (1..=MOST_SLOTS).contains(&self.capacity)
            && self.buckets == bucket_count(self.capacity)
            && self.free_len <= self.capacity
            && self.heap_len <= self.capacity
    }

    /// Every number in the README's order, with its width in bytes.
    pub fn each(&self, put: &mut impl FnMut(usize, u64)) {
        let mut all = |width: usize, numbers: &[u64]| numbers.iter().for_each(|number| put(width, *number));
        all(8, &[self.capacity, self.clean, self.loading]);
        all(8, &self.counters);
        all(8, &[self.next_load_generation, self.next_access_sequence]);
        for Record { kind, key, generation, last_access } in &self.slots {
            all(1, &[u64::from(*kind)]);
            all(8, &[key.file]);
            all(1, &[u64::from(key.kind)]);
            all(8, &[key.index, *generation, *last_access]);
        }
        all(8, &[self.buckets]);
        self.heads.iter().for_each(|slot| all(2, &[u64::from(*slot)]));
        self.lengths.iter().for_each(|length| all(1, &[u64::from(*length)]));
        self.next.iter().for_each(|slot| all(2, &[u64::from(*slot)]));
        all(8, &[self.free_len]);
        self.free.iter().for_each(|slot| all(2, &[u64::from(*slot)]));
        all(8, &[self.heap_len]);
        for (slot, last_access) in &self.entries {
            all(2, &[u64::from(*slot)]);
            all(8, &[*last_access]);
        }
        self.positions.iter().for_each(|place| all(2, &[u64::from(*place)]));
    }

    /// A table of numbers in the same order; `take` is given the width of each.
    pub fn read(take: &mut impl FnMut(usize) -> u64) -> Self {
        let [capacity, clean, loading] = [(); 3].map(|()| take(8));
        let counters = [(); 5].map(|()| take(8));
        let [next_load_generation, next_access_sequence] = [(); 2].map(|()| take(8));
        let slots = capacity.min(MOST_SLOTS);
        let records = (0..slots).map(|_| {
            let (kind, file, key_kind, index) = (take(1) as u8, take(8), take(1) as u8, take(8));
            Record { kind, key: CacheKey { file, kind: key_kind, index }, generation: take(8), last_access: take(8) }
        });
        let records = records.collect();
        let buckets = take(8);
        let heads = words(buckets.min(MOST_BUCKETS), take);
        let lengths = heads.iter().map(|_| take(1) as u8).collect();
        let next = words(slots, take);
        let free_len = take(8);
        let free = words(free_len.min(MOST_SLOTS), take);
        let heap_len = take(8);
        let entries = (0..heap_len.min(MOST_SLOTS)).map(|_| (take(2) as u16, take(8))).collect();
        let positions = words(slots, take);
        Self {
            capacity,
            clean,
            loading,
            counters,
            next_load_generation,
            next_access_sequence,
            slots: records,
            buckets,
            heads,
            lengths,
            next,
            free_len,
            free,
            heap_len,
            entries,
            positions,
        }
    }

    /// The table in the trace's form: every number in decimal after a space.
    pub fn write(&self, out: &mut Vec<u8>) {
        self.each(&mut |_, number| put(out, number));
    }

    /// The length of each bucket's chain, found by walking it. A chain that has none, since a link goes out of range or round, is walked up to there, or
    /// for 64 slots.
    pub fn walked(&self) -> Vec<u8> {
        self.heads.iter().map(|head| self.walked_from(*head)).collect()
    }

    fn walked_from(&self, head: u16) -> u8 {
        let mut slot = head;
        for walked in 0..=u8::MAX {
            match self.next.get(usize::from(slot)) {
                Some(next) => slot = *next,
                None => return walked,
            }
        }
        64
    }

    /// What is wrong, if anything: as the original has it, and a kept length that is not its chain's.
    pub fn fault(&self) -> Option<&'static str> {
        self.fault_of_original().or_else(|| (self.lengths != self.walked()).then_some("a kept length that is not its chain's"))
    }

    /// The original's `assert_valid` of index and heap (they are compiled for its tests only), the counts, and what its
    /// comments say of keys and numbers. What is wrong, if anything.
    pub fn fault_of_original(&self) -> Option<&'static str> {
        let capacity = self.slots.len();
        let mut seen = vec![false; capacity];
        for (bucket, &head) in self.heads.iter().enumerate() {
            let mut chain: Vec<usize> = Vec::new();
            let mut slot = head;
            while slot != NONE {
                let at = usize::from(slot);
                if at >= capacity || seen[at] {
                    return Some("a link out of range, doubled or in a circle");
                }
                seen[at] = true;
                let record = self.slots[at];
                if record.kind == VACANT || record.key.bucket_of(self.buckets) != bucket as u64 {
                    return Some("a vacant slot in a chain, or a key in another bucket's chain");
                }
                if chain.iter().any(|other| self.slots[*other].key == record.key) {
                    return Some("a key twice");
                }
                chain.push(at);
                slot = self.next[at];
            }
            if chain.len() > 64 {
                return Some("a chain longer than 64");
            }
        }
        for &slot in &self.free {
            let at = usize::from(slot);
            if at >= capacity || seen[at] || self.slots[at].kind != VACANT || self.next[at] != NONE {
                return Some("the free stack");
            }
            seen[at] = true;
        }
        if seen.contains(&false) {
            return Some("a slot in no chain and not on the stack");
        }
        for (place, &(slot, last_access)) in self.entries.iter().enumerate() {
            let at = usize::from(slot);
            if at >= capacity || usize::from(self.positions[at]) != place {
                return Some("a heap entry without its place");
            }
            if self.slots[at].kind != CLEAN || self.slots[at].last_access != last_access {
                return Some("a heap entry unlike its slot");
            }
            let parent = self.entries[place.saturating_sub(1) / 2];
            if place != 0 && (last_access, slot) < (parent.1, parent.0) {
                return Some("the heap's order");
            }
        }
        let kinds = |kind| self.slots.iter().filter(move |record| record.kind == kind);
        let placed = self.positions.iter().filter(|place| **place != NONE).count();
        if placed != self.entries.len() || kinds(CLEAN).count() != placed {
            return Some("places that no heap entry has, or clean slots not in the heap");
        }
        if self.clean != placed as u64 || self.loading != kinds(LOADING).count() as u64 {
            return Some("the counts");
        }
        if kinds(CLEAN).any(|record| record.last_access > self.next_access_sequence)
            || kinds(LOADING).any(|record| record.generation > self.next_load_generation)
        {
            return Some("a number not yet given");
        }
        None
    }
}

/// A space and the number in decimal. (Formatting is most of the trace's time, so it is done by hand.)
pub fn put(out: &mut Vec<u8>, mut number: u64) {
    let mut digits = [b' '; 21];
    let mut first = digits.len();
    loop {
        first -= 1;
        digits[first] = b'0' + (number % 10) as u8;
        number /= 10;
        if number == 0 {
            break;
        }
    }
    out.extend_from_slice(&digits[first - 1..]);
}

fn words(count: u64, take: &mut impl FnMut(usize) -> u64) -> Vec<u16> {
    (0..count).map(|_| take(2) as u16).collect()
}
