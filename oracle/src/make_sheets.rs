// SPDX-License-Identifier: Apache-2.0
//! Sheets by seed. The maker runs what it writes, so that it can choose by the heap, the pins and the tokens.

use crate::CacheKey;
use crate::random::Random;
use crate::sheet::{ABORT, ACCESS, LOOKUP, Line, NEW, PIN, PUBLISH, RECLAIM, REMOVE, RESIZE, Record, Sheet};

/// Each end of a part of a key; of files also those next to where bits come round when they are turned.
const FILES: [u64; 6] = [0, u64::MAX, 1, 1 << 63, 1 << 59, (1 << 59) - 1];
const KINDS: [u8; 4] = [0, 255, 1, 128];
const INDICES: [u64; 5] = [0, u64::MAX, 1, 1 << 63, u64::MAX - 1];
/// How many keys have an end in each part.
const ENDS: u64 = (FILES.len() * KINDS.len() * INDICES.len()) as u64;

/// A family of keys; a key is told by a number.
#[derive(Clone, Copy)]
pub enum Keys {
    /// Pages numbered in a row: neighbouring buckets.
    Row,
    /// Files numbered in a row: one bucket of up to 32, every 32nd of more.
    Files,
    /// A few files with kinds and pages.
    Pages,
    /// One bucket at every bucket count: sums that are equal modulo 512, of files in a row and files all over their range by turns. The parts are far
    /// apart, so that sums wrap. Without the turn of file they would be spread.
    Bucket(u64),
    /// Two buckets of 512 by turns, which are one bucket of 256.
    Two(u64),
    /// Numbers at the ends of their ranges.
    Ends,
}

impl Keys {
    pub fn key(self, number: u64) -> CacheKey {
        match self {
            Keys::Row => CacheKey { file: 0, kind: 0, index: number + 1 },
            Keys::Files => CacheKey { file: number + 1, kind: 0, index: 0 },
            Keys::Pages => CacheKey { file: 1 + number % 3, kind: (number / 3 % 3) as u8, index: number / 9 },
            Keys::Bucket(bucket) => {
                let file = if number % 2 == 0 { number } else { number.wrapping_mul(0x9e37_79b9_7f4a_7c15) };
                with_sum(bucket.wrapping_add(512 * number), file, (number * 37) as u8)
            }
            Keys::Two(bucket) => Keys::Bucket(bucket + 256 * (number % 2)).key(number),
            Keys::Ends => {
                let (file, kind, index) = (number % 6, number / 6 % 4, number / 24 % 5);
                let index = INDICES[index as usize].wrapping_add(number / ENDS);
                CacheKey { file: FILES[file as usize], kind: KINDS[kind as usize], index }
            }
        }
    }
}

/// The key of that file and kind whose sum is the one given.
pub fn with_sum(sum: u64, file: u64, kind: u8) -> CacheKey {
    let key = CacheKey { file, kind, index: 0 };
    CacheKey { index: sum.wrapping_sub(key.sum()), ..key }
}

/// The first keys of a family.
#[derive(Clone, Copy)]
pub struct Few {
    pub keys: Keys,
    pub count: u64,
}

/// How often each code 2 to 9 comes in a run of mixed calls.
type Weights = [u64; 8];

const MIXES: [Weights; 5] = [
    [40, 25, 5, 10, 5, 8, 4, 3],
    [50, 40, 2, 5, 1, 1, 1, 0],
    [25, 15, 15, 10, 10, 10, 10, 5],
    [30, 20, 4, 20, 4, 12, 6, 4],
    [20, 25, 25, 5, 5, 5, 10, 5],
];

/// Capacities that a new table or a resize refuses.
const REFUSED: [u32; 6] = [0, 257, 300, 1 << 16, 1 << 31, u32::MAX];

pub struct Maker {
    pub random: Random,
    pub sheet: Sheet,
    /// The records made so far, as bytes of a sheet.
    pub out: Vec<u8>,
    /// How many records are still wanted.
    pub left: u64,
    pub keys: Keys,
    pub key_count: u64,
    /// The greatest capacity that a mixed run asks for.
    most: u64,
    /// Steps through pin patterns and reclaim limits, so that all come.
    turn: u64,
}

impl Maker {
    pub fn new(seed: u64, left: u64) -> Self {
        let mut random = Random::new(seed);
        let turn = random.next() % 100_000;
        Self { random, sheet: Sheet::default(), out: Vec::new(), left, keys: Keys::Row, key_count: 2, most: 8, turn }
    }

    /// One record, run and written, unless enough are made.
    fn put(&mut self, record: Record) -> Line {
        if self.left == 0 {
            return Line { word: "", number: None };
        }
        self.left -= 1;
        record.write(&mut self.out);
        self.sheet.step(&record).expect("no bad record")
    }

    fn new_table(&mut self, capacity: u64) {
        // Fields that a code does not use may hold anything in their range.
        let allow = self.random.below(2) as u8;
        self.put(Record { code: NEW, number: capacity as u32, allow, ..Record::default() });
    }

    fn access(&mut self, number: u64, place: u8) -> Line {
        self.keyed(ACCESS, 1, number, place)
    }

    fn keyed(&mut self, code: u8, allow: u8, number: u64, place: u8) -> Line {
        let key = self.keys.key(number);
        self.put(Record { code, allow, place, number: 0, kind: key.kind, file: key.file, index: key.index })
    }

    fn token(&mut self, code: u8, place: u8) -> Line {
        self.put(Record { code, place, ..Record::default() })
    }

    fn number(&mut self, code: u8, allow: u8, number: u64) -> Line {
        self.put(Record { code, allow, number: number as u32, ..Record::default() })
    }

    fn load(&mut self, number: u64, place: u8) {
        if ["reserved", "evicted"].contains(&self.access(number, place).word) {
            self.token(PUBLISH, place);
        }
    }

    fn load_all(&mut self, count: u64) {
        for number in 0..count {
            self.load(number, 0);
        }
    }

    fn pin_slots(&mut self, slots: impl IntoIterator<Item = u64>) {
        for slot in slots {
            self.number(PIN, 1, slot);
        }
    }

    fn capacity(&self) -> u64 {
        self.sheet.table.as_ref().map_or(0, |table| table.capacity() as u64)
    }

    fn hits(&mut self, count: u64) {
        for _ in 0..count {
            let number = self.random.below(self.key_count);
            self.keyed(LOOKUP, 0, number, 0);
        }
    }

    /// A place whose token waits, mostly; else any, spent or empty.
    fn any_place(&mut self) -> u8 {
        let from = self.random.below(16);
        let waits = |place: &u64| {
            let token = self.sheet.tokens[(place % 16) as usize];
            token.is_some_and(|token| self.sheet.table.clone().is_some_and(|mut table| table.validate(token).is_ok()))
        };
        let waiting = if from < 5 { None } else { (from..from + 16).find(waits) };
        waiting.unwrap_or(from) as u8 % 16
    }

    fn any_slot(&mut self) -> u64 {
        let capacity = self.capacity();
        match self.random.below(40) {
            0 => capacity,
            1 => self.random.pick(&[capacity + 1, 255, 256, 65535, 65536, u64::from(u32::MAX)]),
            _ => self.random.below(capacity),
        }
    }

    fn any_capacity(&mut self) -> u64 {
        let (capacity, most) = (self.capacity(), self.most);
        let near = match self.random.below(12) {
            0 => capacity,
            1 => return u64::from(self.random.pick(&REFUSED)),
            2 => capacity / 2,
            3 => capacity + 1,
            4 => capacity.saturating_sub(1),
            5 => 2 * capacity,
            6 => 1,
            _ => self.random.between(1, most),
        };
        near.clamp(1, most)
    }

    fn any_limit(&mut self) -> u64 {
        match self.random.below(6) {
            0 => self.random.below(71),
            1 => self.random.pick(&[63, 64, 65, u64::from(u32::MAX)]),
            _ => self.random.below(4),
        }
    }

    fn mixed(&mut self, calls: u64, weights: &Weights) {
        for _ in 0..calls {
            if self.left == 0 {
                return;
            }
            let code = ACCESS + self.random.weighted(weights) as u8;
            let key = self.random.below(self.key_count);
            match code {
                ACCESS => {
                    let allow = u8::from(!self.random.chance(1, 12));
                    let place = self.random.below(16) as u8;
                    self.keyed(code, allow, key, place);
                }
                LOOKUP => drop(self.keyed(code, 0, key, 0)),
                PUBLISH | ABORT => {
                    let place = self.any_place();
                    self.token(code, place);
                }
                REMOVE | PIN => {
                    let allow = u8::from(!self.random.chance(1, 3));
                    let slot = self.any_slot();
                    self.number(code, allow, slot);
                }
                RESIZE => {
                    let asked = self.any_capacity();
                    self.number(code, 0, asked);
                }
                _ => {
                    let limit = self.any_limit();
                    self.number(RECLAIM, 0, limit);
                }
            }
        }
    }

    /// One table from its making on. The sheet goes on from one to the next.
    pub fn episode(&mut self) {
        // Large tables take the most time, since their lines have thousands of numbers, so they come seldom.
        match self.random.below(1000) {
            0..8 => self.any_size(),
            8..14 => self.full_chain(),
            14..20 => self.first_places_pinned(),
            60..62 => self.merging_chains(),
            20..40 => self.reclaims(),
            40..60 => self.refused_capacities(),
            62..400 => self.small(),
            400..600 => self.pin_patterns(),
            600..720 => self.spent_tokens(),
            720..880 => self.old_tokens(),
            _ => self.resizes(),
        }
    }

    /// Few slots, few keys, every call.
    fn small(&mut self) {
        let capacity = self.random.between(1, 6);
        self.keys = self.random.pick(&[Keys::Row, Keys::Files, Keys::Pages, Keys::Bucket(0), Keys::Bucket(u64::MAX), Keys::Ends]);
        self.key_count = capacity + self.random.between(1, 4);
        self.most = 8;
        self.new_table(capacity);
        let (calls, mix) = (self.random.between(20, 120), self.random.pick(&MIXES));
        self.mixed(calls, &mix);
    }

    fn any_size(&mut self) {
        let capacity = self.random.between(1, 256);
        self.keys = self.random.pick(&[Keys::Row, Keys::Files, Keys::Pages, Keys::Bucket(7), Keys::Ends]);
        self.key_count = capacity + self.random.below(capacity + 2);
        self.most = 256;
        self.new_table(capacity);
        let mix = self.random.pick(&MIXES[..2]);
        let calls = capacity + self.random.below(200);
        self.mixed(calls, &mix);
    }

    /// Chains of 62 to 64 slots, some of them loading, and keys that find the chain full though slots are vacant.
    fn full_chain(&mut self) {
        let capacity = self.random.pick(&[64, 65, 66, 67, 80, 100, 128, 129]);
        self.keys = Keys::Bucket(self.random.below(512));
        self.key_count = 70;
        self.most = self.random.pick(&[64, 130, 256]);
        self.new_table(capacity);
        let loads = self.random.between(62, 66);
        for number in 0..loads {
            let place = self.random.below(16) as u8;
            if self.random.chance(1, 20) {
                self.access(number, place);
            } else {
                self.load(number, place);
            }
        }
        // Keys of other buckets fill the rest.
        let full = self.keys;
        if self.random.chance(1, 2) {
            self.keys = Keys::Row;
            self.load_all(capacity.saturating_sub(63));
            self.keys = full;
        }
        if self.random.chance(1, 2) {
            let first = self.random.below(64);
            self.pin_slots(first..64);
        }
        let (calls, mix) = (self.random.between(20, 80), self.random.pick(&MIXES));
        self.mixed(calls, &mix);
    }

    /// Two chains that are one in a smaller table and too long there: unpinned keys that it refuses leave, pinned ones make it Busy.
    fn merging_chains(&mut self) {
        let capacity = self.random.between(129, 150);
        self.keys = Keys::Two(self.random.below(256));
        self.key_count = self.random.between(66, 128);
        self.most = 256;
        self.new_table(capacity);
        self.load_all(self.key_count);
        let pinned = self.random.pick(&[0, 10, 63, 64, 65, 66]);
        self.pin_slots(0..pinned);
        let asked = self.random.between(65, 128);
        self.number(RESIZE, 0, asked);
        self.mixed(3, &MIXES[3]);
    }

    /// Every pattern of pins on full tables of 1 to 6 slots, each with an eviction, a resize or a reclaim.
    fn pin_patterns(&mut self) {
        self.keys = self.random.pick(&[Keys::Row, Keys::Bucket(3), Keys::Pages]);
        self.most = 16;
        for _ in 0..4 {
            self.turn += 1;
            let capacity = 1 + self.turn % 6;
            let pattern = self.turn / 6 % 64;
            let call = self.turn / 384 % 20;
            self.key_count = capacity;
            self.new_table(capacity);
            self.load_all(capacity);
            let hits = self.random.below(capacity + 1);
            self.hits(hits);
            self.pin_slots((0..capacity).filter(|slot| pattern >> slot & 1 == 1));
            match call {
                0..4 => drop(self.access(capacity, 1)),
                4..14 => drop(self.number(RESIZE, 0, call - 3)),
                _ => drop(self.number(RECLAIM, 0, call - 13)),
            }
            self.key_count = capacity + 2;
            let calls = self.random.below(6);
            self.mixed(calls, &MIXES[3]);
        }
    }

    /// The first 64 heap places pinned, unpinned keys behind them; then one of the 64 not pinned.
    fn first_places_pinned(&mut self) {
        let capacity = self.random.pick(&[64, 65, 66, 70, 90]);
        self.keys = self.random.pick(&[Keys::Row, Keys::Pages]);
        self.key_count = capacity;
        self.most = capacity + 10;
        self.new_table(capacity);
        self.load_all(capacity);
        let hits = self.random.below(capacity);
        self.hits(hits);
        let Some(table) = &self.sheet.table else { return };
        let first: Vec<u64> = table.picture().entries.iter().take(64).map(|(slot, _)| u64::from(*slot)).collect();
        self.pin_slots(first.iter().copied());
        self.access(capacity, 0);
        self.number(RECLAIM, 0, 3);
        // Half the time the last of the 64 is the one not pinned.
        if let Some(last) = first.last()
            && self.random.chance(3, 4)
        {
            let slot = if self.random.chance(2, 3) { *last } else { self.random.pick(&first) };
            self.number(PIN, 0, slot);
        }
        let limit = self.random.below(3);
        self.number(RECLAIM, 0, limit);
        self.access(capacity + 1, 1);
        self.key_count = capacity + 4;
        let (calls, mix) = (self.random.below(20), self.random.pick(&MIXES));
        self.mixed(calls, &mix);
    }

    /// Tokens shown again after they were published, aborted or overtaken.
    fn spent_tokens(&mut self) {
        let capacity = self.random.between(1, 3);
        self.keys = Keys::Row;
        self.key_count = capacity + 1;
        self.most = 4;
        self.new_table(capacity);
        for _ in 0..self.random.between(3, 12) {
            let place = self.random.below(3) as u8;
            let key = self.random.below(self.key_count);
            self.access(key, place);
            for _ in 0..self.random.below(4) {
                let (code, place) = (self.random.pick(&[PUBLISH, ABORT]), self.random.below(3) as u8);
                self.token(code, place);
            }
            if self.random.chance(1, 4) {
                let slot = self.any_slot();
                self.number(REMOVE, 0, slot);
            }
        }
    }

    /// Tokens from before an empty table shrank: 6. The same keys are reserved before and after in the same slots, with hits between, so that generation and
    /// use number alone tell an old token from a new one.
    fn old_tokens(&mut self) {
        let capacity = self.random.between(2, 5);
        let smaller = self.random.between(1, capacity - 1);
        let used = self.random.between(1, smaller);
        self.keys = Keys::Row;
        self.key_count = used;
        self.most = capacity + 1;
        self.new_table(capacity);
        self.reserve_row(used, 0);
        for place in 0..used {
            let code = self.random.pick(&[PUBLISH, ABORT]);
            self.token(code, place as u8);
        }
        self.number(RECLAIM, 0, capacity);
        self.number(RESIZE, 0, smaller);
        self.reserve_row(used, 8);
        for _ in 0..self.random.between(1, 4) {
            let (code, place) = (self.random.pick(&[PUBLISH, PUBLISH, ABORT]), self.random.below(used) as u8);
            self.token(code, place);
        }
        self.mixed(6, &MIXES[4]);
    }

    /// Keys 0, 1, .. reserved into places from `place` on; some are published at once and looked up a few times.
    fn reserve_row(&mut self, count: u64, place: u8) {
        for number in 0..count {
            self.access(number, place + number as u8);
            if self.random.chance(1, 3) {
                self.token(PUBLISH, place + number as u8);
                let hits = self.random.below(5);
                self.hits(hits);
            }
        }
    }

    /// Up and down with pins.
    fn resizes(&mut self) {
        let capacity = self.random.pick(&[1, 2, 3, 4, 5, 7, 8, 9, 16, 17, 24, 33]);
        self.keys = self.random.pick(&[Keys::Row, Keys::Files, Keys::Pages, Keys::Bucket(1), Keys::Ends]);
        self.most = 2 * capacity + 2;
        self.new_table(capacity);
        for _ in 0..self.random.between(1, 5) {
            let capacity = self.capacity();
            self.key_count = capacity + 1;
            let loads = self.random.between(0, capacity);
            for _ in 0..loads {
                let key = self.random.below(self.key_count);
                self.load(key, 0);
            }
            for _ in 0..self.random.below(capacity + 1) {
                let (slot, pin) = (self.random.below(capacity), u8::from(!self.random.chance(1, 5)));
                self.number(PIN, pin, slot);
            }
            let asked = self.any_capacity();
            self.number(RESIZE, 0, asked);
        }
        self.mixed(4, &MIXES[2]);
    }

    /// Each limit from 0 to 70, and far above, with pins here and there.
    fn reclaims(&mut self) {
        let capacity = self.random.pick(&[2, 3, 5, 8, 20, 66, 72]);
        self.keys = self.random.pick(&[Keys::Row, Keys::Pages]);
        self.key_count = capacity;
        self.most = capacity;
        self.new_table(capacity);
        self.load_all(capacity);
        for _ in 0..3 {
            self.turn += 1;
            let limit = if self.turn % 72 == 71 { u64::from(u32::MAX) } else { self.turn % 72 };
            let hits = self.random.below(capacity);
            self.hits(hits);
            for _ in 0..self.random.below(4) {
                let (slot, pin) = (self.random.below(capacity), self.random.below(2) as u8);
                self.number(PIN, pin, slot);
            }
            self.number(RECLAIM, 0, limit);
            let again = self.random.below(capacity + 1);
            self.load_all(again);
        }
    }

    fn refused_capacities(&mut self) {
        let asked = self.random.pick(&REFUSED);
        self.new_table(asked.into());
        if self.sheet.table.is_none() {
            return;
        }
        self.mixed(5, &MIXES[0]);
        let asked = self.random.pick(&REFUSED);
        self.number(RESIZE, 0, asked.into());
        self.mixed(5, &MIXES[0]);
    }
}

/// The calls of the exhaustive sheets: capacity + 1 keys, of pages 1, 9, 2, 10, so that the first two and the next two share a bucket (of 2 to 8
/// buckets); the token of each key in a place of its own.
pub fn alphabet(capacity: u32) -> Vec<Record> {
    let record = |code, allow, place, number, index| Record { code, allow, place, number, index, ..Record::default() };
    let mut calls = Vec::new();
    for key in 1..=capacity + 1 {
        let place = key as u8;
        let page = [1, 9, 2, 10][(key - 1) as usize % 4];
        calls.push(record(ACCESS, 1, place, 0, page));
        calls.push(record(PUBLISH, 0, place, 0, 0));
        calls.push(record(ABORT, 0, place, 0, 0));
        calls.push(record(LOOKUP, 0, 0, 0, page));
        calls.push(record(RESIZE, 0, 0, key, 0));
    }
    calls.push(record(ACCESS, 0, 0, 0, 1));
    for slot in 0..capacity {
        calls.push(record(REMOVE, 0, 0, slot, 0));
        calls.push(record(PIN, 1, 0, slot, 0));
        calls.push(record(PIN, 0, 0, slot, 0));
    }
    for limit in 1..=2 {
        calls.push(record(RECLAIM, 0, 0, limit, 0));
    }
    calls
}

/// Every key that has an end in each part, loaded and looked up in a new table of that capacity, which is then made smaller and larger again.
pub fn ends(capacity: u32) -> Vec<u8> {
    let mut out = Vec::new();
    let mut put = |code, number, key: CacheKey| {
        Record { code, allow: 1, kind: key.kind, place: 0, number, file: key.file, index: key.index }.write(&mut out);
    };
    put(NEW, capacity, CacheKey::default());
    for number in 0..ENDS {
        put(ACCESS, 0, Keys::Ends.key(number));
        put(PUBLISH, 0, CacheKey::default());
    }
    put(RESIZE, capacity.div_ceil(2), CacheKey::default());
    put(RESIZE, capacity, CacheKey::default());
    for number in 0..ENDS {
        put(LOOKUP, 0, Keys::Ends.key(number));
    }
    out
}

/// Every sequence of that many calls on a new table, one after the other.
pub fn exhaustive(capacity: u32, length: u32, emit: &mut impl FnMut(&[u8])) {
    let calls = alphabet(capacity);
    let new = Record { code: NEW, number: capacity, ..Record::default() };
    let mut out = Vec::new();
    for sequence in 0..(calls.len() as u64).pow(length) {
        out.clear();
        new.write(&mut out);
        let mut rest = sequence;
        for _ in 0..length {
            calls[(rest % calls.len() as u64) as usize].write(&mut out);
            rest /= calls.len() as u64;
        }
        emit(&out);
    }
}

/// As `exhaustive`, but a call that leaves table, pins and tokens as they were is tried once where it comes and not gone on
/// from, since what follows it follows without it.
pub fn exhaustive_deep(capacity: u32, length: u32, emit: &mut impl FnMut(&[u8])) {
    let calls = alphabet(capacity);
    let new = Record { code: NEW, number: capacity, ..Record::default() };
    deeper(&calls, &mut vec![new], length, emit);
}

fn deeper(calls: &[Record], path: &mut Vec<Record>, length: u32, emit: &mut impl FnMut(&[u8])) {
    let run = |records: &[Record]| {
        let mut sheet = Sheet::default();
        for record in records {
            sheet.step(record);
        }
        sheet
    };
    let state = |sheet: &Sheet| (sheet.table.as_ref().map(|table| table.picture()), sheet.pins.clone(), sheet.tokens);
    let before = state(&run(path));
    let mut still = Vec::new();
    let mut moving = Vec::new();
    for call in calls {
        path.push(*call);
        if state(&run(path)) == before { &mut still } else { &mut moving }.push(*call);
        path.pop();
    }
    let mut out = Vec::new();
    path.iter().chain(&still).for_each(|record| record.write(&mut out));
    emit(&out);
    for call in moving {
        path.push(call);
        if length == 1 {
            out.clear();
            path.iter().for_each(|record| record.write(&mut out));
            emit(&out);
        } else {
            deeper(calls, path, length - 1, emit);
        }
        path.pop();
    }
}
