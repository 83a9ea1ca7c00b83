// SPDX-License-Identifier: Apache-2.0
//! Times run sheets through the original Rust in place and through our calls, and a plain copy of a table. bench/run builds and runs it; with
//! `--cfg counting` it counts the bytes that memcpy and memmove move instead, and times nothing.

use original::in_place::{self, Visits};
use std::hint::black_box;

const TABLE: usize = 19_560;
const CAPACITIES: [usize; 2] = [16, 256];
/// What the name of a sheet of batches ends with.
const TOGETHER: &str = " in one peek";

unsafe extern "C" {
    /// crates/bench: a Rattle slice is a pointer and a length.
    fn tallboycrow_bench(sheet: *const u64, length: usize) -> u64;
}

fn ours(sheet: &[u64]) -> u64 {
    unsafe { tallboycrow_bench(sheet.as_ptr(), sheet.len()) }
}

/// A run sheet whose counted calls are looked at, and the same sheet without them: what the counted calls cost is the difference.
struct Sheet {
    name: String,
    capacity: usize,
    maintained: bool,
    whole: Vec<u64>,
    without: Vec<u64>,
    counted: usize,
    /// What its batches visit.
    visits: Vec<Visits>,
    /// What its costs restore.
    restores: Vec<u64>,
}

/// What makes the record of a call from the page of its key.
type Call = fn(u64) -> [u64; 3];

/// A record of document 01 as three numbers of 8 bytes, low byte first. The key is (0, 0, page): neighbouring pages are of neighbouring buckets.
fn record(code: u8, place: usize, number: usize, page: u64) -> [u64; 3] {
    [u64::from(code) | 1 << 8 | (place as u64 % 16) << 24 | (number as u64) << 32, 0, page]
}

fn new(capacity: usize) -> [u64; 3] {
    record(1, 0, capacity, 0)
}

fn access(page: u64) -> [u64; 3] {
    record(2, page as usize, 0, page)
}

/// Access through the gate, a code that crates/bench has beside document 01's.
fn through(page: u64) -> [u64; 3] {
    record(10, page as usize, 0, page)
}

fn publish(page: u64) -> [u64; 3] {
    record(3, page as usize, 0, 0)
}

fn abort(page: u64) -> [u64; 3] {
    record(4, page as usize, 0, 0)
}

fn lookup(page: u64) -> [u64; 3] {
    record(5, 0, 0, page)
}

fn resize(capacity: usize) -> [u64; 3] {
    record(8, 0, capacity, 0)
}

fn reclaim(limit: usize) -> [u64; 3] {
    record(9, 0, limit, 0)
}

/// 64 keys in one peek, a single peek, and what a resize will cost: codes that crates/bench has besides.
fn batch(page: u64, stride: u64) -> [u64; 3] {
    record(11, 0, stride as usize, page)
}

fn peek(page: u64) -> [u64; 3] {
    record(12, 0, 0, page)
}

fn cost(capacity: usize) -> [u64; 3] {
    record(13, 0, capacity, 0)
}

fn next(random: &mut u64) -> u64 {
    *random = random.wrapping_mul(6364136223846793005).wrapping_add(1442695040888963407);
    *random >> 33
}

impl Sheet {
    fn new(name: impl Into<String>, capacity: usize) -> Self {
        Self { name: name.into(), capacity, maintained: false, whole: Vec::new(), without: Vec::new(), counted: 0, visits: Vec::new(), restores: Vec::new() }
    }

    fn take(&mut self, record: [u64; 3]) {
        self.whole.extend(record);
        self.without.extend(record);
    }

    fn count(&mut self, record: [u64; 3]) {
        self.whole.extend(record);
        self.counted += 1;
    }

    /// A new table with every slot clean: the pages from 1 to the capacity.
    fn full(&mut self) {
        self.full_of(self.capacity, self.pages());
    }

    fn full_of(&mut self, capacity: usize, pages: impl Iterator<Item = u64>) {
        self.take(new(capacity));
        for page in pages {
            self.take(access(page));
            self.take(publish(page));
        }
    }

    /// The original has no cost but the resize itself, so the table is given up after it.
    fn cost(&mut self, asked: usize) {
        self.count(cost(asked));
        self.take(new(1));
    }

    /// The answers of the original in place, added up.
    fn original(&self, records: &[u64]) -> u64 {
        in_place::run(records, self.maintained, &self.visits, &self.restores)
    }

    fn pages(&self) -> std::ops::RangeInclusive<u64> {
        1..=self.capacity as u64
    }
}

/// The sheets of one capacity. About `calls` calls are counted in each, and a tenth of that, or less, in those of resize, cost and reclaim.
fn sheets(capacity: usize, calls: usize) -> Vec<Sheet> {
    let size = capacity as u64;
    let tables = calls / capacity;
    let mut all = Vec::new();
    for (name, call) in [("access, hit", access as Call), ("access through the gate, hit", through), ("lookup, hit", lookup)] {
        let mut sheet = Sheet::new(name, capacity);
        sheet.full();
        let mut random = 1_u64;
        for _ in 0..calls {
            sheet.count(call(1 + next(&mut random) % size));
        }
        all.push(sheet);
    }
    for (name, call) in [("access, miss into a free slot", access as Call), ("access through the gate, miss into a free slot", through)] {
        let mut sheet = Sheet::new(name, capacity);
        for _ in 0..tables {
            sheet.take(new(capacity));
            sheet.pages().for_each(|page| sheet.count(call(page)));
        }
        all.push(sheet);
    }
    // Keys of one bucket: before each counted access all but at most four of 64 (or of the capacity) are in its chain.
    let long = size.min(64);
    let mut sheet = Sheet::new("access, miss into a free slot, a long chain", capacity);
    for _ in 0..calls / 16 {
        sheet.take(new(capacity));
        (1..long - 3).for_each(|n| sheet.take(access(512 * n)));
        (long - 3..=long).for_each(|n| sheet.count(access(512 * n)));
    }
    all.push(sheet);
    for (name, call) in [("access, miss that evicts", access as Call), ("access through the gate, miss that evicts", through)] {
        let mut sheet = Sheet::new(name, capacity);
        for _ in 0..tables {
            sheet.full();
            sheet.pages().for_each(|page| sheet.count(call(size + page)));
        }
        all.push(sheet);
    }
    let mut sheet = Sheet::new("access that evicts, and publish (each a call)", capacity);
    sheet.full();
    for page in 1..=calls as u64 / 2 {
        sheet.count(access(size + page));
        sheet.count(publish(size + page));
    }
    all.push(sheet);
    for (name, call) in [("publish", publish as Call), ("abort", abort)] {
        let mut sheet = Sheet::new(name, capacity);
        for _ in 0..tables {
            sheet.take(new(capacity));
            for first in sheet.pages().step_by(16) {
                (first..first + 16).for_each(|page| sheet.take(access(page)));
                (first..first + 16).for_each(|page| sheet.count(call(page)));
            }
        }
        all.push(sheet);
    }
    let mut sheet = Sheet::new("resize to half, and back (each a call)", capacity);
    sheet.maintained = true;
    for _ in 0..tables.div_ceil(10) {
        sheet.full();
        sheet.count(resize(capacity / 2));
        sheet.count(resize(capacity));
    }
    all.push(sheet);
    let half = capacity / 2;
    for (name, from, to) in [("cost of a resize to half", capacity, half), ("cost of a resize from half", half, capacity)] {
        let mut sheet = Sheet::new(name, capacity);
        sheet.maintained = true;
        for _ in 0..tables.div_ceil(10) {
            sheet.full_of(from, 1..=from as u64);
            sheet.cost(to);
        }
        sheet.restores = original_counted::in_place::restores(&sheet.whole);
        all.push(sheet);
    }
    for (name, limit) in [("reclaim, 1 slot", 1), ("reclaim, 16 slots", 16)] {
        let mut sheet = Sheet::new(name, capacity);
        sheet.maintained = true;
        for _ in 0..tables.div_ceil(10) {
            sheet.full();
            (0..capacity / limit).for_each(|_| sheet.count(reclaim(limit)));
        }
        all.push(sheet);
    }
    // Neighbouring pages, each of a bucket of its own while the table has 64 buckets. All are in the larger table, and 16 in the smaller.
    let reel = Keys { name: "64 keys of a reel", stride: 1, starts: size.max(64) - 63 };
    all.extend(reel.sheets(capacity, calls, 1..=size));
    // Pages of one bucket, all in the table.
    if 64 <= size {
        let chain = Keys { name: "64 keys of one chain", stride: 512, starts: 1 };
        all.extend(chain.sheets(capacity, calls, (1..=64).map(|n| 512 * n).chain(1..=size - 64)));
    }
    all
}

/// Keys that are asked for 64 at a time, their pages so many apart. The first is at one of so many places.
struct Keys {
    name: &'static str,
    stride: u64,
    starts: u64,
}

impl Keys {
    /// In one peek, and one by one, on a table full of these pages. The 64 single peeks count as one call.
    fn sheets(&self, capacity: usize, calls: usize, full_of: impl Iterator<Item = u64> + Clone) -> [Sheet; 2] {
        let [mut together, mut single] = [TOGETHER, " in 64 single peeks"].map(|how| {
            let mut sheet = Sheet::new(format!("{}{how}", self.name), capacity);
            sheet.full_of(capacity, full_of.clone());
            sheet
        });
        let mut random = 1_u64;
        let mut first = || self.stride * (1 + next(&mut random) % self.starts);
        for _ in 0..calls / 16 {
            together.count(batch(first(), self.stride));
        }
        together.visits = in_place::visits(&together.whole);
        for _ in 0..calls / 64 {
            let first = first();
            (0..64).for_each(|place| single.count(peek(first + self.stride * place)));
        }
        single.counted /= 64;
        [together, single]
    }
}

/// One plain copy of as many bytes as a table has.
#[inline(never)]
fn copy(from: &[u64; TABLE / 8], to: &mut [u64; TABLE / 8]) {
    *to = *black_box(from);
}

fn same_answers(sheet: &Sheet) {
    for records in [&sheet.whole, &sheet.without] {
        assert_eq!(ours(records), sheet.original(records), "{}: the two sides answer alike", sheet.name);
    }
}

#[cfg(not(counting))]
mod timing {
    use super::*;
    use std::time::Instant;

    const REPEATS: usize = 25;
    const COPIES: usize = 4_000;

    fn seconds(run: impl FnOnce() -> u64) -> f64 {
        let start = Instant::now();
        black_box(run());
        start.elapsed().as_secs_f64()
    }

    fn median(mut times: Vec<f64>) -> f64 {
        times.sort_by(f64::total_cmp);
        times[times.len() / 2]
    }

    /// Nanoseconds for each counted call: ours, the Rust's, and of a plain copy. The three take turns, so that a disturbance meets all.
    fn time(sheet: &Sheet) -> [f64; 3] {
        let mut times = [const { Vec::new() }; 3];
        let (mut a, mut b) = ([1_u64; TABLE / 8], [2_u64; TABLE / 8]);
        for turn in 0..=REPEATS {
            let port = seconds(|| ours(&sheet.whole)) - seconds(|| ours(&sheet.without));
            let original = |records: &[u64]| seconds(|| sheet.original(records));
            let rust = original(&sheet.whole) - original(&sheet.without);
            let copies = seconds(|| {
                for _ in 0..COPIES / 2 {
                    copy(&a, &mut b);
                    copy(&b, &mut a);
                }
                b[0]
            });
            // The first turn only warms up.
            if turn > 0 {
                for (times, (time, calls)) in times.iter_mut().zip([(port, sheet.counted), (rust, sheet.counted), (copies, COPIES)]) {
                    times.push(time * 1e9 / calls as f64);
                }
            }
        }
        times.map(median)
    }

    /// `counts`: what the counting program wrote.
    pub fn report(counts: &str) {
        let mut counts = counts.lines();
        println!(
            "| call | capacity | ours / Rust | ours / plain copy | tables copied | bytes copied | slow copies | ours, ns | Rust, ns | plain copy, ns |"
        );
        println!("|---|---:|---:|---:|---:|---:|---:|---:|---:|---:|");
        let mut visits = Vec::new();
        for capacity in CAPACITIES {
            for sheet in sheets(capacity, 20_480) {
                same_answers(&sheet);
                let (bytes, slow) = counts.next().and_then(|line| line.split_once(' ')).expect("the counts of a sheet");
                let bytes: f64 = bytes.parse().expect("a number of bytes");
                let [port, rust, copy] = time(&sheet);
                println!(
                    "| {} | {} | {:.1} | {:.1} | {:.2} | {:.0} | {slow} | {:.0} | {:.1} | {:.0} |",
                    sheet.name,
                    capacity,
                    port / rust,
                    port / copy,
                    bytes / TABLE as f64,
                    bytes,
                    port,
                    rust,
                    copy
                );
                if !sheet.visits.is_empty() {
                    visits.push(sheet);
                }
            }
        }
        println!("\n| keys | capacity | slots visited in one peek | in 64 single peeks |\n|---|---:|---:|---:|");
        for sheet in visits {
            let keys = sheet.name.trim_end_matches(TOGETHER);
            let mean = |count: fn(&Visits) -> u64| sheet.visits.iter().map(count).sum::<u64>() as f64 / sheet.visits.len() as f64;
            println!("| {keys} | {} | {:.0} | {:.0} |", sheet.capacity, mean(|visits| visits.batch), mean(|visits| visits.single));
        }
    }
}

#[cfg(counting)]
mod counting {
    use super::*;
    use std::ffi::c_void;
    use std::sync::atomic::{AtomicUsize, Ordering};

    static MOVED: AtomicUsize = AtomicUsize::new(0);
    static SLOW: AtomicUsize = AtomicUsize::new(0);

    unsafe extern "C" {
        fn __real_memcpy(to: *mut c_void, from: *const c_void, length: usize) -> *mut c_void;
        fn __real_memmove(to: *mut c_void, from: *const c_void, length: usize) -> *mut c_void;
    }

    /// A copy to less than 16 bytes above its source, modulo 4096, takes some twenty times as long: each read seems to need the write before it.
    fn count(to: *mut c_void, from: *const c_void, length: usize) {
        MOVED.fetch_add(length, Ordering::Relaxed);
        let above = to.addr().wrapping_sub(from.addr()) % 4096;
        if length >= 1024 && (1..16).contains(&above) {
            SLOW.fetch_add(1, Ordering::Relaxed);
        }
    }

    #[unsafe(no_mangle)]
    unsafe extern "C" fn __wrap_memcpy(to: *mut c_void, from: *const c_void, length: usize) -> *mut c_void {
        count(to, from, length);
        unsafe { __real_memcpy(to, from, length) }
    }

    #[unsafe(no_mangle)]
    unsafe extern "C" fn __wrap_memmove(to: *mut c_void, from: *const c_void, length: usize) -> *mut c_void {
        count(to, from, length);
        unsafe { __real_memmove(to, from, length) }
    }

    /// Bytes and slow copies.
    fn counts(run: impl FnOnce() -> u64) -> [usize; 2] {
        let before = [&MOVED, &SLOW].map(|count| count.load(Ordering::Relaxed));
        black_box(run());
        [MOVED.load(Ordering::Relaxed) - before[0], SLOW.load(Ordering::Relaxed) - before[1]]
    }

    /// The bytes copied by each counted call, and its slow copies, a line for each sheet.
    pub fn report() {
        let (a, mut b) = ([1_u64; TABLE / 8], [2_u64; TABLE / 8]);
        let [plain, _] = counts(|| {
            copy(&a, &mut b);
            b[0]
        });
        assert_eq!(plain, TABLE, "a plain copy is counted");
        for capacity in CAPACITIES {
            for sheet in sheets(capacity, 20_480) {
                same_answers(&sheet);
                let [whole, without] = [&sheet.whole, &sheet.without].map(|records| counts(|| ours(records)));
                let each = |count: usize| (whole[count] - without[count]) as f64 / sheet.counted as f64;
                println!("{:.1} {:.2}", each(0), each(1));
            }
        }
    }
}

#[cfg(not(counting))]
fn main() {
    let file = std::env::args().nth(1).expect("the file with the counts");
    timing::report(&std::fs::read_to_string(file).expect("the counts"));
}

#[cfg(counting)]
fn main() {
    counting::report();
}
