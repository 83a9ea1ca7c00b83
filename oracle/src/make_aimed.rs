// SPDX-License-Identifier: Apache-2.0
//! Made-up tables chosen by aim: each shows a rule that a program could have otherwise and still agree with most others. Beside each case stands
//! what document 01 says of it, and document 02 of the kept lengths: the word and its number.

use crate::case::{CALLS, CLEAN_ENTRY, COLD_CANDIDATE, Case, DETACH, OLDEST_CLEAN, PEEK_CLEAN, VALIDATE};
use crate::make_sheets::with_sum;
use crate::picture::{NONE, Picture};
use crate::sheet::{ABORT, ACCESS, LOOKUP, PUBLISH, RECLAIM, REMOVE, RESIZE};
use crate::{Access, CacheKey, Table, Token};

const MAX: u64 = u64::MAX;

type Aimed = Vec<(&'static str, Case)>;

/// Pages in a row: key 1 is of bucket 1, key 2 of bucket 2 and so on.
pub fn key(page: u64) -> CacheKey {
    CacheKey { file: 0, kind: 0, index: page }
}

/// A key of each file, all of bucket 0 at every bucket count. Without the turn of file they would be spread.
pub fn mate(file: u64) -> CacheKey {
    with_sum(2048, file, 0)
}

/// A key of each file, of buckets 0 and 256 of 512 by turns, which are one of 256.
pub fn half_mate(file: u64) -> CacheKey {
    with_sum(256 * file, file, 0)
}

/// Each key is loaded in its turn: slots 0, 1 and so on, uses 1, 2 and so on.
fn loaded_keys(capacity: usize, keys: impl IntoIterator<Item = CacheKey>) -> Table {
    let mut table = Table::try_new(capacity).expect("a capacity");
    for key in keys {
        let token = reserve_key(&mut table, key);
        table.publish(token).expect("its token");
    }
    table
}

fn reserve_key(table: &mut Table, key: CacheKey) -> Token {
    let pins = vec![0; table.capacity()];
    let Ok(Access::Reserved { token, .. }) = table.access(key, true, &pins) else { panic!("a vacant slot") };
    token
}

pub fn clean_keys(capacity: usize, keys: impl IntoIterator<Item = CacheKey>) -> Picture {
    loaded_keys(capacity, keys).picture()
}

/// The same for the keys of pages.
pub fn loaded(capacity: usize, pages: impl IntoIterator<Item = u64>) -> Table {
    loaded_keys(capacity, pages.into_iter().map(key))
}

pub fn reserve(table: &mut Table, page: u64) -> Token {
    reserve_key(table, key(page))
}

pub fn clean(capacity: usize, pages: impl IntoIterator<Item = u64>) -> Picture {
    loaded(capacity, pages).picture()
}

/// The call on the table; its number is 0, its key that of page 1, no slot is pinned.
pub fn call(code: u8, table: &Picture) -> Case {
    let slots = table.capacity as usize;
    let token = Token { slot: 0, generation: 0, key: key(1), access_sequence: 0 };
    Case { code, allow: 1, token, list_len: slots as u16, pins: vec![0; slots], table: table.clone() }
}

pub fn of_key(code: u8, table: &Picture, key: CacheKey) -> Case {
    let mut case = call(code, table);
    case.token.key = key;
    case
}

pub fn of_page(code: u8, table: &Picture, page: u64) -> Case {
    of_key(code, table, key(page))
}

pub fn of_number(code: u8, table: &Picture, number: u64) -> Case {
    let mut case = call(code, table);
    case.token.slot = number as usize;
    case
}

/// The slots of the first heap places pinned.
pub fn pinned(mut case: Case, places: usize) -> Case {
    for (slot, _) in case.table.entries.iter().take(places) {
        case.pins[usize::from(*slot)] = 1;
    }
    case
}

/// The five counters stop at 2^64 - 1, whichever call counts.
fn counters(all: &mut Aimed) {
    let spent = |mut table: Picture| {
        table.counters = [MAX; 5];
        table
    };
    let full = spent(clean(1, [1]));
    let vacant = spent(clean(1, []));
    let mut table = loaded(1, []);
    reserve(&mut table, 1);
    let loading = spent(table.picture());
    all.push(("hit 0", call(ACCESS, &full)));
    all.push(("hit 0", call(LOOKUP, &full)));
    all.push(("reserved 0", call(ACCESS, &vacant)));
    all.push(("evicted 0", of_page(ACCESS, &full, 2)));
    all.push(("loading -", call(ACCESS, &loading)));
    all.push(("none -", call(LOOKUP, &loading)));
    all.push(("busy -", Case { allow: 0, ..call(ACCESS, &vacant) }));
    all.push(("busy -", pinned(of_page(ACCESS, &full, 2), 1)));
    all.push(("done -", call(REMOVE, &full)));
    all.push(("done -", call(DETACH, &full)));
    all.push(("reclaimed 1", of_number(RECLAIM, &full, 1)));
    all.push(("resized 1", of_number(RESIZE, &spent(clean(2, [1, 2])), 1)));
}

/// 7: the use number spent, or the generation; and one before the end, where both are still given.
fn numbers(all: &mut Aimed) {
    let at = |uses: u64, generations: u64, pages: &[u64]| {
        let mut table = clean(1, pages.iter().copied());
        table.next_access_sequence = uses;
        table.next_load_generation = generations;
        table
    };
    for code in [ACCESS, LOOKUP] {
        all.push(("refused 7", call(code, &at(MAX, 1, &[1]))));
        all.push(("hit 0", call(code, &at(MAX - 1, MAX, &[1]))));
    }
    all.push(("refused 7", call(ACCESS, &at(MAX, 5, &[]))));
    all.push(("refused 7", call(ACCESS, &at(5, MAX, &[]))));
    all.push(("refused 7", call(ACCESS, &at(MAX, MAX, &[]))));
    all.push(("reserved 0", call(ACCESS, &at(MAX - 1, MAX - 1, &[]))));
    all.push(("refused 7", of_page(ACCESS, &at(MAX, 5, &[1]), 2)));
}

/// A token is taken only with its slot, its key and its generation (6), and published only with a use number that was given (9).
fn tokens(all: &mut Aimed) {
    let mut table = loaded(3, [3]);
    let token = reserve(&mut table, 1);
    let other = reserve(&mut table, 2);
    let table = table.picture();
    let with = |code: u8, token: Token| Case { token, ..call(code, &table) };
    for code in [PUBLISH, ABORT, VALIDATE] {
        all.push(("done -", with(code, token)));
        all.push(("refused 6", with(code, Token { key: other.key, ..token })));
        all.push(("refused 6", with(code, Token { key: CacheKey { kind: 1, ..token.key }, ..token })));
        all.push(("refused 6", with(code, Token { key: CacheKey { file: 1, ..token.key }, ..token })));
        all.push(("refused 6", with(code, Token { generation: other.generation, ..token })));
        all.push(("refused 6", with(code, Token { slot: other.slot, ..token })));
        all.push(("refused 6", with(code, Token { slot: 0, ..token })));
        all.push(("refused 6", with(code, Token { slot: 3, ..token })));
        let late = if code == PUBLISH { "refused 9" } else { "done -" };
        all.push((late, with(code, Token { access_sequence: 4, ..token })));
        all.push(("refused 6", with(code, Token { access_sequence: 4, generation: 9, ..token })));
    }
    all.push(("done -", with(PUBLISH, Token { access_sequence: 3, ..token })));
}

/// 1 to 5 in their order, and 8.
fn arguments(all: &mut Aimed) {
    let table = clean(3, [1, 2]);
    for (pins, list_len, asked, word) in [
        (2, 3, 2, "refused 3"),
        (4, 3, 2, "refused 3"),
        (3, 2, 2, "refused 4"),
        (3, 4, 2, "refused 4"),
        (2, 2, 2, "refused 3"),
        (2, 2, 3, "refused 3"),
        (3, 2, 3, "refused 4"),
        (2, 2, 0, "refused 1"),
        (2, 2, (1 << 62) + 1, "refused 1"),
        (2, 2, 1 << 62, "refused 2"),
        (2, 2, 257, "refused 2"),
        (3, 3, 256, "resized 256"),
    ] {
        all.push((word, Case { pins: vec![0; pins], list_len, ..of_number(RESIZE, &table, asked) }));
    }
    for pins in [2, 4] {
        all.push(("refused 3", Case { pins: vec![0; pins], ..of_number(RECLAIM, &table, 1) }));
        all.push(("refused 3", Case { pins: vec![0; pins], ..of_number(RECLAIM, &table, 0) }));
        all.push(("refused 3", Case { pins: vec![0; pins], ..call(ACCESS, &table) }));
    }
    all.push(("reclaimed 0", of_number(RECLAIM, &table, 0)));
    for code in [REMOVE, DETACH] {
        all.push(("refused 8", of_number(code, &table, 2)));
        all.push(("refused 5", of_number(code, &table, 3)));
        all.push(("refused 5", of_number(code, &table, MAX)));
    }
    all.push(("none -", of_number(CLEAN_ENTRY, &table, 2)));
    all.push(("none -", of_number(CLEAN_ENTRY, &table, 3)));
    all.push(("none -", of_number(COLD_CANDIDATE, &table, 2)));
    // An empty table that shrinks, and one that grows: both keep their counts. The list is written in both.
    let mut table = loaded(2, [1]);
    table.remove_clean(0).expect("a clean slot");
    let empty = table.picture();
    all.push(("resized 1", of_number(RESIZE, &empty, 1)));
    all.push(("resized 3", of_number(RESIZE, &empty, 3)));
    let table = clean(3, [1, 2]);
    // 8 comes before the raised capacity and after Unchanged and Busy.
    let stray = |asked| Case { pins: vec![0, 0, 255], ..of_number(RESIZE, &table, asked) };
    all.push(("refused 8", stray(1)));
    all.push(("unchanged -", stray(3)));
    let mut busy = stray(1);
    busy.table.loading = 1;
    all.push(("busy -", busy));
}

/// The heap: older means smaller last use, then smaller slot; the right child only when strictly older; a removal moves its entry up or down.
fn heaps(all: &mut Aimed) {
    let three = clean(3, [1, 2, 3]);
    let with = |entries: [(u16, u64); 3]| {
        let mut table = three.clone();
        table.entries = entries.to_vec();
        for (place, (slot, last_access)) in entries.into_iter().enumerate() {
            table.slots[usize::from(slot)].last_access = last_access;
            table.positions[usize::from(slot)] = place as u16;
        }
        table
    };
    // Two children of the same use: the smaller slot, left or right, and the left one where they are wholly equal.
    for entries in [[(0, 1), (1, 2), (2, 2)], [(0, 1), (2, 2), (1, 2)], [(0, 1), (1, 2), (1, 2)]] {
        all.push(("hit 0", call(ACCESS, &with(entries))));
        all.push(("hit 0", call(LOOKUP, &with(entries))));
    }
    // The root goes down to a child of the use that it gets only by the slots.
    let mut table = with([(0, 1), (1, 2), (2, 2)]);
    table.next_access_sequence = 1;
    all.push(("hit 0", call(ACCESS, &table)));
    let mut table = with([(2, 1), (1, 2), (0, 2)]);
    table.next_access_sequence = 1;
    all.push(("hit 2", of_page(ACCESS, &table, 3)));
    // A key published with the use of the root, in a smaller slot and in a greater one.
    for (slot, page) in [(0, 1), (1, 2)] {
        let mut table = loaded(2, []);
        let tokens = [reserve(&mut table, 1), reserve(&mut table, 2)];
        table.publish(tokens[1 - slot]).expect("its token");
        let token = Token { access_sequence: tokens[1 - slot].access_sequence, ..tokens[slot] };
        all.push(("done -", Case { token, ..of_page(PUBLISH, &table.picture(), page) }));
    }
    // Places by use: 1, 8 3, 10 9 6 7. Where the 10 leaves, the 7 goes above the 8; where the 8 leaves, the 7 stays; where the 1 leaves, it goes down.
    let mut table = loaded(7, 1..=7);
    for page in [2, 4, 5] {
        table.lookup(key(page)).expect("a hit");
    }
    let table = table.picture();
    for slot in [4, 1, 0, 6] {
        all.push(("done -", of_number(REMOVE, &table, slot)));
        all.push(("done -", of_number(DETACH, &table, slot)));
    }
    all.push(("reclaimed 7", of_number(RECLAIM, &table, 64)));
    all.push(("reclaimed 3", pinned(of_number(RECLAIM, &table, 3), 2)));
    all.push(("resized 3", of_number(RESIZE, &table, 3)));
    // The second of three is in no chain: a refusal in a later round gives up the earlier removals too.
    let mut cut = clean(3, [1, 2, 3]);
    cut.heads[2] = NONE;
    all.push(("refused 10", of_number(RECLAIM, &cut, 3)));
    all.push(("reclaimed 1", of_number(RECLAIM, &cut, 1)));
    // No more places are looked at than the clean count says.
    let mut few = clean(2, [1, 2]);
    few.clean = 1;
    all.push(("busy -", pinned(of_page(ACCESS, &few, 3), 1)));
    all.push(("reclaimed 0", pinned(of_number(RECLAIM, &few, 2), 1)));
}

/// A chain of 63 takes a key, one of 64 does not, and a 65th slot of a chain is a stop.
fn chains(all: &mut Aimed) {
    let chain = |slots: u64| clean_keys(66, (0..slots).map(mate).chain([key(1)]));
    all.push(("reserved 64", of_key(ACCESS, &chain(63), mate(63))));
    let full = chain(64);
    all.push(("busy -", of_key(ACCESS, &full, mate(64))));
    all.push(("reserved 65", of_page(ACCESS, &full, 2)));
    all.push(("hit 0", of_key(ACCESS, &full, mate(0))));
    all.push(("hit 0", of_key(LOOKUP, &full, mate(0))));
    all.push(("none -", of_key(LOOKUP, &full, mate(64))));
    all.push(("found 0", of_key(PEEK_CLEAN, &full, mate(0))));
    all.push(("done -", of_number(REMOVE, &full, 0)));
    // Slot 64 in front of that chain, so that slot 0 is the 65th.
    let mut long = full;
    long.heads[1] = NONE;
    long.slots[64].key = mate(64);
    long.next[64] = long.heads[0];
    long.heads[0] = 64;
    all.push(("refused 10", of_key(ACCESS, &long, mate(65))));
    all.push(("refused 10", of_key(ACCESS, &long, mate(0))));
    all.push(("refused 10", of_key(LOOKUP, &long, mate(0))));
    all.push(("hit 1", of_key(LOOKUP, &long, mate(1))));
    all.push(("refused 10", of_key(PEEK_CLEAN, &long, mate(0))));
    all.push(("found 1", of_key(PEEK_CLEAN, &long, mate(1))));
    all.push(("refused 10", of_number(REMOVE, &long, 0)));
    all.push(("done -", of_number(DETACH, &long, 1)));
    // The only victim is in the full chain that refuses the key.
    all.push(("busy -", of_key(ACCESS, &clean_keys(64, (0..64).map(mate)), mate(64))));
    // 65 keys in two chains of 129 slots, which 128 slots have as one: a key is removed, and Busy where all are pinned.
    let two = clean_keys(129, (0..65).map(half_mate));
    all.push(("resized 128", of_number(RESIZE, &two, 128)));
    all.push(("busy -", pinned(of_number(RESIZE, &two, 1), 65)));
}

/// 64 heap places are looked at; a reclaim removes at most 64 slots; many clean slots move.
fn many(all: &mut Aimed) {
    let full = clean(66, 1..=66);
    all.push(("evicted 0", of_page(ACCESS, &full, 67)));
    all.push(("evicted 63", pinned(of_page(ACCESS, &full, 67), 63)));
    all.push(("busy -", pinned(of_page(ACCESS, &full, 67), 64)));
    all.push(("reclaimed 3", pinned(of_number(RECLAIM, &full, 70), 63)));
    all.push(("reclaimed 0", pinned(of_number(RECLAIM, &full, 70), 64)));
    for (limit, word) in [(32, "reclaimed 32"), (63, "reclaimed 63"), (64, "reclaimed 64"), (65, "reclaimed 64"), (MAX, "reclaimed 64")] {
        all.push((word, of_number(RECLAIM, &full, limit)));
    }
    all.push(("resized 67", of_number(RESIZE, &full, 67)));
    all.push(("resized 40", of_number(RESIZE, &full, 40)));
    all.push(("resized 64", pinned(of_number(RESIZE, &full, 1), 33)));
}

/// The first test of 10, before any other; and counts of clean and loading slots that do not fit the slots.
fn stops(all: &mut Aimed) {
    let sound = clean(2, [1]);
    let mut buckets = sound.clone();
    buckets.buckets = 8;
    buckets.heads.resize(8, NONE);
    let mut stack = sound.clone();
    stack.free_len = 3;
    stack.free = vec![1, 1, 1];
    let mut heap = sound.clone();
    heap.heap_len = 3;
    heap.entries = vec![(0, 1); 3];
    for code in CALLS {
        for table in [&buckets, &stack, &heap] {
            all.push(("refused 10", Case { pins: Vec::new(), list_len: 0, ..call(code, table) }));
        }
    }
    let mut table = loaded(2, [1]);
    let token = reserve(&mut table, 2);
    let table = table.picture();
    for code in [PUBLISH, ABORT] {
        let mut none = Case { token, ..call(code, &table) };
        none.table.loading = 0;
        all.push(("refused 10", none));
    }
    let mut most = Case { token, ..call(PUBLISH, &table) };
    most.table.clean = MAX;
    all.push(("refused 10", most));
    let mut most = of_page(ACCESS, &sound, 2);
    most.table.loading = MAX;
    all.push(("refused 10", most));
    damaged(all);
}

/// Where the Rust stops on a table of the right lengths: one place is changed in a table of two keys, or of one and one that loads.
fn damaged(all: &mut Aimed) {
    let mut table = loaded(2, [1]);
    let token = reserve(&mut table, 2);
    let loading = table.picture();
    let two = clean(2, [1, 2]);
    let one = clean(2, [1]);
    let on = |table: &Picture, damage: &dyn Fn(&mut Picture)| {
        let mut table = table.clone();
        damage(&mut table);
        table
    };
    // The stack is full already.
    let full = |table: &mut Picture| (table.free, table.free_len) = (vec![1, 1], 2);
    all.push(("refused 10", call(REMOVE, &on(&one, &full))));
    all.push(("refused 10", Case { token, ..call(ABORT, &on(&loading, &full)) }));
    // The loading slot has a heap place.
    all.push(("refused 10", Case { token, ..call(PUBLISH, &on(&loading, &|table| table.positions[1] = 0)) }));
    // The place of slot 0 is that of another, or none.
    for place in [1, 2, NONE] {
        let table = on(&two, &|table| table.positions[0] = place);
        for code in [ACCESS, LOOKUP, REMOVE, DETACH] {
            all.push(("refused 10", call(code, &table)));
        }
        all.push(("found 0", call(PEEK_CLEAN, &table)));
        all.push(("refused 10", of_page(ACCESS, &table, 3)));
        all.push(("refused 10", of_number(RECLAIM, &table, 1)));
        all.push(("refused 10", of_number(RESIZE, &table, 1)));
    }
    // A heap entry of a slot past the capacity: as the root, and behind it.
    let root = on(&two, &|table| table.entries[0].0 = 700);
    all.push(("refused 10", of_page(ACCESS, &root, 3)));
    all.push(("refused 10", of_number(RECLAIM, &root, 1)));
    all.push(("refused 10", of_number(RESIZE, &root, 1)));
    all.push(("found 700", call(OLDEST_CLEAN, &root)));
    let last = on(&two, &|table| table.entries[1].0 = 700);
    all.push(("refused 10", call(ACCESS, &last)));
    all.push(("refused 10", call(REMOVE, &last)));
    all.push(("found 700", of_number(COLD_CANDIDATE, &last, 1)));
    // A vacant slot that links on, a head past the capacity, and a key that is in no chain.
    all.push(("refused 10", of_page(ACCESS, &on(&one, &|table| table.next[1] = 1), 2)));
    for (head, found) in [(700, "refused 10"), (NONE, "none -")] {
        let table = on(&two, &|table| table.heads[1] = head);
        all.push((found, call(LOOKUP, &table)));
        all.push((found, call(PEEK_CLEAN, &table)));
        all.push(("refused 10", call(REMOVE, &table)));
        all.push(("refused 10", of_number(RECLAIM, &table, 1)));
    }
    // The loading slot is in no chain.
    all.push(("refused 10", Case { token, ..call(ABORT, &on(&loading, &|table| table.heads[2] = NONE)) }));
}

/// The table with that length kept for the key's chain.
pub fn kept(table: &Picture, key: CacheKey, length: u8) -> Picture {
    let mut table = table.clone();
    table.lengths[key.bucket_of(table.buckets) as usize] = length;
    table
}

/// Searches that come to the end of a chain whose kept length is not what they walked: 10. Of another chain the length does not matter.
fn lengths_walked(all: &mut Aimed) {
    // Slot 1 in front of slot 0, both of bucket 1; 17 is absent from it. Slot 2 is of bucket 2.
    let table = clean(4, [1, 9, 2]);
    let told = |all: &mut Aimed, table: &Picture, access: &'static str, refused: &'static str, none: &'static str| {
        all.push((access, of_page(ACCESS, table, 17)));
        all.push((refused, Case { allow: 0, ..of_page(ACCESS, table, 17) }));
        all.push((none, of_page(LOOKUP, table, 17)));
        all.push((none, of_page(PEEK_CLEAN, table, 17)));
    };
    told(all, &table, "reserved 3", "busy -", "none -");
    for length in [3, 1, 0, 63, 64, 65, 255] {
        told(all, &kept(&table, key(1), length), "refused 10", "refused 10", "refused 10");
        told(all, &kept(&table, key(2), length), "reserved 3", "busy -", "none -");
        told(all, &kept(&table, key(3), length), "reserved 3", "busy -", "none -");
        let wrong = kept(&table, key(1), length);
        // 3 stands before the search.
        all.push(("refused 3", Case { pins: Vec::new(), ..of_page(ACCESS, &wrong, 17) }));
        // A search that stops at a slot compares nothing, be it the first of the chain or its last.
        for (page, slot) in [(9, ["hit 1", "found 1"]), (1, ["hit 0", "found 0"])] {
            all.push((slot[0], of_page(ACCESS, &wrong, page)));
            all.push((slot[0], Case { allow: 0, ..of_page(ACCESS, &wrong, page) }));
            all.push((slot[0], of_page(LOOKUP, &wrong, page)));
            all.push((slot[1], of_page(PEEK_CLEAN, &wrong, page)));
        }
    }
    // 7 of a hit in front of a wrong length.
    let mut spent = kept(&table, key(1), 9);
    spent.next_access_sequence = MAX;
    all.push(("refused 7", of_page(ACCESS, &spent, 1)));
    all.push(("refused 7", of_page(LOOKUP, &spent, 1)));
    // An empty chain: 10 where it says 64, and not busy; before loading not allowed and before 7 of either number.
    for length in [1, 63, 64, 65, 255] {
        for (uses, generations) in [(0, 0), (MAX, 0), (0, MAX), (MAX, MAX)] {
            let mut table = kept(&clean(1, []), key(1), length);
            table.next_access_sequence = uses;
            table.next_load_generation = generations;
            all.push(("refused 10", call(ACCESS, &table)));
            all.push(("refused 10", Case { allow: 0, ..call(ACCESS, &table) }));
            all.push(("refused 10", call(LOOKUP, &table)));
            all.push(("refused 10", call(PEEK_CLEAN, &table)));
        }
        // Nor is it busy where nothing can be evicted, and no victim's number is spent.
        let full = kept(&clean(1, [1]), key(2), length);
        all.push(("refused 10", of_page(ACCESS, &full, 2)));
        all.push(("refused 10", pinned(of_page(ACCESS, &full, 2), 1)));
    }
    // A key that loads is found by access and lookup; peek_clean passes it and comes to the end.
    let mut table = loaded(4, [1]);
    reserve(&mut table, 9);
    let loading = table.picture();
    all.push(("none -", of_page(PEEK_CLEAN, &loading, 9)));
    for length in [0, 1, 3, 64, 255] {
        let wrong = kept(&loading, key(9), length);
        all.push(("loading -", of_page(ACCESS, &wrong, 9)));
        all.push(("none -", of_page(LOOKUP, &wrong, 9)));
        all.push(("refused 10", of_page(PEEK_CLEAN, &wrong, 9)));
        all.push(("found 0", of_page(PEEK_CLEAN, &wrong, 1)));
    }
    // A vacant slot in a chain stops access and lookup whatever the length; peek_clean passes it and counts it.
    let mut vacant = clean(2, [1]);
    vacant.heads[2] = 1;
    for (length, peeked) in [(0, "refused 10"), (1, "none -"), (2, "refused 10")] {
        let table = kept(&vacant, key(2), length);
        all.push(("refused 10", of_page(ACCESS, &table, 2)));
        all.push(("refused 10", of_page(LOOKUP, &table, 2)));
        all.push((peeked, of_page(PEEK_CLEAN, &table, 2)));
    }
}

/// Lengths about the limit of a chain: one of 63, one of 64 and one with a 65th slot.
fn lengths_full(all: &mut Aimed) {
    let chain = |slots: u64| clean_keys(66, (0..slots).map(mate));
    for (slots, length, access, none) in [
        (63, 62, "refused 10", "refused 10"),
        (63, 63, "reserved 63", "none -"),
        (63, 64, "refused 10", "refused 10"),
        (64, 63, "refused 10", "refused 10"),
        (64, 64, "busy -", "none -"),
        (64, 65, "refused 10", "refused 10"),
        (64, 0, "refused 10", "refused 10"),
    ] {
        let table = kept(&chain(slots), mate(0), length);
        all.push((access, of_key(ACCESS, &table, mate(65))));
        all.push((none, of_key(LOOKUP, &table, mate(65))));
        all.push((none, of_key(PEEK_CLEAN, &table, mate(65))));
    }
    // The last slot of a full chain, with a wrong length.
    let full = kept(&chain(64), mate(0), 63);
    all.push(("hit 0", of_key(ACCESS, &full, mate(0))));
    all.push(("hit 0", of_key(LOOKUP, &full, mate(0))));
    all.push(("found 0", of_key(PEEK_CLEAN, &full, mate(0))));
    all.push(("done -", of_number(REMOVE, &full, 0)));
    // A 65th slot is 10, also where the length says 65.
    let mut long = clean_keys(66, (0..64).map(mate).chain([key(1)]));
    long.heads[1] = NONE;
    long.slots[64].key = mate(64);
    long.next[64] = long.heads[0];
    long.heads[0] = 64;
    for length in [64, 65] {
        let table = kept(&kept(&long, key(1), 0), mate(0), length);
        all.push(("refused 10", of_key(ACCESS, &table, mate(65))));
        all.push(("refused 10", of_key(LOOKUP, &table, mate(65))));
        all.push(("refused 10", of_key(PEEK_CLEAN, &table, mate(65))));
    }
}

/// A removal from a chain whose kept length is 0: 10, and the table is as it came. From 1 and from 255 it takes one away.
fn lengths_removed(all: &mut Aimed) {
    let mut table = loaded(3, [3]);
    let token = reserve(&mut table, 1);
    let loading = table.picture();
    let two = clean(2, [1, 2]);
    for (length, ended, done) in
        [(0, "refused 10", "refused 10"), (1, "done -", "reclaimed 1"), (65, "done -", "reclaimed 1"), (255, "done -", "reclaimed 1")]
    {
        let table = kept(&loading, key(1), length);
        all.push((ended, Case { token, ..call(ABORT, &table) }));
        // 6 stands before it; a publish and a validation remove nothing.
        all.push(("refused 6", Case { token: Token { generation: 9, ..token }, ..call(ABORT, &table) }));
        all.push(("done -", Case { token, ..call(PUBLISH, &table) }));
        all.push(("done -", Case { token, ..call(VALIDATE, &table) }));
        let table = kept(&two, key(1), length);
        for code in [REMOVE, DETACH] {
            all.push((ended, of_number(code, &table, 0)));
            all.push(("done -", of_number(code, &table, 1)));
            all.push(("refused 5", of_number(code, &table, 2)));
            all.push(("refused 8", of_number(code, &kept(&loading, key(1), length), 1)));
        }
        all.push((done, of_number(RECLAIM, &table, 1)));
        all.push(("reclaimed 0", of_number(RECLAIM, &table, 0)));
        all.push(("reclaimed 1", pinned(of_number(RECLAIM, &table, 2), 1)));
        // An eviction: slot 0 is the victim.
        let evicted = if length == 0 { "refused 10" } else { "evicted 0" };
        all.push((evicted, of_page(ACCESS, &table, 3)));
        all.push(("evicted 1", pinned(of_page(ACCESS, &table, 3), 1)));
        all.push(("busy -", pinned(of_page(ACCESS, &table, 3), 2)));
        all.push(("busy -", Case { allow: 0, ..of_page(ACCESS, &table, 3) }));
        // Both 7 stand before it.
        for (uses, generations) in [(MAX, 5), (5, MAX)] {
            let mut spent = of_page(ACCESS, &table, 3);
            (spent.table.next_access_sequence, spent.table.next_load_generation) = (uses, generations);
            all.push(("refused 7", spent));
        }
    }
    // The length of another chain does not matter.
    let other = kept(&two, key(2), 0);
    all.push(("done -", of_number(REMOVE, &other, 0)));
    all.push(("done -", of_number(DETACH, &other, 0)));
    all.push(("evicted 0", of_page(ACCESS, &other, 3)));
    all.push(("reclaimed 1", of_number(RECLAIM, &other, 1)));
    // A later round of a reclaim gives up the earlier ones.
    all.push(("refused 10", of_number(RECLAIM, &other, 2)));
    let three = kept(&clean(3, [1, 2, 3]), key(3), 0);
    all.push(("refused 10", of_number(RECLAIM, &three, 64)));
    all.push(("refused 10", of_number(RECLAIM, &three, 3)));
    all.push(("reclaimed 2", of_number(RECLAIM, &three, 2)));
    // Two keys of one chain whose length says one.
    let mates = kept(&clean(4, [1, 9]), key(1), 1);
    all.push(("reclaimed 1", of_number(RECLAIM, &mates, 1)));
    all.push(("refused 10", of_number(RECLAIM, &mates, 2)));
    // The victim is of the key's own chain.
    let own = clean(2, [1, 5]);
    all.push(("evicted 0", of_page(ACCESS, &own, 9)));
    all.push(("refused 10", of_page(ACCESS, &kept(&own, key(1), 1), 9)));
    // Slot 0 in a chain that the chain of slot 1 goes on to. A removal changes the length of its own bucket only.
    let mut shared = clean(4, [1, 2]);
    shared.next[1] = 0;
    let shared = kept(&shared, key(2), 2);
    all.push(("none -", of_page(LOOKUP, &shared, 10)));
    for slot in [0, 1] {
        all.push(("done -", of_number(REMOVE, &shared, slot)));
        all.push(("done -", of_number(DETACH, &shared, slot)));
    }
    all.push(("reclaimed 2", of_number(RECLAIM, &shared, 2)));
    // The first test of 10 does not look at lengths.
    let mut most = two;
    most.lengths.fill(255);
    all.push(("found 0", call(OLDEST_CLEAN, &most)));
    all.push(("found 1", of_number(COLD_CANDIDATE, &most, 1)));
    all.push(("found 1", of_number(CLEAN_ENTRY, &most, 1)));
}

/// Resize removes from the old table the keys of pinned slots, those that must make room and those that a chain refuses: 10 at a length of 0. A key that
/// simply moves is not removed from it.
fn lengths_resized(all: &mut Aimed) {
    let two = clean(2, [1, 2]);
    for length in [0, 1, 65, 255] {
        let table = kept(&two, key(1), length);
        let word = |done: &'static str| if length == 0 { "refused 10" } else { done };
        all.push((word("resized 4"), pinned(of_number(RESIZE, &table, 4), 1)));
        all.push((word("resized 1"), pinned(of_number(RESIZE, &table, 1), 1)));
        // Slot 0 is dropped for room, or moves.
        all.push((word("resized 1"), of_number(RESIZE, &table, 1)));
        all.push(("resized 4", of_number(RESIZE, &table, 4)));
        // Slot 1 moves, or is dropped where slot 0 is pinned.
        let other = kept(&two, key(2), length);
        all.push(("resized 1", of_number(RESIZE, &other, 1)));
        all.push(("resized 4", pinned(of_number(RESIZE, &other, 4), 1)));
        all.push((word("resized 1"), pinned(of_number(RESIZE, &other, 1), 1)));
        // Unchanged, Busy and 8 remove nothing.
        all.push(("unchanged -", pinned(of_number(RESIZE, &table, 2), 2)));
        all.push(("unchanged -", pinned(of_number(RESIZE, &table, 1), 2)));
        let mut busy = pinned(of_number(RESIZE, &table, 1), 1);
        busy.table.loading = 1;
        all.push(("busy -", busy));
        let stray = Case { pins: vec![1, 1], ..of_number(RESIZE, &kept(&clean(2, [1]), key(1), length), 4) };
        all.push(("refused 8", stray));
    }
    // A table with no key shrinks and grows, and its lengths are 0.
    let mut empty = clean(2, []);
    empty.lengths.fill(64);
    all.push(("resized 1", of_number(RESIZE, &empty, 1)));
    all.push(("resized 3", of_number(RESIZE, &empty, 3)));
    // By the clean count there is no key, and none is removed; slot 0 is pinned.
    let mut uncounted = kept(&clean(2, [1]), key(1), 0);
    uncounted.clean = 0;
    all.push(("resized 1", pinned(of_number(RESIZE, &uncounted, 1), 1)));
    // A key that stands twice and is pinned once leaves the old table twice.
    let mut double = clean(2, [1, 5]);
    double.slots[1].key = key(1);
    for (length, word) in [(0, "refused 10"), (1, "refused 10"), (2, "resized 4")] {
        all.push((word, pinned(of_number(RESIZE, &kept(&double, key(1), length), 4), 1)));
    }
    // Two of a chain dropped, of a length that says one.
    let mates = clean(4, [1, 9, 2]);
    for (length, word) in [(1, "refused 10"), (2, "resized 1")] {
        all.push((word, of_number(RESIZE, &kept(&mates, key(1), length), 1)));
    }
    // 65 keys of two chains that are one in a table of 128: the last is refused there, and removed from the old table; the others move.
    let halves = clean_keys(129, (0..65).map(half_mate));
    for (length, word) in [(0, "refused 10"), (1, "resized 128"), (255, "resized 128")] {
        all.push((word, of_number(RESIZE, &kept(&halves, half_mate(64), length), 128)));
    }
    all.push(("resized 128", of_number(RESIZE, &kept(&halves, half_mate(1), 0), 128)));
    all.push(("busy -", pinned(of_number(RESIZE, &kept(&halves, half_mate(64), 0), 1), 65)));
}

/// By the clean count there is no key: a table that shrinks keeps its numbers and no slot, be it pinned, and no eviction is counted; one that grows is remade.
fn emptied(all: &mut Aimed) {
    for (counters, generations, uses) in [([0; 5], 0, 1), ([11, 12, 13, 14, 15], 16, 17), ([MAX; 5], MAX, MAX)] {
        for pages in [&[][..], &[1], &[1, 2, 3]] {
            let mut table = clean(4, pages.iter().copied());
            (table.clean, table.counters) = (0, counters);
            (table.next_load_generation, table.next_access_sequence) = (generations, uses);
            for places in [0, 1, 2] {
                let asked = |number| pinned(of_number(RESIZE, &table, number), places);
                let raised = if places == 2 && pages.len() > 1 { "resized 2" } else { "resized 1" };
                all.push((raised, asked(1)));
                all.push(("resized 3", asked(3)));
            }
            all.push(("unchanged -", of_number(RESIZE, &table, 4)));
            all.push(("resized 8", of_number(RESIZE, &table, 8)));
        }
    }
}

pub fn aimed() -> Aimed {
    let mut all = Vec::new();
    for part in [counters, numbers, tokens, arguments, heaps, chains, many, stops] {
        part(&mut all);
    }
    // Up to here every length is that of its chain, whatever was done to the table.
    all.iter_mut().for_each(|(_, case): &mut (_, Case)| case.table.lengths = case.table.walked());
    for part in [lengths_walked, lengths_full, lengths_removed, lengths_resized, emptied] {
        part(&mut all);
    }
    all
}
