// SPDX-License-Identifier: Apache-2.0
//! Gate cases chosen by aim: each decides an order, or shows a rule that a program could have otherwise and still agree with most others. Beside each
//! case stands what document 02 says of it: the word, its number, and the gate after the call.

use crate::case::{CALLS, CLEAN_ENTRY, COLD_CANDIDATE, Case, DETACH, OLDEST_CLEAN, PEEK_CLEAN, VALIDATE};
use crate::gate_case::{BEGIN_DIRTY, BEGIN_PAUSE, END_DIRTY, END_PAUSE, GateCase};
use crate::make_aimed::{call, clean, clean_keys, half_mate, kept, key, loaded, mate, of_key, of_number, of_page, pinned, reserve};
use crate::picture::{NONE, Picture};
use crate::sheet::{ABORT, ACCESS, LOOKUP, NEW, PUBLISH, RECLAIM, REMOVE, RESIZE};
use crate::{Gate, Token};

const MAX: u64 = u64::MAX;

/// Pauses, dirty pages, mark, generation.
type Numbers = [u64; 4];

const OPEN: Numbers = [0, 0, 0, 0];
/// A pause or a dirty page, or both, with every mark and with the generation spent.
const SHUT: [Numbers; 8] =
    [[1, 0, 0, 5], [1, 0, 1, 5], [0, 1, 0, 5], [0, 1, 1, 5], [2, 3, 1, MAX], [1, 1, 0, MAX], [MAX, 0, 0, 0], [0, MAX, 1, 0]];

#[derive(Default)]
struct Aimed(Vec<(String, GateCase)>);

impl Aimed {
    /// A gate and a table that come with the case.
    fn on(&mut self, before: Numbers, case: Case, word: &str, after: Numbers) {
        let [pauses, dirty, mark, generation] = before;
        let gate = Some(Gate { pauses, dirty, pending: mark == 1, generation });
        self.push(GateCase { gate, case }, word, after);
    }

    /// The gate stays.
    fn keeps(&mut self, gate: Numbers, case: Case, word: &str) {
        self.on(gate, case, word, gate);
    }

    /// The call goes on from the one before.
    fn then(&mut self, case: Case, word: &str, after: Numbers) {
        self.push(GateCase { gate: None, case: Case { table: Picture::default(), ..case } }, word, after);
    }

    fn push(&mut self, case: GateCase, word: &str, [pauses, dirty, mark, generation]: Numbers) {
        self.0.push((format!("{word} {pauses} {dirty} {mark} {generation}"), case));
    }
}

/// The call with a pin on that slot.
fn pin(mut case: Case, slot: usize) -> Case {
    case.pins[slot] = 1;
    case
}

/// One clean key, and one that loads.
fn loading() -> (Picture, Token) {
    let mut table = loaded(3, [1]);
    let token = reserve(&mut table, 2);
    (table.picture(), token)
}

/// Two keys, of which the first cannot leave the heap: a resize to 1 stops when it is to make room.
fn damaged() -> Picture {
    let mut table = clean(2, [1, 2]);
    table.positions[0] = 1;
    table
}

/// The stack is longer than the capacity.
fn unsound() -> Picture {
    let mut table = clean(2, [1]);
    table.free_len = 3;
    table.free = vec![1, 1, 1];
    table
}

/// Resize's refusals 1 to 4 stand before every gate, and leave it as it was.
fn refusals(all: &mut Aimed) {
    let table = clean(3, [1, 2]);
    for gate in SHUT.into_iter().chain([OPEN, [0, 0, 1, 5], [0, 0, 1, MAX]]) {
        for (pins, list_len, asked, word) in [
            (3, 3, 0, "refused 1"),
            (0, 0, 0, "refused 1"),
            (3, 3, (1 << 62) + 1, "refused 1"),
            (3, 3, 257, "refused 2"),
            (0, 0, 1 << 62, "refused 2"),
            (0, 3, 1, "refused 3"),
            (4, 2, 3, "refused 3"),
            (3, 2, 1, "refused 4"),
            (3, 4, 3, "refused 4"),
        ] {
            all.keeps(gate, Case { pins: vec![0; pins], list_len, ..of_number(RESIZE, &table, asked) }, word);
        }
    }
}

/// As many pin bytes, and as long a list, as a case can have.
fn lengths(all: &mut Aimed) {
    let pins = vec![1; u16::MAX.into()];
    let table = clean(2, [1, 2]);
    let gate = [1, 1, 1, MAX];
    all.keeps(gate, Case { list_len: u16::MAX, ..of_number(RESIZE, &table, 2) }, "refused 4");
    all.keeps(gate, Case { pins: pins.clone(), ..of_number(RESIZE, &table, 2) }, "refused 3");
    all.keeps(gate, Case { pins: pins.clone(), ..of_page(ACCESS, &table, 1) }, "refused 3");
    all.on(gate, Case { pins, list_len: u16::MAX, ..call(BEGIN_PAUSE, &table) }, "done -", [2, 1, 1, MAX]);
}

/// A pause or a dirty page: Busy, and nothing changes, whatever would come behind.
fn shut(all: &mut Aimed) {
    let table = clean(2, [1, 2]);
    let (loads, _) = loading();
    for gate in SHUT {
        // Another capacity, and the equal one, at which the mark is not cleared.
        all.keeps(gate, of_number(RESIZE, &table, 1), "busy -");
        all.keeps(gate, of_number(RESIZE, &table, 2), "busy -");
        // Loads do not set the mark.
        all.keeps(gate, of_number(RESIZE, &loads, 1), "busy -");
        // Neither a pin on a vacant slot nor a damaged heap is looked at.
        all.keeps(gate, pin(of_number(RESIZE, &clean(2, [1]), 1), 1), "busy -");
        all.keeps(gate, of_number(RESIZE, &damaged(), 1), "busy -");
    }
}

/// Equal capacity: Unchanged, the mark cleared, no generation taken; before loads, 7, 8 and 10.
fn equal(all: &mut Aimed) {
    let (loads, _) = loading();
    for generation in [0, 5, MAX - 1, MAX] {
        for mark in [0, 1] {
            let (before, after) = ([0, 0, mark, generation], [0, 0, 0, generation]);
            all.on(before, of_number(RESIZE, &clean(2, [1, 2]), 2), "unchanged -", after);
            all.on(before, of_number(RESIZE, &loads, 3), "unchanged -", after);
            all.on(before, pin(of_number(RESIZE, &clean(2, [1]), 2), 1), "unchanged -", after);
            all.on(before, of_number(RESIZE, &damaged(), 2), "unchanged -", after);
        }
    }
}

/// Loads: Busy, the mark set, no generation taken; before 7, 8 and 10.
fn loads(all: &mut Aimed) {
    let (table, token) = loading();
    let mut stray = damaged();
    stray.loading = 1;
    for generation in [0, 5, MAX - 1, MAX] {
        for mark in [0, 1] {
            let (before, after) = ([0, 0, mark, generation], [0, 0, 1, generation]);
            all.on(before, of_number(RESIZE, &table, 1), "busy -", after);
            all.on(before, of_number(RESIZE, &table, 4), "busy -", after);
            all.on(before, pin(of_number(RESIZE, &table, 4), 1), "busy -", after);
            // The count decides and not the slots: a count of 1 without a load, and a load with a count of 0.
            all.on(before, of_number(RESIZE, &stray, 1), "busy -", after);
        }
    }
    let mut uncounted = table.clone();
    uncounted.loading = 0;
    all.on([0, 0, 1, 5], of_number(RESIZE, &uncounted, 4), "resized 4", [0, 0, 0, 6]);
    all.keeps([0, 0, 1, 5], pin(of_number(RESIZE, &uncounted, 4), 1), "refused 8");
    // The mark shuts the gate until the load has ended and the resize is asked for again.
    all.on(OPEN, of_number(RESIZE, &table, 4), "busy -", [0, 0, 1, 0]);
    all.then(of_page(ACCESS, &table, 3), "busy -", [0, 0, 1, 0]);
    all.then(of_page(ACCESS, &table, 1), "hit 0", [0, 0, 1, 0]);
    all.then(of_page(ACCESS, &table, 2), "loading -", [0, 0, 1, 0]);
    all.then(Case { token, ..call(PUBLISH, &table) }, "done -", [0, 0, 1, 0]);
    all.then(of_page(ACCESS, &table, 3), "busy -", [0, 0, 1, 0]);
    all.then(of_number(RESIZE, &table, 4), "resized 4", [0, 0, 0, 1]);
    all.then(of_page(ACCESS, &clean(4, []), 3), "reserved 2", [0, 0, 0, 1]);
}

/// 7: the mark cleared, the generation as it was; before 8 and 10, where nothing is remade too.
fn spent(all: &mut Aimed) {
    for mark in [0, 1] {
        let (before, after) = ([0, 0, mark, MAX], [0, 0, 0, MAX]);
        all.on(before, of_number(RESIZE, &clean(2, [1, 2]), 1), "refused 7", after);
        all.on(before, of_number(RESIZE, &clean(2, []), 1), "refused 7", after);
        all.on(before, of_number(RESIZE, &clean(2, [1, 2]), 256), "refused 7", after);
        all.on(before, pin(of_number(RESIZE, &clean(2, [1]), 1), 1), "refused 7", after);
        all.on(before, pinned(of_number(RESIZE, &clean(2, [1, 2]), 1), 2), "refused 7", after);
        all.on(before, of_number(RESIZE, &damaged(), 1), "refused 7", after);
    }
    // The last generation is taken, and then there is none.
    all.on([0, 0, 1, MAX - 1], of_number(RESIZE, &clean(2, [1, 2]), 3), "resized 3", [0, 0, 0, MAX]);
    all.then(of_number(RESIZE, &clean(3, []), 1), "refused 7", [0, 0, 0, MAX]);
    all.then(of_number(RESIZE, &clean(3, []), 3), "unchanged -", [0, 0, 0, MAX]);
}

/// 8 and 10 that come behind the gate leave it as it was, and so does the first test of 10, which stands before every gate and every other refusal.
fn undone(all: &mut Aimed) {
    for generation in [0, 5, MAX - 1] {
        for mark in [0, 1] {
            let gate = [0, 0, mark, generation];
            all.keeps(gate, pin(of_number(RESIZE, &clean(2, [1]), 1), 1), "refused 8");
            all.keeps(gate, pin(of_number(RESIZE, &clean(2, []), 1), 0), "refused 8");
            all.keeps(gate, pin(of_number(RESIZE, &clean(2, [1]), 3), 1), "refused 8");
            // The Rust is Unchanged: as many pins as slots.
            all.keeps(gate, pin(pin(of_number(RESIZE, &clean(2, [1]), 1), 0), 1), "refused 8");
            all.keeps(gate, of_number(RESIZE, &damaged(), 1), "refused 10");
            // 8 before 10: the damaged table with a pin on a slot that is not clean.
            let mut both = damaged();
            both.slots[1] = Default::default();
            all.keeps(gate, pin(of_number(RESIZE, &both, 1), 1), "refused 8");
        }
    }
    for gate in SHUT.into_iter().chain([[0, 0, 0, 5], [0, 0, 1, 5], [0, 0, 1, MAX]]) {
        let nothing = Case { pins: Vec::new(), list_len: 0, ..of_number(RESIZE, &unsound(), 0) };
        all.keeps(gate, nothing, "refused 10");
        all.keeps(gate, of_number(RESIZE, &unsound(), 2), "refused 10");
        all.keeps(gate, of_number(RESIZE, &unsound(), 1), "refused 10");
    }
    for code in CALLS {
        all.keeps([1, 0, 1, 5], call(code, &unsound()), "refused 10");
    }
}

/// Attempts: a generation more. Resized, to a fresh table too, and the second Unchanged clear the mark; a later Busy leaves it.
fn attempts(all: &mut Aimed) {
    let two = clean_keys(129, (0..65).map(half_mate));
    for generation in [0, MAX - 1] {
        for mark in [0, 1] {
            let (before, cleared) = ([0, 0, mark, generation], [0, 0, 0, generation + 1]);
            all.on(before, of_number(RESIZE, &clean(2, [1, 2]), 1), "resized 1", cleared);
            all.on(before, of_number(RESIZE, &clean(2, [1, 2]), 5), "resized 5", cleared);
            all.on(before, of_number(RESIZE, &clean(2, []), 1), "resized 1", cleared);
            all.on(before, of_number(RESIZE, &clean(2, []), 3), "resized 3", cleared);
            // Three pinned keys make it a table of four.
            all.on(before, pinned(of_number(RESIZE, &clean(3, [1, 2, 3]), 2), 3), "resized 4", cleared);
            all.on(before, pinned(of_number(RESIZE, &clean(2, [1, 2]), 1), 2), "unchanged -", cleared);
            all.on(before, pinned(of_number(RESIZE, &clean(4, [1, 2, 3]), 1), 3), "unchanged -", cleared);
            all.on(before, pinned(of_number(RESIZE, &two, 1), 65), "busy -", [0, 0, mark, generation + 1]);
        }
    }
    // The mark that is left shuts the gate still, and a resize to the equal capacity opens it.
    all.on([0, 0, 1, 0], pinned(of_number(RESIZE, &two, 1), 65), "busy -", [0, 0, 1, 1]);
    all.then(of_page(ACCESS, &two, 1), "busy -", [0, 0, 1, 1]);
    all.then(of_number(RESIZE, &two, 129), "unchanged -", [0, 0, 0, 1]);
    all.then(of_page(ACCESS, &two, 1), "reserved 65", [0, 0, 0, 1]);
}

/// The four turns at the ends of the counts. They look at nothing but their own count, and turn nothing else.
fn turns(all: &mut Aimed) {
    let table = clean(1, []);
    // A count, after a begin, and after an end; none where it is refused.
    let counts = [(0, Some(1), None), (1, Some(2), Some(0)), (MAX - 1, Some(MAX), Some(MAX - 2)), (MAX, None, Some(MAX - 1))];
    for (count, begun, ended) in counts {
        for (other, mark, generation) in [(0, 0, 0), (0, 1, 5), (1, 0, MAX), (1, 1, 0), (MAX, 0, MAX - 1), (MAX, 1, MAX)] {
            for (code, after, refusal) in [(BEGIN_PAUSE, begun, "refused 11"), (END_PAUSE, ended, "refused 12")] {
                let word = if after.is_some() { "done -" } else { refusal };
                let gate = |pauses| [pauses, other, mark, generation];
                all.on(gate(count), call(code, &table), word, gate(after.unwrap_or(count)));
            }
            for (code, after, refusal) in [(BEGIN_DIRTY, begun, "refused 11"), (END_DIRTY, ended, "refused 12")] {
                let word = if after.is_some() { "done -" } else { refusal };
                let gate = |dirty| [other, dirty, mark, generation];
                all.on(gate(count), call(code, &table), word, gate(after.unwrap_or(count)));
            }
        }
    }
    // A table that fails the first test of 10 is not looked at.
    all.on([1, 0, 1, 5], call(BEGIN_PAUSE, &unsound()), "done -", [2, 0, 1, 5]);
    all.then(call(END_PAUSE, &unsound()), "done -", [1, 0, 1, 5]);
    all.then(call(BEGIN_DIRTY, &unsound()), "done -", [1, 1, 1, 5]);
    all.then(call(END_DIRTY, &unsound()), "done -", [1, 0, 1, 5]);
    // Each of two pauses has its own end; the end of the last one opens the gate.
    all.on(OPEN, call(BEGIN_PAUSE, &table), "done -", [1, 0, 0, 0]);
    all.then(call(BEGIN_PAUSE, &table), "done -", [2, 0, 0, 0]);
    all.then(call(END_PAUSE, &table), "done -", [1, 0, 0, 0]);
    all.then(call(ACCESS, &table), "busy -", [1, 0, 0, 0]);
    all.then(call(END_PAUSE, &table), "done -", [0, 0, 0, 0]);
    all.then(call(ACCESS, &table), "reserved 0", [0, 0, 0, 0]);
    all.then(call(END_PAUSE, &table), "refused 12", [0, 0, 0, 0]);
    all.then(call(END_DIRTY, &table), "refused 12", [0, 0, 0, 0]);
}

/// Access loads nothing while paused or pending; a dirty page does not matter. The gate stays.
fn access(all: &mut Aimed) {
    let vacant = clean(2, [1]);
    let full = clean(2, [1, 2]);
    let (loads, _) = loading();
    let spent = |pages: &[u64], uses: u64, generations: u64| {
        let mut table = clean(2, pages.iter().copied());
        table.next_access_sequence = uses;
        table.next_load_generation = generations;
        table
    };
    let chain = clean_keys(66, (0..64).map(mate));
    // A head and the top of the stack past the capacity.
    let mut head = full.clone();
    head.heads[3] = 700;
    let mut top = vacant.clone();
    top.free[0] = 700;
    let shut = [[1, 0, 0, 0], [0, 0, 1, 0], [1, 0, 1, 5], [MAX, 1, 0, MAX], [0, MAX, 1, MAX]];
    let open = [OPEN, [0, 1, 0, 0], [0, MAX, 0, MAX], [0, 0, 0, MAX]];
    for (gates, reserved, evicted, refused7, refused10) in
        [(&shut[..], "busy -", "busy -", "busy -", "busy -"), (&open[..], "reserved 1", "evicted 0", "refused 7", "refused 10")]
    {
        for gate in gates {
            all.keeps(*gate, of_page(ACCESS, &vacant, 3), reserved);
            all.keeps(*gate, of_page(ACCESS, &full, 3), evicted);
            all.keeps(*gate, Case { allow: 0, ..of_page(ACCESS, &vacant, 3) }, "busy -");
            all.keeps(*gate, pinned(of_page(ACCESS, &full, 3), 2), "busy -");
            // A key that is present, whether loading is allowed or not.
            for allow in [0, 1] {
                all.keeps(*gate, Case { allow, ..of_page(ACCESS, &full, 2) }, "hit 1");
                all.keeps(*gate, Case { allow, ..of_page(ACCESS, &loads, 2) }, "loading -");
            }
            // 7 of a hit, and of a load, which only an open gate lets come so far.
            all.keeps(*gate, of_page(ACCESS, &spent(&[1], MAX, 5), 1), "refused 7");
            all.keeps(*gate, of_page(ACCESS, &spent(&[1], 5, MAX), 3), refused7);
            all.keeps(*gate, of_page(ACCESS, &spent(&[1], MAX, 5), 3), refused7);
            // 3 stands before the gate.
            all.keeps(*gate, Case { pins: vec![0; 3], ..of_page(ACCESS, &vacant, 3) }, "refused 3");
            all.keeps(*gate, Case { pins: Vec::new(), ..of_page(ACCESS, &vacant, 1) }, "refused 3");
            // A full chain, and a key in it.
            all.keeps(*gate, of_key(ACCESS, &chain, mate(64)), "busy -");
            all.keeps(*gate, of_key(ACCESS, &chain, mate(63)), "hit 63");
            // 10 of the search is met at any gate, and 10 of the stack where a slot is taken.
            all.keeps(*gate, of_page(ACCESS, &head, 3), "refused 10");
            all.keeps(*gate, of_page(ACCESS, &top, 3), refused10);
        }
    }
}

/// The other calls neither look at the gate nor turn it; a new table has it as at first, and a refused one leaves it.
fn others(all: &mut Aimed) {
    let (table, token) = loading();
    for gate in [[1, 1, 1, MAX], [0, 0, 1, 5], [MAX, 0, 0, 0]] {
        all.keeps(gate, Case { token, ..call(PUBLISH, &table) }, "done -");
        all.keeps(gate, Case { token, ..call(ABORT, &table) }, "done -");
        all.keeps(gate, Case { token: Token { generation: 9, ..token }, ..call(PUBLISH, &table) }, "refused 6");
        all.keeps(gate, Case { token: Token { access_sequence: 9, ..token }, ..call(PUBLISH, &table) }, "refused 9");
        all.keeps(gate, Case { token, ..call(VALIDATE, &table) }, "done -");
        all.keeps(gate, of_page(LOOKUP, &table, 1), "hit 0");
        all.keeps(gate, of_page(LOOKUP, &table, 2), "none -");
        let mut spent = table.clone();
        spent.next_access_sequence = MAX;
        all.keeps(gate, of_page(LOOKUP, &spent, 1), "refused 7");
        all.keeps(gate, of_page(PEEK_CLEAN, &table, 1), "found 0");
        all.keeps(gate, of_number(CLEAN_ENTRY, &table, 0), "found 0");
        all.keeps(gate, call(OLDEST_CLEAN, &table), "found 0");
        all.keeps(gate, of_number(COLD_CANDIDATE, &table, 0), "found 0");
        all.keeps(gate, of_number(COLD_CANDIDATE, &table, 1), "none -");
        all.keeps(gate, of_number(REMOVE, &table, 0), "done -");
        all.keeps(gate, of_number(REMOVE, &table, 1), "refused 8");
        all.keeps(gate, of_number(DETACH, &table, 0), "done -");
        all.keeps(gate, of_number(DETACH, &table, 3), "refused 5");
        all.keeps(gate, of_number(RECLAIM, &table, 64), "reclaimed 1");
        all.keeps(gate, Case { pins: vec![0; 2], ..of_number(RECLAIM, &table, 64) }, "refused 3");
        all.on(gate, of_number(NEW, &table, 256), "made 256", OPEN);
        all.on(gate, of_number(NEW, &unsound(), 1), "made 1", OPEN);
        all.keeps(gate, of_number(NEW, &table, 0), "refused 1");
        all.keeps(gate, of_number(NEW, &unsound(), 257), "refused 2");
        all.then(call(ACCESS, &unsound()), "refused 10", gate);
    }
}

/// What stands past the lengths goes on from case to case: a place of the stack that was reached and given up again holds 0.
fn places(all: &mut Aimed) {
    let table = clean(2, [1, 2]);
    all.keeps([0, 0, 1, 5], of_number(REMOVE, &table, 0), "done -");
    all.then(of_number(RESIZE, &table, 2), "unchanged -", [0, 0, 0, 5]);
    all.then(of_page(ACCESS, &table, 3), "reserved 0", [0, 0, 0, 5]);
    all.then(of_number(RESIZE, &table, 1), "busy -", [0, 0, 1, 5]);
    let token = Token { slot: 0, generation: 3, key: key(3), access_sequence: 3 };
    all.then(Case { token, ..call(ABORT, &table) }, "done -", [0, 0, 1, 5]);
    all.then(of_number(RESIZE, &table, 3), "resized 3", [0, 0, 0, 6]);
    all.then(of_number(RECLAIM, &clean(3, []), 1), "reclaimed 1", [0, 0, 0, 6]);
}

/// An emptied table that shrinks goes on with its generations and use numbers: a token of before gives 6, and 9 is met by an altered one alone. A count that
/// is spent stays spent.
fn carried(all: &mut Aimed) {
    let (two, one) = (clean(2, []), clean(1, []));
    let token = |code: u8, generation: u64, access_sequence: u64| Case {
        token: Token { slot: 0, generation, key: key(1), access_sequence },
        ..call(code, &one)
    };
    all.then(of_number(NEW, &one, 2), "made 2", OPEN);
    all.then(of_page(ACCESS, &two, 1), "reserved 0", OPEN);
    all.then(token(ABORT, 1, 1), "done -", OPEN);
    all.then(of_number(RESIZE, &two, 1), "resized 1", [0, 0, 0, 1]);
    all.then(of_page(ACCESS, &one, 1), "reserved 0", [0, 0, 0, 1]);
    for code in [PUBLISH, ABORT, VALIDATE] {
        all.then(token(code, 1, 1), "refused 6", [0, 0, 0, 1]);
    }
    all.then(token(PUBLISH, 2, 3), "refused 9", [0, 0, 0, 1]);
    all.then(token(PUBLISH, 2, 2), "done -", [0, 0, 0, 1]);
    for (generations, uses) in [(MAX, MAX), (MAX, 5), (5, MAX)] {
        let mut spent = clean(2, []);
        (spent.next_load_generation, spent.next_access_sequence) = (generations, uses);
        all.on(OPEN, of_number(RESIZE, &spent, 1), "resized 1", [0, 0, 0, 1]);
        all.then(of_page(ACCESS, &one, 1), "refused 7", [0, 0, 0, 1]);
    }
}

/// Kept lengths that are not their chains': 10 of a search is met at any gate, and 10 of a removal leaves the gate as it was.
fn kept_lengths(all: &mut Aimed) {
    let full = clean(2, [1, 2]);
    let table = kept(&full, key(3), 64);
    for gate in [OPEN, [1, 0, 0, 0], [0, 0, 1, 0], [MAX, MAX, 1, MAX]] {
        for allow in [0, 1] {
            all.keeps(gate, Case { allow, ..of_page(ACCESS, &table, 3) }, "refused 10");
            all.keeps(gate, Case { allow, ..of_page(ACCESS, &table, 2) }, "hit 1");
        }
        all.keeps(gate, of_page(LOOKUP, &table, 3), "refused 10");
        all.keeps(gate, of_page(PEEK_CLEAN, &table, 3), "refused 10");
        // The victim's length is looked at where a slot is taken, which only an open gate lets come so far.
        let victim = if gate == OPEN { "refused 10" } else { "busy -" };
        all.keeps(gate, of_page(ACCESS, &kept(&full, key(1), 0), 3), victim);
    }
    let none = kept(&full, key(1), 0);
    for generation in [0, 5, MAX - 1] {
        for mark in [0, 1] {
            let (gate, cleared) = ([0, 0, mark, generation], [0, 0, 0, generation + 1]);
            all.keeps(gate, pin(of_number(RESIZE, &none, 3), 0), "refused 10");
            all.keeps(gate, of_number(RESIZE, &none, 1), "refused 10");
            all.on(gate, of_number(RESIZE, &none, 3), "resized 3", cleared);
            all.on(gate, pin(of_number(RESIZE, &none, 3), 1), "resized 3", cleared);
            all.on(gate, of_number(RESIZE, &none, 2), "unchanged -", [0, 0, 0, generation]);
        }
    }
    // 7 of the gate and a shut gate come first.
    all.on([0, 0, 1, MAX], pin(of_number(RESIZE, &none, 3), 0), "refused 7", [0, 0, 0, MAX]);
    all.keeps([1, 0, 1, 5], pin(of_number(RESIZE, &none, 3), 0), "busy -");
    // Lengths go on from call to call: 255 and 254, a search that meets it, and a table made anew, whose lengths are its chains'.
    all.keeps(OPEN, of_number(REMOVE, &kept(&full, key(1), 255), 0), "done -");
    all.then(of_page(ACCESS, &full, 1), "refused 10", OPEN);
    all.then(of_page(ACCESS, &full, 3), "reserved 0", OPEN);
    let token = Token { slot: 0, generation: 3, key: key(3), access_sequence: 3 };
    all.then(Case { token, ..call(PUBLISH, &full) }, "done -", OPEN);
    all.then(of_page(LOOKUP, &full, 1), "refused 10", OPEN);
    all.then(of_number(RESIZE, &full, 4), "resized 4", [0, 0, 0, 1]);
    all.then(of_page(ACCESS, &clean(4, []), 1), "reserved 2", [0, 0, 0, 1]);
    // Chains that share slots: slots 0, 1, 2 in bucket 1, and slots 1, 2 in bucket 2, whose key slot 1 has. Where slot 1 leaves, the length of bucket 1 is no
    // longer what peek_clean walks.
    let mut shared = clean(4, [1, 2, 9]);
    shared.heads[1] = 0;
    shared.next = vec![1, 2, NONE, NONE];
    let shared = kept(&kept(&shared, key(1), 3), key(2), 2);
    all.keeps(OPEN, of_page(PEEK_CLEAN, &shared, 17), "none -");
    all.then(of_number(REMOVE, &shared, 1), "done -", OPEN);
    all.then(of_page(PEEK_CLEAN, &shared, 17), "refused 10", OPEN);
    all.then(of_page(PEEK_CLEAN, &shared, 10), "none -", OPEN);
}

pub fn gate_aimed() -> Vec<(String, GateCase)> {
    let mut all = Aimed::default();
    // Before any case stand the table of a refused new one and the gate as at first.
    all.then(call(ACCESS, &Picture::default()), "refused 10", OPEN);
    all.then(of_number(RESIZE, &Picture::default(), 0), "refused 10", OPEN);
    all.then(of_number(NEW, &Picture::default(), 0), "refused 1", OPEN);
    all.then(call(BEGIN_PAUSE, &Picture::default()), "done -", [1, 0, 0, 0]);
    all.then(of_number(NEW, &Picture::default(), 257), "refused 2", [1, 0, 0, 0]);
    all.then(of_number(NEW, &Picture::default(), 2), "made 2", OPEN);
    for part in [refusals, lengths, shut, equal, loads, spent, undone, attempts, turns, access, others, places, carried] {
        part(&mut all);
    }
    // Up to here every length is that of its chain, whatever was done to the table.
    all.0.iter_mut().for_each(|(_, case)| case.case.table.lengths = case.case.table.walked());
    kept_lengths(&mut all);
    all.0
}
