// SPDX-License-Identifier: Apache-2.0
//! Lists of document 02's calls: by seed, and every short one. The maker runs what it makes, so that tokens come from the answers.

use crate::calls::Differences;
use crate::case::{CALLS, CLEAN_ENTRY, COLD_CANDIDATE, Case, DETACH, Held, OLDEST_CLEAN, PEEK_CLEAN, VALIDATE};
use crate::gate_case::{BEGIN_DIRTY, BEGIN_PAUSE, END_DIRTY, END_PAUSE, GateCase, TURNS};
use crate::make_cases::{call_of, damage_lengths, tables};
use crate::make_sheets::{Few, Keys};
use crate::picture::{CLEAN, MOST_SLOTS, Picture};
use crate::random::Random;
use crate::sheet::{ABORT, ACCESS, LOOKUP, NEW, PUBLISH, RECLAIM, REMOVE, RESIZE};
use crate::{CacheKey, Gate, Token};

const MAX: u64 = u64::MAX;
/// How many tokens are kept to be shown again.
const KEPT: usize = 8;

struct Lists<'emit, Emit> {
    random: Random,
    held: Held,
    /// Those of the last reservations, the newest last.
    tokens: Vec<Token>,
    few: Few,
    /// The greatest capacity that a list asks for.
    most: u64,
    /// How many cases are still wanted.
    left: u64,
    emit: &'emit mut Emit,
}

pub fn lists(seed: u64, count: u64, emit: &mut impl FnMut(&GateCase)) {
    let random = Random::new(seed ^ 0x7468_6520_6761_7465);
    let few = Few { keys: Keys::Row, count: 2 };
    let mut lists = Lists { random, held: Held::default(), tokens: Vec::new(), few, most: 8, left: count, emit };
    while lists.left > 0 {
        // Large tables take the most time, since their lines have thousands of numbers, so they come seldom.
        match lists.random.below(1000) {
            0..5 => lists.any_size(),
            5..12 => lists.later_busy(),
            12..500 => lists.made_up(),
            _ => lists.small(),
        }
    }
}

impl<Emit: FnMut(&GateCase)> Lists<'_, Emit> {
    /// One case, run and handed on, unless enough are made.
    fn put(&mut self, gate: Option<Gate>, mut case: Case) {
        if self.left == 0 {
            return;
        }
        self.left -= 1;
        if gate.is_none() {
            case.table = Picture::default();
        }
        let case = GateCase { gate, case };
        let answer = case.run(&mut self.held, &mut Differences::default());
        if let Some(token) = answer.token() {
            if self.tokens.len() == KEPT {
                self.tokens.remove(0);
            }
            self.tokens.push(token);
        }
        (self.emit)(&case);
    }

    fn new_table(&mut self, capacity: u64) {
        self.put(None, plain(NEW, capacity, &Picture::default()));
    }

    /// A call of that code on what is held.
    fn call(&mut self, code: u8) -> Case {
        let table = self.held.table.clone();
        if !CALLS.contains(&code) {
            return self.without_table(code);
        }
        let mut case = call_of(code, table, self.few, &mut self.random);
        let key = self.few.keys.key(self.random.below(self.few.count));
        match code {
            ACCESS | LOOKUP | PEEK_CLEAN if self.random.chance(5, 6) => case.token.key = key,
            PUBLISH | ABORT | VALIDATE if !self.tokens.is_empty() && self.random.chance(7, 8) => {
                let newest = self.tokens[self.tokens.len() - 1];
                case.token = if self.random.chance(1, 2) { newest } else { self.random.pick(&self.tokens) };
            }
            RESIZE if self.random.chance(7, 8) => {
                let capacity = self.held.table.capacity;
                let any = self.random.between(1, self.most);
                case.token.slot = self.random.pick(&[capacity, 1, any, any, capacity.saturating_add(1)]).min(self.most) as usize;
            }
            _ => {}
        }
        case
    }

    /// A new table or a turn: what such a call does not use may hold anything.
    fn without_table(&mut self, code: u8) -> Case {
        let random = &mut self.random;
        let any = |random: &mut Random| random.pick(&[0, 1, 2, MAX]);
        let key = CacheKey { file: any(random), kind: random.below(256) as u8, index: any(random) };
        let token = Token { slot: any(random) as usize, key, generation: any(random), access_sequence: any(random) };
        let pins = (0..random.below(4)).map(|pin| pin as u8).collect();
        let mut case =
            Case { code, allow: random.below(2) as u8, token, list_len: random.below(4) as u16, pins, table: self.held.table.clone() };
        if code == NEW {
            let good = random.between(1, self.most);
            case.token.slot = random.pick(&[good, good, good, 0, 257, 1 << 62, (1 << 62) + 1, MAX]) as usize;
        }
        case
    }

    /// A code, by what is held: mostly one of a call that finds something to do. What was begun ends soon, and a marked gate is resized soon, so that
    /// gates are open often enough.
    fn code(&mut self) -> u8 {
        let Held { gate, table, .. } = &self.held;
        let if_any = |count: u64, many: u64| if count == 0 { 1 } else { many };
        let weights = [
            (ACCESS, 30),
            (PUBLISH, if_any(table.loading, 14)),
            (ABORT, if_any(table.loading, 7)),
            (LOOKUP, 3),
            (REMOVE, if_any(table.clean, 4)),
            (RESIZE, if gate.pending { 24 } else { 10 }),
            (RECLAIM, if_any(table.clean, 3)),
            (DETACH, if_any(table.clean, 2)),
            (VALIDATE, 1),
            (PEEK_CLEAN, 1),
            (CLEAN_ENTRY, 1),
            (OLDEST_CLEAN, 1),
            (COLD_CANDIDATE, 1),
            (BEGIN_PAUSE, 2),
            (END_PAUSE, if_any(gate.pauses, 12)),
            (BEGIN_DIRTY, 2),
            (END_DIRTY, if_any(gate.dirty, 10)),
        ];
        weights[self.random.weighted(&weights.map(|(_, weight)| weight))].0
    }

    /// Calls that go on from what is held.
    fn go_on(&mut self, calls: u64) {
        for _ in 0..calls {
            if self.left == 0 {
                return;
            }
            let code = self.code();
            let case = self.call(code);
            self.put(None, case);
        }
    }

    /// Few slots, few keys, every call; sometimes a new table in between, made or refused.
    fn small(&mut self) {
        let capacity = self.random.between(1, 6);
        let keys = self.random.pick(&[Keys::Row, Keys::Files, Keys::Pages, Keys::Bucket(0), Keys::Bucket(MAX), Keys::Ends]);
        self.few = Few { keys, count: capacity + self.random.between(1, 3) };
        self.most = 8;
        self.new_table(capacity);
        let calls = self.random.between(20, 200);
        self.go_on(calls);
        if self.random.chance(1, 4) {
            let case = self.call(NEW);
            self.put(None, case);
            self.go_on(20);
        }
    }

    fn any_size(&mut self) {
        let capacity = self.random.between(1, MOST_SLOTS);
        let keys = self.random.pick(&[Keys::Row, Keys::Files, Keys::Pages, Keys::Bucket(7), Keys::Ends]);
        self.few = Few { keys, count: capacity + self.random.below(capacity + 2) };
        self.most = MOST_SLOTS;
        self.new_table(capacity);
        let calls = self.random.between(50, 250);
        self.go_on(calls);
    }

    /// Two chains that are one in a smaller table and too long there: Busy where all keys are pinned. It comes at an open gate and at one that was
    /// marked while a load was out.
    fn later_busy(&mut self) {
        let count = self.random.between(65, 68);
        self.few = Few { keys: Keys::Two(self.random.below(256)), count };
        self.most = MOST_SLOTS;
        let capacity = self.random.between(129, 140);
        self.new_table(capacity);
        for number in 0..count {
            let mut case = plain(ACCESS, 0, &self.held.table);
            case.token.key = self.few.keys.key(number);
            self.put(None, case);
            self.newest(PUBLISH);
        }
        self.go_on(3);
        for _ in 0..2 {
            let mut case = plain(ACCESS, 0, &self.held.table);
            case.token.key = self.few.keys.key(count);
            self.put(None, case);
            self.resize_pinned();
            self.newest(ABORT);
            self.resize_pinned();
            let turns = self.random.below(4);
            self.go_on(turns);
        }
    }

    /// A call of the newest token.
    fn newest(&mut self, code: u8) {
        let mut case = plain(code, 0, &self.held.table);
        case.token = self.tokens.last().copied().unwrap_or_default();
        self.put(None, case);
    }

    /// A small table is asked for, and each clean slot is pinned.
    fn resize_pinned(&mut self) {
        let mut case = plain(RESIZE, self.random.between(1, 128), &self.held.table);
        case.pins = self.held.table.slots.iter().map(|slot| u8::from(slot.kind == CLEAN)).collect();
        self.put(None, case);
    }

    /// Made-up gates on tables of sheets, damaged or not, and then some calls that go on from there.
    fn made_up(&mut self) {
        let count = self.random.between(1, 12);
        let mut random = Random::new(self.random.next());
        tables(&mut random, count, &mut |table, few, lengths| {
            let gate = self.gate();
            self.few = few;
            self.most = table.capacity.clamp(8, MOST_SLOTS);
            self.tokens.clear();
            self.held.table = table;
            let any = self.code();
            let turn = self.random.pick(&TURNS);
            let code = self.random.pick(&[any, any, any, any, RESIZE, RESIZE, ACCESS, turn]);
            let code = if self.random.chance(1, 40) { NEW } else { code };
            let mut case = self.call(code);
            damage_lengths(&mut case, lengths);
            self.put(Some(gate), case);
            let calls = self.random.below(7);
            self.go_on(calls);
        });
    }

    fn gate(&mut self) -> Gate {
        let count = |random: &mut Random| random.pick(&[0, 0, 0, 0, 0, 0, 1, MAX - 1, MAX]);
        let random = &mut self.random;
        Gate {
            pauses: count(random),
            dirty: count(random),
            pending: random.chance(1, 2),
            generation: random.pick(&[0, 0, 5, MAX - 1, MAX - 1, MAX]),
        }
    }
}

/// The call with that number on the table, no slot pinned.
fn plain(code: u8, number: u64, table: &Picture) -> Case {
    let slots = table.slots.len();
    let token = Token { slot: number as usize, ..Token::default() };
    Case { code, allow: 1, token, list_len: slots as u16, pins: vec![0; slots], table: Picture::default() }
}

/// A call of the short lists: its code, whether loading is allowed, its number, its page. A publish or abort shows the newest token.
type Short = (u8, u8, u64, u64);

/// Every list of so many calls after a new table.
pub fn every_list(capacity: u64, length: u64, emit: &mut impl FnMut(&[u8])) {
    let mut calls: Vec<Short> = vec![(ACCESS, 1, 0, 1), (ACCESS, 1, 0, 2), (ACCESS, 0, 0, 1), (PUBLISH, 0, 0, 0), (ABORT, 0, 0, 0)];
    let mut capacities = vec![1, capacity, capacity + 1];
    capacities.dedup();
    calls.extend(capacities.iter().map(|asked| (RESIZE, 0, *asked, 0)));
    calls.extend(TURNS.map(|code| (code, 0, 0, 0)));
    calls.extend([(REMOVE, 0, 0, 0), (RECLAIM, 0, 1, 0)]);
    let mut held = Held::default();
    let case = GateCase { gate: None, case: plain(NEW, capacity, &Picture::default()) };
    case.run(&mut held, &mut Differences::default());
    let mut bytes = Vec::new();
    case.write_bytes(&mut bytes);
    longer(&calls, length, &held, Token::default(), &mut bytes, emit);
}

/// Every list that begins with those bytes and has so many calls more.
fn longer(calls: &[Short], length: u64, held: &Held, newest: Token, bytes: &mut Vec<u8>, emit: &mut impl FnMut(&[u8])) {
    if length == 0 {
        emit(bytes);
        return;
    }
    let begun = bytes.len();
    for (code, allow, number, page) in calls {
        let mut case = Case { allow: *allow, ..plain(*code, *number, &held.table) };
        case.token.key.index = *page;
        if [PUBLISH, ABORT].contains(code) {
            case.token = newest;
        }
        let case = GateCase { gate: None, case };
        let mut held = held.clone();
        let answer = case.run(&mut held, &mut Differences::default());
        case.write_bytes(bytes);
        longer(calls, length - 1, &held, answer.token().unwrap_or(newest), bytes, emit);
        bytes.truncate(begun);
    }
}
