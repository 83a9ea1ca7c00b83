// SPDX-License-Identifier: Apache-2.0
//! Made-up tables: one case is a table, however damaged, and one call (README.md, "Made-up tables").

use std::io::{BufRead, ErrorKind};

use crate::calls::{self, Differences, STOP, padded};
use crate::past::Past;
use crate::picture::{Picture, narrow, put};
use crate::sheet::{ABORT, ACCESS, LOOKUP, Line, PUBLISH, RECLAIM, REMOVE, RESIZE, line};
use crate::{Access, CacheKey, Gate, Maintained, Table, Token};

pub const DETACH: u8 = 10;
pub const VALIDATE: u8 = 11;
pub const PEEK_CLEAN: u8 = 12;
pub const CLEAN_ENTRY: u8 = 13;
pub const OLDEST_CLEAN: u8 = 14;
pub const COLD_CANDIDATE: u8 = 15;
pub const CALLS: [u8; 13] =
    [ACCESS, PUBLISH, ABORT, LOOKUP, REMOVE, RESIZE, RECLAIM, DETACH, VALIDATE, PEEK_CLEAN, CLEAN_ENTRY, OLDEST_CLEAN, COLD_CANDIDATE];

/// What each place of resize's list holds before the call.
const LENT: u16 = 7;

#[derive(Clone, Default)]
pub struct Case {
    pub code: u8,
    pub allow: u8,
    /// The key of the call, or a token; its slot is also the call's number.
    pub token: Token,
    pub list_len: u16,
    pub pins: Vec<u8>,
    pub table: Picture,
}

/// What a call is made on, and what it leaves.
#[derive(Clone, Default)]
pub struct Held {
    pub gate: Gate,
    pub table: Picture,
    pub past: Past,
}

impl Held {
    pub fn made_up(gate: Gate, table: &Picture) -> Self {
        Self { gate, table: table.clone(), past: Past::filled(table) }
    }
}

/// An answer: its line, and the numbers that go with it.
pub struct Answer {
    pub line: Line,
    pub more: Vec<u64>,
}

pub fn plain(line: Line) -> Answer {
    Answer { line, more: Vec::new() }
}

pub fn refused(refusal: u8) -> Answer {
    plain(line("refused", usize::from(refusal)))
}

fn found(slot: Option<usize>) -> Answer {
    plain(slot.map_or(line("none", None), |slot| line("found", usize::from(narrow(slot)))))
}

impl Answer {
    /// The beginning of a case's line: case, word, number, how many more numbers and these.
    pub fn write(&self, case: u64, out: &mut Vec<u8>) {
        out.extend(format!("{case} {}", self.line).bytes());
        put(out, self.more.len() as u64);
        self.more.iter().for_each(|more| put(out, *more));
    }
}

impl Case {
    /// Runs the call at an open gate and writes the line: its answer, the table after it, and the places past its lengths.
    pub fn run(&self, number: u64, differences: &mut Differences, out: &mut Vec<u8>) {
        let mut held = Held::made_up(Gate::default(), &self.table);
        self.answer(&mut held, differences).write(number, out);
        held.table.write(out);
        held.past.write(out);
        out.push(b'\n');
    }

    /// The call on the table that is held, which is changed.
    pub fn answer(&self, held: &mut Held, differences: &mut Differences) -> Answer {
        let mut list = vec![LENT; self.list_len.into()];
        let known = differences.total();
        let answer = if held.table.sound() {
            let valid = held.table.fault().is_none();
            let mut table = Table::from_picture(&held.table);
            let answer = self.call(&mut table, &mut held.gate, &mut list, differences);
            held.table = table.picture();
            assert!(
                !valid || held.table.lengths == held.table.walked(),
                "on a table without fault the kept lengths are those of the chains"
            );
            answer
        } else {
            // DIFFERENCE first test of 10 (added): such a table cannot be made in the original, whose lists have these lengths.
            differences.count("first test, 10; the Rust has no such table");
            Err(STOP)
        };
        if answer.as_ref().is_err_and(|refusal| *refusal == STOP) && differences.total() == known {
            differences.count("any call, 10; the Rust stops");
        }
        let mut answer = answer.unwrap_or_else(refused);
        match self.code {
            RESIZE => answer.more = list.into_iter().map(u64::from).collect(),
            RECLAIM if answer.more.is_empty() => answer.more = padded(&[]).into_iter().map(u64::from).collect(),
            _ => {}
        }
        // A table made anew is a fresh one with keys restored; else what stands past a length stays there.
        held.past = if answer.line.word == "resized" { Past::default() } else { std::mem::take(&mut held.past).after(&held.table) };
        answer
    }

    fn call(&self, table: &mut Table, gate: &mut Gate, list: &mut [u16], differences: &mut Differences) -> Result<Answer, u8> {
        let Self { token, pins, .. } = self;
        let (number, key) = (token.slot as u64, token.key);
        Ok(match self.code {
            ACCESS => match calls::access_through(table, gate, key, self.allow != 0, pins, differences)? {
                Access::Hit(slot) => plain(line("hit", slot)),
                Access::Loading => plain(line("loading", None)),
                Access::Busy => plain(line("busy", None)),
                Access::Reserved { token, evicted } => {
                    let Token { slot, generation, key, access_sequence } = token;
                    let more = vec![slot as u64, generation, key.file, key.kind.into(), key.index, access_sequence];
                    Answer { line: line(if evicted { "evicted" } else { "reserved" }, slot), more }
                }
            },
            PUBLISH => calls::publish(table, *token, differences).map(|()| plain(line("done", None)))?,
            ABORT => calls::abort(table, *token, differences).map(|()| plain(line("done", None)))?,
            LOOKUP => plain(calls::lookup(table, key, differences)?.map_or(line("none", None), |slot| line("hit", slot))),
            REMOVE => calls::remove(table, number, differences).map(|()| plain(line("done", None)))?,
            DETACH => calls::detach(table, number, differences).map(|()| plain(line("done", None)))?,
            RESIZE => plain(match calls::resize(table, gate, number, pins, list, differences)? {
                Maintained::Unchanged => line("unchanged", None),
                Maintained::Busy => line("busy", None),
                Maintained::Resized { capacity, .. } => line("resized", capacity),
            }),
            RECLAIM => {
                let slots = calls::reclaim(table, number, pins, differences)?;
                let more = padded(&slots).into_iter().map(u64::from).collect();
                Answer { line: line("reclaimed", slots.len()), more }
            }
            VALIDATE => table.validate(*token).map(|()| plain(line("done", None)))?,
            PEEK_CLEAN => found(calls::peek_clean(table, key, differences)?),
            CLEAN_ENTRY => match table.clean_entry(token.slot)? {
                None => plain(line("none", None)),
                Some((key, last_access)) => {
                    Answer { line: line("found", token.slot), more: vec![key.file, key.kind.into(), key.index, last_access] }
                }
            },
            OLDEST_CLEAN => found(table.oldest_clean()?),
            COLD_CANDIDATE => found(table.cold_candidate(token.slot)?),
            code => panic!("no call has the code {code}"),
        })
    }

    /// Each number of the case in its order, with its width in bytes.
    pub fn each(&self, put: &mut impl FnMut(usize, u64)) {
        self.each_of_call(put);
        self.table.each(put);
        self.each_pin(put);
    }

    /// The numbers in front of the table.
    pub fn each_of_call(&self, put: &mut impl FnMut(usize, u64)) {
        let Token { slot, generation, key, access_sequence } = self.token;
        [self.code, self.allow].iter().for_each(|byte| put(1, u64::from(*byte)));
        [self.pins.len() as u64, self.list_len.into()].iter().for_each(|word| put(2, *word));
        [slot as u64, key.file].iter().for_each(|long| put(8, *long));
        put(1, key.kind.into());
        [key.index, generation, access_sequence].iter().for_each(|long| put(8, *long));
    }

    pub fn each_pin(&self, put: &mut impl FnMut(usize, u64)) {
        self.pins.iter().for_each(|pin| put(1, u64::from(*pin)));
    }

    /// A case of numbers in the same order; `take` is given the width of each.
    pub fn read(take: &mut impl FnMut(usize) -> u64) -> Self {
        let mut case = Self::read_call(take);
        case.table = Picture::read(take);
        case.read_pins(take);
        case
    }

    /// The numbers in front of the table; of the pins only how many there are.
    pub fn read_call(take: &mut impl FnMut(usize) -> u64) -> Self {
        let [code, allow] = [(); 2].map(|()| take(1) as u8);
        let [pins, list_len] = [(); 2].map(|()| take(2) as u16);
        let (slot, file, kind, index) = (take(8) as usize, take(8), take(1) as u8, take(8));
        let token = Token { slot, key: CacheKey { file, kind, index }, generation: take(8), access_sequence: take(8) };
        Self { code, allow, token, list_len, pins: vec![0; pins.into()], table: Picture::default() }
    }

    pub fn read_pins(&mut self, take: &mut impl FnMut(usize) -> u64) {
        self.pins.iter_mut().for_each(|pin| *pin = take(1) as u8);
    }

    pub fn write_bytes(&self, out: &mut Vec<u8>) {
        self.each(&mut low_byte_first(out));
    }

    /// The next case of a stream of bytes, or None at its end.
    pub fn read_bytes(input: &mut impl BufRead) -> Option<Self> {
        if input.fill_buf().expect("input").is_empty() {
            return None;
        }
        Some(Self::read(&mut |width| take_bytes(input, width).expect("a whole case")))
    }
}

pub fn low_byte_first(out: &mut Vec<u8>) -> impl FnMut(usize, u64) {
    |width, number| out.extend_from_slice(&number.to_le_bytes()[..width])
}

/// A number of that many bytes, or None where they are cut off.
pub fn take_bytes(input: &mut impl BufRead, width: usize) -> Option<u64> {
    let mut bytes = [0; 8];
    match input.read_exact(&mut bytes[..width]) {
        Ok(()) => Some(u64::from_le_bytes(bytes)),
        Err(why) if why.kind() == ErrorKind::UnexpectedEof => None,
        Err(why) => panic!("input: {why}"),
    }
}
