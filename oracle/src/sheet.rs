// SPDX-License-Identifier: Apache-2.0
//! Run sheets: document 01, "Run sheets".

use crate::calls::{self, Differences, STALE};
use crate::past::Past;
use crate::picture::{NONE, Picture, put};
use crate::{Access, CacheKey, Gate, Maintained, Table, Token};

pub const RECORD: usize = 24;
pub const NEW: u8 = 1;
pub const ACCESS: u8 = 2;
pub const PUBLISH: u8 = 3;
pub const ABORT: u8 = 4;
pub const LOOKUP: u8 = 5;
pub const REMOVE: u8 = 6;
pub const PIN: u8 = 7;
pub const RESIZE: u8 = 8;
pub const RECLAIM: u8 = 9;

#[derive(Clone, Copy, Debug, Default, Eq, PartialEq)]
pub struct Record {
    pub code: u8,
    pub allow: u8,
    pub kind: u8,
    pub place: u8,
    pub number: u32,
    pub file: u64,
    pub index: u64,
}

impl Record {
    pub fn read(bytes: &[u8; RECORD]) -> Self {
        let word = |at: usize| u64::from_le_bytes(bytes[at..at + 8].try_into().unwrap());
        Self {
            code: bytes[0],
            allow: bytes[1],
            kind: bytes[2],
            place: bytes[3],
            number: u32::from_le_bytes(bytes[4..8].try_into().unwrap()),
            file: word(8),
            index: word(16),
        }
    }

    pub fn write(&self, out: &mut Vec<u8>) {
        out.extend([self.code, self.allow, self.kind, self.place]);
        out.extend(self.number.to_le_bytes());
        out.extend(self.file.to_le_bytes());
        out.extend(self.index.to_le_bytes());
    }

    fn key(&self) -> CacheKey {
        CacheKey { file: self.file, kind: self.kind, index: self.index }
    }

    pub fn in_range(&self) -> bool {
        (NEW..=RECLAIM).contains(&self.code) && self.allow <= 1 && self.place <= 15
    }
}

/// A line's word and its number, if it has one.
#[derive(Clone, Copy, Debug, Eq, PartialEq)]
pub struct Line {
    pub word: &'static str,
    pub number: Option<u64>,
}

/// Word and number, or `-`.
impl std::fmt::Display for Line {
    fn fmt(&self, out: &mut std::fmt::Formatter<'_>) -> std::fmt::Result {
        let number = self.number.map_or("-".to_string(), |number| number.to_string());
        write!(out, "{} {number}", self.word)
    }
}

pub fn line(word: &'static str, number: impl Into<Option<usize>>) -> Line {
    Line { word, number: number.into().map(|number| number as u64) }
}

#[derive(Default)]
pub struct Sheet {
    pub table: Option<Table>,
    pub pins: Vec<u8>,
    pub tokens: [Option<Token>; 16],
    pub differences: Differences,
}

impl Sheet {
    /// The line of a record, or None where it is bad.
    pub fn step(&mut self, record: &Record) -> Option<Line> {
        if !record.in_range() || (self.table.is_none() && record.code != NEW) {
            return None;
        }
        let answer = if record.code == NEW { self.make(record) } else { self.call(record) };
        Some(answer.unwrap_or_else(|refusal| line("refused", usize::from(refusal))))
    }

    fn make(&mut self, record: &Record) -> Result<Line, u8> {
        let table = calls::new(record.number.into(), &mut self.differences)?;
        let capacity = table.capacity();
        self.table = Some(table);
        self.pins = vec![0; capacity];
        self.tokens = [None; 16];
        Ok(line("made", capacity))
    }

    fn call(&mut self, record: &Record) -> Result<Line, u8> {
        let Self { table: Some(table), pins, tokens, differences } = self else { unreachable!() };
        let number = u64::from(record.number);
        let place = usize::from(record.place);
        Ok(match record.code {
            ACCESS => match calls::access(table, record.key(), record.allow == 1, pins, differences)? {
                Access::Hit(slot) => line("hit", slot),
                Access::Loading => line("loading", None),
                Access::Busy => line("busy", None),
                Access::Reserved { token, evicted } => {
                    tokens[place] = Some(token);
                    line(if evicted { "evicted" } else { "reserved" }, token.slot)
                }
            },
            PUBLISH => {
                calls::publish(table, tokens[place].ok_or(STALE)?, differences)?;
                line("done", None)
            }
            ABORT => {
                calls::abort(table, tokens[place].ok_or(STALE)?, differences)?;
                line("done", None)
            }
            LOOKUP => match calls::lookup(table, record.key(), differences)? {
                Some(slot) => line("hit", slot),
                None => line("none", None),
            },
            REMOVE => {
                calls::remove(table, number, differences)?;
                // "A pin goes with its key."
                pins[number as usize] = 0;
                line("done", None)
            }
            PIN => {
                calls::set_pin(table, pins, number, record.allow)?;
                line("done", None)
            }
            RESIZE => {
                let mut list = vec![0; table.capacity()];
                match calls::resize(table, &mut Gate::default(), number, pins, &mut list, differences)? {
                    Maintained::Unchanged => line("unchanged", None),
                    Maintained::Busy => line("busy", None),
                    Maintained::Resized { capacity, overwritten, .. } => {
                        assert!(!overwritten, "no key stands twice on a sheet");
                        let mut moved = vec![0; capacity];
                        for (pin, new) in pins.iter().zip(list) {
                            if new != NONE {
                                moved[usize::from(new)] = *pin;
                            }
                        }
                        *pins = moved;
                        line("resized", capacity)
                    }
                }
            }
            _ => line("reclaimed", calls::reclaim(table, number, pins, differences)?.len()),
        })
    }

    fn picture(&self) -> Picture {
        self.table.as_ref().map(Table::picture).unwrap_or_default()
    }

    /// A line of `runsheet`, without its end.
    pub fn write_line(&self, number: u64, line: Line, out: &mut Vec<u8>) {
        let (clean, loading) = self.table.as_ref().map_or((0, 0), |table| (table.clean(), table.loading()));
        out.extend(format!("{number} {line} {clean} {loading}").bytes());
    }

    /// What the trace has after a line: the table, the pins, and the places past the lengths, the pins' last. On a sheet these are all 0: the table
    /// was fresh, and `made` and resize give pins to no other slots.
    pub fn write_table(&self, out: &mut Vec<u8>) {
        let picture = self.picture();
        assert_eq!(picture.lengths, picture.walked(), "on a sheet the kept lengths are those of the chains");
        picture.write(out);
        for pin in &self.pins {
            put(out, u64::from(*pin));
        }
        Past::default().write(out);
        put(out, 0);
    }

    /// What is wrong with the table, if anything: the original's assert_valid, and a pin where no clean slot is.
    pub fn fault(&self) -> Option<&'static str> {
        let picture = self.picture();
        let stray = |(slot, pin): (&crate::picture::Record, &u8)| *pin != 0 && slot.kind != crate::picture::CLEAN;
        if picture.slots.iter().zip(&self.pins).any(stray) { Some("a pin") } else { picture.fault() }
    }
}
