// SPDX-License-Identifier: Apache-2.0
//! Gate cases: one call on a table and its gate, made up or as the call before left them (README.md, "Gate cases").

use std::io::BufRead;

use crate::calls::{self, Differences};
use crate::case::{Answer, CALLS, Case, Held, low_byte_first, plain, refused, take_bytes};
use crate::gate_calls::{begin_dirty, begin_pause, end_dirty, end_pause};
use crate::picture::{Picture, put};
use crate::sheet::{NEW, line};
use crate::{CacheKey, Gate, Token};

pub const BEGIN_PAUSE: u8 = 16;
pub const END_PAUSE: u8 = 17;
pub const BEGIN_DIRTY: u8 = 18;
pub const END_DIRTY: u8 = 19;
pub const TURNS: [u8; 4] = [BEGIN_PAUSE, END_PAUSE, BEGIN_DIRTY, END_DIRTY];

pub struct GateCase {
    /// The gate that comes with the case, and then its table too; without one the call goes on from what the call before left.
    pub gate: Option<Gate>,
    pub case: Case,
}

impl Gate {
    pub fn numbers(&self) -> [u64; 4] {
        [self.pauses, self.dirty, self.pending.into(), self.generation]
    }
}

impl GateCase {
    /// The call on what is held, or on what comes with it.
    pub fn run(&self, held: &mut Held, differences: &mut Differences) -> Answer {
        let case = &self.case;
        if let Some(gate) = self.gate {
            *held = Held::made_up(gate, &case.table);
        }
        let turn = match case.code {
            NEW => return self.make(held, differences),
            BEGIN_PAUSE => begin_pause,
            END_PAUSE => end_pause,
            BEGIN_DIRTY => begin_dirty,
            END_DIRTY => end_dirty,
            _ => return case.answer(held, differences),
        };
        turn(&mut held.gate, differences).map_or_else(refused, |()| plain(line("done", None)))
    }

    fn make(&self, held: &mut Held, differences: &mut Differences) -> Answer {
        match calls::new(self.case.token.slot as u64, differences) {
            Err(refusal) => refused(refusal),
            Ok(table) => {
                *held = Held { table: table.picture(), ..Held::default() };
                plain(line("made", table.capacity()))
            }
        }
    }

    /// Whether what comes before this case can no longer be seen after its answer.
    pub fn begins(&self, answer: &Answer) -> bool {
        self.gate.is_some() || answer.line.word == "made"
    }

    /// Each number of the case in its order, with its width in bytes.
    pub fn each(&self, put: &mut impl FnMut(usize, u64)) {
        put(1, self.gate.is_some().into());
        self.case.each_of_call(put);
        if let Some(gate) = self.gate {
            gate.numbers().into_iter().zip([8, 8, 1, 8]).for_each(|(number, width)| put(width, number));
            self.case.table.each(put);
        }
        self.case.each_pin(put);
    }

    /// A case of numbers in the same order, or None where its first number is above 1 or no call has its code.
    pub fn read(take: &mut impl FnMut(usize) -> u64) -> Option<Self> {
        let comes = take(1);
        if comes > 1 {
            return None;
        }
        let mut case = Case::read_call(take);
        if case.code != NEW && !CALLS.contains(&case.code) && !TURNS.contains(&case.code) {
            return None;
        }
        let gate = (comes == 1).then(|| Gate { pauses: take(8), dirty: take(8), pending: take(1) != 0, generation: take(8) });
        if gate.is_some() {
            case.table = Picture::read(take);
        }
        case.read_pins(take);
        Some(Self { gate, case })
    }

    pub fn write_bytes(&self, out: &mut Vec<u8>) {
        self.each(&mut low_byte_first(out));
    }

    /// The next case of a stream of bytes, or None at its end and where the case is cut off or bad.
    pub fn read_bytes(input: &mut impl BufRead) -> Option<Self> {
        let mut cut = false;
        let case = Self::read(&mut |width| {
            take_bytes(input, width).unwrap_or_else(|| {
                cut = true;
                0
            })
        });
        case.filter(|_| !cut)
    }
}

impl Answer {
    /// The line of a gate case: the answer, the gate and the table after it, and the places past the table's lengths.
    pub fn write_gate_line(&self, number: u64, held: &Held, out: &mut Vec<u8>) {
        self.write(number, out);
        held.gate.numbers().iter().for_each(|number| put(out, *number));
        held.table.write(out);
        held.past.write(out);
        out.push(b'\n');
    }

    /// The token of a reservation.
    pub fn token(&self) -> Option<Token> {
        let [slot, generation, file, kind, index, access_sequence] = self.more[..] else { return None };
        let reserves = ["reserved", "evicted"].contains(&self.line.word);
        let key = CacheKey { file, kind: kind as u8, index };
        reserves.then_some(Token { slot: slot as usize, generation, key, access_sequence })
    }
}
