// SPDX-License-Identifier: Apache-2.0
//! The places past the lengths: part 12 of the trace (README.md). The original has none, so document 01's words decide: "In a fresh table slots
//! past the capacity are vacant, and other places past a length are 0. A place given up at the end of stack or heap becomes 0; others past the end
//! stay."

use std::collections::BTreeSet;

use crate::picture::{MOST_BUCKETS, MOST_SLOTS, Picture, put};

/// What a place past a length holds where it is not 0; of a slot and of a heap place, each of its numbers.
const FILL: u64 = 7;

/// How many numbers a place of each list has: slots, heads, kept lengths, next, stack, heap, positions.
const NUMBERS: [usize; 7] = [6, 1, 1, 1, 1, 2, 1];

/// Of each list the places past its length that hold FILL; all others hold 0.
#[derive(Clone, Default)]
pub struct Past([BTreeSet<u64>; 7]);

/// The length of each list and the places that it has.
fn lists(table: &Picture) -> [(u64, u64); 7] {
    let of = |length| (length, MOST_SLOTS);
    let buckets = (table.buckets, MOST_BUCKETS);
    [of(table.capacity), buckets, buckets, of(table.capacity), of(table.free_len), of(table.heap_len), of(table.capacity)]
}

impl Past {
    /// A made-up table's: the first place past each length, and the last.
    pub fn filled(table: &Picture) -> Self {
        Self(lists(table).map(|(length, places)| if length < places { [length, places - 1].into() } else { BTreeSet::new() }))
    }

    /// After a call that did not make the table anew. A place that was below a length and no longer is has been given up: it holds 0.
    pub fn after(mut self, table: &Picture) -> Self {
        for (held, (length, _)) in self.0.iter_mut().zip(lists(table)) {
            held.retain(|place| *place >= length);
        }
        self
    }

    /// For each list how many places hold something, then each of these with its numbers.
    pub fn write(&self, out: &mut Vec<u8>) {
        for (held, numbers) in self.0.iter().zip(NUMBERS) {
            put(out, held.len() as u64);
            for place in held {
                put(out, *place);
                (0..numbers).for_each(|_| put(out, FILL));
            }
        }
    }
}
