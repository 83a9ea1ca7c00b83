// SPDX-License-Identifier: Apache-2.0
//! What a resize will cost (README.md, "Costs"). The original has no such call: its resize is run on the case's table, with a list as long as the old capacity,
//! and answer, capacity and drops are told from what that leaves. What document 02 says otherwise stands here under a comment that begins with DIFFERENCE.

use std::io::BufRead;

use crate::Gate;
use crate::calls::Differences;
use crate::case::{Answer, Case, Held, take_bytes};
use crate::picture::{CLEAN, NONE};
use crate::sheet::RESIZE;

/// A resize at an open gate: its answer with the list after it, and what it left.
pub struct Done {
    answer: Answer,
    held: Held,
}

/// Capacity, drops, restores.
pub type Cost = [u64; 3];

impl Done {
    pub fn of(case: &Case, differences: &mut Differences) -> Self {
        let case = Case { list_len: case.table.slots.len() as u16, ..case.clone() };
        let mut held = Held::made_up(Gate::default(), &case.table);
        let answer = case.answer(&mut held, differences);
        Self { answer, held }
    }

    /// Answer, list and table in decimal: the same where two builds agree.
    pub fn text(&self) -> Vec<u8> {
        let mut out = Vec::new();
        self.answer.write(0, &mut out);
        self.held.table.write(&mut out);
        out
    }

    /// The line of the case. `restores` were counted in the other build. Or says what the original does that it should not.
    pub fn write_line(
        &self,
        number: u64,
        case: &Case,
        restores: u64,
        differences: &mut Differences,
        out: &mut Vec<u8>,
    ) -> Result<(), String> {
        let cost = self.cost(case, restores, differences)?;
        Answer { line: self.answer.line, more: cost.to_vec() }.write(number, out);
        out.push(b'\n');
        Ok(())
    }

    fn cost(&self, case: &Case, restores: u64, differences: &mut Differences) -> Result<Cost, String> {
        let (before, after) = (&case.table, &self.held.table);
        match self.answer.line.word {
            "refused" => {
                // DIFFERENCE "A refusal gives 0 for all three", where the original tried some before it stopped, or goes on where documents 01 and 02 refuse.
                if restores != 0 {
                    let refusal = self.answer.line.number.unwrap_or(0);
                    differences.count(&format!("cost, 0 restores of a refusal by {refusal}; the Rust tries some"));
                }
                Ok([0; 3])
            }
            "resized" => {
                // "how many keys it will drop": the clean slots to which the original gave no new one.
                let dropped = |(slot, to): (&crate::picture::Record, &u64)| slot.kind == CLEAN && *to == u64::from(NONE);
                let drops = before.slots.iter().zip(&self.answer.more).filter(|at| dropped(*at)).count() as u64;
                // "Removals count as evictions". An emptied table that shrinks removes no key, also where the clean count did not tell those that it drops:
                // evictions are as they were, since counters carry over.
                let emptied = before.clean == 0 && after.capacity < before.capacity;
                let removed = if emptied { 0 } else { drops };
                let [evictions, counted] = [before, after].map(|table| table.counters[2]);
                if counted != evictions.saturating_add(removed) {
                    return Err(format!("{drops} keys dropped, {removed} removed, and evictions {evictions} before and {counted} after"));
                }
                // Each key of the new table came by a restore. On a table without fault, where no key stands twice, each that is not removed for room is tried
                // once: an attempt fails only with 65 pinned keys, for which the capacity is at least 128, and half of 256 is no more. An emptied table tries
                // none.
                let tried = before.clean.min(after.capacity);
                let told = emptied || before.fault_of_original().is_none();
                if restores < after.clean || told && restores != tried {
                    return Err(format!(
                        "{restores} restores, {} clean before, and {} of {} after",
                        before.clean, after.clean, after.capacity
                    ));
                }
                Ok([after.capacity, drops, restores])
            }
            // "Where nothing is remade the capacity is the old one and drops are 0; a Busy over chains still gives the restores tried."
            _ => Ok([after.capacity, 0, restores]),
        }
    }
}

/// The next case of a stream of bytes, or None at its end, where it is cut off, and where its code is not that of resize.
pub fn read_bytes(input: &mut impl BufRead) -> Option<Case> {
    let mut cut = false;
    let case = Case::read(&mut |width| {
        take_bytes(input, width).unwrap_or_else(|| {
            cut = true;
            0
        })
    });
    (!cut && case.code == RESIZE).then_some(case)
}
