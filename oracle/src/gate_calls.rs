// SPDX-License-Identifier: Apache-2.0
//! Document 02's turns on the original's gate. Where document 02 has a rule that the original has not, the rule stands in front of the original's
//! turn, under a comment that begins with DIFFERENCE, and is counted each time it decides. Access and resize through the gate are in calls.rs.

use crate::calls::Differences;
use crate::{Did, Gate, Turned};

pub const COUNT_FULL: u8 = 11;
pub const COUNT_EMPTY: u8 = 12;

/// What the original does, asked of a copy of the gate.
fn note(differences: &mut Differences, rule: &str, gate: &Gate, original: Turned) {
    let counts = [(gate.pauses, original.gate.pauses), (gate.dirty, original.gate.dirty)];
    let turned = counts.iter().find(|(before, after)| before != after).map(|(_, after)| format!("turns its count to {after}"));
    let did = match (original.did, turned) {
        (Did::Done, turned) => turned.expect("a count that is turned"),
        (Did::Declined, turned) => turned.unwrap_or("declines".to_string()),
        (Did::Stopped, None) => "stops".to_string(),
        (Did::Stopped, Some(turned)) => format!("{turned} and stops"),
    };
    differences.count(&format!("{rule}; the Rust {did}"));
}

/// A turn of the original that is done: its gate.
fn done(turned: Turned) -> Gate {
    assert_eq!(turned.did, Did::Done, "a turn that document 02 has done");
    turned.gate
}

pub fn begin_pause(gate: &mut Gate, differences: &mut Differences) -> Result<(), u8> {
    // DIFFERENCE begin_pause 11: the original stops.
    if gate.pauses == u64::MAX {
        note(differences, "begin_pause, 11", gate, gate.begin_pause());
        return Err(COUNT_FULL);
    }
    *gate = done(gate.begin_pause());
    Ok(())
}

pub fn end_pause(gate: &mut Gate, differences: &mut Differences) -> Result<(), u8> {
    // DIFFERENCE end_pause 12: the original stops.
    if gate.pauses == 0 {
        note(differences, "end_pause, 12", gate, gate.end_pause());
        return Err(COUNT_EMPTY);
    }
    *gate = done(gate.end_pause());
    Ok(())
}

pub fn begin_dirty(gate: &mut Gate, differences: &mut Differences) -> Result<(), u8> {
    // DIFFERENCE begin_dirty 11: the original's count wraps to 0, or its `write_page` declines.
    if gate.dirty == u64::MAX {
        note(differences, "begin_dirty, 11", gate, gate.begin_dirty());
        return Err(COUNT_FULL);
    }
    // DIFFERENCE a dirty page begun while paused or pending: done, as at a gate without pause and mark. The original declines.
    let turned = gate.begin_dirty();
    *gate = if turned.did == Did::Declined {
        note(differences, "begin_dirty, paused or pending, done", gate, turned);
        let open = Gate { pauses: 0, pending: false, ..*gate };
        Gate { pauses: gate.pauses, pending: gate.pending, ..done(open.begin_dirty()) }
    } else {
        done(turned)
    };
    Ok(())
}

pub fn end_dirty(gate: &mut Gate, differences: &mut Differences) -> Result<(), u8> {
    // DIFFERENCE end_dirty 12: the original's count wraps to 2^64 - 1, and then it stops.
    if gate.dirty == 0 {
        note(differences, "end_dirty, 12", gate, gate.end_dirty());
        return Err(COUNT_EMPTY);
    }
    *gate = done(gate.end_dirty());
    Ok(())
}
