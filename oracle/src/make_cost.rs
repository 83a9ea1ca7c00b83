// SPDX-License-Identifier: Apache-2.0
//! Cost cases by seed: made-up tables, each with a resize; and the tables and pins that stand before the records of random sheets.

use crate::case::Case;
use crate::make_cases::{call_of, damage, damage_lengths, double, tables};
use crate::make_sheets::{Few, Keys, Maker};
use crate::picture::{CLEAN, LOADING, MOST_SLOTS, Picture};
use crate::random::Random;
use crate::sheet::{RECORD, RESIZE, Record, Sheet};
use crate::{Access, Table, Token};

/// How many cases at most are made of one table.
const EACH: u64 = 12;

/// Capacities that a resize refuses.
const REFUSED: [u64; 8] = [0, 257, 300, 1 << 59, 1 << 60, 1 << 62, (1 << 62) + 1, u64::MAX];

pub fn costs(seed: u64, count: u64, emit: &mut impl FnMut(&Case)) {
    let mut random = Random::new(seed ^ 0x7265_7369_7a65_7321);
    let mut left = count;
    while left > 0 {
        let some = random.between(1, EACH).min(left);
        left -= some;
        if random.chance(1, 10) {
            let (table, few) = long_chains(&mut random);
            for _ in 0..some {
                let mut table = table.clone();
                for _ in 0..random.pick(&[0, 0, 0, 1, 2]) {
                    if table.sound() {
                        damage(&mut table, few, &mut random);
                    }
                }
                table.lengths = table.walked();
                emit(&resize(table, few, true, &mut random));
            }
        } else {
            tables(&mut random, some, &mut |table, few, random| emit(&resize(table, few, false, random)));
        }
    }
}

/// Keys of two buckets of 512, which a table of up to 128 slots has as one, and other keys; or a table of 65 to 140 slots whose clean slots all get one key, or
/// keys of one bucket, whatever chains they stand in.
fn long_chains(random: &mut Random) -> (Picture, Few) {
    let made_up = random.chance(1, 3);
    let capacity = if made_up { random.between(65, 140) } else { random.between(129, MOST_SLOTS) };
    let count = random.between(60, 128).min(capacity);
    let few = Few { keys: Keys::Two(random.below(256)), count };
    let mut table = Table::try_new(capacity as usize).expect("a capacity");
    let pins = vec![0; capacity as usize];
    let others = random.below(capacity - count + 1);
    let before = if random.chance(1, 2) { others } else { 0 };
    let family = if made_up { Keys::Row } else { few.keys };
    let rows = |numbers: std::ops::Range<u64>| numbers.map(|number| Keys::Row.key(500 + number));
    for key in rows(0..before).chain((0..count).map(|number| family.key(number))).chain(rows(before..others)) {
        if let Ok(Access::Reserved { token, .. }) = table.access(key, true, &pins) {
            table.publish(token).expect("a load of an undamaged table");
        }
    }
    let mut table = table.picture();
    if made_up {
        let one = random.chance(1, 2);
        let keys = Keys::Bucket(random.below(512));
        for (slot, number) in table.slots.iter_mut().filter(|slot| slot.kind == CLEAN).zip(0..) {
            slot.key = keys.key(if one { 0 } else { number });
        }
    }
    (table, few)
}

/// A resize of the table, with pins and an asked capacity by which each answer comes. `pinned`: mostly with many pins.
fn resize(mut table: Picture, few: Few, pinned: bool, random: &mut Random) -> Case {
    match random.below(6) {
        0 | 1 => publish_loads(&mut table, random),
        // Slots that load, and none by the count.
        2 => table.loading = 0,
        _ => {}
    }
    if table.sound() && random.chance(1, 6) {
        let at = random.below(table.capacity) as usize;
        double(&mut table, at, random);
    }
    if random.chance(1, 12) {
        let some = random.below(table.clean.saturating_add(2));
        table.clean = random.pick(&[0, 0, table.clean.wrapping_sub(1), table.clean.wrapping_add(1), some]);
    }
    let mut case = Case { list_len: 0, ..call_of(RESIZE, table, few, random) };
    if case.pins.len() == case.table.slots.len() && (pinned || random.chance(1, 2)) {
        let density = if pinned { random.pick(&[0, 4, 6, 7, 8, 8, 8, 8]) } else { random.below(9) };
        let stray = random.chance(1, 12);
        for (pin, slot) in case.pins.iter_mut().zip(&case.table.slots) {
            *pin = if (stray || slot.kind == CLEAN) && random.chance(density, 8) { random.pick(&[1, 2, 255]) } else { 0 };
        }
    }
    if random.chance(3, 4) {
        case.token.slot = asked(case.table.capacity, &case.pins, random) as usize;
    }
    damage_lengths(&mut case, random);
    case
}

/// Slots that load become clean, as far as the table lets them.
fn publish_loads(table: &mut Picture, random: &mut Random) {
    if !table.sound() {
        return;
    }
    let mut held = Table::from_picture(table);
    for (slot, record) in table.slots.iter().enumerate().filter(|(_, record)| record.kind == LOADING) {
        let access_sequence = random.below(table.next_access_sequence.saturating_add(1));
        let token = Token { slot, generation: record.generation, key: record.key, access_sequence };
        let _ = held.publish(token);
    }
    *table = held.picture();
}

fn asked(capacity: u64, pins: &[u8], random: &mut Random) -> u64 {
    let capacity = capacity.clamp(1, MOST_SLOTS);
    let raised = (pins.iter().filter(|pin| **pin != 0).count() as u64).max(1).next_power_of_two();
    let smaller = random.between(1, capacity);
    let larger = random.between(capacity, MOST_SLOTS);
    match random.below(24) {
        0 => capacity,
        1 => random.pick(&REFUSED),
        2 | 3 => 1,
        4 => raised,
        5 => raised / 2 + 1,
        6 => (2 * raised).min(MOST_SLOTS),
        7 => capacity.saturating_sub(1).max(1),
        8 => (capacity + 1).min(MOST_SLOTS),
        9 => (2 * capacity).min(MOST_SLOTS),
        10 | 11 => (capacity / 2).max(1),
        12 | 13 => larger,
        _ => smaller,
    }
}

/// Before records of a random sheet the table and the pins that stand there, with the asked capacity of the record where it is a resize, and else before
/// every fourth with any.
pub fn sheet_costs(seed: u64, count: u64, emit: &mut impl FnMut(&Case)) {
    let mut random = Random::new(seed ^ 0x7368_6565_7473_2121);
    let mut maker = Maker::new(random.next(), u64::MAX);
    let mut sheet = Sheet::default();
    let mut left = count;
    while left > 0 {
        maker.episode();
        for bytes in std::mem::take(&mut maker.out).chunks_exact(RECORD) {
            let record = Record::read(bytes.try_into().expect("a record"));
            let resizes = record.code == RESIZE;
            if left > 0
                && let Some(table) = &sheet.table
                && (resizes || random.chance(1, 4))
            {
                let any = asked(table.capacity() as u64, &sheet.pins, &mut random);
                let number = if resizes { record.number.into() } else { any };
                let token = Token { slot: number as usize, ..Token::default() };
                emit(&Case { code: RESIZE, token, pins: sheet.pins.clone(), table: table.picture(), ..Case::default() });
                left -= 1;
            }
            sheet.step(&record);
        }
    }
}
