// SPDX-License-Identifier: Apache-2.0
//! Batches: up to 64 keys of a table peeked at together (README.md, "Batches"). The original has no such call. Each answer is that of its own `peek_clean`
//! of the one key, and the slots are visited by its own search; what document 02 says otherwise stands here under comments that begin with DIFFERENCE.

use std::collections::BTreeMap;
use std::io::BufRead;

use crate::calls::{self, Differences, STOP};
use crate::case::{low_byte_first, take_bytes};
use crate::picture::{NONE, Picture, narrow};
use crate::{CacheKey, Table};

pub const KEYS: u8 = 13;
pub const MOST_KEYS: usize = 64;

/// What each place of the lent list holds before the call.
pub const LENT: u16 = 7;

#[derive(Clone)]
pub struct BatchCase {
    pub count: u64,
    pub list_len: u16,
    /// Those behind the count are not asked.
    pub keys: [CacheKey; MOST_KEYS],
    pub table: Picture,
}

/// Why a batch is not answered.
enum Unanswered {
    Refused(u8),
    /// The original says otherwise where it should not.
    Disagrees(String),
}
use Unanswered::{Disagrees, Refused};

struct Peeked {
    visited: usize,
    slots: Vec<u16>,
}

/// The walk of one bucket's chain.
struct Walk {
    visited: usize,
    /// The keys that were found, each with its first slot if that is clean.
    found: Vec<(CacheKey, Option<usize>)>,
}

/// Why a walk is refused by 10.
enum Stop {
    Original,
    /// The chain ended where its kept length does not.
    Length,
}

/// "Each bucket's chain is walked once, until every key asked of it is found, clean or loading, or the chain ends": by the original's search.
fn walk(table: &Table, keys: &[CacheKey]) -> Result<Walk, Stop> {
    let mut sought = keys.to_vec();
    let mut found = Vec::new();
    let searched = table.search(keys[0], |slot, held, clean| {
        if let Some(held) = held.filter(|held| sought.contains(held)) {
            found.push((held, clean.then_some(slot)));
            sought.retain(|key| *key != held);
        }
        sought.is_empty()
    });
    let (visited, ended) = searched.ok_or(Stop::Original)?;
    if ended && visited != table.length_of(keys[0]) { Err(Stop::Length) } else { Ok(Walk { visited, found }) }
}

/// Holds what the batch visits of a chain to what single walks of its keys visit, and gives their sum. A single walk goes up to the first slot that has the
/// key, where the original's own peek goes on if that slot loads.
fn single_walks(table: &Table, keys: &[CacheKey], walk: &Walk) -> Result<usize, Unanswered> {
    let (mut most, mut sum) = (0, 0);
    for key in keys {
        let Some((single, _)) = table.search(*key, |_, held, _| held == Some(*key)) else {
            return Err(Disagrees(format!("the single walk of {key:?} stops")));
        };
        let peeked = table.search(*key, |_, held, clean| clean && held == Some(*key));
        let loads = walk.found.contains(&(*key, None));
        if peeked.is_some_and(|(peeked, _)| peeked < single || !loads && peeked != single) || peeked.is_none() && !loads {
            return Err(Disagrees(format!("the original's peek of {key:?} visits {peeked:?}, and its single walk {single}")));
        }
        most = most.max(single);
        sum += single;
    }
    if walk.visited != most {
        return Err(Disagrees(format!("{} slots visited of a chain, and by the longest single walk {most}", walk.visited)));
    }
    Ok(sum)
}

impl BatchCase {
    /// Writes the line of the case: its answer, the number of slots visited, and the list after it. Or says where the original disagrees.
    pub fn run(&self, number: u64, differences: &mut Differences, out: &mut String) -> Result<(), String> {
        let (answer, visited, list) = match self.peek(differences) {
            Ok(Peeked { visited, slots }) => ("done -".to_string(), visited, slots),
            Err(Refused(refusal)) => (format!("refused {refusal}"), 0, vec![LENT; self.list_len.into()]),
            Err(Disagrees(why)) => return Err(why),
        };
        out.push_str(&format!("{number} {answer} {visited} {}", list.len()));
        list.iter().for_each(|slot| out.push_str(&format!(" {slot}")));
        out.push('\n');
        Ok(())
    }

    fn peek(&self, differences: &mut Differences) -> Result<Peeked, Unanswered> {
        if !self.table.sound() {
            // DIFFERENCE first test of 10 (added): such a table cannot be made in the original, whose lists have these lengths.
            differences.count("first test, 10; the Rust has no such table");
            return Err(Refused(STOP));
        }
        // Added: 13. The original has one key and no list.
        if self.count > MOST_KEYS as u64 || u64::from(self.list_len) != self.count {
            return Err(Refused(KEYS));
        }
        let keys = &self.keys[..self.count as usize];
        let mut table = Table::from_picture(&self.table);
        let mut asked: BTreeMap<u64, Vec<CacheKey>> = BTreeMap::new();
        for key in keys {
            asked.entry(key.bucket_of(self.table.buckets)).or_default().push(*key);
        }
        let walks: Vec<(&[CacheKey], Result<Walk, Stop>)> = asked.values().map(|keys| (&keys[..], walk(&table, keys))).collect();
        let refused: Vec<(&[CacheKey], &Stop)> = walks.iter().filter_map(|(keys, walk)| Some((*keys, walk.as_ref().err()?))).collect();
        if !refused.is_empty() {
            return Err(self.stop(&mut table, &refused, differences));
        }
        let (mut visited, mut sum, mut found) = (0, 0, BTreeMap::new());
        for (keys, walk) in walks.iter().filter_map(|(keys, walk)| Some((*keys, walk.as_ref().ok()?))) {
            visited += walk.visited;
            sum += single_walks(&table, keys, walk)?;
            found.extend(walk.found.iter().map(|(key, slot)| ((key.file, key.kind, key.index), *slot)));
        }
        if visited > sum {
            return Err(Disagrees(format!("{visited} slots visited, and by single walks {sum}")));
        }
        let answer = |key: &CacheKey| answer(&mut table, *key, found.get(&(key.file, key.kind, key.index)).copied(), differences);
        let slots: Result<Vec<u16>, Unanswered> = keys.iter().map(answer).collect();
        Ok(Peeked { visited, slots: slots? })
    }

    /// 10 of some walks: of each of these chains a single peek must be 10 too.
    fn stop(&self, table: &mut Table, refused: &[(&[CacheKey], &Stop)], differences: &mut Differences) -> Unanswered {
        if self.table.fault().is_none() {
            return Disagrees("10 on a table without fault".to_string());
        }
        let mut peeked_10 = |key: &CacheKey| calls::peek_clean(table, *key, &mut Differences::default()) == Err(STOP);
        for (keys, _) in refused {
            if !keys.iter().any(&mut peeked_10) {
                return Disagrees(format!("10, and no single peek of {keys:?} is 10"));
            }
        }
        if refused.iter().any(|(_, stop)| matches!(stop, Stop::Original)) {
            differences.count("any call, 10; the Rust stops");
        } else {
            // DIFFERENCE a chain's end that is not at its kept length: 10. The original keeps no lengths and goes on.
            let key = refused[0].0.iter().find(|key| peeked_10(key)).expect("a key of that chain");
            differences.note("search, 10 at a kept length that was not walked", table.peek_clean(*key));
        }
        Refused(STOP)
    }
}

/// The original's answer for the key, or document 02's where it is another. `found` is None where the walk found the key in no slot, else its first slot if
/// that is clean.
fn answer(table: &mut Table, key: CacheKey, found: Option<Option<usize>>, differences: &mut Differences) -> Result<u16, Unanswered> {
    let single = calls::peek_clean(table, key, &mut Differences::default());
    let slot = match (found, single) {
        (Some(None), Ok(Some(slot))) => {
            // DIFFERENCE a key that loads in front of its clean double: none, since it is found at its first slot. The original passes over a loading slot
            // and finds the double.
            differences.note("batch, none for a key that loads in front of its double", Ok(Some(slot)));
            None
        }
        (Some(None), Err(STOP)) => {
            // DIFFERENCE what stands behind a key that loads is not looked at. The original's search goes on and stops at the damage; or it comes to the end of
            // the chain, which a single peek holds to the kept length.
            differences.note("batch, none for a key that loads, of which a single peek is 10", table.peek_clean(key));
            None
        }
        (found, Ok(slot)) if slot == found.flatten() => slot,
        (found, single) => return Err(Disagrees(format!("{key:?} is found {found:?}, and a single peek gives {single:?}"))),
    };
    Ok(slot.map_or(NONE, narrow))
}

impl BatchCase {
    /// Each number of the case in its order, with its width in bytes.
    pub fn each(&self, put: &mut impl FnMut(usize, u64)) {
        put(8, self.count);
        put(2, self.list_len.into());
        for CacheKey { file, kind, index } in self.keys {
            put(8, file);
            put(1, kind.into());
            put(8, index);
        }
        self.table.each(put);
    }

    /// A case of numbers in the same order; `take` is given the width of each.
    pub fn read(take: &mut impl FnMut(usize) -> u64) -> Self {
        let (count, list_len) = (take(8), take(2) as u16);
        let keys = [(); MOST_KEYS].map(|()| CacheKey { file: take(8), kind: take(1) as u8, index: take(8) });
        Self { count, list_len, keys, table: Picture::read(take) }
    }

    pub fn write_bytes(&self, out: &mut Vec<u8>) {
        self.each(&mut low_byte_first(out));
    }

    /// The next case of a stream of bytes, or None at its end and where the case is cut off.
    pub fn read_bytes(input: &mut impl BufRead) -> Option<Self> {
        let mut cut = false;
        let case = Self::read(&mut |width| {
            take_bytes(input, width).unwrap_or_else(|| {
                cut = true;
                0
            })
        });
        (!cut).then_some(case)
    }
}
