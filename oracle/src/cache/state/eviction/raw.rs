// SPDX-License-Identifier: Apache-2.0
//! The private fields of the original `EvictionHeap`, read and made.

use super::{Entry, EvictionHeap};
use crate::cache::index::raw::{narrow_all, widen_all};
use crate::picture::{narrow, widen};
use alloc::vec::Vec;

impl EvictionHeap {
    pub(in crate::cache) fn copy(&self) -> Self {
        Self { entries: self.entries.clone(), positions: self.positions.clone() }
    }

    pub(in crate::cache) fn entries(&self) -> Vec<(u16, u64)> {
        self.entries.iter().map(|entry| (narrow(entry.slot), entry.last_access)).collect()
    }

    pub(in crate::cache) fn positions(&self) -> Vec<u16> {
        narrow_all(&self.positions)
    }

    pub(in crate::cache) fn from_raw(entries: &[(u16, u64)], positions: &[u16]) -> Self {
        let entry = |&(slot, last_access)| Entry { slot: widen(slot), last_access };
        Self { entries: entries.iter().map(entry).collect(), positions: widen_all(positions) }
    }
}
