// SPDX-License-Identifier: Apache-2.0
//! The private fields of the original `Index`, read and made.

use super::Index;
use crate::picture::{narrow, widen};
use alloc::vec::Vec;

pub(in crate::cache) fn narrow_all(numbers: &[usize]) -> Vec<u16> {
    numbers.iter().map(|number| narrow(*number)).collect()
}

pub(in crate::cache) fn widen_all(numbers: &[u16]) -> Vec<usize> {
    numbers.iter().map(|number| widen(*number)).collect()
}

impl Index {
    pub(in crate::cache) fn raw(&self) -> [&Vec<usize>; 3] {
        [&self.heads, &self.next, &self.free]
    }

    pub(in crate::cache) fn from_raw(heads: Vec<usize>, next: Vec<usize>, free: Vec<usize>) -> Self {
        Self { heads, next, free }
    }
}
