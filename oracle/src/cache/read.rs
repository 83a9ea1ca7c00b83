// SPDX-License-Identifier: Apache-2.0
//! Names that the original mod.rs and write.rs need. Only `write_page` runs any of them, and its page has no bytes.

use super::{CacheError, Refill};

pub(crate) struct ReadError;

pub(crate) struct FilePage<Owner>(Owner);

impl<Owner> FilePage<Owner> {
    pub(super) fn try_empty(_length: usize, owner: Owner) -> Result<Self, CacheError> {
        Ok(Self(owner))
    }

    pub(super) fn prepare_fill(&mut self, _length: usize, owner: Owner) -> Refill {
        self.0 = owner;
        Refill::Ready
    }
}

pub(crate) fn read() {}

pub(crate) fn read_observed() {}
