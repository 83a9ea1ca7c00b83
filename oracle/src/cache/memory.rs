// SPDX-License-Identifier: Apache-2.0
//! Allocation for the original: the system's own, nothing accounted, always admitted.

use alloc::vec::Vec;
use core::alloc::Layout;
use hyper::mm::FallibleArc;

use super::CacheError;
use super::state::Error;

/// So that a capacity far above document 01's limit cannot use up the machine that runs the comparison.
const LIMIT: usize = 1 << 16;

pub(super) fn vector<T>(capacity: usize) -> Result<Vec<T>, Error> {
    if capacity > LIMIT { Err(Error::Allocation) } else { Ok(Vec::with_capacity(capacity)) }
}

pub(super) fn shared<T>(value: T) -> Result<FallibleArc<T>, CacheError> {
    Ok(FallibleArc::new(value))
}

pub(super) struct Reservation;

pub(super) fn reserve(_layouts: &[Layout]) -> Result<(Reservation, usize), CacheError> {
    Ok((Reservation, 0))
}

pub(super) fn reserve_table(layouts: &[Layout], _shrinking: bool) -> Result<(Reservation, usize), CacheError> {
    reserve(layouts)
}

pub(super) fn admission_allowed() -> bool {
    true
}
