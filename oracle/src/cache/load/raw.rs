// SPDX-License-Identifier: Apache-2.0
//! The private token of the original `LoadReservation`, read.

use super::LoadReservation;
use crate::cache::state::raw::Token;

impl<Page> LoadReservation<'_, Page> {
    /// The load stays reserved: the reservation's drop no longer aborts it, and gives up its storage only.
    pub(in crate::cache) fn into_token(mut self) -> Token {
        self.active = false;
        self.token.into()
    }
}
