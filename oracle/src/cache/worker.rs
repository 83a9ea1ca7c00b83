// SPDX-License-Identifier: Apache-2.0
//! The kernel's worker, which the original tells of its steps. There is none here.

pub(crate) fn request() {}

pub(crate) fn load_finished() {}

pub(crate) fn page_released() {}
