// SPDX-License-Identifier: Apache-2.0
//! Names that the original mod.rs needs. Nothing runs them.

pub(crate) struct PageRead;

pub(crate) fn read_pages() {}
