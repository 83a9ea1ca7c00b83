// SPDX-License-Identifier: Apache-2.0
//! How often the original's `restore_clean` was called. Only the second build counts: the one line that oracle/build puts into it calls `count`.

use std::cell::Cell;

thread_local! {
    static RESTORES: Cell<u64> = const { Cell::new(0) };
}

pub fn count() {
    RESTORES.set(RESTORES.get() + 1);
}

/// How many calls since this was asked last.
pub fn taken() -> u64 {
    RESTORES.take()
}
