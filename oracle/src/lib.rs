// SPDX-License-Identifier: Apache-2.0
//! The original page cache table, built unchanged, and what runs it: document 01's calls, run sheets and made-up tables, and document 02's gate,
//! batches and costs.
//! `cache` is the original module; oracle/build puts its files beside our stand-ins.

extern crate alloc;

#[allow(unused, dead_code, unfulfilled_lint_expectations)]
mod cache;
pub mod batch;
pub mod calls;
pub mod case;
pub mod cost;
pub mod gate_calls;
pub mod gate_case;
pub mod make_aimed;
pub mod make_batch;
pub mod make_batch_aimed;
pub mod make_cases;
pub mod make_cost;
pub mod make_cost_aimed;
pub mod make_gate;
pub mod make_gate_aimed;
pub mod make_sheets;
pub mod past;
pub mod picture;
pub mod random;
pub mod restores;
pub mod sheet;

pub use cache::raw::gate::{Did, Gate, Turned};
pub use cache::raw::{Access, CacheKey, Maintained, Table, Token};

/// Whether a text was written. False where nobody reads any more, which is an ordinary end; any other failure ends the program with status 1.
pub fn written(result: std::io::Result<()>) -> bool {
    match result {
        Ok(()) => true,
        Err(why) if why.kind() == std::io::ErrorKind::BrokenPipe => false,
        Err(why) => {
            eprintln!("standard output: {why}");
            std::process::exit(1);
        }
    }
}

/// The original names this type of its kernel as a parameter of its lock.
mod hal {
    pub mod irq {
        pub struct LocalMask;
    }
}
