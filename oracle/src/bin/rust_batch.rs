// SPDX-License-Identifier: Apache-2.0
//! Peeks at the keys of each batch case of standard input by the original and writes its line. A case that is cut off ends it. Where the original disagrees
//! with document 02 otherwise than is told in batch.rs, it says so and ends with status 1.
//! Flags: --counts (the differences that decided, on standard error), --show N (case N as decimal numbers, which `rust_gen --batch-cases` reads, and its
//! line).

use std::io::{BufReader, BufWriter, Write, stdin, stdout};
use std::process::ExitCode;

use original::batch::BatchCase;
use original::calls::Differences;
use original::written;

fn main() -> ExitCode {
    let flags: Vec<String> = std::env::args().skip(1).collect();
    let show: Option<u64> = flags.iter().position(|flag| flag == "--show").map(|at| flags[at + 1].parse().expect("a number"));
    let mut input = BufReader::with_capacity(1 << 16, stdin().lock());
    let mut output = BufWriter::with_capacity(1 << 16, stdout().lock());
    let mut differences = Differences::default();
    let mut out = String::new();
    let mut number = 0;
    while let Some(case) = BatchCase::read_bytes(&mut input) {
        if show.is_none_or(|only| only == number) {
            if show.is_some() {
                case.each(&mut |_, number| out.push_str(&format!("{number} ")));
                out.push('\n');
            }
            if let Err(why) = case.run(number, &mut differences, &mut out) {
                written(output.flush());
                eprintln!("rust_batch: case {number}: {why}");
                return ExitCode::FAILURE;
            }
            if !written(output.write_all(out.as_bytes())) {
                return ExitCode::SUCCESS;
            }
            out.clear();
        }
        number += 1;
    }
    written(output.flush());
    if flags.iter().any(|flag| flag == "--counts") {
        eprintln!("{number:>10}  cases");
        differences.report();
    }
    ExitCode::SUCCESS
}
