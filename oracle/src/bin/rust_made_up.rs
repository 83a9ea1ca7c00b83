// SPDX-License-Identifier: Apache-2.0
//! Runs each case of standard input (a made-up table and one call) on the original and writes its line.
//! Flags: --counts (the differences that decided, on standard error), --show N (case N as decimal numbers, which
//! `rust_gen --cases` reads, and its line).

use std::io::{BufReader, BufWriter, Write, stdin, stdout};

use original::calls::Differences;
use original::case::Case;
use original::written;

fn main() {
    let flags: Vec<String> = std::env::args().skip(1).collect();
    let show: Option<u64> = flags.iter().position(|flag| flag == "--show").map(|at| flags[at + 1].parse().expect("a number"));
    let mut input = BufReader::with_capacity(1 << 16, stdin().lock());
    let mut output = BufWriter::with_capacity(1 << 16, stdout().lock());
    let mut differences = Differences::default();
    let mut out = Vec::new();
    let mut number = 0;
    while let Some(case) = Case::read_bytes(&mut input) {
        if show.is_none_or(|only| only == number) {
            if show.is_some() {
                case.each(&mut |_, number| out.extend(format!("{number} ").bytes()));
                out.push(b'\n');
            }
            case.run(number, &mut differences, &mut out);
            if !written(output.write_all(&out)) {
                return;
            }
            out.clear();
        }
        number += 1;
    }
    written(output.flush());
    if flags.iter().any(|flag| flag == "--counts") {
        eprintln!("{number:>10}  cases");
        differences.report();
    }
}
