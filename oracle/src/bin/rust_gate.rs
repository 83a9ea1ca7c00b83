// SPDX-License-Identifier: Apache-2.0
//! Runs each gate case of standard input on the original and writes its line. A case that is cut off or bad ends it.
//! Flags: --counts (the differences that decided, on standard error), --show N (case N, after the cases since the last table that came or was made, as
//! decimal numbers, which `rust_gen --gate-cases` reads, and its line), --codes (of each case its code, word and number, in place of its line).

use std::io::{BufReader, BufWriter, Write, stdin, stdout};

use original::calls::Differences;
use original::case::Held;
use original::gate_case::GateCase;
use original::written;

fn main() {
    let flags: Vec<String> = std::env::args().skip(1).collect();
    let codes = flags.iter().any(|flag| flag == "--codes");
    let show: Option<u64> = flags.iter().position(|flag| flag == "--show").map(|at| flags[at + 1].parse().expect("a number"));
    let mut input = BufReader::with_capacity(1 << 16, stdin().lock());
    let mut output = BufWriter::with_capacity(1 << 16, stdout().lock());
    let mut differences = Differences::default();
    let mut held = Held::default();
    let mut since: Vec<GateCase> = Vec::new();
    let mut out = Vec::new();
    let mut number = 0;
    while let Some(case) = GateCase::read_bytes(&mut input) {
        let answer = case.run(&mut held, &mut differences);
        let code = case.case.code;
        if let Some(last) = show {
            if case.begins(&answer) {
                since.clear();
            }
            since.push(case);
            if number == last {
                for case in &since {
                    case.each(&mut |_, number| out.extend(format!("{number} ").bytes()));
                    out.push(b'\n');
                }
            }
        }
        if show.is_none_or(|only| only == number) {
            if codes {
                out.extend(format!("{code} {}\n", answer.line).bytes());
            } else {
                answer.write_gate_line(number, &held, &mut out);
            }
            if !written(output.write_all(&out)) {
                return;
            }
            out.clear();
        }
        number += 1;
    }
    written(output.flush());
    if flags.iter().any(|flag| flag == "--counts") {
        eprintln!("{number:>10}  cases");
        differences.report();
    }
}
