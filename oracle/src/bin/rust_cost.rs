// SPDX-License-Identifier: Apache-2.0
//! Writes the line of each cost case of standard input, by the original's resize. The restores are counted in the second build of the original; where its
//! answer, list or table are not those of the unchanged build, more or fewer keys are dropped than evictions counted, or the restores cannot be right, it says
//! so and ends with status 1. A case that is cut off, or of another code than resize's, ends it.
//! Flags: --counts (the differences that decided, on standard error), --show N (case N as decimal numbers, which `rust_gen --cost-cases` reads, and its
//! line).

use std::io::{BufReader, BufWriter, Write, stdin, stdout};
use std::process::ExitCode;

use original::calls::Differences;
use original::case::Case;
use original::cost::{Done, read_bytes};
use original::written;

fn run(case: &Case, number: u64, differences: &mut Differences, out: &mut Vec<u8>) -> Result<(), String> {
    let done = Done::of(case, differences);
    let mut bytes = Vec::new();
    case.write_bytes(&mut bytes);
    let same = counted::cost::read_bytes(&mut &bytes[..]).expect("the case again");
    counted::restores::taken();
    let again = counted::cost::Done::of(&same, &mut counted::calls::Differences::default());
    let restores = counted::restores::taken();
    if original::restores::taken() != 0 {
        return Err("the unchanged build counts".to_string());
    }
    if done.text() != again.text() {
        return Err("the build that counts restores has another answer, list or table than the unchanged one".to_string());
    }
    done.write_line(number, case, restores, differences, out)
}

fn main() -> ExitCode {
    let flags: Vec<String> = std::env::args().skip(1).collect();
    let show: Option<u64> = flags.iter().position(|flag| flag == "--show").map(|at| flags[at + 1].parse().expect("a number"));
    let mut input = BufReader::with_capacity(1 << 16, stdin().lock());
    let mut output = BufWriter::with_capacity(1 << 16, stdout().lock());
    let mut differences = Differences::default();
    let mut out = Vec::new();
    let mut number = 0;
    while let Some(case) = read_bytes(&mut input) {
        if show.is_none_or(|only| only == number) {
            if show.is_some() {
                case.each(&mut |_, number| out.extend(format!("{number} ").bytes()));
                out.push(b'\n');
            }
            if let Err(why) = run(&case, number, &mut differences, &mut out) {
                written(output.flush());
                eprintln!("rust_cost: case {number}: {why}");
                return ExitCode::FAILURE;
            }
            if !written(output.write_all(&out)) {
                return ExitCode::SUCCESS;
            }
            out.clear();
        }
        number += 1;
    }
    written(output.flush());
    if flags.iter().any(|flag| flag == "--counts") {
        eprintln!("{number:>10}  cases");
        differences.report();
    }
    ExitCode::SUCCESS
}
