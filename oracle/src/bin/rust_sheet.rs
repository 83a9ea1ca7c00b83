// SPDX-License-Identifier: Apache-2.0
//! Runs a sheet from standard input on the original. Flags: --trace (the table after each line), --check (stops at the first
//! table that the original's assert_valid would refuse, and at a 10), --counts (differences that decided, on standard error).

use std::io::{BufReader, Read, Write, stdin, stdout};
use std::process::ExitCode;

use original::sheet::{RECORD, Record, Sheet};
use original::written;

fn main() -> ExitCode {
    let flags: Vec<String> = std::env::args().skip(1).collect();
    let flag = |name: &str| flags.iter().any(|flag| flag == name);
    if let Some(unknown) = flags.iter().find(|flag| !["--trace", "--check", "--counts"].contains(&flag.as_str())) {
        eprintln!("rust_sheet: unknown flag {unknown}");
        return ExitCode::from(2);
    }
    let (trace, check) = (flag("--trace"), flag("--check"));
    let mut input = BufReader::with_capacity(1 << 16, stdin().lock());
    let mut output = stdout().lock();
    let mut out = Vec::new();
    let mut sheet = Sheet::default();
    let mut fault = None;
    for number in 0u64.. {
        let mut bytes = Vec::with_capacity(RECORD);
        input.by_ref().take(RECORD as u64).read_to_end(&mut bytes).expect("standard input");
        if bytes.is_empty() {
            break;
        }
        // A short tail is bad, as an unknown code is.
        let record = bytes.as_slice().try_into().map_or(Record::default(), Record::read);
        let Some(line) = sheet.step(&record) else {
            out.extend(format!("{number} bad\n").bytes());
            break;
        };
        sheet.write_line(number, line, &mut out);
        if trace {
            sheet.write_table(&mut out);
        }
        out.push(b'\n');
        if check {
            fault = if line.word == "refused" && line.number == Some(10) { Some("a stop") } else { sheet.fault() };
            if fault.is_some() {
                break;
            }
        }
        if out.len() > 1 << 16 && !write(&mut output, &mut out) {
            return ExitCode::SUCCESS;
        }
    }
    write(&mut output, &mut out);
    if flag("--counts") {
        sheet.differences.report();
    }
    if let Some(fault) = fault {
        eprintln!("rust_sheet: after the last line: {fault}");
        return ExitCode::FAILURE;
    }
    ExitCode::SUCCESS
}

/// False where nobody reads any more.
fn write(output: &mut impl Write, out: &mut Vec<u8>) -> bool {
    let reads = written(output.write_all(out).and_then(|()| output.flush()));
    out.clear();
    reads
}
