// SPDX-License-Identifier: Apache-2.0
//! Writes sheets, made-up tables, gate cases, batch cases and cost cases to standard output. The README says what each form makes.

use std::io::{BufWriter, Write, stdin, stdout};
use std::process::ExitCode;

use original::batch::BatchCase;
use original::case::Case;
use original::gate_case::GateCase;
use original::make_aimed::aimed;
use original::make_batch::batches;
use original::make_batch_aimed::batch_aimed;
use original::make_cases::cases;
use original::make_cost::{costs, sheet_costs};
use original::make_cost_aimed::cost_aimed;
use original::make_gate::{every_list, lists};
use original::make_gate_aimed::gate_aimed;
use original::make_sheets::{Maker, ends, exhaustive, exhaustive_deep};
use original::sheet::{RESIZE, Record};
use original::written;

const USAGE: &str = "usage: rust_gen SEED RECORDS | --exhaustive CAPACITY LENGTH | --deep CAPACITY LENGTH | --ends CAPACITY |
    --made-up SEED COUNT | --aimed | --aimed-words | --gate SEED COUNT | --gate-exhaustive CAPACITY LENGTH | --gate-aimed | --gate-aimed-words |
    --batch SEED COUNT | --batch-aimed | --batch-aimed-words | --cost SEED COUNT | --cost-sheets SEED COUNT | --cost-aimed |
    --cost-aimed-words | --records | --cases | --gate-cases | --batch-cases | --cost-cases";

/// The lines of standard input that are not empty, each without what follows a # or =.
fn lines() -> Vec<String> {
    let text = std::io::read_to_string(stdin()).expect("standard input");
    let told = |line: &str| line.split(['#', '=']).next().unwrap_or("").trim().to_string();
    text.lines().map(told).filter(|line| !line.is_empty()).collect()
}

fn bytes(write: impl FnOnce(&mut Vec<u8>)) -> Vec<u8> {
    let mut out = Vec::new();
    write(&mut out);
    out
}

fn number(word: &str) -> u64 {
    word.parse().unwrap_or_else(|_| panic!("{word} is no number. {USAGE}"))
}

/// A case of the numbers of a line; `read` takes one after the other.
fn case<C>(line: &str, read: impl FnOnce(&mut dyn FnMut(usize) -> u64) -> C) -> C {
    let mut fields = line.split_whitespace().map(number);
    let case = read(&mut |_| fields.next().expect("more numbers in the case"));
    assert_eq!(fields.next(), None, "fewer numbers in the case");
    case
}

fn main() -> ExitCode {
    let words: Vec<String> = std::env::args().skip(1).collect();
    let words: Vec<&str> = words.iter().map(String::as_str).collect();
    let mut output = BufWriter::with_capacity(1 << 16, stdout().lock());
    let mut emit = |bytes: &[u8]| {
        if !written(output.write_all(bytes)) {
            std::process::exit(0);
        }
    };
    match words[..] {
        ["--exhaustive", capacity, length] => exhaustive(number(capacity) as u32, number(length) as u32, &mut emit),
        ["--deep", capacity, length] => exhaustive_deep(number(capacity) as u32, number(length) as u32, &mut emit),
        ["--ends", capacity] => emit(&ends(number(capacity) as u32)),
        ["--made-up", seed, count] => cases(number(seed), number(count), &mut |case| emit(&bytes(|out| case.write_bytes(out)))),
        ["--aimed"] => aimed().iter().for_each(|(_, case)| emit(&bytes(|out| case.write_bytes(out)))),
        ["--aimed-words"] => aimed().iter().for_each(|(word, _)| emit(format!("{word}\n").as_bytes())),
        ["--gate", seed, count] => lists(number(seed), number(count), &mut |case| emit(&bytes(|out| case.write_bytes(out)))),
        ["--gate-exhaustive", capacity, length] => every_list(number(capacity), number(length), &mut emit),
        ["--gate-aimed"] => gate_aimed().iter().for_each(|(_, case)| emit(&bytes(|out| case.write_bytes(out)))),
        ["--gate-aimed-words"] => gate_aimed().iter().for_each(|(words, _)| emit(format!("{words}\n").as_bytes())),
        ["--batch", seed, count] => batches(number(seed), number(count), &mut |case| emit(&bytes(|out| case.write_bytes(out)))),
        ["--batch-aimed"] => batch_aimed().iter().for_each(|(_, case)| emit(&bytes(|out| case.write_bytes(out)))),
        ["--batch-aimed-words"] => batch_aimed().iter().for_each(|(words, _)| emit(format!("{words}\n").as_bytes())),
        ["--cost", seed, count] => costs(number(seed), number(count), &mut |case| emit(&bytes(|out| case.write_bytes(out)))),
        ["--cost-sheets", seed, count] => sheet_costs(number(seed), number(count), &mut |case| emit(&bytes(|out| case.write_bytes(out)))),
        ["--cost-aimed"] => cost_aimed().iter().for_each(|(_, case)| emit(&bytes(|out| case.write_bytes(out)))),
        ["--cost-aimed-words"] => cost_aimed().iter().for_each(|(words, _)| emit(format!("{words}\n").as_bytes())),
        ["--records"] => {
            for line in lines() {
                let fields: Vec<u64> = line.split_whitespace().map(number).collect();
                let [code, allow, kind, place, value, file, index] = fields[..] else { panic!("not seven numbers: {line}") };
                let [code, allow, kind, place] = [code, allow, kind, place].map(|field| u8::try_from(field).expect("a byte"));
                let record = Record { code, allow, kind, place, number: u32::try_from(value).expect("32 bits"), file, index };
                emit(&bytes(|out| record.write(out)));
            }
        }
        [form @ ("--cases" | "--cost-cases")] => lines().iter().for_each(|line| {
            let case = case(line, |mut take| Case::read(&mut take));
            assert!(form == "--cases" || case.code == RESIZE, "a cost case has the code of resize");
            emit(&bytes(|out| case.write_bytes(out)));
        }),
        ["--gate-cases"] => lines().iter().for_each(|line| {
            let case = case(line, |mut take| GateCase::read(&mut take)).expect("a first number of 0 or 1 and the code of a call");
            emit(&bytes(|out| case.write_bytes(out)));
        }),
        ["--batch-cases"] => lines().iter().for_each(|line| {
            let case = case(line, |mut take| BatchCase::read(&mut take));
            emit(&bytes(|out| case.write_bytes(out)));
        }),
        [seed, records] => {
            let mut maker = Maker::new(number(seed), number(records));
            while maker.left > 0 {
                maker.episode();
                emit(&maker.out);
                maker.out.clear();
            }
        }
        _ => {
            eprintln!("{USAGE}");
            return ExitCode::from(2);
        }
    }
    written(output.flush());
    ExitCode::SUCCESS
}
