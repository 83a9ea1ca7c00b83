// SPDX-License-Identifier: Apache-2.0
//! Runs a sheet from standard input through the original in place, and prints the lines of `runsheet`. bench/run times it beside `runsheet`.

use original::in_place::Lines;
use std::io::{Read, Write, stdin, stdout};

fn main() {
    let (mut input, mut output) = (stdin().lock(), stdout().lock());
    let mut records = vec![0; 24 * 2048];
    let mut lines = Lines::default();
    let mut out = Vec::new();
    loop {
        let mut have = 0;
        while have < records.len() {
            match input.read(&mut records[have..]).expect("standard input") {
                0 => break,
                more => have += more,
            }
        }
        let goes_on = lines.run(&records[..have], &mut out);
        output.write_all(&out).expect("standard output");
        out.clear();
        if !goes_on || have < records.len() {
            return;
        }
    }
}
