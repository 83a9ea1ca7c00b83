// SPDX-License-Identifier: Apache-2.0
//! The smallest sheet that shows a difference: rust_smallest SHEET COMMAND COMMAND. The commands read a sheet from standard input. Records are
//! left out, one or two at a time, and capacities made smaller, as long as the two still write different lines.

use std::fs::File;
use std::path::Path;
use std::process::{Command, ExitCode, Stdio};

use original::sheet::{NEW, RECORD, RESIZE, Record};

/// Up to this length pairs of records are tried.
const FEW: usize = 40;

struct Pair {
    commands: [String; 2],
    /// Where a sheet stands while the commands read it.
    place: std::path::PathBuf,
}

impl Pair {
    fn outputs(&self, sheet: &[Record]) -> [Vec<u8>; 2] {
        let mut bytes = Vec::new();
        sheet.iter().for_each(|record| record.write(&mut bytes));
        std::fs::write(&self.place, bytes).expect("a sheet written");
        self.commands.each_ref().map(|command| {
            let input = File::open(&self.place).expect("the sheet");
            let run = Command::new("sh").args(["-c", command]).stdin(input).stderr(Stdio::null()).output();
            run.expect("a command that runs").stdout
        })
    }

    /// The number of the first line that is not the same in both, with the two.
    fn difference(&self, sheet: &[Record]) -> Option<(usize, [String; 2])> {
        let texts = self.outputs(sheet).map(|bytes| String::from_utf8_lossy(&bytes).into_owned());
        let [mut one, mut other] = texts.each_ref().map(|text| text.lines());
        for number in 0.. {
            let lines = [one.next(), other.next()];
            if lines == [None, None] {
                break;
            }
            if lines[0] != lines[1] {
                return Some((number, lines.map(|line| line.unwrap_or("(nothing)").to_string())));
            }
        }
        None
    }

    /// The records up to the one whose line differs, if one does.
    fn cut(&self, sheet: &[Record]) -> Option<Vec<Record>> {
        let (number, _) = self.difference(sheet)?;
        Some(sheet[..sheet.len().min(number + 1)].to_vec())
    }

    fn smallest(&self, mut sheet: Vec<Record>) -> Vec<Record> {
        let last_new = sheet.iter().rposition(|record| record.code == NEW).unwrap_or(0);
        if let Some(shorter) = self.cut(&sheet[last_new..]) {
            sheet = shorter;
        }
        let mut size = sheet.len() / 2;
        while size > 0 {
            let before = sheet.len();
            let mut at = 0;
            while at < sheet.len() {
                let mut without = sheet.clone();
                without.drain(at..sheet.len().min(at + size));
                match self.cut(&without) {
                    Some(shorter) => sheet = shorter,
                    None => at += size,
                }
            }
            // Once more with single records while that helps.
            if size > 1 || sheet.len() == before {
                size /= 2;
            }
        }
        while sheet.len() <= FEW {
            match self.neighbour(&sheet) {
                Some(smaller) => sheet = smaller,
                None => break,
            }
        }
        sheet
    }

    /// A sheet that still shows a difference: two records fewer or one, or the same number or fewer with a capacity less by 1.
    fn neighbour(&self, sheet: &[Record]) -> Option<Vec<Record>> {
        let without = |one: usize, other: usize| -> Vec<Record> {
            let kept = sheet.iter().enumerate().filter(|(at, _)| *at != one && *at != other);
            kept.map(|(_, record)| *record).collect()
        };
        // Left out: none (both numbers past the end), one or two records.
        let pairs = || (0..=sheet.len()).flat_map(|one| (one.max(1)..=sheet.len()).map(move |other| (one, other)));
        let fewer = pairs().filter(|(one, _)| *one < sheet.len()).find_map(|(one, other)| self.cut(&without(one, other)));
        fewer.or_else(|| {
            pairs().find_map(|(one, other)| {
                let mut lower = without(one, other);
                (0..lower.len()).find_map(|at| {
                    if ![NEW, RESIZE].contains(&lower[at].code) {
                        return None;
                    }
                    lower[at].number = lower[at].number.checked_sub(1).filter(|number| *number > 0)?;
                    let found = self.cut(&lower);
                    lower[at].number += 1;
                    found
                })
            })
        })
    }
}

fn main() -> ExitCode {
    let words: Vec<String> = std::env::args().skip(1).collect();
    let [path, one, other] = &words[..] else {
        eprintln!("usage: rust_smallest SHEET COMMAND COMMAND");
        return ExitCode::from(2);
    };
    let bytes = std::fs::read(Path::new(path)).expect("the sheet");
    let sheet: Vec<Record> = bytes.chunks_exact(RECORD).map(|record| Record::read(record.try_into().unwrap())).collect();
    let place = std::env::temp_dir().join(format!("rust_smallest.{}", std::process::id()));
    let pair = Pair { commands: [one.clone(), other.clone()], place };
    let Some(sheet) = pair.cut(&sheet) else {
        println!("no difference");
        return ExitCode::SUCCESS;
    };
    let sheet = pair.smallest(sheet);
    println!("# code allow kind place number file index");
    for Record { code, allow, kind, place, number, file, index } in &sheet {
        println!("{code} {allow} {kind} {place} {number} {file} {index}");
    }
    if let Some((_, lines)) = pair.difference(&sheet) {
        println!("# {one}\n# {}\n# {other}\n# {}", lines[0], lines[1]);
    }
    let _ = std::fs::remove_file(&pair.place);
    ExitCode::FAILURE
}
