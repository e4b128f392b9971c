//! Writes answers of the original into the data of a program that replays them, with what the program is to write:
//! `record CRATE [--check]`.
//! With `--check` nothing is written: the files that stand there are compared.

use std::collections::BTreeMap;
use std::path::Path;
use std::process::ExitCode;
use turgamysk_differential::oracle;
use turgamysk_differential::record::{Book, cases, entry};

/// Writes a file, or says whether it stands there as it would be written.
fn lay(path: &Path, bytes: &[u8], is_check: bool) -> bool {
    if !is_check {
        std::fs::write(path, bytes).expect("the folder is there and can be written to");
        return true;
    }
    let is_same = std::fs::read(path).is_ok_and(|found| found == bytes);
    if !is_same {
        println!("{} differs", path.display());
    }
    is_same
}

/// How often each refusal number of each entry stands in a file; a commitment has none.
fn tally(bytes: &[u8], numbers: &mut BTreeMap<(u8, u8), usize>) {
    let mut rest = bytes;
    while let [number_of_entry, after @ ..] = rest {
        let (_, after) = part(after);
        let (answer, after) = part(after);
        let number = if *number_of_entry == entry::BLIND {
            0
        } else {
            answer[0]
        };
        *numbers.entry((*number_of_entry, number)).or_default() += 1;
        rest = after;
    }
}

/// The bytes after their length, and what follows them.
fn part(bytes: &[u8]) -> (&[u8], &[u8]) {
    let (length, rest) = bytes.split_at(4);
    let length = u32::from_le_bytes(length.try_into().expect("four bytes"));
    rest.split_at(length as usize)
}

fn main() -> ExitCode {
    let words: Vec<String> = std::env::args().skip(1).collect();
    let (folder, is_check) = match &words[..] {
        [folder] => (Path::new(folder), false),
        [folder, check] if check == "--check" => (Path::new(folder), true),
        _ => {
            eprintln!("usage: record CRATE [--check]");
            return ExitCode::FAILURE;
        }
    };
    oracle::print_own_panics_only();
    let mut book = Book::default();
    cases::offer_all(&mut book);
    let mut is_same = true;
    let mut stdout = String::new();
    let mut numbers = BTreeMap::new();
    for (name, file) in book.files() {
        let path = folder.join("data").join(format!("{name}.answers"));
        is_same &= lay(&path, &file.bytes, is_check);
        stdout += &format!(
            "{} {} compared, 0 differ\n",
            name.replace('_', " "),
            file.count
        );
        println!("{name}: {} records, {} bytes", file.count, file.bytes.len());
        tally(&file.bytes, &mut numbers);
    }
    is_same &= lay(&folder.join("stdout"), stdout.as_bytes(), is_check);
    for ((entry, number), count) in &numbers {
        println!("entry {entry}, number {number}: {count}");
    }
    println!("{} records", numbers.values().sum::<usize>());
    if is_same {
        ExitCode::SUCCESS
    } else {
        ExitCode::FAILURE
    }
}
