//! The report lines: the samples of the repository, and short, long, empty and hostile arguments.

use std::fs;
use std::path::{Path, PathBuf};
use turgamysk::{Refusal, link_line, name_line};

const TRANSACTION: [u8; 4] = [0x10, 0, 0, 0];
const COINS: [u8; 4] = [0x14, 0, 0, 0];
/// The most bytes of a sheet that the link report reads.
const LONGEST: usize = 32_768;

/// What is written into a long buffer, and that nothing is written after it.
fn line(write: impl Fn(&mut [u8]) -> Result<usize, Refusal>) -> String {
    let mut out = [0xee; 200];
    let size = write(&mut out).unwrap();
    assert!(out[size..].iter().all(|byte| *byte == 0xee));
    String::from_utf8(out[..size].to_vec()).unwrap()
}

fn of_links(transaction: &[u8], coins: &[u8]) -> String {
    line(|out| link_line(transaction, coins, out))
}

fn of_name(file: &[u8]) -> String {
    line(|out| name_line(file, out))
}

/// The samples that have a file of this name.
fn samples_with(file: &str) -> Vec<PathBuf> {
    let folder = Path::new(env!("CARGO_MANIFEST_DIR")).join("../../samples");
    let samples = fs::read_dir(folder).unwrap().map(|sample| sample.unwrap());
    samples
        .map(|sample| sample.path())
        .filter(|sample| sample.join(file).exists())
        .collect()
}

fn content(sample: &Path, file: &str) -> Vec<u8> {
    fs::read(sample.join(file)).unwrap()
}

fn expected(sample: &Path) -> String {
    String::from_utf8(content(sample, "line.txt")).unwrap()
}

#[test]
fn samples_of_sheets_give_their_lines() {
    let samples = samples_with("tx.sheet");
    assert_eq!(samples.len(), 6);
    for sample in samples {
        let transaction = content(&sample, "tx.sheet");
        let coins = content(&sample, "coins.sheet");
        assert_eq!(of_links(&transaction, &coins), expected(&sample));
    }
}

#[test]
fn samples_of_states_give_their_lines() {
    let samples = samples_with("state.bin");
    assert_eq!(samples.len(), 5);
    for sample in samples {
        let file = content(&sample, "state.bin");
        assert_eq!(of_name(&file), expected(&sample));
    }
}

#[test]
fn a_line_takes_all_its_room_or_none() {
    let size = of_links(&TRANSACTION, &COINS).len();
    for room in 0..size {
        let mut out = vec![0xee; room];
        let written = link_line(&TRANSACTION, &COINS, &mut out);
        assert_eq!(written, Err(Refusal::NoRoom { needed: size }));
        assert!(out.iter().all(|byte| *byte == 0xee));
    }
    let mut exact = vec![0xee; size];
    assert_eq!(link_line(&TRANSACTION, &COINS, &mut exact), Ok(size));
    assert_eq!(exact[size - 1], b'\n');
    let size = of_name(&[]).len();
    for room in 0..size {
        let mut out = vec![0xee; room];
        let written = name_line(&[], &mut out);
        assert_eq!(written, Err(Refusal::NoRoom { needed: size }));
        assert!(out.iter().all(|byte| *byte == 0xee));
    }
    assert_eq!(name_line(&[], &mut vec![0; size]), Ok(size));
}

#[test]
fn sheets_are_judged_in_their_order() {
    assert_eq!(of_links(&[], &[]), "refused 1\n");
    assert_eq!(of_links(&COINS, &[]), "refused 27\n");
    assert_eq!(of_links(&TRANSACTION, &[0x14, 0, 0, 0, 9]), "refused 3\n");
}

#[test]
fn a_broken_rule_is_told_with_its_place() {
    let mut output = vec![0x10, 0, 0, 0x40];
    output.extend([0, 0, 0, 0, 0, 0, 0, 0, 0, 0, 4, 0]);
    assert_eq!(of_links(&output, &COINS), "refused 26 at 0\n");
}

#[test]
fn long_sheets_are_refused_before_they_are_read() {
    let long = vec![0; LONGEST + 1];
    assert_eq!(of_links(&long, &COINS), "refused 28\n");
    assert_eq!(of_links(&long[..LONGEST], &COINS), "refused 27\n");
    assert_eq!(of_links(&TRANSACTION, &long), "refused 28\n");
    assert_eq!(of_links(&TRANSACTION, &long[..LONGEST]), "refused 27\n");
    assert_eq!(of_links(&[], &long), "refused 1\n");
}

#[test]
fn a_file_shorter_than_a_key_and_any_record_has_a_line() {
    for length in 0..45 {
        assert_eq!(of_name(&vec![0; length]), "refused 1\n", "{length}");
    }
    assert_eq!(of_name(&[0; 45]), "state null name=0 bytes=13\n");
    assert_eq!(of_name(&[0; 46]), "refused 3\n");
    assert_eq!(of_name(&[0; 32 + 669]), "refused 5\n");
    assert_eq!(of_name(&[0xff; 4096]), "refused 5\n");
    assert_eq!(of_name(&[0xff; 100]), "refused 7\n");
}
