//! Links over two sheets, against the original's types and verifier.

use crate::oracle;
use crate::sheets::{RESOURCE, sheets, size};
use crate::task::{Heading, Label, Task, grouped};
use crate::timing::Side;
use std::hint::black_box;
use turgamysk::entries;
use turgamysk_differential::sheets::build::Sheets;

const ORACLE: &str = "parse and hns-rs verify";

/// Both sides accept the sheets with one summary, or both refuse them.
fn same(sheets: &Sheets) -> bool {
    let ours = entries::verify_covenant_links(&sheets.transaction, &sheets.coins);
    let theirs = oracle::verify(&sheets.transaction, &sheets.coins);
    match &theirs {
        Ok(theirs) => {
            let ours = (
                ours.stop.number,
                ours.inputs_checked,
                ours.linked_outputs,
                ours.name_inputs,
            );
            let counts = (
                theirs.inputs_checked,
                theirs.linked_outputs,
                theirs.name_inputs,
            );
            assert_eq!(ours, (0, counts.0, counts.1, counts.2));
        }
        Err(refused) => assert_ne!(ours.stop.number, 0, "{refused}"),
    }
    theirs.is_ok()
}

pub fn accepted(sheets: &Sheets) {
    assert!(same(sheets));
}

/// Each byte of one sheet changed, and each beginning of it.
fn damage(good: &Sheets, of: fn(&mut Sheets) -> &mut Vec<u8>) {
    for place in 0..of(&mut good.clone()).len() {
        let mut changed = good.clone();
        of(&mut changed)[place] ^= 1 << (place % 8);
        same(&changed);
        let mut cut = good.clone();
        of(&mut cut).truncate(place);
        assert!(!same(&cut));
    }
    let mut longer = good.clone();
    of(&mut longer).push(0);
    assert!(!same(&longer));
}

/// Both sides accept the sheets that are measured, and accept or refuse alike damaged copies of the smaller ones.
pub fn agree() {
    for pairs in [2, 200] {
        accepted(&sheets(pairs, RESOURCE));
    }
    let good = sheets(2, RESOURCE);
    damage(&good, |sheets| &mut sheets.transaction);
    damage(&good, |sheets| &mut sheets.coins);
}

pub fn sides(sheets: &Sheets) -> Vec<Side<'_>> {
    let (transaction, coins) = (&sheets.transaction, &sheets.coins);
    vec![
        Side::new("turgamysk", || {
            black_box(entries::verify_covenant_links(
                black_box(transaction),
                black_box(coins),
            ));
        }),
        Side::new(ORACLE, || {
            black_box(oracle::verify(black_box(transaction), black_box(coins)).is_ok());
        }),
    ]
}

pub fn table(task: &mut dyn Task) {
    task.table(Heading::new("Links over two sheets", "sheets", &[2.0]));
    for (label, pairs) in [("2 inputs, 2 outputs", 2), ("200 inputs, 200 outputs", 200)] {
        let sheets = sheets(pairs, RESOURCE);
        let label = format!("{label}, {} bytes", grouped(size(&sheets) as u64));
        task.row(Label::Text(label), sides(&sheets));
    }
}
