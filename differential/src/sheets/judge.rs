//! Sheets judged whole, by document 01's rules and the original's covenants, and the item viewer.

use super::build::{self, Piece, Sheets};
use super::parse::{self, CoinSheet, Spot, TransactionSheet};
use crate::covenants::build::damage;
use crate::kind::{Kind, short_inputs};
use crate::oracle::Refused;
use crate::random::Random;
use crate::tally::{Case, Tally};
use turgamysk::entries::{self, SheetAnswer, ViewAnswer};

const LONGEST: usize = 16_777_216;

#[derive(Default)]
pub struct Judge {
    sheets: Sheets,
}

fn answer(counts: Result<(usize, usize), Refused>, side: u8) -> SheetAnswer {
    match counts {
        Ok((inputs, outputs)) => SheetAnswer {
            inputs,
            outputs,
            ..SheetAnswer::default()
        },
        Err(verdict) => SheetAnswer {
            stop: verdict.at(0),
            side,
            ..SheetAnswer::default()
        },
    }
}

fn compare_transaction(tally: &mut Tally, sheet: &[u8]) -> Option<TransactionSheet> {
    let parsed = parse::transaction(sheet);
    let counts = parsed
        .as_ref()
        .map(|parsed| {
            let transaction = &parsed.transaction;
            (transaction.inputs.len(), transaction.outputs.len())
        })
        .map_err(|refused| *refused);
    let theirs = answer(counts, 0);
    let ours = entries::judge_transaction(sheet);
    tally.compare(theirs.stop.number, &ours, &theirs, || Case {
        entry: "turgamysk_judge_transaction",
        input: sheet.to_vec(),
        with: String::new(),
    });
    parsed.ok()
}

fn compare_coins(tally: &mut Tally, sheet: &[u8]) -> Option<CoinSheet> {
    let parsed = parse::coins(sheet);
    let counts = parsed
        .as_ref()
        .map(|parsed| (parsed.coins.len(), 0))
        .map_err(|refused| *refused);
    let theirs = answer(counts, 1);
    let ours = entries::judge_coins(sheet);
    tally.compare(theirs.stop.number, &ours, &theirs, || Case {
        entry: "turgamysk_judge_coins",
        input: sheet.to_vec(),
        with: String::new(),
    });
    parsed.ok()
}

/// Both sheets as the original has them, where neither is refused.
type Both = Option<(TransactionSheet, CoinSheet)>;

/// "no also for another side or if either sheet is refused; on no, the part is the empty start of the transaction
/// sheet".
fn viewed(both: &Both, side: u8, record: usize, item: usize) -> ViewAnswer {
    let found = || -> Option<Spot> {
        let (transaction, coins) = both.as_ref()?;
        let spots = match side {
            0 => &transaction.spots,
            1 => &coins.spots,
            _ => return None,
        };
        spots.get(record)?.get(item).copied()
    };
    match found() {
        Some((offset, length)) => ViewAnswer {
            exists: true,
            offset,
            length,
        },
        None => ViewAnswer::default(),
    }
}

fn compare_item(tally: &mut Tally, sheets: &Sheets, both: &Both, view: (u8, usize, usize)) {
    let (side, record, item) = view;
    let theirs = viewed(both, side, record, item);
    let ours = entries::view_item(&sheets.transaction, &sheets.coins, side, record, item);
    tally.compare(0, &ours, &theirs, || Case {
        entry: "turgamysk_view_item",
        input: sheets.transaction.clone(),
        with: format!(
            "coins {:02x?}, side {side}, record {record}, item {item}",
            sheets.coins
        ),
    });
}

fn compare_pair(tally: &mut Tally, sheets: &Sheets) -> Both {
    let transaction = compare_transaction(tally, &sheets.transaction);
    let coins = compare_coins(tally, &sheets.coins);
    transaction.zip(coins)
}

/// A record or item that is there, the first that is not, or any number.
fn place(count: usize, random: &mut Random) -> usize {
    match random.below(16) {
        0 => usize::MAX - random.below(2),
        1 => random.below(1100),
        _ => random.below(count + 1),
    }
}

impl Judge {
    fn compare_view(&self, tally: &mut Tally, both: &Both, random: &mut Random) {
        let side = random.of(&[0, 0, 1, 1, 2, 255]);
        let record = place(3, random);
        let item = place(4, random);
        compare_item(tally, &self.sheets, both, (side, record, item));
    }

    /// Every beginning of two good sheets, every byte of them changed, and every item of them viewed.
    fn neighbours(&mut self, tally: &mut Tally) {
        let mut random = Random::new(0);
        let pairs =
            [(3, 4), (9, 10)].map(|(spent, created)| build::pair(spent, created, 0, &mut random));
        self.sheets.lay(&pairs, 2, &[Piece::default()]);
        let both = compare_pair(tally, &self.sheets);
        for side in 0..=255 {
            for record in 0..4 {
                for item in 0..6 {
                    compare_item(tally, &self.sheets, &both, (side, record, item));
                }
            }
        }
        let Sheets { transaction, coins } = self.sheets.clone();
        changes(&transaction, |sheet| {
            compare_transaction(tally, sheet);
        });
        changes(&coins, |sheet| {
            compare_coins(tally, sheet);
        });
    }

    /// Sheets around the largest size.
    fn longest(&mut self, tally: &mut Tally) {
        let zeros = vec![0; LONGEST + 9];
        for length in [LONGEST - 1, LONGEST, LONGEST + 1, LONGEST + 9] {
            compare_transaction(tally, &zeros[..length]);
            compare_coins(tally, &zeros[..length]);
        }
        let mut sheet = full_sheet();
        compare_transaction(tally, &sheet);
        sheet.push(0);
        compare_transaction(tally, &sheet);
    }
}

/// A transaction sheet of exactly the largest size: 17 outputs of one long item.
fn full_sheet() -> Vec<u8> {
    let mut sheet = Vec::with_capacity(LONGEST + 1);
    build::put_head(&mut sheet, 0, 0, 17);
    let mut piece = Piece::default();
    for left in (1..=17).rev() {
        // 10 bytes of fields, kind, count, and 5 bytes of the item's length.
        let length = (LONGEST - sheet.len()) / left - 17;
        piece.items = vec![vec![0; length]];
        build::put_piece(&mut sheet, &piece);
    }
    assert_eq!(sheet.len(), LONGEST);
    sheet
}

/// Every beginning of a sheet, and every change of one byte of it.
pub fn changes(sheet: &[u8], mut each: impl FnMut(&[u8])) {
    let mut changed = sheet.to_vec();
    for place in 0..sheet.len() {
        each(&sheet[..place]);
        for byte in 0..=255 {
            changed[place] = byte;
            each(&changed);
        }
        changed[place] = sheet[place];
    }
}

/// Every half of a head, with some other halves.
fn heads(mut each: impl FnMut(&[u8])) {
    for half in 0..=u16::MAX {
        let [a, b] = half.to_be_bytes();
        for other in [[0, 0], [0, 1], [0, 0x40], [0x10, 0], [0x14, 1]] {
            each(&[a, b, other[0], other[1]]);
            each(&[other[0], other[1], a, b]);
        }
    }
}

impl Kind for Judge {
    fn name(&self) -> &'static str {
        "sheets"
    }

    fn weight(&self) -> u64 {
        4
    }

    fn exhaustive(&mut self, tally: &mut Tally) {
        short_inputs(2, |sheet| {
            compare_transaction(tally, sheet);
            compare_coins(tally, sheet);
        });
        heads(|sheet| {
            compare_transaction(tally, sheet);
            compare_coins(tally, sheet);
        });
        self.neighbours(tally);
        self.longest(tally);
    }

    fn random(&mut self, random: &mut Random, tally: &mut Tally) {
        build::draw(&mut self.sheets, random);
        if random.once_in(2) {
            damage_one(&mut self.sheets, random);
        }
        let both = compare_pair(tally, &self.sheets);
        self.compare_view(tally, &both, random);
    }
}

/// Damages a sheet, mostly near one of its first records.
pub fn damage_one(sheets: &mut Sheets, random: &mut Random) {
    let sheet = random.of(&[0, 1]);
    let sheet = [&mut sheets.transaction, &mut sheets.coins]
        .into_iter()
        .nth(sheet);
    let sheet = sheet.expect("one of two");
    let from = random.of(&[0, 0, 4, 12, 40, 48]);
    damage(sheet, from, random);
}
