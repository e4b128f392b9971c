//! Single inputs and outputs of a sheet at a position, by document 01's rules and the original's covenants.

use super::build::{self, Piece, Sheets};
use super::judge::{changes, damage_one};
use super::parse;
use crate::kind::{Kind, short_inputs};
use crate::oracle::Refused;
use crate::random::Random;
use crate::tally::{Case, Tally};
use crate::wire::our_outpoint;
use hns_transaction::Output;
use turgamysk::Outpoint;
use turgamysk::entries::{self, FlatStop, OutpointAnswer, PlaceAnswer};

/// The bytes of an output before its hash.
const FIELDS: usize = 10;

#[derive(Default)]
pub struct Places {
    sheets: Sheets,
}

fn place(output: Result<Output, Refused>, start: usize, position: usize) -> PlaceAnswer {
    match output {
        Ok(output) => PlaceAnswer {
            stop: FlatStop::passed(position),
            value: output.value.get(),
            version: output.address.version,
            start: start + FIELDS,
            size: output.address.hash.len(),
            covenant: start + FIELDS + output.address.hash.len(),
            kind: output.covenant.kind.as_u8(),
        },
        Err(verdict) => PlaceAnswer {
            stop: verdict.at(position),
            ..PlaceAnswer::default()
        },
    }
}

fn compare_output(tally: &mut Tally, sheet: &[u8], position: usize, side: u8) {
    let (output, stand) = parse::output_at(sheet, position, side);
    let theirs = place(output, position, stand);
    let ours = entries::sheet_place_at(sheet, position, side);
    tally.compare(theirs.stop.number, &ours, &theirs, || Case {
        entry: "turgamysk_sheet_place_at",
        input: sheet.to_vec(),
        with: format!("position {position}, side {side}"),
    });
}

fn compare_input(tally: &mut Tally, sheet: &[u8], position: usize) {
    let (outpoint, stand) = parse::input_at(sheet, position);
    let theirs = OutpointAnswer {
        stop: outpoint.err().unwrap_or(Refused::ACCEPTED).at(stand),
        outpoint: outpoint.map_or(Outpoint::ZEROS, |outpoint| our_outpoint(&outpoint)),
    };
    let ours = entries::sheet_input_at(sheet, position);
    tally.compare(theirs.stop.number, &ours, &theirs, || Case {
        entry: "turgamysk_sheet_input_at",
        input: sheet.to_vec(),
        with: format!("position {position}"),
    });
}

fn compare(tally: &mut Tally, sheet: &[u8], position: usize, side: u8) {
    if position > sheet.len() {
        tally.known("cursor-beyond");
    }
    compare_input(tally, sheet, position);
    compare_output(tally, sheet, position, side);
}

impl Kind for Places {
    fn name(&self) -> &'static str {
        "places"
    }

    fn weight(&self) -> u64 {
        4
    }

    fn exhaustive(&mut self, tally: &mut Tally) {
        short_inputs(1, |sheet| {
            for position in [0, 1, 2, 3, usize::MAX - 1, usize::MAX] {
                compare(tally, sheet, position, 0);
            }
        });
        let mut random = Random::new(0);
        let pair = build::pair(9, 10, 0, &mut random);
        self.sheets.lay(&[pair], 1, &[Piece::default()]);
        let Sheets { transaction, coins } = &self.sheets;
        for side in 0..=255 {
            for position in 0..transaction.len() + 3 {
                compare(tally, transaction, position, side);
            }
        }
        changes(coins, |sheet| {
            compare(tally, sheet, 4, 1);
            compare(tally, sheet, 40, 1);
        });
    }

    fn random(&mut self, random: &mut Random, tally: &mut Tally) {
        build::draw(&mut self.sheets, random);
        if random.once_in(2) {
            damage_one(&mut self.sheets, random);
        }
        let sheet = match random.below(2) {
            0 => &self.sheets.transaction,
            _ => &self.sheets.coins,
        };
        let position = match random.below(8) {
            0 => random.below(sheet.len() + 4),
            1 => usize::MAX - random.below(3),
            _ => random.of(&[4, 40, 76, 112]),
        };
        compare(tally, sheet, position, random.of(&[0, 1, 1, 2, 255]));
    }
}
