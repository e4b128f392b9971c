//! `decode` with its directory, and single items of what it accepts.

use super::build;
use super::lent::Lent;
use crate::kind::{Kind, short_inputs};
use crate::oracle::{self, Refused, guarded};
use crate::random::Random;
use crate::tally::{Case, Tally};
use hns_covenants::Covenant;
use turgamysk::{CovenantKind, entries};

#[derive(Default)]
pub struct Decode {
    bytes: Vec<u8>,
    lent: Lent,
}

impl Decode {
    fn compare(&mut self, tally: &mut Tally, bytes: &[u8]) -> Option<Covenant> {
        let ours = entries::covenant_decode(bytes, &mut self.lent.directory);
        let (theirs, covenant) = oracle::covenant_decode(bytes);
        let filled = self.lent.is_filled(bytes, 0, covenant.as_ref());
        tally.compare(theirs.stop.number, &(ours, filled), &(theirs, true), || {
            Case {
                entry: "turgamysk_covenant_decode",
                input: bytes.to_vec(),
                with: "true: the directory is as expected".to_string(),
            }
        });
        covenant
    }

    fn compare_items(&self, tally: &mut Tally, covenant: &Covenant) {
        let ours = turgamysk::Covenant {
            kind: CovenantKind(covenant.kind.as_u8()),
            source: &self.bytes,
            directory: &self.lent.directory,
            count: covenant.items.len(),
        };
        let count = covenant.items.len();
        for index in (0..count.min(6)).chain([count, count + 1, 999, 1000, usize::MAX]) {
            compare_item(tally, &ours, covenant, index);
        }
    }
}

type Item<'a> = (
    Option<&'a [u8]>,
    Result<Option<u8>, Refused>,
    Option<u32>,
    Option<u64>,
    Option<[u8; 32]>,
);

fn compare_item(tally: &mut Tally, ours: &turgamysk::Covenant, theirs: &Covenant, index: usize) {
    let our_item: Item = (
        ours.item(index),
        Ok(ours.item_u8(index)),
        ours.item_u32(index),
        ours.item_u64(index),
        ours.item_name_hash(index).map(|hash| hash.0),
    );
    let item = theirs.item(index);
    let mut byte = guarded(|| Ok(theirs.item_u8(index)));
    if byte.is_err() && item == Some(&[]) {
        tally.known("item_u8-empty");
        // This is what ours must say there.
        byte = Ok(None);
    }
    let their_item: Item = (
        item,
        byte,
        theirs.item_u32(index),
        theirs.item_u64(index),
        theirs.item_name_hash(index).map(|hash| hash.into_bytes()),
    );
    tally.compare(0, &our_item, &their_item, || Case {
        entry: "item, item_u8, item_u32, item_u64, item_name_hash",
        input: ours.source.to_vec(),
        with: format!("index {index}"),
    });
}

impl Kind for Decode {
    fn name(&self) -> &'static str {
        "covenant decode"
    }

    fn weight(&self) -> u64 {
        15
    }

    fn exhaustive(&mut self, tally: &mut Tally) {
        short_inputs(3, |bytes| {
            self.lent.poison_some();
            self.compare(tally, bytes);
        });
        build::compact_forms(|bytes| {
            self.lent.poison_all();
            self.compare(tally, bytes);
        });
        build::around_largest(|bytes| {
            self.lent.poison_all();
            self.compare(tally, bytes);
        });
    }

    fn random(&mut self, random: &mut Random, tally: &mut Tally) {
        self.bytes.clear();
        build::put_covenant(&mut self.bytes, random);
        if random.once_in(2) {
            build::damage(&mut self.bytes, 0, random);
        }
        self.lent.poison_all();
        let bytes = std::mem::take(&mut self.bytes);
        let covenant = self.compare(tally, &bytes);
        self.bytes = bytes;
        if let Some(covenant) = covenant {
            self.compare_items(tally, &covenant);
        }
    }
}
