//! Sheets, judged whole, their inputs and outputs one by one, and the item viewer.

use crate::covenant::CovenantKind;
use crate::decoder::Decoder;
use crate::entries::{self, SheetAnswer};
use crate::primitives::{Dollarydoos, Outpoint};
use crate::refusal::{Refusal, Stop};
use core::error::Error;
use core::fmt;

/// What an accepted transaction sheet has.
#[derive(Clone, Copy, Debug, Eq, PartialEq)]
pub struct TransactionCounts {
    /// Its inputs.
    pub inputs: usize,
    /// Its outputs.
    pub outputs: usize,
}

/// A refused sheet.
#[derive(Clone, Copy, Debug, Eq, PartialEq)]
pub struct SheetStop {
    /// The row of the table, with what it carries.
    pub refusal: Refusal,
    /// Which sheet it is about: 0 the transaction's, 1 the coins'.
    pub side: u8,
}

impl fmt::Display for SheetStop {
    fn fmt(&self, formatter: &mut fmt::Formatter<'_>) -> fmt::Result {
        write!(formatter, "{} on side {}", self.refusal, self.side)
    }
}

impl Error for SheetStop {}

fn counts(answer: &SheetAnswer) -> Result<TransactionCounts, SheetStop> {
    let side = answer.side;
    let verdict = answer.stop.verdict().result();
    verdict.map_err(|refusal| SheetStop { refusal, side })?;
    Ok(TransactionCounts {
        inputs: answer.inputs,
        outputs: answer.outputs,
    })
}

/// A transaction sheet, judged whole.
///
/// ```
/// use turgamysk::{Refusal, judge_transaction};
///
/// assert_eq!(judge_transaction(&[0x10, 0, 0, 0]).unwrap().inputs, 0);
/// let stop = judge_transaction(&[0x14, 0, 0, 0]).unwrap_err();
/// assert_eq!(stop.refusal, Refusal::SheetField { side: 0, offset: 0 });
/// ```
pub fn judge_transaction(sheet: &[u8]) -> Result<TransactionCounts, SheetStop> {
    counts(&entries::judge_transaction(sheet))
}

/// A coin sheet, judged whole: how many coins it has.
///
/// ```
/// use turgamysk::{Refusal, judge_coins};
///
/// assert_eq!(judge_coins(&[0x14, 0, 0, 0]), Ok(0));
/// let stop = judge_coins(&[0x14, 0, 0]).unwrap_err();
/// assert_eq!(stop.refusal, Refusal::UnexpectedEnd { offset: 0, needed: 1 });
/// assert_eq!(stop.side, 1);
/// ```
pub fn judge_coins(sheet: &[u8]) -> Result<usize, SheetStop> {
    counts(&entries::judge_coins(sheet)).map(|counts| counts.inputs)
}

/// Where an output stands in its sheet.
#[derive(Clone, Copy, Debug, Eq, PartialEq)]
pub struct Place {
    /// Its value.
    pub value: Dollarydoos,
    /// The version of its address.
    pub version: u8,
    /// Where the hash of its address begins,
    pub start: usize,
    /// and how many bytes that has.
    pub size: usize,
    /// Where its covenant begins.
    pub covenant: usize,
    /// Its covenant's kind.
    pub kind: CovenantKind,
}

/// The input, or the outpoint of the coin, where the decoder stands in a sheet; the decoder moves on. The index has the
/// highest byte first.
pub fn input_at(decoder: &mut Decoder<'_>) -> Result<Outpoint, Stop> {
    let answer = entries::sheet_input_at(decoder.input(), decoder.position());
    decoder.stand_at(answer.stop.position);
    answer.stop.result().map(|()| answer.outpoint)
}

/// The output, or what follows the outpoint of the coin, where the decoder stands in a sheet; the decoder moves on.
/// [`Refusal::SheetField`] carries `side`.
///
/// ```
/// use turgamysk::{Decoder, Refusal, place_at};
///
/// let mut decoder = Decoder::new(&[0, 0, 0, 0, 0, 0, 0, 9, 4, 1, 0xaa, 7, 0]);
/// let place = place_at(&mut decoder, 0).unwrap();
/// assert_eq!((place.value.0, place.version, place.kind.0), (9, 4, 7));
/// assert_eq!((place.start, place.size, place.covenant, decoder.position()), (10, 1, 11, 13));
///
/// let stop = place_at(&mut Decoder::new(&[0xff; 12]), 1).unwrap_err();
/// assert_eq!(stop.refusal, Refusal::SheetField { side: 1, offset: 9 });
/// ```
pub fn place_at(decoder: &mut Decoder<'_>, side: u8) -> Result<Place, Stop> {
    let answer = entries::sheet_place_at(decoder.input(), decoder.position(), side);
    decoder.stand_at(answer.stop.position);
    answer.stop.result()?;
    Ok(Place {
        value: Dollarydoos(answer.value),
        version: answer.version,
        start: answer.start,
        size: answer.size,
        covenant: answer.covenant,
        kind: CovenantKind(answer.kind),
    })
}

/// The bytes of one item, inside the sheet of its side: of an output on side 0, of a coin on side 1. None also for
/// another side, or if either sheet is refused.
///
/// ```
/// let transaction = [0x10, 0, 0, 0x40, 0, 0, 0, 0, 0, 0, 0, 0, 0, 0, 0, 1, 1, 0xaa];
/// let coins = [0x14, 0, 0, 0];
/// assert_eq!(turgamysk::item(&transaction, &coins, 0, 0, 0), Some(&[0xaa][..]));
/// assert_eq!(turgamysk::item(&transaction, &coins, 0, 0, 1), None);
/// ```
pub fn item<'lent>(
    transaction: &'lent [u8],
    coins: &'lent [u8],
    side: u8,
    record: usize,
    item: usize,
) -> Option<&'lent [u8]> {
    let sheet = if side == 0 { transaction } else { coins };
    entries::view_item(transaction, coins, side, record, item).within(sheet)
}
