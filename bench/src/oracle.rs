//! The oracle's path over two sheets: into the original's `Transaction` and `Coin`s, by its own decoder and covenants,
//! and then its verifier. Nothing here is slower than it has to be: what it measures is to be the original.

use hns_covenants::Covenant;
use hns_encoding::Decoder;
use hns_primitives::{Dollarydoos, Height, Outpoint, TransactionHash};
use hns_transaction::{
    Address, Coin, CovenantLinkSummary, Input, Output, Transaction, Witness, verify_covenant_links,
};
use std::error::Error;

type Parsed<T> = Result<T, Box<dyn Error>>;

const LONGEST: usize = 16_777_216;

/// A sheet's decoder after its head, and the two counts of the head.
fn open(sheet: &[u8], side: u32) -> Parsed<(Decoder<'_>, usize, usize)> {
    if sheet.len() > LONGEST {
        return Err("the sheet is too long".into());
    }
    let mut decoder = Decoder::new(sheet);
    let head = u32::from_be_bytes(decoder.read_array()?);
    let count = |shift: u32| (head >> shift) as usize & 0x3ff;
    let (first, outputs) = (count(16), count(6));
    if head >> 26 != 1 << 2 | side || head & 0x3f != 0 || side == 1 && outputs != 0 {
        return Err("a field of the head is wrong".into());
    }
    Ok((decoder, first, outputs))
}

fn outpoint(decoder: &mut Decoder) -> Parsed<Outpoint> {
    Ok(Outpoint {
        transaction_hash: TransactionHash::new(decoder.read_array()?),
        index: u32::from_be_bytes(decoder.read_array()?),
    })
}

fn input(decoder: &mut Decoder) -> Parsed<Input> {
    Ok(Input {
        previous_output: outpoint(decoder)?,
        sequence: 0,
        witness: Witness::default(),
    })
}

fn output(decoder: &mut Decoder) -> Parsed<Output> {
    let value = u64::from_be_bytes(decoder.read_array()?);
    let [version, length] = decoder.read_array()?;
    if length >> 6 != 0 {
        return Err("a field of an output is wrong".into());
    }
    let hash = decoder.read_slice(length.into())?.to_vec();
    Ok(Output {
        value: Dollarydoos::new(value),
        address: Address { version, hash },
        covenant: Covenant::decode_from(decoder)?,
    })
}

fn coin(decoder: &mut Decoder) -> Parsed<Coin> {
    let outpoint = outpoint(decoder)?;
    let output = output(decoder)?;
    Ok(Coin {
        outpoint,
        value: output.value,
        height: Height::new(0),
        coinbase: false,
        address: output.address,
        covenant: output.covenant,
    })
}

/// `count` records, into a vector that is made once.
fn records<T>(
    decoder: &mut Decoder,
    count: usize,
    read: impl Fn(&mut Decoder) -> Parsed<T>,
) -> Parsed<Vec<T>> {
    let mut records = Vec::with_capacity(count);
    for _ in 0..count {
        records.push(read(decoder)?);
    }
    Ok(records)
}

fn transaction(sheet: &[u8]) -> Parsed<Transaction> {
    let (mut decoder, inputs, outputs) = open(sheet, 0)?;
    let inputs = records(&mut decoder, inputs, input)?;
    let outputs = records(&mut decoder, outputs, output)?;
    decoder.finish()?;
    Ok(Transaction {
        version: 0,
        inputs,
        outputs,
        locktime: 0,
    })
}

fn coins(sheet: &[u8]) -> Parsed<Vec<Coin>> {
    let (mut decoder, count, _) = open(sheet, 1)?;
    let coins = records(&mut decoder, count, coin)?;
    decoder.finish()?;
    Ok(coins)
}

#[inline(never)]
pub fn verify(transaction_sheet: &[u8], coin_sheet: &[u8]) -> Parsed<CovenantLinkSummary> {
    let transaction = transaction(transaction_sheet)?;
    let coins = coins(coin_sheet)?;
    Ok(verify_covenant_links(&transaction, &coins)?)
}
