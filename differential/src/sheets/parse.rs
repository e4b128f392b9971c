//! Sheets by document 01's rules, over the original's decoder and covenants: what they hold, in the original's own
//! types.

use crate::covenants::build::compact_width;
use crate::oracle::{Refused, covenant_error, decode_error, decoder_at, guarded, refused};
use hns_covenants::Covenant;
use hns_encoding::Decoder;
use hns_primitives::{Dollarydoos, Height, Outpoint, TransactionHash};
use hns_transaction::{Address, Coin, Input, Output, Transaction, Witness};

/// "at most 16,777,216 bytes a sheet".
const LONGEST: usize = 16_777_216;

/// Where an item stands in its sheet.
pub type Spot = (usize, usize);

pub struct TransactionSheet {
    pub transaction: Transaction,
    /// The items of each output.
    pub spots: Vec<Vec<Spot>>,
}

pub struct CoinSheet {
    pub coins: Vec<Coin>,
    /// The items of each coin.
    pub spots: Vec<Vec<Spot>>,
}

/// The fields of one fixed read: "bit-packed, most significant first".
struct Fields<'a> {
    bytes: &'a [u8],
    bit: usize,
    start: usize,
    side: u8,
}

impl Fields<'_> {
    fn take(&mut self, width: usize) -> u64 {
        let mut value = 0;
        for bit in self.bit..self.bit + width {
            value = value * 2 + u64::from(self.bytes[bit / 8] >> (7 - bit % 8) & 1);
        }
        self.bit += width;
        value
    }

    /// "A wrong fixed field is 27 .. 27 gives the byte where the field begins."
    fn expect(&mut self, width: usize, right: u64) -> Result<(), Refused> {
        let begins = self.start + self.bit / 8;
        if self.take(width) != right {
            return Err(refused(27, [self.side.into(), begins, 0]));
        }
        Ok(())
    }
}

struct Reader<'a> {
    decoder: Decoder<'a>,
    side: u8,
}

impl<'a> Reader<'a> {
    /// Inside a sheet.
    fn at(sheet: &'a [u8], position: usize, side: u8) -> Result<Self, Refused> {
        let decoder = decoder_at(sheet, position)?;
        Ok(Self { decoder, side })
    }

    /// "28 first", then the head: counts of inputs or coins, and of outputs.
    fn open(sheet: &'a [u8], side: u8) -> Result<(Self, usize, usize), Refused> {
        if sheet.len() > LONGEST {
            return Err(refused(28, [side.into(), sheet.len(), 0]));
        }
        let mut reader = Self {
            decoder: Decoder::new(sheet),
            side,
        };
        let mut head = reader.fields(4)?;
        head.expect(4, 1)?;
        head.expect(2, side.into())?;
        let first = head.take(10) as usize;
        let outputs = if side == 1 {
            head.expect(10, 0)?;
            0
        } else {
            head.take(10) as usize
        };
        head.expect(6, 0)?;
        Ok((reader, first, outputs))
    }

    fn slice(&mut self, length: usize) -> Result<&'a [u8], Refused> {
        self.decoder
            .read_slice(length)
            .map_err(|error| decode_error(&error))
    }

    fn fields(&mut self, length: usize) -> Result<Fields<'a>, Refused> {
        let start = self.decoder.position();
        Ok(Fields {
            bytes: self.slice(length)?,
            bit: 0,
            start,
            side: self.side,
        })
    }

    /// "Input: hash, index 32 bits."
    fn outpoint(&mut self) -> Result<Outpoint, Refused> {
        let mut fields = self.fields(36)?;
        let hash: [u8; 32] = fields.bytes[..32].try_into().expect("32 bytes");
        fields.bit = 256;
        Ok(Outpoint {
            transaction_hash: TransactionHash::new(hash),
            index: fields.take(32) as u32,
        })
    }

    /// "Output: value 64, address version 8, spare 2 = 0, hash length 6, hash, covenant by its codec under 1,000,009."
    fn output(&mut self) -> Result<(Output, Vec<Spot>), Refused> {
        let mut fields = self.fields(10)?;
        let value = Dollarydoos::new(fields.take(64));
        let version = fields.take(8) as u8;
        fields.expect(2, 0)?;
        let length = fields.take(6) as usize;
        let hash = self.slice(length)?.to_vec();
        let start = self.decoder.position();
        let decoder = &mut self.decoder;
        let covenant =
            guarded(|| Covenant::decode_from(decoder).map_err(|error| covenant_error(&error)))?;
        let spots = spots(&covenant, start);
        let output = Output {
            value,
            address: Address { version, hash },
            covenant,
        };
        Ok((output, spots))
    }

    /// "leftover bytes are 3".
    fn finish(self) -> Result<(), Refused> {
        self.decoder.finish().map_err(|error| decode_error(&error))
    }
}

/// Where the items of a covenant stand that begins at `start`.
pub fn spots(covenant: &Covenant, start: usize) -> Vec<Spot> {
    let mut at = start + 1 + compact_width(covenant.items.len() as u64);
    covenant
        .items
        .iter()
        .map(|item| {
            let spot = (at + compact_width(item.len() as u64), item.len());
            at = spot.0 + spot.1;
            spot
        })
        .collect()
}

pub fn transaction(sheet: &[u8]) -> Result<TransactionSheet, Refused> {
    let (mut reader, inputs, outputs) = Reader::open(sheet, 0)?;
    let inputs = (0..inputs)
        .map(|_| reader.outpoint().map(input))
        .collect::<Result<_, _>>()?;
    let outputs: Vec<_> = (0..outputs)
        .map(|_| reader.output())
        .collect::<Result<_, _>>()?;
    reader.finish()?;
    let (outputs, spots) = outputs.into_iter().unzip();
    let transaction = Transaction {
        version: 0,
        inputs,
        outputs,
        locktime: 0,
    };
    Ok(TransactionSheet { transaction, spots })
}

fn input(previous_output: Outpoint) -> Input {
    Input {
        previous_output,
        sequence: 0,
        witness: Witness::default(),
    }
}

pub fn coins(sheet: &[u8]) -> Result<CoinSheet, Refused> {
    let (mut reader, count, _) = Reader::open(sheet, 1)?;
    let coins: Vec<_> = (0..count)
        .map(|_| coin(&mut reader))
        .collect::<Result<_, _>>()?;
    reader.finish()?;
    let (coins, spots) = coins.into_iter().unzip();
    Ok(CoinSheet { coins, spots })
}

/// "Coin: outpoint as an input, then as an output."
fn coin(reader: &mut Reader) -> Result<(Coin, Vec<Spot>), Refused> {
    let outpoint = reader.outpoint()?;
    let (output, spots) = reader.output()?;
    let coin = Coin {
        outpoint,
        value: output.value,
        height: Height::new(0),
        coinbase: false,
        address: output.address,
        covenant: output.covenant,
    };
    Ok((coin, spots))
}

/// What one read gave, and where the decoder then stands.
pub type At<T> = (Result<T, Refused>, usize);

/// The input at a position.
pub fn input_at(sheet: &[u8], position: usize) -> At<Outpoint> {
    match Reader::at(sheet, position, 0) {
        Ok(mut reader) => (reader.outpoint(), reader.decoder.position()),
        Err(refused) => (Err(refused), position),
    }
}

/// The output at a position. A wrong field is refused where it begins, the other refusals where the decoder stands.
pub fn output_at(sheet: &[u8], position: usize, side: u8) -> At<Output> {
    let mut reader = match Reader::at(sheet, position, side) {
        Ok(reader) => reader,
        Err(refused) => return (Err(refused), position),
    };
    let output = reader.output().map(|(output, _)| output);
    let stand = match output {
        Err(Refused {
            number: 27, second, ..
        }) => second,
        _ => reader.decoder.position(),
    };
    (output, stand)
}
