//! Reads at a position.

use super::{SIZES, our_outpoint};
use crate::covenants::build::put_compact;
use crate::kind::{Kind, short_inputs};
use crate::oracle::{decode_error, decoder_at};
use crate::random::Random;
use crate::tally::{Case, Tally};
use hns_encoding::{DecodeError, Decoder};
use hns_primitives::TransactionHash;
use turgamysk::Outpoint;
use turgamysk::entries::{self, FlatStop, NumberAnswer, OutpointAnswer, SpanAnswer};

/// A read of the original at a position: its value and where the decoder stands, or the refusal with the position.
type Read<T> = Result<(T, usize), FlatStop>;

fn read<'a, T>(
    bytes: &'a [u8],
    position: usize,
    call: impl FnOnce(&mut Decoder<'a>) -> Result<T, DecodeError>,
) -> Read<T> {
    let mut decoder = decoder_at(bytes, position).map_err(|refused| refused.at(position))?;
    match call(&mut decoder) {
        Ok(value) => Ok((value, decoder.position())),
        Err(error) => Err(decode_error(&error).at(decoder.position())),
    }
}

fn number(read: Read<u64>) -> NumberAnswer {
    match read {
        Ok((value, position)) => NumberAnswer {
            stop: FlatStop::passed(position),
            value,
        },
        Err(stop) => NumberAnswer { stop, value: 0 },
    }
}

/// Bytes that were read stand in front of where the decoder then stands.
fn span(read: Read<usize>) -> SpanAnswer {
    match read {
        Ok((length, position)) => SpanAnswer {
            stop: FlatStop::passed(position),
            start: position - length,
            length,
        },
        Err(stop) => SpanAnswer {
            stop,
            ..SpanAnswer::default()
        },
    }
}

fn moved<T>(read: &Read<T>) -> FlatStop {
    match read {
        Ok((_, position)) => FlatStop::passed(*position),
        Err(stop) => *stop,
    }
}

/// Where a read begins, and the sizes that it is given.
#[derive(Clone, Copy, Debug)]
struct At {
    position: usize,
    size: usize,
    maximum: usize,
}

#[derive(Default)]
pub struct Reads {
    bytes: Vec<u8>,
}

fn compare_numbers(tally: &mut Tally, bytes: &[u8], at: At) {
    let position = at.position;
    let mut compare = |entry, ours: NumberAnswer, theirs: Read<u64>| {
        let theirs = number(theirs);
        tally.compare(theirs.stop.number, &ours, &theirs, || Case {
            entry,
            input: bytes.to_vec(),
            with: format!("{at:?}"),
        });
    };
    compare(
        "turgamysk_read_u8",
        entries::read_u8(bytes, position),
        read(bytes, position, |decoder| decoder.read_u8().map(u64::from)),
    );
    compare(
        "turgamysk_read_u16_le",
        entries::read_u16_le(bytes, position),
        read(bytes, position, |decoder| {
            decoder.read_u16_le().map(u64::from)
        }),
    );
    compare(
        "turgamysk_read_u32_le",
        entries::read_u32_le(bytes, position),
        read(bytes, position, |decoder| {
            decoder.read_u32_le().map(u64::from)
        }),
    );
    compare(
        "turgamysk_read_u64_le",
        entries::read_u64_le(bytes, position),
        read(bytes, position, Decoder::read_u64_le),
    );
    compare(
        "turgamysk_read_compact_size",
        entries::read_compact_size(bytes, position),
        read(bytes, position, Decoder::read_compact_size),
    );
    compare(
        "turgamysk_read_compact_usize",
        entries::read_compact_usize(bytes, position, at.maximum),
        read(bytes, position, |decoder| {
            decoder
                .read_compact_usize(at.maximum, "")
                .map(|value| value as u64)
        }),
    );
}

fn compare_spans(tally: &mut Tally, bytes: &[u8], at: At) {
    let At {
        position,
        size,
        maximum,
    } = at;
    let mut compare = |entry, ours: SpanAnswer, theirs: Read<usize>| {
        let theirs = span(theirs);
        tally.compare(theirs.stop.number, &ours, &theirs, || Case {
            entry,
            input: bytes.to_vec(),
            with: format!("{at:?}"),
        });
    };
    compare(
        "turgamysk_read_slice",
        entries::read_slice(bytes, position, size),
        read(bytes, position, |decoder| {
            decoder.read_slice(size).map(<[u8]>::len)
        }),
    );
    compare(
        "turgamysk_read_bounded",
        entries::read_bounded(bytes, position, size, maximum),
        read(bytes, position, |decoder| {
            decoder
                .read_bounded_vec(size, maximum)
                .map(|bytes| bytes.len())
        }),
    );
    compare(
        "turgamysk_read_varbytes",
        entries::read_varbytes(bytes, position, maximum),
        read(bytes, position, |decoder| {
            decoder.read_varbytes(maximum, "").map(|bytes| bytes.len())
        }),
    );
}

fn compare_arrays(tally: &mut Tally, bytes: &[u8], position: usize) {
    let theirs = read(bytes, position, Decoder::read_array::<32>);
    let mut array = [0xa5; 32];
    let ours = entries::read_array(bytes, position, &mut array);
    let expected = theirs.as_ref().map_or([0; 32], |(array, _)| *array);
    let answer = moved(&theirs);
    tally.compare(answer.number, &(ours, array), &(answer, expected), || {
        Case {
            entry: "turgamysk_read_array",
            input: bytes.to_vec(),
            with: format!("position {position}"),
        }
    });
}

fn compare_ends(tally: &mut Tally, bytes: &[u8], position: usize) {
    let theirs = moved(&read(bytes, position, |decoder| decoder.finish()));
    let ours = entries::finish(bytes, position);
    // "A cursor beyond its slice .. has 0 remaining".
    let left = decoder_at(bytes, position).map_or(0, |decoder| decoder.remaining());
    let remaining = entries::remaining(bytes, position);
    tally.compare(theirs.number, &(ours, remaining), &(theirs, left), || {
        Case {
            entry: "turgamysk_finish, turgamysk_remaining",
            input: bytes.to_vec(),
            with: format!("position {position}"),
        }
    });
}

fn outpoint(decoder: &mut Decoder) -> Result<hns_primitives::Outpoint, DecodeError> {
    Ok(hns_primitives::Outpoint {
        transaction_hash: TransactionHash::new(decoder.read_array()?),
        index: decoder.read_u32_le()?,
    })
}

/// `decode_outpoint_from` is not public: its two reads stand above.
fn compare_outpoints(tally: &mut Tally, bytes: &[u8], position: usize) {
    let theirs = read(bytes, position, outpoint);
    let stop = moved(&theirs);
    let theirs = OutpointAnswer {
        stop,
        outpoint: theirs.map_or(Outpoint::ZEROS, |(outpoint, _)| our_outpoint(&outpoint)),
    };
    let ours = entries::outpoint_decode(bytes, position);
    tally.compare(stop.number, &ours, &theirs, || Case {
        entry: "turgamysk_outpoint_decode",
        input: bytes.to_vec(),
        with: format!("position {position}"),
    });
}

fn compare_all(tally: &mut Tally, bytes: &[u8], at: At) {
    compare_numbers(tally, bytes, at);
    compare_spans(tally, bytes, at);
    compare_arrays(tally, bytes, at.position);
    compare_ends(tally, bytes, at.position);
    compare_outpoints(tally, bytes, at.position);
    if at.position > bytes.len() {
        tally.known("cursor-beyond");
    }
}

fn near(random: &mut Random, size: usize) -> usize {
    match random.below(4) {
        0 => random.of(&SIZES),
        1 => size,
        _ => random.below(size + 3),
    }
}

impl Kind for Reads {
    fn name(&self) -> &'static str {
        "wire reads"
    }

    fn weight(&self) -> u64 {
        4
    }

    fn exhaustive(&mut self, tally: &mut Tally) {
        short_inputs(2, |bytes| {
            for position in [0, 1, 2, 3, usize::MAX] {
                for (size, maximum) in [(0, 0), (1, 1), (2, usize::MAX), (usize::MAX, 2)] {
                    let at = At {
                        position,
                        size,
                        maximum,
                    };
                    compare_all(tally, bytes, at);
                }
            }
        });
    }

    fn random(&mut self, random: &mut Random, tally: &mut Tally) {
        self.bytes.clear();
        let before = random.below(12);
        self.bytes.resize(before, random.byte());
        let value = random.any_size();
        let form = random.of(&[1, 1, 1, 3, 5, 9]);
        put_compact(&mut self.bytes, value, form);
        let after = random.below(60);
        let start = self.bytes.len();
        self.bytes.resize(start + after, 0);
        random.fill(&mut self.bytes[start..]);
        if random.once_in(4) {
            self.bytes.truncate(random.below(start + after + 1));
        }
        let position = match random.below(16) {
            0 => random.of(&SIZES),
            1..=3 => random.below(self.bytes.len() + 3),
            _ => before,
        };
        let at = At {
            position,
            size: near(random, after),
            maximum: near(random, value.min(1 << 20) as usize),
        };
        compare_all(tally, &self.bytes, at);
    }
}
