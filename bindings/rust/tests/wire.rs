//! Single reads and writes, and outpoints: every function with short, long, empty and hostile arguments.

use turgamysk::put;
use turgamysk::{Decoder, Outpoint, Refusal, Stop, TransactionHash};

type Reads<'a> = [(&'static str, fn(&mut Decoder<'a>) -> Result<(), Stop>); 12];

/// Every read, with its value dropped.
fn reads<'a>() -> Reads<'a> {
    [
        ("u8", |decoder| decoder.read_u8().map(drop)),
        ("u16", |decoder| decoder.read_u16_le().map(drop)),
        ("u32", |decoder| decoder.read_u32_le().map(drop)),
        ("u64", |decoder| decoder.read_u64_le().map(drop)),
        ("compact", |decoder| decoder.read_compact_size().map(drop)),
        ("usize", |decoder| decoder.read_compact_usize(0).map(drop)),
        ("slice", |decoder| decoder.read_slice(1).map(drop)),
        ("bounded", |decoder| decoder.read_bounded(1, 1).map(drop)),
        ("varbytes", |decoder| decoder.read_varbytes(9).map(drop)),
        ("array", |decoder| decoder.read_array().map(drop)),
        ("outpoint", |decoder| Outpoint::decode(decoder).map(drop)),
        ("finish", |decoder| decoder.finish()),
    ]
}

fn stop(refusal: Refusal, position: usize) -> Stop {
    Stop { refusal, position }
}

#[test]
fn a_position_beyond_the_bytes_is_refused_first() {
    for (length, position) in [(0, 1), (3, 4), (0, usize::MAX), (40, usize::MAX)] {
        let bytes = vec![0; length];
        let needed = position - length;
        let refusal = Refusal::UnexpectedEnd {
            offset: position,
            needed,
        };
        for (name, read) in reads() {
            let mut decoder = Decoder::at(&bytes, position);
            assert_eq!(read(&mut decoder), Err(stop(refusal, position)), "{name}");
            assert_eq!((decoder.position(), decoder.remaining()), (position, 0));
        }
        assert_eq!(
            Decoder::at(&bytes, position)
                .read_slice(0)
                .map_err(|stop| stop.refusal),
            Err(refusal)
        );
        assert_eq!(
            Decoder::at(&bytes, position)
                .read_bounded(2, 1)
                .map_err(|stop| stop.refusal),
            Err(refusal)
        );
    }
}

#[test]
fn no_bytes_refuse_every_read_but_the_end() {
    for (name, read) in reads() {
        let answer = read(&mut Decoder::new(&[])).map_err(|stop| stop.refusal.number());
        assert_eq!(
            answer,
            if name == "finish" { Ok(()) } else { Err(1) },
            "{name}"
        );
    }
}

#[test]
fn numbers_are_read_lowest_byte_first() {
    let bytes: Vec<u8> = (1..=15).collect();
    let mut decoder = Decoder::new(&bytes);
    assert_eq!(decoder.read_u8(), Ok(1));
    assert_eq!(decoder.read_u16_le(), Ok(0x0302));
    assert_eq!(decoder.read_u32_le(), Ok(0x0706_0504));
    assert_eq!(decoder.read_u64_le(), Ok(0x0f0e_0d0c_0b0a_0908));
    assert_eq!(decoder.finish(), Ok(()));
    let refusal = Refusal::TrailingBytes { remaining: 15 };
    assert_eq!(Decoder::new(&bytes).finish(), Err(stop(refusal, 0)));
}

#[test]
fn compact_sizes_are_read_in_their_shortest_form_alone() {
    assert_eq!(Decoder::new(&[0xfc]).read_compact_size(), Ok(252));
    assert_eq!(Decoder::new(&[0xfd, 0xfd, 0]).read_compact_size(), Ok(253));
    assert_eq!(Decoder::new(&[0xff; 9]).read_compact_size(), Ok(u64::MAX));
    let refused = Decoder::new(&[0xfd, 0xfc, 0]).read_compact_size();
    assert_eq!(refused, Err(stop(Refusal::InvalidValue { width: 16 }, 3)));
    let cut = Decoder::new(&[0xfd]).read_compact_size();
    assert_eq!(
        cut,
        Err(stop(
            Refusal::UnexpectedEnd {
                offset: 1,
                needed: 2
            },
            1
        ))
    );
    let large = Decoder::new(&[0xff; 9]).read_compact_usize(7);
    let refusal = Refusal::LengthExceedsBound {
        actual: usize::MAX,
        maximum: 7,
    };
    assert_eq!(large, Err(stop(refusal, 9)));
}

#[test]
fn slices_end_within_the_bytes_and_the_numbers() {
    let bytes = [1, 2, 3];
    assert_eq!(Decoder::new(&bytes).read_slice(3), Ok(&bytes[..]));
    assert_eq!(Decoder::at(&bytes, 3).read_slice(0), Ok(&[][..]));
    let long = Decoder::at(&bytes, 1).read_slice(usize::MAX);
    let refusal = Refusal::LengthExceedsBound {
        actual: usize::MAX,
        maximum: 2,
    };
    assert_eq!(long, Err(stop(refusal, 1)));
    let long = Decoder::new(&bytes).read_slice(usize::MAX);
    let refusal = Refusal::UnexpectedEnd {
        offset: 0,
        needed: usize::MAX - 3,
    };
    assert_eq!(long, Err(stop(refusal, 0)));
    let bounded = Decoder::new(&bytes).read_bounded(3, 2);
    let refusal = Refusal::LengthExceedsBound {
        actual: 3,
        maximum: 2,
    };
    assert_eq!(bounded, Err(stop(refusal, 0)));
    assert_eq!(Decoder::new(&bytes).read_varbytes(1), Ok(&[2][..]));
    let refusal = Refusal::LengthExceedsBound {
        actual: 1,
        maximum: 0,
    };
    assert_eq!(Decoder::new(&bytes).read_varbytes(0), Err(stop(refusal, 1)));
}

#[test]
fn outpoints_are_a_hash_and_an_index() {
    let outpoint = Outpoint {
        transaction_hash: TransactionHash([7; 32]),
        index: 0x0403_0201,
    };
    let encoded = outpoint.encode();
    assert_eq!(
        (&encoded[..32], &encoded[32..]),
        (&[7; 32][..], &[1, 2, 3, 4][..])
    );
    assert_eq!(Outpoint::decode(&mut Decoder::new(&encoded)), Ok(outpoint));
    let cut = Outpoint::decode(&mut Decoder::new(&encoded[..35]));
    assert_eq!(
        cut,
        Err(stop(
            Refusal::UnexpectedEnd {
                offset: 32,
                needed: 1
            },
            32
        ))
    );
    assert!(!outpoint.is_null() && Outpoint::NULL.is_null() && !Outpoint::ZEROS.is_null());
}

#[test]
fn arrays_have_32_bytes() {
    let bytes = [9; 33];
    assert_eq!(Decoder::at(&bytes, 1).read_array(), Ok([9; 32]));
    let cut = Decoder::at(&bytes, 2).read_array();
    assert_eq!(
        cut,
        Err(stop(
            Refusal::UnexpectedEnd {
                offset: 2,
                needed: 1
            },
            2
        ))
    );
}

type Writes = [(usize, fn(&mut [u8], usize) -> Result<usize, Refusal>); 7];

/// Every write, and how many bytes it takes.
const WRITES: Writes = [
    (1, |dest, at| put::put_u8(dest, at, 1)),
    (2, |dest, at| put::put_u16_le(dest, at, 0x0201)),
    (4, |dest, at| put::put_u32_le(dest, at, 0x0403_0201)),
    (8, |dest, at| {
        put::put_u64_le(dest, at, 0x0807_0605_0403_0201)
    }),
    (3, |dest, at| put::put_compact_size(dest, at, 0x0302)),
    (0, |dest, at| put::put_bytes(dest, at, &[])),
    (4, |dest, at| put::put_varbytes(dest, at, &[1, 2, 3])),
];

#[test]
fn a_write_takes_all_its_room_or_none() {
    for (size, write) in WRITES {
        for room in 0..12 {
            for at in (0..14).chain([usize::MAX - 1, usize::MAX]) {
                let mut dest = vec![0xee; room];
                let fits = at.checked_add(size).is_some_and(|end| end <= room);
                let expected = if fits {
                    Ok(size)
                } else {
                    Err(Refusal::NoRoom { needed: size })
                };
                assert_eq!(write(&mut dest, at), expected, "{size} at {at} of {room}");
                let touched = dest.iter().filter(|byte| **byte != 0xee).count();
                assert_eq!(touched, if fits { size } else { 0 });
            }
        }
    }
}

#[test]
fn writes_have_their_lowest_byte_first() {
    let mut dest = [0xee; 10];
    assert_eq!(put::put_u64_le(&mut dest, 1, 0x0807_0605_0403_0201), Ok(8));
    assert_eq!(dest, [0xee, 1, 2, 3, 4, 5, 6, 7, 8, 0xee]);
    assert_eq!(put::put_varbytes(&mut dest, 0, b"ab"), Ok(3));
    assert_eq!(dest[..4], [2, b'a', b'b', 3]);
    assert_eq!(put::put_compact_size(&mut dest, 0, u64::MAX), Ok(9));
    assert_eq!(
        dest,
        [0xff, 0xff, 0xff, 0xff, 0xff, 0xff, 0xff, 0xff, 0xff, 0xee]
    );
    assert_eq!(put::put_bytes(&mut dest, 8, b"xy"), Ok(2));
    assert_eq!(dest[8..], *b"xy");
}

#[test]
fn compact_sizes_have_four_widths() {
    let widths = [
        0,
        252,
        253,
        65_535,
        65_536,
        0xffff_ffff,
        0x1_0000_0000,
        u64::MAX,
    ]
    .map(put::compact_size_len);
    assert_eq!(widths, [1, 1, 3, 3, 5, 5, 9, 9]);
}
