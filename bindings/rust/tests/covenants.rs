//! Covenants: every function with short, long, empty and hostile arguments.

use turgamysk::{
    Covenant, CovenantKind, Decoder, Directory, ReadCovenant, Refusal, Run, RunEnd, Stop,
    import_archive, read_run, read_run_with_limit,
};

/// Three items of 1,000,000, 0 and 0 bytes, which fill 1,000,009.
fn largest() -> Vec<u8> {
    let mut bytes = vec![0, 3, 0xfe, 0x40, 0x42, 0x0f, 0];
    bytes.resize(bytes.len() + 1_000_000, 7);
    bytes.extend([0, 0]);
    bytes
}

fn refused(bytes: &[u8]) -> (Refusal, usize) {
    let mut directory = Directory::new();
    directory.starts.fill(1);
    directory.lengths.fill(1);
    let stop = Covenant::decode(bytes, &mut directory).unwrap_err();
    assert_eq!(
        directory,
        Directory::new(),
        "zeros alone where it is refused"
    );
    (stop.refusal, stop.position)
}

#[test]
fn no_bytes_and_few_are_refused_where_they_end() {
    assert_eq!(
        refused(&[]),
        (
            Refusal::UnexpectedEnd {
                offset: 0,
                needed: 1
            },
            0
        )
    );
    assert_eq!(
        refused(&[3]),
        (
            Refusal::UnexpectedEnd {
                offset: 1,
                needed: 1
            },
            1
        )
    );
    assert_eq!(
        refused(&[3, 1, 2, 0xaa]),
        (
            Refusal::UnexpectedEnd {
                offset: 3,
                needed: 1
            },
            3
        )
    );
    assert_eq!(
        refused(&[3, 0xfd]),
        (
            Refusal::UnexpectedEnd {
                offset: 2,
                needed: 2
            },
            2
        )
    );
}

#[test]
fn counts_lengths_and_forms_are_refused_with_what_they_carry() {
    assert_eq!(
        refused(&[0, 0xfd, 0xe9, 3]),
        (
            Refusal::LengthExceedsBound {
                actual: 1001,
                maximum: 1000
            },
            4
        )
    );
    let longest = [0, 1, 0xff, 0xff, 0xff, 0xff, 0xff, 0xff, 0xff, 0xff, 0xff];
    assert_eq!(
        refused(&longest),
        (
            Refusal::LengthExceedsBound {
                actual: usize::MAX,
                maximum: 1_000_000
            },
            11
        )
    );
    assert_eq!(
        refused(&[0, 0xfd, 0xfc, 0]),
        (Refusal::InvalidValue { width: 16 }, 4)
    );
    assert_eq!(
        refused(&[0, 0xfe, 0, 0, 0, 0]),
        (Refusal::InvalidValue { width: 32 }, 6)
    );
    assert_eq!(
        refused(&[0, 0xff, 0, 0, 0, 0, 0, 0, 0, 0]),
        (Refusal::InvalidValue { width: 64 }, 10)
    );
    assert_eq!(
        refused(&[0, 0, 0]),
        (Refusal::TrailingBytes { remaining: 1 }, 2)
    );
}

#[test]
fn the_largest_covenant_is_read_and_written() {
    let bytes = largest();
    let mut directory = Directory::new();
    let covenant = Covenant::decode(&bytes, &mut directory).unwrap();
    assert_eq!(
        (covenant.count, covenant.encoded_size()),
        (3, Ok(1_000_009))
    );
    assert_eq!(covenant.item(0).map(<[u8]>::len), Some(1_000_000));
    let mut written = vec![0; 1_000_010];
    assert_eq!(covenant.encode(&mut written), Ok(1_000_009));
    assert_eq!((&written[..1_000_009], written[1_000_009]), (&bytes[..], 0));
}

#[test]
fn one_byte_more_is_refused_before_anything_is_read() {
    let mut bytes = largest();
    bytes.push(0);
    assert_eq!(
        refused(&bytes),
        (
            Refusal::TooLarge {
                actual: 1_000_010,
                maximum: 1_000_009
            },
            0
        )
    );
}

#[test]
fn items_answer_at_their_width_alone() {
    let bytes = [0, 4, 0, 1, 9, 4, 1, 0, 0, 0, 8, 2, 0, 0, 0, 0, 0, 0, 0];
    let mut directory = Directory::new();
    let covenant = Covenant::decode(&bytes, &mut directory).unwrap();
    assert_eq!(covenant.item(0), Some(&[][..]));
    assert_eq!(
        [0, 1, 2, 3, 4].map(|index| covenant.item_u8(index)),
        [None, Some(9), None, None, None]
    );
    assert_eq!(
        [0, 1, 2, 3, 4].map(|index| covenant.item_u32(index)),
        [None, None, Some(1), None, None]
    );
    assert_eq!(
        [0, 1, 2, 3, 4].map(|index| covenant.item_u64(index)),
        [None, None, None, Some(2), None]
    );
    assert_eq!(
        [0, 1, 2, 3, 4].map(|index| covenant.item_name_hash(index)),
        [None; 5]
    );
}

#[test]
fn a_name_hash_has_32_bytes() {
    let mut bytes = vec![0, 1, 32];
    bytes.extend([5; 32]);
    let mut directory = Directory::new();
    let covenant = Covenant::decode(&bytes, &mut directory).unwrap();
    assert_eq!(covenant.item_name_hash(0).map(|hash| hash.0), Some([5; 32]));
}

#[test]
fn items_outside_their_source_are_absent() {
    let mut directory = Directory::new();
    directory.starts[..4].copy_from_slice(&[0, 3, usize::MAX, 2]);
    directory.lengths[..4].copy_from_slice(&[3, 1, usize::MAX, 0]);
    let covenant = Covenant {
        kind: CovenantKind::NONE,
        source: b"ab",
        directory: &directory,
        count: usize::MAX,
    };
    assert_eq!(
        [0, 1, 2, 1000, usize::MAX].map(|index| covenant.item(index)),
        [None; 5]
    );
    assert_eq!(covenant.item(3), Some(&[][..]));
}

#[test]
fn hostile_directories_are_refused_and_nothing_is_written() {
    for (start, length) in [
        (1, 0),
        (0, 1),
        (usize::MAX, 1),
        (1, usize::MAX),
        (usize::MAX, usize::MAX),
    ] {
        let mut directory = Directory::new();
        (directory.starts[1], directory.lengths[1]) = (start, length);
        let covenant = Covenant {
            kind: CovenantKind(255),
            source: &[],
            directory: &directory,
            count: 2,
        };
        let mut dest = [0xee; 16];
        assert_eq!(
            covenant.encode(&mut dest),
            Err(Refusal::BadItem { item: 1 })
        );
        assert_eq!(dest, [0xee; 16]);
    }
}

#[test]
fn counts_above_the_directory_are_refused_first() {
    let directory = Directory {
        starts: [usize::MAX; 1000],
        lengths: [usize::MAX; 1000],
    };
    for count in [1001, usize::MAX] {
        let covenant = Covenant {
            kind: CovenantKind::NONE,
            source: &[],
            directory: &directory,
            count,
        };
        let refusal = Refusal::TooLarge {
            actual: count,
            maximum: 1000,
        };
        assert_eq!(covenant.encode(&mut []), Err(refusal));
        assert_eq!(covenant.encoded_size(), Err(refusal));
    }
}

#[test]
fn a_write_takes_all_its_room_or_none() {
    let mut directory = Directory::new();
    directory.lengths[0] = 3;
    let covenant = Covenant {
        kind: CovenantKind::BID,
        source: b"abc",
        directory: &directory,
        count: 1,
    };
    for room in 0..6 {
        let mut dest = [0xee; 5];
        assert_eq!(
            covenant.encode(&mut dest[..room]),
            Err(Refusal::NoRoom { needed: 6 })
        );
        assert_eq!(dest, [0xee; 5]);
    }
    let mut exact = [0xee; 6];
    assert_eq!(covenant.encode(&mut exact), Ok(6));
    assert_eq!(exact, *b"\x03\x01\x03abc");
}

/// What is read where the decoder stands; with a directory the same is read, its items are laid out, and zeros follow
/// them.
fn read(decoder: &mut Decoder<'_>, limit: usize) -> Result<ReadCovenant, Stop> {
    let mut again = *decoder;
    let found = Covenant::read(decoder, limit);
    let mut directory = Directory::new();
    directory.starts.fill(1);
    directory.lengths.fill(1);
    let decoded = Covenant::decode_from_with_limit(&mut again, limit, &mut directory);
    let decoded = decoded.map(|covenant| (covenant.kind, covenant.count));
    assert_eq!(decoded, found.map(|read| (read.kind, read.count)));
    assert_eq!(again.position(), decoder.position());
    let count = found.map_or(0, |read| read.count);
    assert!(directory.starts[count..].iter().all(|start| *start == 0));
    assert!(directory.lengths[count..].iter().all(|size| *size == 0));
    found
}

#[test]
fn a_decoder_stands_where_the_read_left_it() {
    let mut decoder = Decoder::new(&[7, 0, 8, 1, 2, 0xaa]);
    let first = read(&mut decoder, Covenant::MAX_ENCODED_SIZE).unwrap();
    assert_eq!(
        (first.kind, first.count, first.used),
        (CovenantKind::UPDATE, 0, 2)
    );
    let stop = read(&mut decoder, Covenant::MAX_ENCODED_SIZE).unwrap_err();
    assert_eq!(
        stop.refusal,
        Refusal::UnexpectedEnd {
            offset: 5,
            needed: 1
        }
    );
    assert_eq!(
        (stop.position, decoder.position(), decoder.remaining()),
        (5, 5, 1)
    );
}

#[test]
fn a_covenant_inside_larger_bytes_has_its_items_there() {
    let bytes = [0xff, 3, 2, 0, 2, 0xaa, 0xbb, 0xff];
    let mut directory = Directory::new();
    let mut decoder = Decoder::at(&bytes, 1);
    let covenant = Covenant::decode_from(&mut decoder, &mut directory).unwrap();
    assert_eq!(
        [0, 1, 2].map(|index| covenant.item(index)),
        [Some(&[][..]), Some(&[0xaa, 0xbb][..]), None]
    );
    assert_eq!(
        (&directory.starts[..3], &directory.lengths[..3]),
        (&[4, 5, 0][..], &[0, 2, 0][..])
    );
    assert_eq!(decoder.position(), 7);
    // The same directory serves the next covenant.
    let stop = Covenant::decode_from(&mut decoder, &mut directory).unwrap_err();
    assert_eq!((stop.position, directory), (8, Directory::new()));
}

#[test]
fn the_largest_covenant_is_decoded_from_a_position() {
    let mut bytes = vec![0xff; 3];
    bytes.extend(largest());
    bytes.push(0xff);
    let mut directory = Directory::new();
    let mut decoder = Decoder::at(&bytes, 3);
    let covenant = Covenant::decode_from(&mut decoder, &mut directory).unwrap();
    assert_eq!(covenant.item(0).map(<[u8]>::len), Some(1_000_000));
    assert_eq!(decoder.remaining(), 1);
    let refusal = Refusal::TooLarge {
        actual: 1_000_009,
        maximum: 1_000_008,
    };
    let stop = read(&mut Decoder::at(&bytes, 3), 1_000_008).unwrap_err();
    assert_eq!(stop.refusal, refusal);
}

#[test]
fn a_thousand_items_fill_the_directory() {
    let mut bytes = vec![0, 0xfd, 0xe8, 3];
    bytes.resize(1004, 0);
    let mut directory = Directory::new();
    let mut decoder = Decoder::new(&bytes);
    let covenant = Covenant::decode_from(&mut decoder, &mut directory).unwrap();
    assert_eq!((covenant.count, covenant.item(999)), (1000, Some(&[][..])));
    assert_eq!(directory.starts[999], 1004);
}

#[test]
fn positions_beyond_the_bytes_are_refused_before_the_allowance() {
    for (length, position) in [(0, 1), (0, usize::MAX), (3, 4), (3, usize::MAX)] {
        let bytes = vec![0; length];
        for limit in [0, 1, 2, usize::MAX] {
            let mut decoder = Decoder::at(&bytes, position);
            assert_eq!(decoder.remaining(), 0);
            let refusal = Refusal::UnexpectedEnd {
                offset: position,
                needed: position - length,
            };
            assert_eq!(read(&mut decoder, limit), Err(Stop { refusal, position }));
        }
    }
}

#[test]
fn allowances_are_kept() {
    let bytes = [0, 1, 1, 9];
    for limit in [0, 1] {
        let stop = read(&mut Decoder::new(&bytes), limit).unwrap_err();
        assert_eq!(
            stop,
            Stop {
                refusal: Refusal::TooLarge {
                    actual: 2,
                    maximum: limit
                },
                position: 0
            }
        );
    }
    for (limit, actual) in [(2, 3), (3, 4)] {
        let stop = read(&mut Decoder::new(&bytes), limit).unwrap_err();
        assert_eq!(
            stop,
            Stop {
                refusal: Refusal::TooLarge {
                    actual,
                    maximum: limit
                },
                position: 3
            }
        );
    }
    for limit in [4, 5, 1_000_009, usize::MAX] {
        let read = read(&mut Decoder::new(&bytes), limit);
        assert_eq!(read.map(|read| read.used), Ok(4));
    }
}

#[test]
fn runs_end_or_stop_with_their_count() {
    let ended = |count| RunEnd { count, stop: None };
    assert_eq!(read_run(&[]), ended(0));
    assert_eq!(read_run(&[0, 0, 1, 0]), ended(2));
    let refusal = Refusal::TooLarge {
        actual: 2,
        maximum: 0,
    };
    let stop = Some(Stop {
        refusal,
        position: 0,
    });
    assert_eq!(read_run_with_limit(&[0, 0], 0), RunEnd { count: 0, stop });
    assert_eq!(read_run(&vec![0; 100_000]), ended(50_000));
}

#[test]
fn a_run_allows_the_largest_covenant_by_default() {
    let largest = largest();
    let one = RunEnd {
        count: 1,
        stop: None,
    };
    assert_eq!((read_run(&largest), import_archive(&largest)), (one, one));
    assert_eq!(Run::new(&largest).filter(Result::is_ok).count(), 1);

    let mut longer = [0, 0].to_vec();
    longer.extend(&largest);
    longer[3] += 1;
    longer.push(0);
    let stop = Stop {
        refusal: Refusal::TooLarge {
            actual: 1_000_010,
            maximum: 1_000_009,
        },
        position: 1_000_012,
    };
    let end = RunEnd {
        count: 1,
        stop: Some(stop),
    };
    assert_eq!((read_run(&longer), import_archive(&longer)), (end, end));
    assert_eq!(Run::new(&longer).last(), Some(Err(stop)));

    let below = read_run_with_limit(&largest, 1_000_008);
    assert_eq!(
        (below.count, below.stop.map(|stop| stop.refusal)),
        (
            0,
            Some(Refusal::TooLarge {
                actual: 1_000_009,
                maximum: 1_000_008
            })
        )
    );
}

#[test]
fn a_run_hands_out_what_it_counts() {
    let bytes = [0, 0, 3, 1, 1, 9, 3];
    let mut run = Run::new(&bytes);
    let used: Vec<_> = run
        .by_ref()
        .map(|read| read.map(|read| read.used))
        .collect();
    let refusal = Refusal::UnexpectedEnd {
        offset: 7,
        needed: 1,
    };
    assert_eq!(
        used,
        [
            Ok(2),
            Ok(4),
            Err(Stop {
                refusal,
                position: 7
            })
        ]
    );
    assert_eq!((run.covenants(), run.next()), (2, None));
    let end = read_run(&bytes);
    assert_eq!(
        (end.count, end.stop.map(|stop| stop.position)),
        (2, Some(7))
    );
}

#[test]
fn items_are_found_without_a_directory() {
    let bytes = [9, 3, 4, 2, 1, 0xaa, 0, 5, 0xbb];
    let decoder = Decoder::at(&bytes, 3);
    assert_eq!(
        Covenant::find(&decoder, 0),
        None,
        "kind 2, one item, cut off"
    );
    let decoder = Decoder::new(&bytes[..7]);
    assert_eq!(Covenant::find(&decoder, 0), Some(&bytes[3..7]));
    for index in [1, 2, 3, 999, 1000, usize::MAX] {
        assert_eq!(Covenant::find(&decoder, index), None);
    }
    for position in [7, 8, usize::MAX] {
        assert_eq!(Covenant::find(&Decoder::at(&bytes[..7], position), 0), None);
    }
    assert_eq!(Covenant::find(&Decoder::new(&[]), 0), None);
}

#[test]
fn kinds_are_told_apart() {
    for byte in 0..=255 {
        let kind = CovenantKind(byte);
        assert_eq!(kind.is_name(), (1..=11).contains(&byte));
        assert_eq!(kind.is_linked(), (4..=11).contains(&byte));
        assert_eq!(kind.is_unspendable(), byte == 11);
    }
}
