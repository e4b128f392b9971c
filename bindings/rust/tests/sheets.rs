//! Sheets and the item viewer: every function with short, long, empty and hostile arguments.

use turgamysk::entries::{self, OutpointAnswer, PlaceAnswer};
use turgamysk::{
    CovenantKind, Decoder, Dollarydoos, Outpoint, Place, Refusal, SheetStop, Stop,
    TransactionCounts, TransactionHash, input_at, item, judge_coins, judge_transaction, place_at,
};

const EMPTY_TRANSACTION: [u8; 4] = [0x10, 0, 0, 0];
const EMPTY_COINS: [u8; 4] = [0x14, 0, 0, 0];
const LONGEST: usize = 16_777_216;

/// A record of no value and no address, with a covenant of two items.
const RECORD: [u8; 15] = [0, 0, 0, 0, 0, 0, 0, 0, 0, 0, 7, 2, 0, 1, 0xaa];

/// One input and one output.
fn transaction() -> Vec<u8> {
    [&[0x10, 1, 0, 0x40][..], &[5; 36], &RECORD].concat()
}

fn coins() -> Vec<u8> {
    [&[0x14, 1, 0, 0][..], &[5; 36], &RECORD].concat()
}

fn refused_transaction(sheet: &[u8], refusal: Refusal) {
    assert_eq!(
        judge_transaction(sheet),
        Err(SheetStop { refusal, side: 0 })
    );
}

fn refused_coins(sheet: &[u8], refusal: Refusal) {
    assert_eq!(judge_coins(sheet), Err(SheetStop { refusal, side: 1 }));
}

#[test]
fn sheets_tell_their_counts() {
    let empty = TransactionCounts {
        inputs: 0,
        outputs: 0,
    };
    assert_eq!(judge_transaction(&EMPTY_TRANSACTION), Ok(empty));
    let one = TransactionCounts {
        inputs: 1,
        outputs: 1,
    };
    assert_eq!(judge_transaction(&transaction()), Ok(one));
    assert_eq!(
        (judge_coins(&EMPTY_COINS), judge_coins(&coins())),
        (Ok(0), Ok(1))
    );
}

#[test]
fn short_sheets_are_refused_where_a_read_begins() {
    for length in 0..4 {
        let refusal = Refusal::UnexpectedEnd {
            offset: 0,
            needed: 4 - length,
        };
        refused_transaction(&transaction()[..length], refusal);
        refused_coins(&coins()[..length], refusal);
    }
    refused_transaction(
        &transaction()[..39],
        Refusal::UnexpectedEnd {
            offset: 4,
            needed: 1,
        },
    );
    refused_coins(
        &coins()[..49],
        Refusal::UnexpectedEnd {
            offset: 40,
            needed: 1,
        },
    );
    refused_coins(
        &coins()[..54],
        Refusal::UnexpectedEnd {
            offset: 54,
            needed: 1,
        },
    );
}

#[test]
fn wrong_fields_are_refused_left_to_right() {
    for (head, offset) in [
        ([0x20, 0, 0, 1], 0),
        ([0x14, 0, 0, 1], 0),
        ([0x10, 0, 0, 1], 3),
    ] {
        refused_transaction(&head, Refusal::SheetField { side: 0, offset });
    }
    for (head, offset) in [
        ([0x24, 0, 1, 1], 0),
        ([0x10, 0, 1, 1], 0),
        ([0x14, 0, 1, 1], 2),
        ([0x14, 0, 0, 1], 3),
    ] {
        refused_coins(&head, Refusal::SheetField { side: 1, offset });
    }
    let mut spare = transaction();
    spare[49] = 0x40;
    refused_transaction(
        &spare,
        Refusal::SheetField {
            side: 0,
            offset: 49,
        },
    );
}

#[test]
fn leftover_bytes_and_long_sheets_are_refused() {
    refused_transaction(&[0x10, 0, 0, 0, 9], Refusal::TrailingBytes { remaining: 1 });
    refused_coins(
        &[0x14, 0, 0, 0, 9, 9],
        Refusal::TrailingBytes { remaining: 2 },
    );
    let long = vec![0; LONGEST + 1];
    refused_transaction(
        &long,
        Refusal::SheetTooLong {
            side: 0,
            length: LONGEST + 1,
        },
    );
    refused_coins(
        &long,
        Refusal::SheetTooLong {
            side: 1,
            length: LONGEST + 1,
        },
    );
    refused_coins(&long[..LONGEST], Refusal::SheetField { side: 1, offset: 0 });
}

#[test]
fn items_are_viewed_inside_their_sheet() {
    let (transaction, coins) = (transaction(), coins());
    for (side, sheet) in [(0, &transaction), (1, &coins)] {
        let found = item(&transaction, &coins, side, 0, 1).unwrap();
        assert_eq!(found.as_ptr_range(), sheet[54..55].as_ptr_range());
        let empty = item(&transaction, &coins, side, 0, 0).unwrap();
        assert_eq!(empty.as_ptr_range(), sheet[53..53].as_ptr_range());
    }
}

#[test]
fn other_items_are_absent() {
    let (transaction, coins) = (transaction(), coins());
    for (side, record, number) in [
        (0, 0, 2),
        (0, 1, 0),
        (1, 1, 0),
        (2, 0, 0),
        (255, 0, 0),
        (0, usize::MAX, 0),
        (1, 0, usize::MAX),
    ] {
        assert_eq!(item(&transaction, &coins, side, record, number), None);
    }
    assert_eq!(item(&transaction, &coins[..54], 0, 0, 0), None);
    assert_eq!(item(&transaction[..54], &coins, 1, 0, 0), None);
    assert_eq!(item(&[], &[], 0, 0, 0), None);
}

#[test]
fn a_sheet_is_walked_record_by_record() {
    let sheet = transaction();
    let mut decoder = Decoder::at(&sheet, 4);
    let outpoint = Outpoint {
        transaction_hash: TransactionHash([5; 32]),
        index: 0x0505_0505,
    };
    assert_eq!(input_at(&mut decoder), Ok(outpoint));
    assert_eq!(decoder.position(), 40);
    let place = Place {
        value: Dollarydoos(0),
        version: 0,
        start: 50,
        size: 0,
        covenant: 50,
        kind: CovenantKind::UPDATE,
    };
    assert_eq!(place_at(&mut decoder, 0), Ok(place));
    assert_eq!(decoder.remaining(), 0);
}

#[test]
fn numbers_of_a_record_have_the_highest_byte_first() {
    let mut input = [0; 36];
    input[32..].copy_from_slice(&[1, 2, 3, 4]);
    let read = input_at(&mut Decoder::new(&input)).unwrap();
    assert_eq!(read.index, 0x0102_0304);
    let mut output = vec![1, 2, 3, 4, 5, 6, 7, 8, 31, 63];
    output.extend([0xaa; 63]);
    output.extend([11, 0]);
    let place = place_at(&mut Decoder::new(&output), 0).unwrap();
    assert_eq!((place.value.0, place.version), (0x0102_0304_0506_0708, 31));
    assert_eq!((place.start, place.size, place.covenant), (10, 63, 73));
}

fn refused_place(sheet: &[u8], position: usize, side: u8) -> (Refusal, usize) {
    let answer = entries::sheet_place_at(sheet, position, side);
    let zeros = PlaceAnswer {
        stop: answer.stop,
        ..PlaceAnswer::default()
    };
    assert_eq!(answer, zeros, "zeros where it is refused");
    let stop = place_at(&mut Decoder::at(sheet, position), side).unwrap_err();
    (stop.refusal, stop.position)
}

#[test]
fn every_beginning_of_a_record_is_refused() {
    let sheet = transaction();
    for length in 4..40 {
        let refusal = Refusal::UnexpectedEnd {
            offset: 4,
            needed: 40 - length,
        };
        let stop = input_at(&mut Decoder::at(&sheet[..length], 4));
        assert_eq!(
            stop,
            Err(Stop {
                refusal,
                position: 4
            })
        );
        let answer = entries::sheet_input_at(&sheet[..length], 4);
        let zeros = OutpointAnswer {
            outpoint: Outpoint::ZEROS,
            ..answer
        };
        assert_eq!(answer, zeros);
    }
    for length in 40..55 {
        let (offset, end) = match length {
            40..50 => (40, 50),
            54 => (54, 55),
            _ => (length, length + 1),
        };
        let refusal = Refusal::UnexpectedEnd {
            offset,
            needed: end - length,
        };
        let found = refused_place(&sheet[..length], 40, 0);
        assert_eq!(found, (refusal, offset), "{length}");
    }
}

#[test]
fn records_beyond_the_sheet_are_refused() {
    for (length, position) in [(0, 1), (0, usize::MAX), (3, 4), (3, usize::MAX)] {
        let sheet = vec![0; length];
        let refusal = Refusal::UnexpectedEnd {
            offset: position,
            needed: position - length,
        };
        let stop = input_at(&mut Decoder::at(&sheet, position));
        assert_eq!(stop, Err(Stop { refusal, position }));
        assert_eq!(refused_place(&sheet, position, 255), (refusal, position));
    }
}

#[test]
fn a_wrong_field_of_a_record_carries_the_side_that_was_given() {
    let mut sheet = transaction();
    sheet[49] = 0xc0;
    for side in 0..=255 {
        let field = Refusal::SheetField { side, offset: 49 };
        assert_eq!(refused_place(&sheet, 40, side), (field, 49));
    }
}

#[test]
fn the_covenant_of_a_record_is_refused_by_its_codec() {
    let mut sheet = [0; 14];
    sheet[11..].copy_from_slice(&[0xfd, 0xfc, 0]);
    let form = Refusal::InvalidValue { width: 16 };
    assert_eq!(refused_place(&sheet, 0, 1), (form, 14));
}

#[test]
fn sheets_that_are_judged_whole_tell_no_position() {
    let whole = transaction();
    for sheet in [&whole[..], &whole[..5], &[0x14, 0, 0, 0], &[]] {
        assert_eq!(entries::judge_transaction(sheet).stop.position, 0);
        assert_eq!(entries::judge_coins(sheet).stop.position, 0);
        let answer = entries::verify_covenant_links(&whole, sheet);
        assert_eq!(answer.stop.position, 0);
    }
}
