//! The link verifier: the samples of document 01, and hostile arguments.

use turgamysk::{CovenantLinkSummary, Outpoint, Refusal, TransactionHash, verify_covenant_links};

const TRANSACTION: [u8; 4] = [0x10, 0, 0, 0];
const COINS: [u8; 4] = [0x14, 0, 0, 0];

fn refused(transaction: &[u8], coins: &[u8]) -> (Refusal, Option<u8>) {
    let error = verify_covenant_links(transaction, coins).unwrap_err();
    assert_eq!(error.outpoints.is_some(), error.refusal.number() == 12);
    (error.refusal, error.side)
}

/// A record of a kind with no items.
fn record(kind: u8) -> [u8; 12] {
    let mut record = [0; 12];
    record[10] = kind;
    record
}

fn one_input(outpoint: u8, kind: u8) -> Vec<u8> {
    [&[0x10, 1, 0, 0x40][..], &[outpoint; 36], &record(kind)].concat()
}

fn one_coin(outpoint: u8, kind: u8) -> Vec<u8> {
    [&[0x14, 1, 0, 0][..], &[outpoint; 36], &record(kind)].concat()
}

#[test]
fn empty_sheets_pass() {
    let summary = verify_covenant_links(&TRANSACTION, &COINS);
    assert_eq!(summary, Ok(CovenantLinkSummary::default()));
}

#[test]
fn no_bytes_and_sheets_changed_about_are_refused_by_their_side() {
    let cut = Refusal::UnexpectedEnd {
        offset: 0,
        needed: 4,
    };
    assert_eq!(refused(&[], &[]), (cut, Some(0)));
    assert_eq!(refused(&TRANSACTION, &[]), (cut, Some(1)));
    assert_eq!(
        refused(&COINS, &TRANSACTION),
        (Refusal::SheetField { side: 0, offset: 0 }, Some(0))
    );
}

#[test]
fn outputs_past_the_inputs_are_judged() {
    let output = [&[0x10, 0, 0, 0x40][..], &record(4)].concat();
    let refusal = Refusal::UnpairedLinkedOutput { output: 0, kind: 4 };
    assert_eq!(refused(&output, &COINS), (refusal, None));
}

#[test]
fn kinds_are_counted() {
    let summary = verify_covenant_links(&one_input(5, 0), &one_coin(5, 2)).unwrap();
    assert_eq!(
        (
            summary.inputs_checked,
            summary.linked_outputs,
            summary.name_inputs
        ),
        (1, 0, 1)
    );
}

#[test]
fn rules_are_refused_with_their_input() {
    let revoked = Refusal::RevokedCoinSpent { input: 0 };
    assert_eq!(refused(&one_input(5, 0), &one_coin(5, 11)), (revoked, None));
    let to = Refusal::InvalidTransition {
        input: 0,
        from: 0,
        to: 4,
    };
    assert_eq!(refused(&one_input(5, 4), &one_coin(5, 0)), (to, None));
    let unknown = Refusal::UnknownCovenantCreatesName { input: 0, to: 1 };
    assert_eq!(
        refused(&one_input(5, 1), &one_coin(5, 255)),
        (unknown, None)
    );
    let malformed = Refusal::MalformedCovenant { input: 0, field: 1 };
    assert_eq!(
        refused(&one_input(5, 4), &one_coin(5, 3)),
        (malformed, None)
    );
    let counts = Refusal::InputCountMismatch {
        transaction: 1,
        coins: 0,
    };
    assert_eq!(refused(&one_input(5, 0), &COINS), (counts, None));
}

#[test]
fn another_coin_is_refused_with_both_outpoints() {
    let error = verify_covenant_links(&one_input(5, 0), &one_coin(6, 0)).unwrap_err();
    assert_eq!(error.refusal, Refusal::CoinOutpointMismatch { input: 0 });
    let outpoint = |byte| Outpoint {
        transaction_hash: TransactionHash([byte; 32]),
        index: u32::from_be_bytes([byte; 4]),
    };
    assert_eq!(error.outpoints, Some((outpoint(5), outpoint(6))));
}

#[test]
fn a_null_first_input_is_a_coinbase() {
    let mut coinbase = one_input(0, 0);
    coinbase[36..40].fill(0xff);
    let refusal = Refusal::CoinbaseRequiresIssuanceVerifier {};
    assert_eq!(refused(&coinbase, &COINS), (refusal, None));
}
