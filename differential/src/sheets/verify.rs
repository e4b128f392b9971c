//! The original's `verify_covenant_links` over two sheets, in the form of our answer.

use super::build::Sheets;
use super::parse;
use crate::oracle::{Refused, guarded, refused};
use crate::tally::PANIC;
use hns_covenants::CovenantKind;
use hns_transaction::{
    Coin, CovenantLinkError, CovenantLinkSummary, Transaction, verify_covenant_links,
};
use turgamysk::entries::LinksAnswer;
use turgamysk::{Outpoint, TransactionHash};

/// What stands where no outpoint is told.
const NO_OUTPOINTS: [Outpoint; 2] = [Outpoint::ZEROS; 2];

/// The answer, and whether it is document 01's, because the original panicked at the difference that
/// docs/DIFFERENCES.md lists.
pub struct Verified {
    pub answer: LinksAnswer,
    pub panicked: bool,
}

impl From<LinksAnswer> for Verified {
    fn from(answer: LinksAnswer) -> Self {
        Self {
            answer,
            panicked: false,
        }
    }
}

fn refusal(verdict: Refused, side: u8, [expected, actual]: [Outpoint; 2]) -> LinksAnswer {
    LinksAnswer {
        stop: verdict.at(0),
        side,
        expected,
        actual,
        ..LinksAnswer::default()
    }
}

fn outpoint(outpoint: &hns_transaction::Outpoint) -> Outpoint {
    Outpoint {
        transaction_hash: TransactionHash(outpoint.transaction_hash.into_bytes()),
        index: outpoint.index,
    }
}

fn malformed(field: &str) -> usize {
    match field {
        "spent name" => 1,
        "created name" => 2,
        "spent start" => 3,
        "created start" => 4,
        "reveal nonce" => 5,
        "bid commitment" => 6,
        "transfer version" => 7,
        "transfer hash" => 8,
        other => panic!("not a field of a covenant: {other}"),
    }
}

/// The error's number, and the outpoints of 12.
fn link_error(error: &CovenantLinkError) -> (Refused, [Outpoint; 2]) {
    use CovenantLinkError as E;
    let byte = |kind: CovenantKind| usize::from(kind.as_u8());
    let refused = match *error {
        E::CoinbaseRequiresIssuanceVerifier => refused(10, [0; 3]),
        E::InputCountMismatch { transaction, coins } => refused(11, [transaction, coins, 0]),
        E::CoinOutpointMismatch {
            input_index,
            expected,
            actual,
        } => {
            let outpoints = [outpoint(&expected), outpoint(&actual)];
            return (refused(12, [input_index, 0, 0]), outpoints);
        }
        E::MissingLinkedOutput { input_index, from } => refused(13, [input_index, byte(from), 0]),
        E::InvalidTransition {
            input_index,
            from,
            to,
        } => refused(14, [input_index, byte(from), byte(to)]),
        E::MalformedCovenant { input_index, field } => {
            refused(15, [input_index, malformed(field), 0])
        }
        E::NameHashMismatch { input_index } => refused(16, [input_index, 0, 0]),
        E::StartHeightMismatch { input_index } => refused(17, [input_index, 0, 0]),
        E::BlindCommitmentMismatch { input_index } => refused(18, [input_index, 0, 0]),
        E::BidValueInflation { input_index } => refused(19, [input_index, 0, 0]),
        E::ClaimCannotRedeem { input_index } => refused(20, [input_index, 0, 0]),
        E::AddressMismatch { input_index } => refused(21, [input_index, 0, 0]),
        E::LockedValueMismatch { input_index } => refused(22, [input_index, 0, 0]),
        E::TransferDestinationMismatch { input_index } => refused(23, [input_index, 0, 0]),
        E::RevokedCoinSpent { input_index } => refused(24, [input_index, 0, 0]),
        E::UnknownCovenantCreatesName { input_index, to } => {
            refused(25, [input_index, byte(to), 0])
        }
        E::UnpairedLinkedOutput { output_index, kind } => {
            refused(26, [output_index, byte(kind), 0])
        }
    };
    (refused, NO_OUTPOINTS)
}

/// The inputs that make the original panic: a Transfer with an empty third item, to Finalize.
fn panics_at(transaction: &Transaction, coins: &[Coin]) -> Option<usize> {
    coins
        .iter()
        .zip(&transaction.outputs)
        .position(|(coin, output)| {
            coin.covenant.kind == CovenantKind::Transfer
                && output.covenant.kind == CovenantKind::Finalize
                && coin.covenant.item(2) == Some(&[])
        })
}

fn verified(transaction: &Transaction, coins: &[Coin]) -> Verified {
    let mut outpoints = NO_OUTPOINTS;
    let verified = guarded(|| {
        verify_covenant_links(transaction, coins).map_err(|error| {
            let (refused, told) = link_error(&error);
            outpoints = told;
            refused
        })
    });
    match (verified, panics_at(transaction, coins)) {
        (Ok(summary), _) => accepted(&summary).into(),
        (Err(Refused { number: PANIC, .. }), Some(input)) => Verified {
            answer: refusal(refused(15, [input, 7, 0]), 0, NO_OUTPOINTS),
            panicked: true,
        },
        (Err(refused), _) => refusal(refused, 0, outpoints).into(),
    }
}

fn accepted(summary: &CovenantLinkSummary) -> LinksAnswer {
    LinksAnswer {
        inputs_checked: summary.inputs_checked,
        linked_outputs: summary.linked_outputs,
        name_inputs: summary.name_inputs,
        ..LinksAnswer::default()
    }
}

/// "The transaction sheet is judged whole, then the coin sheet, then the links."
pub fn answer(sheets: &Sheets) -> Verified {
    let transaction = match parse::transaction(&sheets.transaction) {
        Ok(sheet) => sheet.transaction,
        Err(refused) => return refusal(refused, 0, NO_OUTPOINTS).into(),
    };
    match parse::coins(&sheets.coins) {
        Ok(sheet) => verified(&transaction, &sheet.coins),
        Err(refused) => refusal(refused, 1, NO_OUTPOINTS).into(),
    }
}

#[cfg(test)]
mod tests {
    use super::answer;
    use crate::oracle::{print_own_panics_only, refused};
    use crate::sheets::build::{Pair, Piece, Sheets};
    use turgamysk::entries::Verdict;

    fn verdict(transaction: &[u8], coins: &[u8]) -> Verdict {
        let sheets = Sheets {
            transaction: transaction.to_vec(),
            coins: coins.to_vec(),
        };
        answer(&sheets).answer.stop.verdict()
    }

    #[test]
    fn document_01s_samples_have_their_answers() {
        let coins = [0x14, 0, 0, 0];
        assert_eq!(verdict(&[0x10, 0, 0, 0], &coins), Verdict::ACCEPTED);
        let reveal = [0x10, 0, 0, 0x40, 0, 0, 0, 0, 0, 0, 0, 0, 0, 0, 4, 0];
        assert_eq!(verdict(&reveal, &coins), refused(26, [0, 4, 0]));
        assert_eq!(verdict(&coins, &coins), refused(27, [0, 0, 0]));
        assert_eq!(verdict(&[], &coins), refused(1, [0, 4, 0]));
    }

    /// A Transfer to Finalize of zeros, with a third item of the Transfer.
    fn transfer(third: Vec<u8>) -> Sheets {
        let piece = |kind, more: &[Vec<u8>]| Piece {
            kind,
            items: [&[vec![0; 32], vec![0; 4]], more].concat(),
            ..Piece::default()
        };
        let pair = Pair {
            input: [0; 36],
            outpoint: [0; 36],
            coin: piece(9, &[third, Vec::new()]),
            output: piece(10, &[]),
        };
        let mut sheets = Sheets::default();
        sheets.lay(&[pair], 1, &[]);
        sheets
    }

    #[test]
    fn the_original_panics_at_an_empty_transfer_version_alone() {
        print_own_panics_only();
        let empty = answer(&transfer(Vec::new()));
        assert!(empty.panicked);
        assert_eq!(empty.answer.stop.verdict(), refused(15, [0, 7, 0]));
        for (third, verdict) in [
            (vec![0], Verdict::ACCEPTED),
            (vec![1], refused(23, [0, 0, 0])),
            (vec![0, 0], refused(15, [0, 7, 0])),
        ] {
            let other = answer(&transfer(third));
            assert!(!other.panicked);
            assert_eq!(other.answer.stop.verdict(), verdict);
        }
    }
}
