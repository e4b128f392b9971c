//! The link verifier over two sheets.

use crate::entries;
use crate::primitives::Outpoint;
use crate::refusal::Refusal;
use core::error::Error;
use core::fmt;

/// What an accepted transaction had.
#[derive(Clone, Copy, Debug, Default, Eq, PartialEq)]
pub struct CovenantLinkSummary {
    /// Its inputs.
    pub inputs_checked: usize,
    /// The partners accepted in the rows Bid to Transfer.
    pub linked_outputs: usize,
    /// The coins whose kind is 1 to 11.
    pub name_inputs: usize,
}

/// Why two sheets were refused.
#[derive(Clone, Copy, Debug, Eq, PartialEq)]
pub struct CovenantLinkError {
    /// The row of the table, with what it carries.
    pub refusal: Refusal,
    /// Which sheet is refused, where a sheet is (the numbers 1 to 5, 27 and 28): 0 the transaction's, 1 the coins'.
    pub side: Option<u8>,
    /// In [`Refusal::CoinOutpointMismatch`], the outpoint of the input and that of the coin.
    pub outpoints: Option<(Outpoint, Outpoint)>,
}

impl fmt::Display for CovenantLinkError {
    fn fmt(&self, formatter: &mut fmt::Formatter<'_>) -> fmt::Result {
        self.refusal.fmt(formatter)
    }
}

impl Error for CovenantLinkError {}

/// Whether the transaction of one sheet and the coins of the other keep the link rules.
///
/// ```
/// use turgamysk::{Refusal, verify_covenant_links};
///
/// let summary = verify_covenant_links(&[0x10, 0, 0, 0], &[0x14, 0, 0, 0]).unwrap();
/// assert_eq!(summary, Default::default());
///
/// let reveal = [0x10, 0, 0, 0x40, 0, 0, 0, 0, 0, 0, 0, 0, 0, 0, 4, 0];
/// let error = verify_covenant_links(&reveal, &[0x14, 0, 0, 0]).unwrap_err();
/// assert_eq!(error.refusal, Refusal::UnpairedLinkedOutput { output: 0, kind: 4 });
/// ```
pub fn verify_covenant_links(
    transaction: &[u8],
    coins: &[u8],
) -> Result<CovenantLinkSummary, CovenantLinkError> {
    let answer = entries::verify_covenant_links(transaction, coins);
    let number = answer.stop.number;
    answer
        .stop
        .verdict()
        .result()
        .map_err(|refusal| CovenantLinkError {
            refusal,
            side: matches!(number, 1..=5 | 27 | 28).then_some(answer.side),
            outpoints: (number == 12).then_some((answer.expected, answer.actual)),
        })?;
    Ok(CovenantLinkSummary {
        inputs_checked: answer.inputs_checked,
        linked_outputs: answer.linked_outputs,
        name_inputs: answer.name_inputs,
    })
}
