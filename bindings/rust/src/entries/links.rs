use super::FlatStop;
use crate::primitives::Outpoint;

/// The summary of two sheets that keep the link rules, or the refusal. Unused parts are zeros.
#[repr(C)]
#[derive(Clone, Copy, Debug, Eq, PartialEq)]
pub struct LinksAnswer {
    /// Whether they keep them; its position is always 0.
    pub stop: FlatStop,
    /// The sheet that was refused.
    pub side: u8,
    /// The inputs.
    pub inputs_checked: usize,
    /// The partners accepted in the rows Bid to Transfer.
    pub linked_outputs: usize,
    /// The coins whose kind is 1 to 11.
    pub name_inputs: usize,
    /// In 12, the outpoint of the input.
    pub expected: Outpoint,
    /// In 12, the outpoint of the coin.
    pub actual: Outpoint,
}

impl Default for LinksAnswer {
    /// An answer in which every part is unused.
    fn default() -> Self {
        Self {
            stop: FlatStop::default(),
            side: 0,
            inputs_checked: 0,
            linked_outputs: 0,
            name_inputs: 0,
            expected: Outpoint::ZEROS,
            actual: Outpoint::ZEROS,
        }
    }
}

mod c {
    use super::*;

    unsafe extern "C" {
        pub fn turgamysk_verify_covenant_links(
            tx: *const u8,
            tx_length: usize,
            coins: *const u8,
            coins_length: usize,
        ) -> LinksAnswer;
    }
}

/// Whether a transaction sheet and a coin sheet keep the link rules.
pub fn verify_covenant_links(tx: &[u8], coins: &[u8]) -> LinksAnswer {
    unsafe {
        c::turgamysk_verify_covenant_links(tx.as_ptr(), tx.len(), coins.as_ptr(), coins.len())
    }
}
