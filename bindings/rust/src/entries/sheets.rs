use super::{FlatStop, OutpointAnswer};

/// How many inputs (or coins) and outputs a sheet has, or the refusal and which sheet it is about. Unused parts are
/// zeros.
#[repr(C)]
#[derive(Clone, Copy, Debug, Default, Eq, PartialEq)]
pub struct SheetAnswer {
    /// Whether the sheet is refused; its position is always 0.
    pub stop: FlatStop,
    /// The sheet that was refused: 0 the transaction's, 1 the coins'.
    pub side: u8,
    /// Its inputs, or its coins.
    pub inputs: usize,
    /// Its outputs.
    pub outputs: usize,
}

/// An output that was read, or the refusal. Unused parts are zeros.
#[repr(C)]
#[derive(Clone, Copy, Debug, Default, Eq, PartialEq)]
pub struct PlaceAnswer {
    /// Whether it was read, and where the reader then stands.
    pub stop: FlatStop,
    /// Its value.
    pub value: u64,
    /// The version of its address.
    pub version: u8,
    /// Where the hash of its address begins.
    pub start: usize,
    /// How many bytes that has.
    pub size: usize,
    /// Where its covenant begins.
    pub covenant: usize,
    /// Its covenant's kind.
    pub kind: u8,
}

/// Where an item stands; zeros where there is none.
#[repr(C)]
#[derive(Clone, Copy, Debug, Default, Eq, PartialEq)]
pub struct ViewAnswer {
    /// Whether there is such an item.
    pub exists: bool,
    /// Where it begins.
    pub offset: usize,
    /// How many bytes it has.
    pub length: usize,
}

impl ViewAnswer {
    /// The item's bytes in what it stands in.
    pub(crate) fn within(self, bytes: &[u8]) -> Option<&[u8]> {
        if !self.exists {
            return None;
        }
        bytes.get(self.offset..)?.get(..self.length)
    }
}

mod c {
    use super::*;

    unsafe extern "C" {
        pub fn turgamysk_judge_transaction(sheet: *const u8, length: usize) -> SheetAnswer;
        pub fn turgamysk_judge_coins(sheet: *const u8, length: usize) -> SheetAnswer;
        pub fn turgamysk_sheet_input_at(
            sheet: *const u8,
            length: usize,
            position: usize,
        ) -> OutpointAnswer;
        pub fn turgamysk_sheet_place_at(
            sheet: *const u8,
            length: usize,
            position: usize,
            side: u8,
        ) -> PlaceAnswer;
        pub fn turgamysk_view_item(
            tx: *const u8,
            tx_length: usize,
            coins: *const u8,
            coins_length: usize,
            side: u8,
            index: usize,
            item: usize,
        ) -> ViewAnswer;
    }
}

/// A transaction sheet, judged whole.
pub fn judge_transaction(sheet: &[u8]) -> SheetAnswer {
    unsafe { c::turgamysk_judge_transaction(sheet.as_ptr(), sheet.len()) }
}

/// A coin sheet, judged whole.
pub fn judge_coins(sheet: &[u8]) -> SheetAnswer {
    unsafe { c::turgamysk_judge_coins(sheet.as_ptr(), sheet.len()) }
}

/// The input, or the outpoint of the coin, at `position`.
pub fn sheet_input_at(sheet: &[u8], position: usize) -> OutpointAnswer {
    unsafe { c::turgamysk_sheet_input_at(sheet.as_ptr(), sheet.len(), position) }
}

/// The output, or what follows the outpoint of the coin, at `position`; 27 carries `side`.
pub fn sheet_place_at(sheet: &[u8], position: usize, side: u8) -> PlaceAnswer {
    unsafe { c::turgamysk_sheet_place_at(sheet.as_ptr(), sheet.len(), position, side) }
}

/// Where an item of an output (side 0) or a coin (side 1) stands in the sheet of that side.
pub fn view_item(tx: &[u8], coins: &[u8], side: u8, index: usize, item: usize) -> ViewAnswer {
    let (tx_start, coins_start) = (tx.as_ptr(), coins.as_ptr());
    unsafe {
        c::turgamysk_view_item(
            tx_start,
            tx.len(),
            coins_start,
            coins.len(),
            side,
            index,
            item,
        )
    }
}
