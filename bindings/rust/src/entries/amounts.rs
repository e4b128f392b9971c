/// A sum or a difference of amounts, or why there is none.
#[repr(C)]
#[derive(Clone, Copy, Debug, Default, Eq, PartialEq)]
pub struct AmountAnswer {
    /// 0, or 1 for an overflow and 2 for an underflow.
    pub outcome: u8,
    /// The amount; 0 where there is none.
    pub value: u64,
}

mod c {
    use super::*;

    unsafe extern "C" {
        pub fn turgamysk_checked_add(amount: u64, other: u64) -> AmountAnswer;
        pub fn turgamysk_checked_sub(amount: u64, other: u64) -> AmountAnswer;
    }
}

/// The sum of two amounts.
pub fn checked_add(amount: u64, other: u64) -> AmountAnswer {
    unsafe { c::turgamysk_checked_add(amount, other) }
}

/// The difference of two amounts.
pub fn checked_sub(amount: u64, other: u64) -> AmountAnswer {
    unsafe { c::turgamysk_checked_sub(amount, other) }
}
