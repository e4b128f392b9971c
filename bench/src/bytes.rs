//! The messages of every table.

/// The lengths that are measured: none, a name, a value with its nonce, around a block, and long ones.
pub const LENGTHS: [usize; 9] = [0, 12, 40, 63, 64, 136, 1 << 10, 64 << 10, 1 << 20];

/// The lengths of what grows.
pub const GROWTH: [usize; 8] = [
    1 << 10,
    1 << 12,
    1 << 14,
    1 << 16,
    1 << 18,
    1 << 20,
    1 << 22,
    1 << 24,
];

/// The lengths on which both sides are compared: those of five blocks of either hash, and those that are measured.
pub fn compared() -> impl Iterator<Item = usize> {
    (0..=700).chain(LENGTHS).chain(GROWTH)
}

pub fn message(length: usize) -> Vec<u8> {
    (0..length)
        .map(|i| ((i * 131 + length * 29) % 251) as u8)
        .collect()
}
