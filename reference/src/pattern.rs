//! The pattern that stands for the bytes of stores and of long data.

const STEP: u8 = 7;

/// The bytes of the pattern of a size and a seed.
pub fn pattern(size: u16, seed: u8) -> Vec<u8> {
    (0..size).map(|place| seed.wrapping_add(STEP.wrapping_mul(place as u8))).collect()
}
