//! The check byte of a transaction: the packet error code of the System
//! Management Bus, a cyclic redundancy check of eight bits.

use crate::answer_numbers::{BAD_CHECK, DONE};

/// The powers of x^8 + x^2 + x + 1 below the highest, a bit each.
const POLYNOMIAL: u8 = 0x07;
/// The rest that a code starts from.
const START: u8 = 0;

const HIGHEST_BIT: u8 = 1 << 7;

/// What becomes of each rest by the eight bits of a byte.
const TABLE: [u8; 256] = table();

/// The answer and the code of a transaction, by the table; its count has no room
/// for more than 255 data bytes, so that these have no code.
pub fn code(address: u8, command: u8, data: &[u8]) -> (u8, u8) {
    match u8::try_from(data.len()) {
        Ok(count) => (DONE, by_table(by_table(START, &[address, command, count]), data)),
        Err(_) => (BAD_CHECK, 0),
    }
}

/// The rest that bytes leave of an earlier one, taken bit by bit.
pub fn by_bits(start: u8, bytes: &[u8]) -> u8 {
    bytes.iter().fold(start, |rest, byte| eight_bits(rest ^ byte))
}

/// The rest that bytes leave of an earlier one, each looked up in the table.
pub fn by_table(start: u8, bytes: &[u8]) -> u8 {
    bytes.iter().fold(start, |rest, byte| TABLE[usize::from(rest ^ byte)])
}

const fn table() -> [u8; 256] {
    let mut table = [0; 256];
    let mut rest = 0;
    while rest < table.len() {
        table[rest] = eight_bits(rest as u8);
        rest += 1;
    }
    table
}

/// Moves a rest up by eight bits, and takes the polynomial away for each bit
/// that falls out at the top.
const fn eight_bits(rest: u8) -> u8 {
    let mut rest = rest;
    let mut bits = 0;
    while bits < 8 {
        let falls_out = rest & HIGHEST_BIT != 0;
        rest <<= 1;
        if falls_out {
            rest ^= POLYNOMIAL;
        }
        bits += 1;
    }
    rest
}
