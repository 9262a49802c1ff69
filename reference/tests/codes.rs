//! Check bytes: by bits, by the table, by long division, and as the Linux kernel
//! works them out.

mod kernel;

use reference::history::Transaction;
use reference::pec::{by_bits, by_table, code};
use reference::random::Random;

/// A transaction of these bytes.
fn transaction(address: u8, command: u8, data: &[u8], code: u8) -> Transaction {
    Transaction { address, command, data: data.to_vec(), code, link_up: true }
}

/// Address, command, count and data.
fn message(address: u8, command: u8, data: &[u8]) -> Vec<u8> {
    [&[address, command, data.len() as u8], data].concat()
}

#[test]
fn the_published_check_value() {
    assert_eq!(kernel::pec(0, b"123456789"), 0xf4);
    assert_eq!(by_bits(0, b"123456789"), 0xf4);
    assert_eq!(by_table(0, b"123456789"), 0xf4);
}

#[test]
fn every_byte_from_every_start() {
    for start in 0..=255 {
        assert_eq!(by_bits(start, &[]), start);
        assert_eq!(by_table(start, &[]), start);
        for byte in 0..=255 {
            let code = kernel::pec(start, &[byte]);
            assert_eq!(by_bits(start, &[byte]), code, "{start} {byte}");
            assert_eq!(by_table(start, &[byte]), code, "{start} {byte}");
        }
    }
}

#[test]
fn random_bytes_from_random_starts() {
    let mut random = Random::new(8117);
    for _ in 0..20_000 {
        let size = random.below(300) as usize;
        let (start, bytes) = (random.byte(), random.bytes(size));
        let code = kernel::pec(start, &bytes);
        assert_eq!(by_bits(start, &bytes), code);
        assert_eq!(by_table(start, &bytes), code);
        let (front, back) = bytes.split_at(random.below(size as u64 + 1) as usize);
        assert_eq!(by_table(by_table(start, front), back), code);
    }
}

#[test]
fn codes_of_transactions() {
    let mut random = Random::new(8118);
    for size in (0..=255).chain([0, 1, 255]).cycle().take(10_000) {
        let (address, command, data) = (random.byte(), random.byte(), random.bytes(size));
        let expected = kernel::pec(0, &message(address, command, &data));
        assert_eq!(code(address, command, &data), (0, expected));
        for given in [expected, expected ^ 1, expected ^ 0x80, random.byte()] {
            let right = transaction(address, command, &data, given).code_right();
            assert_eq!(right, given == expected, "{given}");
        }
    }
}

#[test]
fn more_than_255_bytes_have_no_code() {
    let mut random = Random::new(8119);
    for size in [256, 257, 511, 512, 768, 1536, 65_536] {
        let data = random.bytes(size);
        assert_eq!(code(0x92, 0xc4, &data), (17, 0), "{size}");
        for given in 0..=255 {
            assert!(!transaction(0x92, 0xc4, &data, given).code_right(), "{size} {given}");
        }
    }
}

/// One turned bit never leaves a code right, nor do two in eight that follow one
/// another.
#[test]
fn turned_bits_are_found() {
    let mut random = Random::new(8120);
    for size in [0, 1, 2, 14, 20, 240, 255] {
        let (address, command, data) = (random.byte(), random.byte(), random.bytes(size));
        let (_, right) = code(address, command, &data);
        let whole = [&[address, command], &data[..], &[right]].concat();
        for first in 0..8 * whole.len() {
            // The count stands between the command and the data.
            let last = if first < 16 { 16 } else { 8 * whole.len() };
            for second in first..(first + 8).min(last) {
                let mut turned = whole.clone();
                turned[first / 8] ^= 0x80 >> (first % 8);
                if second > first {
                    turned[second / 8] ^= 0x80 >> (second % 8);
                }
                let (given, rest) = turned.split_last().expect("a code at the end");
                let transaction = transaction(rest[0], rest[1], &rest[2..], *given);
                assert!(!transaction.code_right(), "{size}: {first} {second}");
                let (_, code) = code(rest[0], rest[1], &rest[2..]);
                assert_ne!(code, *given, "{size}: {first} {second}");
            }
        }
    }
}
