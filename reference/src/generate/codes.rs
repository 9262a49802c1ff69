//! Cases of check bytes by themselves.

use super::transactions::rightly_coded;
use super::Cases;
use crate::random::Random;
use crate::text::{Line, LONGEST_LINE};

const SEED: u64 = 0x0000_9ec0;

/// So many bytes fit into a line as digits.
const MOST_BYTES: usize = (LONGEST_LINE - "crc 00 ".len()) / 2;

/// The bytes whose code is published with each such code.
const DIGITS: &[u8] = b"123456789";

/// What `i2c_smbus_pec` of the Linux kernel gives: address, command, data, code.
const OF_LINUX: [(u8, u8, &[u8], u8); 13] = [
    (0x00, 0x00, b"", 0x00),
    (0x80, 0x00, b"", 0x0b),
    (0x10, 0x05, b"", 0xe3),
    (0x00, 0x00, b"\x01", 0x12),
    (0x92, 0xca, b"\x41", 0xa5),
    (0x92, 0xca, b"\x40", 0xa2),
    (0x93, 0xca, b"\x41", 0xb3),
    (0x92, 0xca, b"\xc9\x02\x03\x04\x05\x06\x07\xc0\xa8\x00\x01\xaa\xbb\xcc", 0xbf),
    (0x92, 0x84, b"\x11\x22\x33", 0xd6),
    (0x92, 0x04, b"\x11\x22\x33", 0x41),
    (0x92, 0x44, b"\x11\x22\x33", 0x89),
    (0xc2, 0xc4, DIGITS, 0x04),
    (0xff, 0xff, b"\xff", 0x1c),
];

/// The same of data of a pattern: address, command, size, seed, code.
const OF_LINUX_LONG: [(u8, u8, u16, u8, u8); 7] = [
    (0xc2, 0xca, 14, 201, 0x30),
    (0x92, 0x44, 96, 111, 0xfa),
    (0xff, 0x05, 128, 85, 0x83),
    (0x92, 0x84, 240, 37, 0x67),
    (0x92, 0xc4, 254, 1, 0x80),
    (0x92, 0xc4, 255, 1, 0x4b),
    (0x00, 0x00, 255, 0, 0x09),
];

/// Adds the cases of this subject.
pub fn generate(cases: &mut Cases) {
    known(cases);
    sizes(cases);
    sweeps(cases);
    random(cases);
}

fn known(cases: &mut Cases) {
    cases.group("Check bytes: the published check value");
    cases.name("the digits 1 to 9: code 0xf4");
    cases.case(crc(0, DIGITS));
    cases.group("Check bytes: those that the Linux kernel works out");
    for (address, command, data, code) in OF_LINUX {
        let bytes = data.len();
        cases.name(&format!("{address:#04x}, {command:#04x} and {bytes} bytes: code {code:#04x}"));
        cases.case(code_of(address, command, data));
    }
    for (address, command, size, seed, code) in OF_LINUX_LONG {
        cases.name(&format!("{address:#04x}, {command:#04x} and {size} bytes: code {code:#04x}"));
        cases.case(code_of_pattern(address, command, size, seed));
    }
    cases.group("Check bytes: a transaction with its check byte behind it leaves nothing");
    for (address, command, data, code) in OF_LINUX {
        let head = [address, command, data.len() as u8];
        cases.name(&format!("{address:#04x}, {command:#04x} with {code:#04x}: code 0x00"));
        cases.case(crc(0, &[&head[..], data, &[code]].concat()));
    }
}

/// Data around the most that have a check byte.
fn sizes(cases: &mut Cases) {
    cases.group("Check bytes: sizes of data");
    cases.name("0 to 255 bytes");
    for size in [0, 1, 2, 127, 128, 239, 240, 241, 253, 254, 255] {
        cases.case(code_of_pattern(0x92, 0xc4, size, 0x31));
    }
    for size in [256, 257, 258, 319, 511, 512, 513, 1536, 2047, 2048] {
        cases.name(&format!("{size} bytes: no code"));
        cases.case(code_of_pattern(0x92, 0xc4, size, 0x31));
    }
    cases.name("256 zeros under address and command 0: no code");
    cases.case(code_of(0, 0, &[0; 256]));
    cases.name("zeros of every size up to 40");
    for size in 0..=40 {
        cases.case(code_of(0, 0, &[0; 40][..size]));
    }
}

fn sweeps(cases: &mut Cases) {
    cases.group("Check bytes: each byte alone");
    for byte in 0..=255 {
        cases.case(crc(0, &[byte]));
    }
    cases.group("Check bytes: starts other than 0");
    for start in (0..=255).step_by(15) {
        cases.case(crc(start, &[]));
        cases.case(crc(start, &[start]));
        cases.case(crc(start, &[0x5a, 0x00]));
    }
    cases.group("Check bytes: zeros with each single bit turned");
    for bit in 0..8 * 12 {
        let mut bytes = [0; 12];
        bytes[bit / 8] = 0x80 >> (bit % 8);
        cases.case(crc(0, &bytes));
    }
    cases.group("Check bytes: addresses and commands");
    for number in (0..=255).step_by(7) {
        cases.case(code_of(number, 0xc4, &[0x11, 0x22]));
        cases.case(code_of(0x92, number, &[0x11, 0x22]));
    }
}

fn random(cases: &mut Cases) {
    let mut random = Random::new(SEED);
    cases.group("Check bytes: random bytes from random starts");
    for _ in 0..60 {
        let size = random.below(41) as usize;
        cases.case(crc(random.byte(), &random.bytes(size)));
    }
    cases.name("as many as fit into a line");
    cases.case(crc(random.byte(), &random.bytes(MOST_BYTES)));
    cases.group("Check bytes: random transactions");
    for _ in 0..50 {
        let size = random.below(41) as usize;
        cases.case(code_of(random.byte(), random.byte(), &random.bytes(size)));
    }
    for _ in 0..50 {
        let size = random.below(300) as u16;
        cases.case(code_of_pattern(random.byte(), random.byte(), size, random.byte()));
    }
    cases.group("Check bytes: random transactions with their check bytes leave nothing");
    for _ in 0..20 {
        let size = random.below(41) as usize;
        let (address, command, data) = (random.byte(), random.byte(), random.bytes(size));
        let code = rightly_coded(address, command, true, &data).code;
        let head = [address, command, size as u8];
        cases.name(&format!("{size} bytes: code 0x00"));
        cases.case(crc(0, &[&head[..], &data, &[code]].concat()));
    }
}

fn crc(start: u8, bytes: &[u8]) -> Line {
    Line::case("crc").u8(start).bytes(bytes)
}

fn code_of(address: u8, command: u8, data: &[u8]) -> Line {
    Line::case("code").u8(address).u8(command).bytes(data)
}

fn code_of_pattern(address: u8, command: u8, size: u16, seed: u8) -> Line {
    Line::case("code-pattern").u8(address).u8(command).u16(size).u8(seed)
}
