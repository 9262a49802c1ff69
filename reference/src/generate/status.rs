//! Cases of the status data.

use super::Cases;
use crate::random::Random;
use crate::text::Line;
use reference::status::{self, StatusData, BLOCK_BYTES};

const SEED: u64 = 0x0057_a705;

/// Length, VLAN, decision match and index, VLAN match and index.
type Fields = (u16, u16, bool, u8, bool, u8);

const WRITES: [(&str, Fields); 44] = [
    ("W13: length 64, decision 7 matched: 40 00 01 00 00 00 70 01", (64, 0, true, 7, false, 0)),
    (
        "length 1536, VLAN 0x0123, VLAN index 5 matched: 00 06 01 00 23 01 0D 00",
        (1536, 0x0123, false, 0, true, 5),
    ),
    ("length 0: length", (0, 0, false, 0, false, 0)),
    ("length 1: written", (1, 0, false, 0, false, 0)),
    ("length 255: written", (255, 0, false, 0, false, 0)),
    ("length 256: written", (256, 0, false, 0, false, 0)),
    ("length 1536: written", (1536, 0, false, 0, false, 0)),
    ("length 1537: length", (1537, 0, false, 0, false, 0)),
    ("length 16383, all bits of the field: length", (16383, 0, false, 0, false, 0)),
    ("length 16384, past the field: length", (16384, 0, false, 0, false, 0)),
    ("length 64 and bit 14: length", (0x4040, 0, false, 0, false, 0)),
    ("length 64 and bit 15: length", (0x8040, 0, false, 0, false, 0)),
    ("length 65535: length", (65535, 0, false, 0, false, 0)),
    ("VLAN 0x0001: written", (64, 0x0001, false, 0, false, 0)),
    ("VLAN 0x0100: written", (64, 0x0100, false, 0, false, 0)),
    ("VLAN 0xFFFF, no VLAN match: written", (64, 0xffff, false, 0, false, 0)),
    ("VLAN 0 with a VLAN match: written", (64, 0, false, 0, true, 1)),
    ("decision 0 matched: written", (64, 0, true, 0, false, 0)),
    ("decision 7 matched: written", (64, 0, true, 7, false, 0)),
    ("decision 8 matched: decision index", (64, 0, true, 8, false, 0)),
    ("decision 15 matched: decision index", (64, 0, true, 15, false, 0)),
    ("decision 16 matched: decision index", (64, 0, true, 16, false, 0)),
    ("decision 255 matched: decision index", (64, 0, true, 255, false, 0)),
    ("decision 1 without its match: decision index", (64, 0, false, 1, false, 0)),
    ("decision 7 without its match: decision index", (64, 0, false, 7, false, 0)),
    ("decision 8 without its match: decision index", (64, 0, false, 8, false, 0)),
    ("decision 15 without its match: decision index", (64, 0, false, 15, false, 0)),
    ("decision 16 without its match: decision index", (64, 0, false, 16, false, 0)),
    ("decision 255 without its match: decision index", (64, 0, false, 255, false, 0)),
    ("VLAN index 0 matched: written", (64, 0, false, 0, true, 0)),
    ("VLAN index 7 matched: written", (64, 0, false, 0, true, 7)),
    ("VLAN index 8 matched: VLAN index", (64, 0, false, 0, true, 8)),
    ("VLAN index 255 matched: VLAN index", (64, 0, false, 0, true, 255)),
    ("VLAN index 1 without its match: VLAN index", (64, 0, false, 0, false, 1)),
    ("VLAN index 7 without its match: VLAN index", (64, 0, false, 0, false, 7)),
    ("VLAN index 8 without its match: VLAN index", (64, 0, false, 0, false, 8)),
    ("VLAN index 255 without its match: VLAN index", (64, 0, false, 0, false, 255)),
    ("both matched at their highest: written", (1536, 0xffff, true, 7, true, 7)),
    ("both matched past their highest: decision index", (1536, 0xffff, true, 8, true, 8)),
    ("decision 1 with the match of the VLAN index: decision index", (64, 0, false, 1, true, 1)),
    ("VLAN index 1 with the match of the decision: VLAN index", (64, 0, true, 1, false, 1)),
    ("length 0, all indices 255: length", (0, 0, true, 255, true, 255)),
    ("length 1537, both indices without their match: length", (1537, 0, false, 1, false, 1)),
    ("every field at its highest: length", (65535, 0xffff, true, 255, true, 255)),
];

const READS: [(&str, [u8; BLOCK_BYTES]); 43] = [
    ("W13 read back: read", [0x40, 0, 1, 0, 0, 0, 0x70, 1]),
    ("length 1536, VLAN 0x0123, VLAN index 5 matched: read", [0, 6, 1, 0, 0x23, 1, 0x0d, 0]),
    ("length 0: length", [0, 0, 1, 0, 0, 0, 0, 0]),
    ("length 1: read", [1, 0, 1, 0, 0, 0, 0, 0]),
    ("length 1536: read", [0, 6, 1, 0, 0, 0, 0, 0]),
    ("length 1537: length", [1, 6, 1, 0, 0, 0, 0, 0]),
    ("length 16383: length", [0xff, 0x3f, 1, 0, 0, 0, 0, 0]),
    ("length 64 with reserved bit 14: length", [0x40, 0x40, 1, 0, 0, 0, 0, 0]),
    ("length 64 with reserved bit 15: length", [0x40, 0x80, 1, 0, 0, 0, 0, 0]),
    ("length 1 with reserved bit 14: length", [1, 0x40, 1, 0, 0, 0, 0, 0]),
    ("length 1536 with reserved bit 15: length", [0, 0x86, 1, 0, 0, 0, 0, 0]),
    ("length 0 with both reserved bits: length", [0, 0xc0, 1, 0, 0, 0, 0, 0]),
    ("length 65535: length", [0xff, 0xff, 1, 0, 0, 0, 0, 0]),
    ("packet status 0x0000: packet status", [0x40, 0, 0, 0, 0, 0, 0, 0]),
    ("packet status 0x0002: packet status", [0x40, 0, 2, 0, 0, 0, 0, 0]),
    ("packet status 0x0003: packet status", [0x40, 0, 3, 0, 0, 0, 0, 0]),
    ("packet status 0x0100, high byte first: packet status", [0x40, 0, 0, 1, 0, 0, 0, 0]),
    ("packet status 0x8001: packet status", [0x40, 0, 1, 0x80, 0, 0, 0, 0]),
    ("VLAN 0xFFFF: read", [0x40, 0, 1, 0, 0xff, 0xff, 0, 0]),
    ("VLAN 0x0100: read", [0x40, 0, 1, 0, 0, 1, 0, 0]),
    ("decision 0 matched: read", [0x40, 0, 1, 0, 0, 0, 0, 1]),
    ("decision 7 matched: read", [0x40, 0, 1, 0, 0, 0, 0x70, 1]),
    ("decision 8 matched: decision index", [0x40, 0, 1, 0, 0, 0, 0x80, 1]),
    ("decision 15 matched: decision index", [0x40, 0, 1, 0, 0, 0, 0xf0, 1]),
    ("decision 1 without its match: decision index", [0x40, 0, 1, 0, 0, 0, 0x10, 0]),
    ("decision 7 without its match: decision index", [0x40, 0, 1, 0, 0, 0, 0x70, 0]),
    ("decision 8 without its match: decision index", [0x40, 0, 1, 0, 0, 0, 0x80, 0]),
    ("decision 15 without its match: decision index", [0x40, 0, 1, 0, 0, 0, 0xf0, 0]),
    ("VLAN index 0 matched: read", [0x40, 0, 1, 0, 0, 0, 8, 0]),
    ("VLAN index 7 matched: read", [0x40, 0, 1, 0, 0, 0, 0x0f, 0]),
    ("VLAN index 1 without its match: VLAN index", [0x40, 0, 1, 0, 0, 0, 1, 0]),
    ("VLAN index 7 without its match: VLAN index", [0x40, 0, 1, 0, 0, 0, 7, 0]),
    ("both matched at their highest: read", [0, 6, 1, 0, 0xff, 0xff, 0x7f, 1]),
    ("the fields high byte first: length", [0, 0x40, 0, 1, 0, 0, 1, 0x70]),
    ("all zeros: length", [0; BLOCK_BYTES]),
    ("all ones: length", [0xff; BLOCK_BYTES]),
    ("all ones but a length of 64: packet status", [0x40, 0, 255, 255, 255, 255, 255, 255]),
    ("all ones after the packet status: MNG reserved bits", [1, 0, 1, 0, 255, 255, 255, 255]),
    ("only bit 9 of the MNG status bad: MNG reserved bits", [1, 0, 1, 0, 0, 0, 0x7f, 3]),
    ("length 0, then every field bad: length", [0, 0, 0, 0, 0, 0, 0xf1, 0xfe]),
    ("length 1537, then every field bad: length", [1, 6, 0, 0, 0, 0, 0xf1, 0xfe]),
    ("length 64 with bit 14, then every field bad: length", [0x40, 0x40, 0, 0, 0, 0, 0xf1, 0xfe]),
    ("both indices without their match: decision index", [0x40, 0, 1, 0, 0, 0, 0x11, 0]),
];

const GOOD_BLOCKS: [[u8; BLOCK_BYTES]; 6] = [
    [0x40, 0x00, 0x01, 0x00, 0x00, 0x00, 0x70, 0x01],
    [0x00, 0x06, 0x01, 0x00, 0x23, 0x01, 0x0d, 0x00],
    [0x01, 0x00, 0x01, 0x00, 0x00, 0x00, 0x00, 0x00],
    [0xff, 0x05, 0x01, 0x00, 0xff, 0xff, 0x7f, 0x01],
    [0x00, 0x04, 0x01, 0x00, 0x64, 0x00, 0x08, 0x01],
    [0xea, 0x05, 0x01, 0x00, 0x5a, 0xa5, 0x69, 0x01],
];

/// A field by its name, and what makes it bad.
type Bad<T> = (&'static str, fn(&mut T));

/// The fields that are written, in the order in which they are judged.
const BAD_FIELDS: [Bad<StatusData>; 3] = [
    ("length", |fields| fields.length = 1537),
    ("decision index", |fields| fields.decision_index = 8),
    ("VLAN index", |fields| fields.vlan_index = 8),
];

/// The fields of a block whose VLAN index is matched and not zero, in the same
/// order.
const BAD_IN_BLOCK: [Bad<Vec<u8>>; 6] = [
    ("size of block", |block| block.push(0)),
    ("length", |block| block[1] |= 0x80),
    ("packet status", |block| block[2] = 0),
    ("MNG reserved bits", |block| block[7] |= 0x02),
    ("decision index", |block| block[6] |= 0x80),
    ("VLAN index", |block| block[6] &= !0x08),
];

/// Adds the cases of this subject.
pub fn generate(cases: &mut Cases) {
    cases.group("Status data: writing");
    for (name, fields) in WRITES {
        cases.name(name);
        cases.case(write(&data(fields)));
    }
    cases.group("Status data: reading");
    for (name, block) in READS {
        cases.name(name);
        cases.case(read(&block));
    }
    reserved_bits(cases);
    sizes_of_block(cases);
    several_bad(cases);
    sweeps(cases);
    damage(cases);
    random(cases);
}

fn reserved_bits(cases: &mut Cases) {
    cases.name("each reserved bit of the MNG status: MNG reserved bits");
    for bit in 1..8 {
        cases.case(read(&[0x40, 0, 1, 0, 0, 0, 0x7d, 1 | 1 << bit]));
    }
}

fn sizes_of_block(cases: &mut Cases) {
    for block in &GOOD_BLOCKS[..2] {
        cases.name("a good block cut or lengthened to 0 .. 20 bytes but 8: size of block");
        other_sizes(cases, block, 0);
    }
    cases.name("ones of 0 .. 20 bytes but 8: size of block");
    other_sizes(cases, &[], 0xff);
    cases.name("zeros of 0 .. 20 bytes but 8: size of block");
    other_sizes(cases, &[], 0);
    cases.name("a good block twice, 32 times, and with 256 bytes more: size of block");
    for times in [2, 32] {
        cases.case(read(&GOOD_BLOCKS[0].repeat(times)));
    }
    cases.case(read(&resized(&GOOD_BLOCKS[0], BLOCK_BYTES + 256, 0)));
}

fn other_sizes(cases: &mut Cases, bytes: &[u8], filler: u8) {
    for size in (0..=20).filter(|size| *size != BLOCK_BYTES) {
        cases.case(read(&resized(bytes, size, filler)));
    }
}

fn resized(bytes: &[u8], size: usize, filler: u8) -> Vec<u8> {
    let mut bytes = bytes.to_vec();
    bytes.resize(size, filler);
    bytes
}

fn several_bad(cases: &mut Cases) {
    for fields in [(64, 0x0123, true, 7, true, 7), (1536, 0xffff, false, 0, false, 0)] {
        cases.group("Status data: writing with every choice of bad fields");
        choices(cases, &data(fields), &BAD_FIELDS, write);
    }
    for block in [GOOD_BLOCKS[3], GOOD_BLOCKS[1]] {
        cases.group("Status data: reading with every choice of bad fields");
        choices(cases, &block.to_vec(), &BAD_IN_BLOCK, |block| read(block));
    }
}

/// Each field bad while no earlier one is, with every choice of later ones.
fn choices<T: Clone>(cases: &mut Cases, good: &T, fields: &[Bad<T>], case: fn(&T) -> Line) {
    for (place, (name, make_bad)) in fields.iter().enumerate() {
        cases.name(&format!("{name} bad, and every choice of later fields: {name}"));
        let later = &fields[place + 1..];
        for choice in 0..1_u32 << later.len() {
            let mut bad = good.clone();
            make_bad(&mut bad);
            for (bit, (_, make_bad)) in later.iter().enumerate() {
                if choice >> bit & 1 == 1 {
                    make_bad(&mut bad);
                }
            }
            cases.case(case(&bad));
        }
    }
}

fn sweeps(cases: &mut Cases) {
    cases.group("Status data: writing every match with every index, and past the highest");
    for decision_match in [false, true] {
        for decision_index in 0..=9 {
            for vlan_match in [false, true] {
                for vlan_index in 0..=9 {
                    cases.case(write(&StatusData {
                        length: 1000,
                        vlan: 0x2345,
                        decision_match,
                        decision_index,
                        vlan_match,
                        vlan_index,
                    }));
                }
            }
        }
    }
    cases.group("Status data: reading every value of the MNG status without reserved bits");
    for mng_status in 0..512_u16 {
        let [low, high] = mng_status.to_le_bytes();
        cases.case(read(&[0xdc, 0x05, 1, 0, 0x45, 0x23, low, high]));
    }
    cases.group("Status data: lengths beside each power of two, written and read");
    for bit in 0..16 {
        for length in [(1_u16 << bit) - 1, 1 << bit, (1 << bit) + 1] {
            cases.case(write(&data((length, 0, true, 3, true, 2))));
            let [low, high] = length.to_le_bytes();
            cases.case(read(&[low, high, 1, 0, 0, 0, 0x3a, 1]));
        }
    }
}

fn damage(cases: &mut Cases) {
    for block in GOOD_BLOCKS {
        cases.group("Status data, a good block: read");
        cases.case(read(&block));
        cases.name("the same with each single bit turned");
        for bit in 0..8 * BLOCK_BYTES {
            let mut damaged = block;
            damaged[bit / 8] ^= 1 << (bit % 8);
            cases.case(read(&damaged));
        }
    }
}

fn random(cases: &mut Cases) {
    let mut random = Random::new(SEED);
    cases.group("Status data: random fields");
    for _ in 0..60 {
        let fields = any_fields(&mut random);
        cases.case(write(&fields));
    }
    cases.group("Status data, random fields that are allowed: written");
    let allowed: Vec<StatusData> = (0..150).map(|_| allowed_fields(&mut random)).collect();
    for fields in &allowed {
        cases.case(write(fields));
    }
    cases.group("Status data, the blocks of these fields: read");
    for fields in &allowed {
        cases.case(read(&block_of(fields)));
    }
    cases.group("Status data: random fields of which one or two are drawn from all their values");
    for _ in 0..150 {
        let mut fields = allowed_fields(&mut random);
        for _ in 0..1 + random.below(2) {
            redraw(&mut random, &mut fields);
        }
        cases.case(write(&fields));
    }
    cases.group("Status data: random blocks of 0 to 12 bytes");
    for _ in 0..100 {
        let size = random.below(13) as usize;
        cases.case(read(&random.bytes(size)));
    }
    cases.group("Status data: blocks of random allowed fields with one or two bytes replaced");
    for _ in 0..200 {
        let mut block = block_of(&allowed_fields(&mut random));
        for _ in 0..1 + random.below(2) {
            block[random.below(BLOCK_BYTES as u64) as usize] = random.byte();
        }
        cases.case(read(&block));
    }
}

/// Draws one field anew.
fn redraw(random: &mut Random, fields: &mut StatusData) {
    let any = any_fields(random);
    match random.below(5) {
        0 => fields.length = any.length,
        1 => fields.decision_match = any.decision_match,
        2 => fields.decision_index = any.decision_index % 32,
        3 => fields.vlan_match = any.vlan_match,
        _ => fields.vlan_index = any.vlan_index % 16,
    }
}

fn any_fields(random: &mut Random) -> StatusData {
    StatusData {
        length: random.u16(),
        vlan: random.u16(),
        decision_match: random.one_in(2),
        decision_index: random.byte(),
        vlan_match: random.one_in(2),
        vlan_index: random.byte(),
    }
}

fn allowed_fields(random: &mut Random) -> StatusData {
    let mut fields = StatusData {
        length: 1 + random.below(1536) as u16,
        vlan: random.u16(),
        decision_match: random.one_in(2),
        decision_index: 0,
        vlan_match: random.one_in(2),
        vlan_index: 0,
    };
    if fields.decision_match {
        fields.decision_index = random.below(8) as u8;
    }
    if fields.vlan_match {
        fields.vlan_index = random.below(8) as u8;
    }
    fields
}

fn data(fields: Fields) -> StatusData {
    let (length, vlan, decision_match, decision_index, vlan_match, vlan_index) = fields;
    StatusData { length, vlan, decision_match, decision_index, vlan_match, vlan_index }
}

fn block_of(allowed: &StatusData) -> [u8; BLOCK_BYTES] {
    status::write(allowed).expect("fields that are allowed")
}

fn write(fields: &StatusData) -> Line {
    Line::case("write-status")
        .u16(fields.length)
        .u16(fields.vlan)
        .bool(fields.decision_match)
        .u8(fields.decision_index)
        .bool(fields.vlan_match)
        .u8(fields.vlan_index)
}

fn read(block: &[u8]) -> Line {
    Line::case("read-status").bytes(block)
}
