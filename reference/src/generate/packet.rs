//! Cases of the lent store.

use super::Cases;
use crate::random::Random;
use crate::text::Line;

const SEED: u64 = 0x0000_9ac4;

const STORE_SEED: u8 = 0x31;

const STORES: [u16; 13] = [0, 1, 9, 16, 59, 60, 61, 64, 1535, 1536, 1537, 1600, 2048];

/// Far beyond any store; cut to 16 or 32 bits some would be inside.
const HUGE: [u64; 7] =
    [1 << 16, 1 << 32, (1 << 32) + 5, 1 << 63, u64::MAX - 9, u64::MAX - 8, u64::MAX];

/// Name, size of the store, length of the packet.
const FILLS: [(&str, u16, u64); 18] = [
    ("length 0: 60 zeros", 1536, 0),
    ("length 1: bytes 1 to 59 zero", 1536, 1),
    ("length 16: bytes 16 to 59 zero", 1536, 16),
    ("length 17: bytes 17 to 59 zero", 1536, 17),
    ("length 59: byte 59 zero", 1536, 59),
    ("length 60: nothing", 1536, 60),
    ("length 61: nothing", 1536, 61),
    ("length 1536: nothing", 1536, 1536),
    ("length 2 to the power of 64 less 1: nothing", 1536, u64::MAX),
    ("length 2 to the power of 32, which cut would be 0: nothing", 1536, 1 << 32),
    ("length 0, store of 60: 60 zeros", 60, 0),
    ("length 17, store of 60: bytes 17 to 59 zero", 60, 17),
    ("length 59, store of 60: byte 59 zero", 60, 59),
    ("length 0, store of 59: nothing", 59, 0),
    ("length 17, store of 59: nothing", 59, 17),
    ("length 59, store of 59: nothing", 59, 59),
    ("length 0, store of no bytes: nothing", 0, 0),
    ("length 17, store of no bytes: nothing", 0, 17),
];

/// Name, size of the store, length asked for.
const SHOWN: [(&str, u16, u64); 20] = [
    ("length 0: an empty part", 1536, 0),
    ("length 1: the first byte", 1536, 1),
    ("length 60: 60 bytes", 1536, 60),
    ("length 1535: 1535 bytes", 1536, 1535),
    ("length 1536: 1536 bytes", 1536, 1536),
    ("length 1537, above the store: an empty part", 1536, 1537),
    ("length 1536, store of 2048: 1536 bytes", 2048, 1536),
    ("length 1537, store of 2048, above the longest packet: an empty part", 2048, 1537),
    ("length 2048, store of 2048, above the longest packet: an empty part", 2048, 2048),
    ("length 1537, store of 1537, above the longest packet: an empty part", 1537, 1537),
    ("length 1535, store of 1535: 1535 bytes", 1535, 1535),
    ("length 1536, store of 1535, above the store: an empty part", 1535, 1536),
    ("length 59, store of 59: 59 bytes", 59, 59),
    ("length 60, store of 59, above the store: an empty part", 59, 60),
    ("length 0, store of no bytes: an empty part", 0, 0),
    ("length 1, store of no bytes: an empty part", 0, 1),
    ("length 2 to the power of 64 less 1: an empty part", 1536, u64::MAX),
    ("length 2 to the power of 63: an empty part", 1536, 1 << 63),
    (
        "length 2 to the power of 32 and 60, which cut would be 60: an empty part",
        1536,
        0x1_0000_003c,
    ),
    ("length 2 to the power of 16 and 60, which cut would be 60: an empty part", 1536, 0x1_003c),
];

/// Adds the cases of this subject.
pub fn generate(cases: &mut Cases) {
    cases.group("Store: a packet filled up");
    for (name, store, length) in FILLS {
        cases.name(name);
        cases.case(of_length("fill", store, STORE_SEED, length));
    }
    cases.group("Store: a part shown");
    for (name, store, length) in SHOWN {
        cases.name(name);
        cases.case(of_length("shown", store, STORE_SEED, length));
    }
    sweeps(cases);
    random(cases);
}

fn sweeps(cases: &mut Cases) {
    cases.group("Store: fill and part for each store and lengths around its edges");
    for store in STORES {
        let edges = [0, 1, 16, 17, 58, 59, 60, 61, 64, 1535, 1536, 1537, 2047, 2048, 2049];
        let own = [u64::from(store), u64::from(store) + 1];
        for length in edges.into_iter().chain(own).chain(HUGE) {
            cases.case(of_length("fill", store, STORE_SEED, length));
            cases.case(of_length("shown", store, STORE_SEED, length));
        }
    }
    cases.group("Store: fill for each length up to 70, store of 1536");
    for length in 0..=70 {
        cases.case(of_length("fill", 1536, STORE_SEED, length));
    }
}

fn random(cases: &mut Cases) {
    let mut random = Random::new(SEED);
    cases.group("Store: random stores and lengths");
    for _ in 0..120 {
        let store = if random.one_in(3) { random.below(2049) as u16 } else { random.pick(&STORES) };
        cases.case(of_length("fill", store, random.byte(), random.below(80)));
        cases.case(of_length("shown", store, random.byte(), random.below(1700)));
    }
}

fn of_length(operation: &str, store: u16, seed: u8, length: u64) -> Line {
    Line::case(operation).u16(store).u8(seed).u64(length)
}
