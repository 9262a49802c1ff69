//! Cases of the Set Link decision.

use super::Cases;
use crate::random::Random;
use crate::text::Line;

const SEED: u64 = 0x0005_e711;

const ABSENT: bool = false;
const PRESENT: bool = true;
const COPPER: bool = false;
const FIBRE: bool = true;

/// Below it lie all words of the bits that have a meaning, with and without the
/// reserved bits between them and the first one above them.
const SWEEP_END: u32 = 8192;
const SWEEP_WORDS: u16 = 64;

const BITS_WITH_A_MEANING: u32 = 0x0f1f;

/// Name, old word, word, host driver present, medium.
type Named = (&'static str, u32, u32, bool, bool);

const WORKED: [Named; 10] = [
    ("W9: 0x219 on copper is accepted", 0, 0x219, ABSENT, COPPER),
    ("W10: 0x109 is refused 0x0002", 0, 0x109, ABSENT, COPPER),
    ("W11: 0x10D on copper is accepted", 0, 0x10d, ABSENT, COPPER),
    ("W11: 0x10D on fibre is refused 0x0902", 0, 0x10d, ABSENT, FIBRE),
    ("W12: 0x30C is refused 0x0905", 0, 0x30c, ABSENT, COPPER),
    ("0x211 is refused 0x0002", 0, 0x211, ABSENT, COPPER),
    ("0x304 is refused 0x0002", 0, 0x304, ABSENT, COPPER),
    ("0x108 is refused 0x0903", 0, 0x108, ABSENT, COPPER),
    ("0x110 is refused 0x0903", 0, 0x110, ABSENT, COPPER),
    ("0x210 is refused 0x0002", 0, 0x210, ABSENT, COPPER),
];

const HOST: [Named; 9] = [
    ("host driver present, good word on copper: 0x0901", 0, 0x219, PRESENT, COPPER),
    ("host driver present, good word on fibre: 0x0901", 0, 0x219, PRESENT, FIBRE),
    ("host driver present and a reserved bit: 0x0901", 0, 0x1219, PRESENT, COPPER),
    ("host driver present and no speed: 0x0901", 0, 0x201, PRESENT, COPPER),
    ("host driver present and no valid pair: 0x0901", 0, 0x109, PRESENT, COPPER),
    ("host driver present and two forced speeds: 0x0901", 0, 0x206, PRESENT, COPPER),
    ("host driver present and 1000 half forced: 0x0901", 0, 0x108, PRESENT, COPPER),
    ("host driver present and wrong media: 0x0901", 0, 0x204, PRESENT, FIBRE),
    ("host driver present, word 0: 0x0901", 0, 0, PRESENT, COPPER),
];

const PRESENCE: [Named; 17] = [
    ("word 0 has no speed: 0x0002", 0, 0x000, ABSENT, COPPER),
    ("auto-negotiation alone has no speed: 0x0002", 0, 0x001, ABSENT, COPPER),
    ("auto-negotiation, full, no speed: 0x0002", 0, 0x201, ABSENT, COPPER),
    ("the same with speed 10: accepted", 0, 0x203, ABSENT, COPPER),
    ("forced, full, no speed: 0x0002", 0, 0x200, ABSENT, COPPER),
    ("the same with speed 10: accepted", 0, 0x202, ABSENT, COPPER),
    ("forced, both duplexes, no speed: 0x0002", 0, 0x300, ABSENT, COPPER),
    ("pause bits alone, no speed: 0x0002", 0, 0xc00, ABSENT, COPPER),
    ("both pause bits beside a good word: accepted", 0, 0xe19, ABSENT, COPPER),
    ("pause bit 10 beside a good word: accepted", 0, 0x604, ABSENT, COPPER),
    ("pause bit 11 beside a good word: accepted", 0, 0xa04, ABSENT, COPPER),
    ("no speed on fibre: 0x0002 and not 0x0902", 0, 0x201, ABSENT, FIBRE),
    ("reserved bit 5 and two forced speeds: 0x0002 and not 0x0905", 0, 0x226, ABSENT, COPPER),
    ("reserved bit 7 and 1000 half forced: 0x0002 and not 0x0903", 0, 0x188, ABSENT, COPPER),
    ("reserved bit 12 and 10G half forced: 0x0002 and not 0x0903", 0, 0x1110, ABSENT, COPPER),
    ("reserved bit 31 and wrong media: 0x0002 and not 0x0902", 0, 0x8000_010d, ABSENT, FIBRE),
    ("all bits: 0x0002", 0, 0xffff_ffff, ABSENT, COPPER),
];

const AUTO_NEGOTIATION: [Named; 21] = [
    ("auto-negotiation, 10 half: accepted", 0, 0x103, ABSENT, COPPER),
    ("auto-negotiation, 10 full: accepted", 0, 0x203, ABSENT, COPPER),
    ("auto-negotiation, 100 half: accepted", 0, 0x105, ABSENT, COPPER),
    ("auto-negotiation, 100 full: accepted", 0, 0x205, ABSENT, COPPER),
    ("auto-negotiation, 1000 half: 0x0002", 0, 0x109, ABSENT, COPPER),
    ("auto-negotiation, 1000 full: accepted", 0, 0x209, ABSENT, COPPER),
    ("auto-negotiation, 10G half: 0x0002", 0, 0x111, ABSENT, COPPER),
    ("auto-negotiation, 10G full: 0x0002", 0, 0x211, ABSENT, COPPER),
    ("auto-negotiation, 10G in both duplexes: 0x0002", 0, 0x311, ABSENT, COPPER),
    ("auto-negotiation, 1000 and 10G, half: 0x0002", 0, 0x119, ABSENT, COPPER),
    ("auto-negotiation, 1000 and 10G, both duplexes: accepted", 0, 0x319, ABSENT, COPPER),
    ("auto-negotiation, 1000 in both duplexes: accepted", 0, 0x309, ABSENT, COPPER),
    ("auto-negotiation, 10 and 10G, half: accepted", 0, 0x113, ABSENT, COPPER),
    ("auto-negotiation, 100 and 10G, full: accepted", 0, 0x215, ABSENT, COPPER),
    ("auto-negotiation, all speeds, no duplex: 0x0002", 0, 0x01f, ABSENT, COPPER),
    ("auto-negotiation, speed 10, no duplex: 0x0002", 0, 0x003, ABSENT, COPPER),
    ("auto-negotiation, all speeds, half: accepted", 0, 0x11f, ABSENT, COPPER),
    ("auto-negotiation, all speeds and duplexes: accepted", 0, 0x31f, ABSENT, COPPER),
    ("auto-negotiation, 1000 half on fibre: 0x0002 and not 0x0902", 0, 0x109, ABSENT, FIBRE),
    ("auto-negotiation, 10G full on fibre: 0x0002 and not 0x0902", 0, 0x211, ABSENT, FIBRE),
    ("auto-negotiation, all speeds, no duplex, fibre: 0x0002", 0, 0x01f, ABSENT, FIBRE),
];

const FORCED: [Named; 24] = [
    ("forced 10 half: accepted", 0, 0x102, ABSENT, COPPER),
    ("forced 10 full: accepted", 0, 0x202, ABSENT, COPPER),
    ("forced 100 half: accepted", 0, 0x104, ABSENT, COPPER),
    ("forced 100 full: accepted", 0, 0x204, ABSENT, COPPER),
    ("forced 1000 half: 0x0903", 0, 0x108, ABSENT, COPPER),
    ("forced 1000 full: accepted", 0, 0x208, ABSENT, COPPER),
    ("forced 10G half: 0x0903", 0, 0x110, ABSENT, COPPER),
    ("forced 10G full: 0x0002", 0, 0x210, ABSENT, COPPER),
    ("forced 10 and 100, full: 0x0905", 0, 0x206, ABSENT, COPPER),
    ("forced, all speeds, full: 0x0905", 0, 0x21e, ABSENT, COPPER),
    ("forced 10 and 100, no duplex: 0x0905 and not 0x0002", 0, 0x006, ABSENT, COPPER),
    ("forced 10 and 100, both duplexes: 0x0905 and not 0x0002", 0, 0x306, ABSENT, COPPER),
    ("forced 1000 and 10G, half: 0x0905 and not 0x0903", 0, 0x118, ABSENT, COPPER),
    ("forced 1000 and 10G, full: 0x0905 and not 0x0002", 0, 0x218, ABSENT, COPPER),
    ("forced 10, no duplex: 0x0002", 0, 0x002, ABSENT, COPPER),
    ("forced 1000, no duplex: 0x0002", 0, 0x008, ABSENT, COPPER),
    ("forced 10G, no duplex: 0x0002", 0, 0x010, ABSENT, COPPER),
    ("forced 1000 in both duplexes: 0x0002 and not 0x0903", 0, 0x308, ABSENT, COPPER),
    ("forced 10G in both duplexes: 0x0002 and not 0x0903", 0, 0x310, ABSENT, COPPER),
    ("forced 10 and 100 on fibre: 0x0905 and not 0x0902", 0, 0x206, ABSENT, FIBRE),
    ("forced 100 in both duplexes on fibre: 0x0002 and not 0x0902", 0, 0x304, ABSENT, FIBRE),
    ("forced 1000 half on fibre: 0x0903 and not 0x0902", 0, 0x108, ABSENT, FIBRE),
    ("forced 10G half on fibre: 0x0903 and not 0x0902", 0, 0x110, ABSENT, FIBRE),
    ("forced 10G full on fibre: 0x0002 and not 0x0902", 0, 0x210, ABSENT, FIBRE),
];

const MEDIA: [Named; 13] = [
    ("forced 10 half on fibre: 0x0902", 0, 0x102, ABSENT, FIBRE),
    ("forced 10 full on fibre: 0x0902", 0, 0x202, ABSENT, FIBRE),
    ("forced 100 half on fibre: 0x0902", 0, 0x104, ABSENT, FIBRE),
    ("forced 100 full on fibre: 0x0902", 0, 0x204, ABSENT, FIBRE),
    ("forced 1000 full on fibre: accepted", 0, 0x208, ABSENT, FIBRE),
    ("auto-negotiation, 10 and 100, full, fibre: 0x0902", 0, 0x207, ABSENT, FIBRE),
    ("the same with 1000: accepted", 0, 0x20f, ABSENT, FIBRE),
    ("auto-negotiation, 100 and 1000, half, fibre: 0x0902", 0, 0x10d, ABSENT, FIBRE),
    ("the same with full: accepted", 0, 0x30d, ABSENT, FIBRE),
    ("auto-negotiation, 100 and 10G, full, fibre: 0x0902", 0, 0x215, ABSENT, FIBRE),
    ("auto-negotiation, 1000 and 10G, full, fibre: accepted", 0, 0x219, ABSENT, FIBRE),
    ("auto-negotiation, all speeds, half, fibre: 0x0902", 0, 0x11f, ABSENT, FIBRE),
    ("auto-negotiation, 1000 full, fibre: accepted", 0, 0x209, ABSENT, FIBRE),
];

const IN_FORCE: [Named; 13] = [
    ("accepted: 0x219 replaces 0x204", 0x204, 0x219, ABSENT, COPPER),
    ("accepted: 0x219 again", 0x219, 0x219, ABSENT, COPPER),
    ("accepted: old word 0xFFFFFFFF is replaced", 0xffff_ffff, 0x208, ABSENT, FIBRE),
    ("accepted: pause bits come into force", 0x204, 0xe09, ABSENT, FIBRE),
    ("refused 0x0901: 0x204 stays in force", 0x204, 0x219, PRESENT, COPPER),
    ("refused 0x0002, reserved bit: 0x204 stays in force", 0x204, 0x239, ABSENT, COPPER),
    ("refused 0x0002, no speed: 0x204 stays in force", 0x204, 0x201, ABSENT, COPPER),
    ("refused 0x0002, no valid pair: 0x204 stays in force", 0x204, 0x109, ABSENT, COPPER),
    ("refused 0x0905: 0x204 stays in force", 0x204, 0x30c, ABSENT, COPPER),
    ("refused 0x0002, both duplexes: 0x204 stays in force", 0x204, 0x304, ABSENT, COPPER),
    ("refused 0x0903: 0x204 stays in force", 0x204, 0x108, ABSENT, COPPER),
    ("refused 0x0902: 0x204 stays in force", 0x204, 0x10d, ABSENT, FIBRE),
    ("refused 0x0002: old word 0xFFFFFFFF stays as it is", 0xffff_ffff, 0x211, ABSENT, COPPER),
];

/// Adds the cases of this subject.
pub fn generate(cases: &mut Cases) {
    cases.group("Set Link: worked examples");
    named(cases, &WORKED);
    cases.group("Set Link: check 1, host driver");
    named(cases, &HOST);
    cases.group("Set Link: check 2, reserved bits and speed present");
    named(cases, &PRESENCE);
    reserved_bits(cases);
    cases.group("Set Link: check 3, auto-negotiation");
    named(cases, &AUTO_NEGOTIATION);
    cases.group("Set Link: check 4, forced mode");
    named(cases, &FORCED);
    cases.group("Set Link: check 5, media");
    named(cases, &MEDIA);
    cases.group("Set Link: the word in force");
    named(cases, &IN_FORCE);
    sweeps(cases);
    random(cases);
}

fn named(cases: &mut Cases, table: &[Named]) {
    for &(name, in_force, word, host_present, media) in table {
        cases.name(name);
        cases.case(link(in_force, word, host_present, media));
    }
}

fn reserved_bits(cases: &mut Cases) {
    cases.name("each reserved bit beside 0x219, which is good without it: 0x0002");
    for bit in (5..=7).chain(12..=31) {
        cases.case(link(0, 0x219 | 1 << bit, ABSENT, COPPER));
    }
    cases.name("each reserved bit beside 0x208 on fibre, which is good without it: 0x0002");
    for bit in (5..=7).chain(12..=31) {
        cases.case(link(0x219, 0x208 | 1 << bit, ABSENT, FIBRE));
    }
}

fn sweeps(cases: &mut Cases) {
    for in_force in [0, 0xa5c3_0f96] {
        cases.group(&format!("Set Link: every word below 0x2000, old word {in_force:#010x}"));
        for from in (0..SWEEP_END).step_by(SWEEP_WORDS.into()) {
            cases.case(links(in_force, from, SWEEP_WORDS));
        }
    }
    cases.group("Set Link: runs of higher words, up to the highest, and single words");
    for from in [0x2000, 0x3200, 0x0001_0200, 0x8000_0200, 0xffff_ffc0] {
        cases.case(links(0x204, from, SWEEP_WORDS));
    }
    for word in [0x219, 0xffff_ffff] {
        cases.case(links(0x204, word, 1));
    }
}

fn random(cases: &mut Cases) {
    let mut random = Random::new(SEED);
    cases.group("Set Link: random words");
    for _ in 0..60 {
        let word = random.u32();
        random_link(cases, &mut random, word);
    }
    cases.group("Set Link: random words of the bits that have a meaning");
    for _ in 0..120 {
        let word = random.u32() & BITS_WITH_A_MEANING;
        random_link(cases, &mut random, word);
    }
    cases.group("Set Link: random words of few bits");
    for _ in 0..120 {
        let mut word = 0;
        for _ in 0..=random.below(5) {
            let end = random.pick(&[12, 12, 12, 12, 12, 32]);
            word |= 1 << random.below(end);
        }
        random_link(cases, &mut random, word);
    }
}

fn random_link(cases: &mut Cases, random: &mut Random, word: u32) {
    let in_force = random.u32();
    let host_present = random.one_in(6);
    let media = random.one_in(2);
    cases.case(link(in_force, word, host_present, media));
}

fn link(in_force: u32, word: u32, host_present: bool, media: bool) -> Line {
    Line::case("link").u32(in_force).u32(word).bool(host_present).bool(media)
}

fn links(in_force: u32, from: u32, count: u16) -> Line {
    Line::case("links").u32(in_force).u32(from).u16(count)
}
