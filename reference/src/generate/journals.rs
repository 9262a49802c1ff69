//! Cases of journals.

use super::controller::Controller;
use super::transactions::{named_checked_lists, named_lists, rightly_coded, Whole};
use super::Cases;
use crate::journal_writer::JournalWriter;
use crate::pattern::pattern;
use crate::random::Random;
use crate::text::{Line, LONGEST_LINE};
use reference::journal::{Version, VERSIONS};

const SEED: u64 = 0x0010_0411;

/// So many bytes fit into a line as digits.
const MOST_BYTES: usize = (LONGEST_LINE - "journal 0000 ".len()) / 2;
const MOST_BYTES_OF_SHORT: usize = 200;
const MOST_DATA: usize = u8::MAX as usize;

/// Stands for one piece that is the whole journal.
const WHOLE: u16 = 0;
/// Around the sizes of headers, of heads of records and of the longest record.
const PIECES: [u16; 22] =
    [WHOLE, 1, 2, 3, 4, 5, 6, 7, 9, 16, 64, 240, 243, 255, 256, 257, 258, 259, 260, 261, 262, 1000];
const FEW_PIECES: [u16; 5] = [WHOLE, 1, 2, 3, 7];

/// The address byte of every record that has one, unless it is drawn.
const ADDRESS: u8 = 0x92;

const MAXIMUMS: [u8; 15] = [1, 2, 3, 8, 16, 17, 20, 32, 48, 64, 100, 128, 200, 239, 240];
/// How many transactions there are for one that is out of order.
const CALM: [u64; 3] = [3, 10, 40];

const GOOD: &str = "an account";
const BAD: &str = "bad journal";

/// Name, bytes, and whether there is an account.
type Named = (&'static str, &'static [u8], &'static str);

const HEADERS: [Named; 46] = [
    ("no bytes", b"", BAD),
    ("one byte of a header", b"T", BAD),
    ("two bytes of a header", b"TC", BAD),
    ("a header without version and maximum", b"TCO", BAD),
    ("a header cut in the version", b"TCO\x01", BAD),
    ("a header without the maximum", b"TCO\x01\x00", BAD),
    ("a header alone, maximum 0", b"TCO\x01\x00\x00", BAD),
    ("a header alone, maximum 1", b"TCO\x01\x00\x01", GOOD),
    ("a header alone, maximum 2", b"TCO\x01\x00\x02", GOOD),
    ("a header alone, maximum 32", b"TCO\x01\x00\x20", GOOD),
    ("a header alone, maximum 239", b"TCO\x01\x00\xef", GOOD),
    ("a header alone, maximum 240", b"TCO\x01\x00\xf0", GOOD),
    ("a header alone, maximum 241", b"TCO\x01\x00\xf1", BAD),
    ("a header alone, maximum 255", b"TCO\x01\x00\xff", BAD),
    ("maximum 1 and a record", b"TCO\x01\x00\x01\xc4\x01\x01\x55", GOOD),
    ("maximum 240 and a record", b"TCO\x01\x00\xf0\xc4\x01\x01\x55", GOOD),
    ("maximum 0 and a record", b"TCO\x01\x00\x00\xc4\x01\x01\x55", BAD),
    ("maximum 241 and a record", b"TCO\x01\x00\xf1\xc4\x01\x01\x55", BAD),
    ("version 0", b"TCO\x00\x00\x20", BAD),
    ("version 0 and a record", b"TCO\x00\x00\x20\xc4\x01\x01\x55", BAD),
    ("version 2, maximum 0", b"TCO\x02\x00\x00", BAD),
    ("version 2, maximum 1", b"TCO\x02\x00\x01", GOOD),
    ("version 2, maximum 32", b"TCO\x02\x00\x20", GOOD),
    ("version 2, maximum 240", b"TCO\x02\x00\xf0", GOOD),
    ("version 2, maximum 241", b"TCO\x02\x00\xf1", BAD),
    ("version 2 without the maximum", b"TCO\x02\x00", BAD),
    ("version 2 cut in the version", b"TCO\x02", BAD),
    ("version 3", b"TCO\x03\x00\x20", BAD),
    ("version 3 and a record", b"TCO\x03\x00\x20\x92\xc4\x01\x01\x55\x00", BAD),
    ("version 4", b"TCO\x04\x00\x20", BAD),
    ("version 258", b"TCO\x02\x01\x20", BAD),
    ("version 512, which is 2 high byte first", b"TCO\x00\x02\x20", BAD),
    ("version 513", b"TCO\x01\x02\x20", BAD),
    ("version 2, another name", b"TCP\x02\x00\x20", BAD),
    ("version 255", b"TCO\xff\x00\x20", BAD),
    ("version 256, which is 1 high byte first", b"TCO\x00\x01\x20", BAD),
    ("version 257", b"TCO\x01\x01\x20", BAD),
    ("version 65281", b"TCO\x01\xff\x20", BAD),
    ("a name in lower case", b"tco\x01\x00\x20", BAD),
    ("another last letter of the name", b"TCP\x01\x00\x20", BAD),
    ("another first letter of the name", b"RCO\x01\x00\x20", BAD),
    ("another middle letter of the name", b"TXO\x01\x00\x20", BAD),
    ("the name backwards", b"OCT\x01\x00\x20", BAD),
    ("a zero before the header", b"\x00TCO\x01\x00\x20", BAD),
    ("no header before a record", b"\xc4\x01\x03\x01\x02\x03", BAD),
    ("a second header, whose C is no link", b"TCO\x01\x00\x20TCO\x01\x00\x20", BAD),
];

/// Behind a header for maximum 32.
const RECORDS: [Named; 30] = [
    ("a record without data", b"\x05\x01\x00", GOOD),
    ("a record of one byte", b"\xc4\x01\x01\x11", GOOD),
    ("two records", b"\x84\x01\x01\x11\x44\x01\x02\x22\x33", GOOD),
    ("link 0", b"\xc4\x00\x01\x11", GOOD),
    ("link 2", b"\xc4\x02\x01\x11", BAD),
    ("link 3", b"\xc4\x03\x01\x11", BAD),
    ("link 128", b"\xc4\x80\x01\x11", BAD),
    ("link 129", b"\xc4\x81\x01\x11", BAD),
    ("link 255", b"\xc4\xff\x01\x11", BAD),
    ("link 2 of a record without data", b"\x05\x02\x00", BAD),
    ("link 255 of a record without data", b"\x05\xff\x00", BAD),
    ("link 2 of a Receive Enable", b"\xca\x02\x01\x41", BAD),
    ("link 2 of a fragment that would abort", b"\x04\x02\x01\x11", BAD),
    ("link 2 of a fragment of 0 bytes", b"\x84\x02\x00", BAD),
    ("link 2 of the second record", b"\x84\x01\x01\x11\x44\x02\x01\x22", BAD),
    ("link 2 of the first of two records", b"\x84\x02\x01\x11\x44\x01\x01\x22", BAD),
    ("link 255 of the middle of three records", b"\x84\x01\x00\x44\xff\x00\x05\x01\x00", BAD),
    ("link 2 of a record that is cut too", b"\xc4\x02\x02\x11", BAD),
    ("a command alone", b"\xc4", BAD),
    ("a command and a link", b"\xc4\x01", BAD),
    ("a command and a bad link", b"\xc4\x02", BAD),
    ("a length of 1 and no data", b"\xc4\x01\x01", BAD),
    ("a length of 2 and one byte", b"\xc4\x01\x02\x11", BAD),
    ("a length of 255 and no data", b"\xc4\x01\xff", BAD),
    ("a length of 255 and one byte", b"\xc4\x01\xff\x11", BAD),
    ("a second record that is a command alone", b"\x84\x01\x01\x11\x44", BAD),
    ("a second record without its length", b"\x84\x01\x01\x11\x44\x01", BAD),
    ("a second record without its data", b"\x84\x01\x01\x11\x44\x01\x01", BAD),
    ("a second record cut in its data", b"\x84\x01\x01\x11\x44\x01\x03\x22\x33", BAD),
    ("a zero behind the last record", b"\xc4\x01\x01\x11\x00", BAD),
];

/// Behind a header of version 2 for maximum 32.
const CHECKED_RECORDS: [Named; 30] = [
    ("a record without data", b"\x92\x05\x01\x00\x00", GOOD),
    ("a record of one byte", b"\x92\xc4\x01\x01\x11\x00", GOOD),
    ("two records", b"\x92\x84\x01\x01\x11\x00\x92\x44\x00\x02\x22\x33\x00", GOOD),
    ("any address", b"\x00\x05\x01\x00\x00\xff\x05\x01\x00\x00", GOOD),
    ("a command that would be a bad link", b"\x92\x02\x01\x00\x00", GOOD),
    ("a length that would be a bad link", b"\x92\x05\x01\x02\x11\x22\x00", GOOD),
    ("link 2", b"\x92\xc4\x02\x01\x11\x00", BAD),
    ("link 3", b"\x92\xc4\x03\x01\x11\x00", BAD),
    ("link 128", b"\x92\xc4\x80\x01\x11\x00", BAD),
    ("link 255", b"\x92\xc4\xff\x01\x11\x00", BAD),
    ("link 2 of a record without data", b"\x92\x05\x02\x00\x00", BAD),
    ("link 2 of a Receive Enable", b"\x92\xca\x02\x01\x41\x00", BAD),
    ("link 2 of the second record", b"\x92\x05\x01\x00\x00\x92\x05\x02\x00\x00", BAD),
    ("link 2 of the first of two", b"\x92\x05\x02\x00\x00\x92\x05\x01\x00\x00", BAD),
    ("link 2 and nothing behind it", b"\x92\xc4\x02", BAD),
    ("link 2 of a record cut in its data", b"\x92\xc4\x02\x02\x11", BAD),
    ("link 2 of a record without its check byte", b"\x92\xc4\x02\x01\x11", BAD),
    ("an address alone", b"\x92", BAD),
    ("an address and a command", b"\x92\xc4", BAD),
    ("no length", b"\x92\xc4\x01", BAD),
    ("a length of 0 and no check byte", b"\x92\x05\x01\x00", BAD),
    ("a length of 1 and no data", b"\x92\xc4\x01\x01", BAD),
    ("a length of 1, a byte and no check byte", b"\x92\xc4\x01\x01\x11", BAD),
    ("a length of 2 and one byte", b"\x92\xc4\x01\x02\x11", BAD),
    ("a length of 255 and no data", b"\x92\xc4\x01\xff", BAD),
    ("a second record that is an address alone", b"\x92\x05\x01\x00\x00\x92", BAD),
    ("a second record cut in front of its link", b"\x92\x05\x01\x00\x00\x92\x05", BAD),
    ("a second record without a check byte", b"\x92\x05\x01\x00\x00\x92\x05\x01\x00", BAD),
    ("a zero behind the last record", b"\x92\xc4\x01\x01\x11\x00\x00", BAD),
    ("a record of version 1", b"\xc4\x01\x01\x11", BAD),
];

/// Adds the cases of this subject.
pub fn generate(cases: &mut Cases) {
    cases.group("Journals: headers");
    for (name, bytes, outcome) in HEADERS {
        named(cases, name, bytes, outcome);
    }
    for (version, records) in VERSIONS.into_iter().zip([RECORDS, CHECKED_RECORDS]) {
        let title = title(version);
        cases.group(&format!("{title}: records, maximum 32"));
        for (name, bytes, outcome) in records {
            let journal = [&version.header(32)[..], bytes].concat();
            named(cases, name, &journal, outcome);
        }
        examples(cases, version);
        long_records(cases, version);
        truncated(cases, version);
        changed(cases, version);
    }
    lists(cases, Version::Unchecked, &mut named_lists());
    lists(cases, Version::Checked, &mut named_checked_lists());
    VERSIONS.into_iter().for_each(|version| random(cases, version));
}

fn title(version: Version) -> String {
    format!("Journals of version {}", version as u16)
}

/// Names a journal, and reads it whole and byte by byte.
fn named(cases: &mut Cases, name: &str, journal: &[u8], outcome: &str) {
    cases.name(&format!("{name}: {outcome}"));
    cases.case(case(WHOLE, journal));
    cases.case(case(1, journal));
}

/// Adds a record with its right check byte, if it has one.
fn record(journal: &mut JournalWriter, command: u8, link_up: bool, data: &[u8]) {
    journal.record(rightly_coded(ADDRESS, command, link_up, data), data);
}

/// The journal whose printout is the worked example.
fn example(version: Version) -> Vec<u8> {
    let mut journal = JournalWriter::new(version, 32);
    for (command, size) in [(0xc4, 20), (0x84, 32), (0x84, 10), (0x44, 5), (0x04, 3)] {
        record(&mut journal, command, true, &pattern(size, command));
    }
    record(&mut journal, 0xca, true, &[0x41]);
    journal.bytes
}

fn examples(cases: &mut Cases, version: Version) {
    let (example, title) = (example(version), title(version));
    cases.group(&format!("{title}: the example, whole and in pieces of every size up to its own"));
    for piece in WHOLE..=example.len() as u16 {
        cases.case(case(piece, &example));
    }
    cases.group(&format!("{title}: the example in pieces larger than it is"));
    for piece in [example.len() as u16 + 1, 256, 4096, u16::MAX] {
        cases.case(case(piece, &example));
    }
}

/// Records of the longest data, in pieces that end around their ends.
fn long_records(cases: &mut Cases, version: Version) {
    cases.group(&format!("{}: records of 255 bytes, which is above any maximum", title(version)));
    for (name, command) in [
        ("three fragments of bad length", 0xc4),
        ("three unknown commands", 0x05),
        ("three Receive Enables", 0xca),
    ] {
        let mut journal = JournalWriter::new(version, 240);
        for seed in [1, 2, 3] {
            record(&mut journal, command, true, &pattern(MOST_DATA as u16, seed));
        }
        cases.name(&format!("{name}: {GOOD}"));
        for piece in PIECES {
            cases.case(case(piece, &journal.bytes));
        }
        let cut = &journal.bytes[..journal.bytes.len() - 1];
        named(cases, &format!("{name}, the last byte missing"), cut, BAD);
    }
}

fn truncated(cases: &mut Cases, version: Version) {
    let (example, short) = (example(version), short(version));
    cases.group(&format!("{}: the example cut at every place", title(version)));
    for length in 0..example.len() {
        let piece = PIECES[length % PIECES.len()];
        cases.case(case(WHOLE, &example[..length]));
        cases.case(case(piece, &example[..length]));
    }
    cases.group(&format!("{}: a short one cut at every place", title(version)));
    for length in 0..short.len() {
        for piece in FEW_PIECES {
            cases.case(case(piece, &short[..length]));
        }
    }
}

/// A journal of a few short records.
fn short(version: Version) -> Vec<u8> {
    let mut journal = JournalWriter::new(version, 20);
    record(&mut journal, 0x84, true, &pattern(9, 0x90));
    record(&mut journal, 0x44, true, &pattern(8, 0x40));
    record(&mut journal, 0xca, false, &[0x41]);
    record(&mut journal, 0x04, true, &[1, 2]);
    record(&mut journal, 0x05, false, &[]);
    journal.bytes
}

fn changed(cases: &mut Cases, version: Version) {
    let journal = short(version);
    cases.group(&format!("{}: a short one, then with each byte changed", title(version)));
    named(cases, "as it is", &journal, GOOD);
    for (place, byte) in journal.iter().enumerate() {
        cases.name(&format!("byte {place}, counted from 0, 0, 1, 255, and with bit 0 or 7 turned"));
        for value in [0, 1, 255, byte ^ 1, byte ^ 0x80] {
            let mut journal = journal.clone();
            journal[place] = value;
            cases.case(case(PIECES[place % 8], &journal));
        }
    }
}

/// The lists that show the rules of transactions, as journals.
fn lists(
    cases: &mut Cases,
    version: Version,
    lists: &mut dyn Iterator<Item = (&'static str, u32, Vec<Whole>)>,
) {
    cases.group(&format!("{}: every rule of transactions by an example", title(version)));
    for (name, maximum, list) in lists {
        if list.iter().any(|(_, data)| data.len() > MOST_DATA) {
            continue;
        }
        let mut journal = JournalWriter::new(version, maximum as u8);
        for (transaction, data) in list {
            journal.record(transaction, &data);
        }
        cases.name(name);
        cases.case(case(WHOLE, &journal.bytes));
    }
}

fn random(cases: &mut Cases, version: Version) {
    let (seed, short, calm_of_long, of_any) = match version {
        Version::Unchecked => (SEED, 15, &CALM[..], 60),
        Version::Checked => (SEED ^ 1, 12, &CALM[1..2], 30),
    };
    let mut random = Random::new(seed);
    for maximum in MAXIMUMS {
        cases.group(&format!("{}: random ones for maximum {maximum}", title(version)));
        for number in 0..short {
            let calm = CALM[number % CALM.len()];
            let journal = plausible(version, random.u64(), maximum, calm, MOST_BYTES_OF_SHORT);
            cases.case(case(random.pick(&PIECES), &journal));
        }
        for calm in calm_of_long {
            let journal = plausible(version, random.u64(), maximum, *calm, MOST_BYTES);
            cases.case(case(random.pick(&PIECES), &journal));
        }
    }
    of_any_records(cases, version, &mut random, of_any);
    with_a_byte_changed(cases, version, &mut random);
}

fn of_any_records(cases: &mut Cases, version: Version, random: &mut Random, count: usize) {
    cases.group(&format!("{}: random records of any command and any length", title(version)));
    for number in 0..count {
        let most = if number % 6 == 0 { MOST_BYTES } else { MOST_BYTES_OF_SHORT };
        let journal = any(version, random, most);
        cases.case(case(random.pick(&PIECES), &journal));
    }
}

fn with_a_byte_changed(cases: &mut Cases, version: Version, random: &mut Random) {
    let title = title(version);
    cases.group(&format!("{title}: random ones for maximum 32 with one byte changed"));
    for _ in 0..120 {
        let mut journal = plausible(version, random.u64(), 32, 10, MOST_BYTES_OF_SHORT);
        let place = random.below(journal.len() as u64) as usize;
        journal[place] ^= 1 << random.below(8);
        cases.case(case(random.pick(&PIECES), &journal));
    }
}

/// A journal of transactions in a plausible order, most of the time, a few of
/// them with a wrong check byte.
fn plausible(version: Version, seed: u64, maximum: u8, calm: u64, most: usize) -> Vec<u8> {
    let mut controller = Controller::new(seed, u64::from(maximum), calm);
    grown(version, maximum, most, || {
        let drawn = controller.transaction();
        let mut data = drawn.bytes();
        data.truncate(MOST_DATA);
        let transaction = match version {
            Version::Unchecked => rightly_coded(ADDRESS, drawn.command, drawn.link_up, &data),
            Version::Checked => controller.coded(&drawn, &data),
        };
        (transaction, data)
    })
}

/// A journal of records that were not drawn as transactions.
fn any(version: Version, random: &mut Random, most: usize) -> Vec<u8> {
    let maximum = 1 + random.below(240) as u8;
    let longest = random.pick(&[4, 30, 256]);
    grown(version, maximum, most, || {
        let length = random.below(longest) as usize;
        let (command, link_up, data) = (random.byte(), random.one_in(2), random.bytes(length));
        (rightly_coded(ADDRESS, command, link_up, &data), data)
    })
}

/// A journal with as many records as there is room for.
fn grown(version: Version, maximum: u8, most: usize, mut next: impl FnMut() -> Whole) -> Vec<u8> {
    let mut journal = JournalWriter::new(version, maximum);
    loop {
        let whole = journal.bytes.len();
        let (transaction, data) = next();
        journal.record(transaction, &data);
        if journal.bytes.len() > most {
            journal.bytes.truncate(whole);
            return journal.bytes;
        }
    }
}

fn case(piece: u16, journal: &[u8]) -> Line {
    Line::case("journal").u16(piece).bytes(journal)
}
