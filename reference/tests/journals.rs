//! Journals: the worked example, replay against the history of the list, and
//! printouts.

use reference::account::{is_sound, Account, Fate, HIGHEST_TOTAL, NUMBERS, ROWS};
use reference::journal::Replay;
use reference::listing::Listing;
use reference::pec;
use reference::printout::{print, ENOUGH_ROOM};
use reference::random::Random;
use reference::state::fresh;

const EXAMPLE: &str = "\
fate packets fragments bytes
sent 1 1 20
superseded 1 1 32
flushed 0 0 0
broken 0 0 0
over 0 0 0
short 1 2 15
linkdown 0 0 0
aborted 0 1 3
badlength 0 0 0
badcheck 0 0 0
open 0 0 0
taken 1
refused 0
total 6
";

/// The versions of journals.
const VERSIONS: [u8; 2] = [1, 2];

const ADDRESS: u8 = 0x92;

/// The journal of the example.
fn example(version: u8) -> Vec<u8> {
    let mut journal = vec![b'T', b'C', b'O', version, 0, 32];
    for (command, length) in [(0xc4, 20), (0x84, 32), (0x84, 10), (0x44, 5), (0x04, 3)] {
        let data: Vec<u8> = (0..length).map(|place| place + 1).collect();
        journal.extend(record(version, command, 1, &data));
    }
    journal.extend(record(version, 0xca, 1, &[0x41]));
    journal
}

/// A record, in version 2 with its right check byte.
fn record(version: u8, command: u8, link: u8, data: &[u8]) -> Vec<u8> {
    let record = [&[command, link, data.len() as u8], data].concat();
    if version == 1 {
        return record;
    }
    [&[ADDRESS], &record[..], &[pec::code(ADDRESS, command, data).1]].concat()
}

fn in_pieces<'a>(pieces: impl IntoIterator<Item = &'a [u8]>) -> Option<Account> {
    let mut replay = Replay::new();
    for piece in pieces {
        replay.feed(piece);
    }
    replay.end()
}

fn whole(journal: &[u8]) -> Option<Account> {
    in_pieces([journal])
}

fn printed(account: &Account) -> String {
    let mut text = [0xaa; ENOUGH_ROOM];
    let length = print(account, &mut text);
    assert!(text[length..].iter().all(|byte| *byte == 0xaa));
    String::from_utf8(text[..length].to_vec()).expect("a printout is ASCII")
}

#[test]
fn the_example() {
    for version in VERSIONS {
        let journal = example(version);
        for size in 1..=journal.len() + 1 {
            let account = in_pieces(journal.chunks(size)).expect("a good journal");
            assert_eq!(printed(&account), EXAMPLE, "version {version}, pieces of {size}");
        }
    }
}

/// Each record of the example with a wrong check byte, and all of them.
#[test]
fn the_example_with_wrong_check_bytes() {
    let journal = example(2);
    let ends = [31, 68, 83, 93, 101, 107];
    assert_eq!(ends[5], journal.len());
    let expected: [&[(&str, &str)]; 6] = [
        &[("sent 1 1 20", "sent 0 0 0")],
        &[("superseded 1 1 32", "superseded 0 0 0")],
        &[
            ("superseded 1 1 32", "superseded 0 0 0"),
            ("broken 0 0 0", "broken 1 1 32"),
            ("short 1 2 15", "short 0 0 0"),
            ("aborted 0 1 3", "aborted 0 2 8"),
        ],
        &[("short 1 2 15", "short 0 0 0"), ("broken 0 0 0", "broken 1 1 10")],
        &[("aborted 0 1 3", "aborted 0 0 0")],
        &[("taken 1", "taken 0")],
    ];
    let mut all_wrong = journal.clone();
    for (end, lines) in ends.into_iter().zip(expected) {
        let mut wrong = journal.clone();
        wrong[end - 1] ^= 0x10;
        all_wrong[end - 1] ^= 0x01;
        let mut expected = EXAMPLE.replace("badcheck 0 0 0", "badcheck 0 1 0");
        for (before, after) in lines {
            expected = expected.replace(before, after);
        }
        let account = whole(&wrong).expect("a good journal");
        assert_eq!(printed(&account), expected, "the record up to {end}");
    }
    let mut only_wrong = Account { total: 6, ..Account::default() };
    only_wrong.grid[Fate::BadCheck as usize] = [0, 6, 0];
    assert_eq!(whole(&all_wrong), Some(only_wrong));
}

/// An open packet, a wrong Middle, a Last that then aborts; a wrong Receive
/// Enable.
#[test]
fn wrong_check_bytes() {
    let mut journal = b"TCO\x02\x00\xf0".to_vec();
    let data = [0x5a; 20];
    journal.extend(record(2, 0x84, 1, &data));
    let middle = record(2, 0x04, 1, &data);
    journal.extend(&middle[..middle.len() - 1]);
    journal.push(middle[middle.len() - 1] ^ 0x40);
    journal.extend(record(2, 0x44, 1, &data));
    let mut account = Account { total: 3, ..Account::default() };
    account.grid[Fate::Broken as usize] = [1, 1, 20];
    account.grid[Fate::Aborted as usize] = [0, 1, 20];
    account.grid[Fate::BadCheck as usize] = [0, 1, 0];
    assert_eq!(whole(&journal), Some(account));
    let enable = record(2, 0xca, 1, &[0x41]);
    journal.extend([&[0x93], &enable[1..]].concat());
    account.grid[Fate::BadCheck as usize] = [0, 2, 0];
    account.total = 4;
    assert_eq!(whole(&journal), Some(account));
}

#[test]
fn a_header_alone() {
    for version in VERSIONS {
        for maximum in 0..=255 {
            let journal = [b'T', b'C', b'O', version, 0, maximum];
            let (answer, state) = fresh(u32::from(maximum), version == 2);
            let expected = (answer == 0).then_some(state.account);
            assert_eq!(whole(&journal), expected, "version {version}, maximum {maximum}");
            assert_eq!(in_pieces(journal.chunks(1)), expected, "version {version}");
            let listed = Listing::of(&journal).map(|listing| listing.history().account());
            assert_eq!(listed, expected, "version {version}, maximum {maximum}");
        }
    }
    for version in 0..=0xffff_u16 {
        let [low, high] = version.to_le_bytes();
        let journal = [b'T', b'C', b'O', low, high, 32];
        let is_good = version == 1 || version == 2;
        assert_eq!(whole(&journal).is_some(), is_good, "version {version}");
        assert_eq!(Listing::of(&journal).is_some(), is_good, "version {version}");
    }
    let zeros = "sent 0 0 0\nsuperseded 0 0 0\nflushed 0 0 0\nbroken 0 0 0\nover 0 0 0\n\
                 short 0 0 0\nlinkdown 0 0 0\naborted 0 0 0\nbadlength 0 0 0\nbadcheck 0 0 0\n\
                 open 0 0 0\ntaken 0\nrefused 0\ntotal 0\n";
    assert_eq!(printed(&Account::default()), format!("fate packets fragments bytes\n{zeros}"));
}

#[test]
fn bad_journals() {
    let journals: [(&str, &[u8]); 27] = [
        ("no bytes", b""),
        ("a header without the maximum", b"TCO\x01\x00"),
        ("another name", b"TCP\x01\x00\x20"),
        ("a name in lower case", b"tco\x01\x00\x20"),
        ("version 0", b"TCO\x00\x00\x20"),
        ("version 1, high byte first", b"TCO\x00\x01\x20"),
        ("version 257", b"TCO\x01\x01\x20"),
        ("maximum 0", b"TCO\x01\x00\x00"),
        ("maximum 241", b"TCO\x01\x00\xf1"),
        ("link 2", b"TCO\x01\x00\x20\xc4\x02\x01\x11"),
        ("link 255", b"TCO\x01\x00\x20\xc4\xff\x01\x11"),
        ("link 2, and good records behind it", b"TCO\x01\x00\x20\x05\x02\x00\x05\x01\x00"),
        ("a command alone", b"TCO\x01\x00\x20\xc4"),
        ("a record without its length", b"TCO\x01\x00\x20\xc4\x01"),
        ("a record without its data", b"TCO\x01\x00\x20\xc4\x01\x01"),
        ("a record cut in its data", b"TCO\x01\x00\x20\xc4\x01\x03\x11\x22"),
        ("version 3", b"TCO\x03\x00\x20"),
        ("version 2, high byte first", b"TCO\x00\x02\x20"),
        ("version 2, maximum 241", b"TCO\x02\x00\xf1"),
        ("version 2, link 2", b"TCO\x02\x00\x20\x92\xc4\x02\x01\x11\x00"),
        ("version 2, link 255 of a record that is cut", b"TCO\x02\x00\x20\x92\xc4\xff"),
        ("version 2, an address alone", b"TCO\x02\x00\x20\x92"),
        ("version 2, an address and a command", b"TCO\x02\x00\x20\x92\xc4"),
        ("version 2, no length", b"TCO\x02\x00\x20\x92\xc4\x01"),
        ("version 2, no data", b"TCO\x02\x00\x20\x92\xc4\x01\x01"),
        ("version 2, no check byte", b"TCO\x02\x00\x20\x92\xc4\x01\x01\x11"),
        ("version 2, no check byte behind no data", b"TCO\x02\x00\x20\x92\x05\x01\x00"),
    ];
    for (name, journal) in journals {
        assert_eq!(Listing::of(journal), None, "{name}");
        for size in 1..=journal.len() + 1 {
            assert_eq!(in_pieces(journal.chunks(size)), None, "{name}, pieces of {size}");
        }
    }
}

#[test]
fn what_is_bad_stays_bad() {
    for (version, start) in VERSIONS.into_iter().zip([b"TCO\x01\x00\x00", b"TCO\x02\x00\x00"]) {
        let journal = example(version);
        let mut replay = Replay::new();
        replay.feed(start);
        for piece in journal.chunks(7) {
            assert!(replay.is_bad());
            replay.feed(piece);
        }
        assert_eq!(replay.end(), None);
    }
}

/// The record is not looked at any further.
#[test]
fn a_bad_link_byte_is_bad_as_soon_as_it_is_there() {
    let behind: [&[u8]; 4] = [b"", b"\xff", b"\x02\x11", b"\x01\x11\x22"];
    for (version, before) in VERSIONS.into_iter().zip([&b"\xc4"[..], b"\x92\xc4"]) {
        for link in 0..=255 {
            for behind in behind {
                let journal = [b"TCO", &[version, 0, 32], before, &[link], behind].concat();
                for size in 1..=journal.len() {
                    let mut replay = Replay::new();
                    journal.chunks(size).for_each(|piece| replay.feed(piece));
                    assert_eq!(replay.is_bad(), link > 1, "{journal:x?} in pieces of {size}");
                }
            }
        }
    }
}

/// The longest records fill what is held between pieces.
#[test]
fn the_longest_records() {
    for version in VERSIONS {
        let mut journal = vec![b'T', b'C', b'O', version, 0, 240];
        for command in [0xc4, 0x05, 0xca] {
            journal.extend(record(version, command, 0, &[0x33; 255]));
        }
        let longest = if version == 1 { 258 } else { 260 };
        assert_eq!(journal.len(), 6 + 3 * longest);
        let mut account = Account { refused: 2, total: 3, ..Account::default() };
        account.grid[Fate::BadLength as usize] = [0, 1, 0];
        for size in 1..=journal.len() {
            assert_eq!(in_pieces(journal.chunks(size)), Some(account), "pieces of {size}");
            assert_eq!(whole(&journal[..journal.len() - 1]), None);
        }
    }
}

/// A random journal, and the places at which it may end.
fn random_journal(random: &mut Random) -> (Vec<u8>, Vec<usize>) {
    let maximum = random.pick(&[1, 2, 17, 32, 64, 239, 240]);
    let version = random.pick(&VERSIONS);
    let mut journal = vec![b'T', b'C', b'O', version, 0, maximum];
    let mut ends = vec![journal.len()];
    let calm = random.pick(&[8, 8, 80]);
    let fragments: &[u8] = if calm == 8 {
        &[0x84, 0x04, 0x04, 0x44, 0xc4]
    } else {
        &[0x84, 0x04, 0x04, 0x04, 0x04, 0x04, 0x04, 0x04, 0x04, 0x44]
    };
    for _ in 0..random.below(40) {
        let command = match random.below(calm) {
            0 => random.byte(),
            1 => 0xca,
            _ => random.pick(fragments),
        };
        let length = match random.below(calm) {
            0 => random.byte(),
            1 => random.pick(&[0, 1, 14, 255]),
            2 => random.below(20) as u8,
            _ => maximum,
        };
        let mut data = random.bytes(usize::from(length));
        if command == 0xca && length > 0 {
            data[0] = random.pick(&[0x40, 0x41, 0x49, 0x71, 0xc1, 0xc9]);
        }
        journal.extend(record(version, command, random.below(2) as u8, &data));
        // A wrong check byte, or other data in version 1.
        if random.one_in(2 * calm) {
            let last = journal.len() - 1;
            let is_data = version == 2 || length > 0;
            journal[last] ^= if is_data { 1 << random.below(8) } else { 0 };
        }
        ends.push(journal.len());
    }
    (journal, ends)
}

/// The journal in pieces of random sizes, among them empty ones.
fn random_pieces<'a>(random: &mut Random, journal: &'a [u8]) -> Vec<&'a [u8]> {
    let longest = random.pick(&[2, 4, 10, 100, 300, 1000]);
    let mut pieces = Vec::new();
    let mut rest = journal;
    while !rest.is_empty() {
        let (piece, after) = rest.split_at(rest.len().min(random.below(longest) as usize));
        pieces.push(piece);
        rest = after;
    }
    pieces
}

#[test]
fn replay_and_history_agree_in_any_pieces() {
    let mut random = Random::new(4711);
    let mut packets_of = [0; ROWS.len()];
    let mut bad_checks = 0;
    for number in 0..3000 {
        let (journal, _) = random_journal(&mut random);
        let account = whole(&journal).expect("a good journal");
        let listing = Listing::of(&journal).expect("a good journal");
        assert_eq!(account, listing.history().account(), "journal {number}");
        assert_eq!(in_pieces(random_pieces(&mut random, &journal)), Some(account));
        assert!(is_sound(&account));
        for (packets, row) in packets_of.iter_mut().zip(account.grid) {
            *packets += row[0];
        }
        bad_checks += account.grid[Fate::BadCheck as usize][1];
    }
    assert!(bad_checks > 500, "{bad_checks}");
    // Journals in which some fate never comes would show little.
    for fate in &ROWS[..7] {
        assert!(packets_of[*fate as usize] > 20, "{fate:?}: {packets_of:?}");
    }
}

#[test]
fn a_journal_may_end_behind_its_header_and_each_record_only() {
    let mut random = Random::new(4712);
    for _ in 0..40 {
        let (journal, ends) = random_journal(&mut random);
        for length in 0..=journal.len() {
            let cut = &journal[..length];
            let account = whole(cut);
            assert_eq!(account.is_some(), ends.contains(&length));
            let listed = Listing::of(cut);
            assert_eq!(account, listed.map(|listing| listing.history().account()));
        }
    }
}

#[test]
fn changed_journals_are_read_alike() {
    let mut random = Random::new(4713);
    let mut good = 0;
    for _ in 0..20_000 {
        let (mut journal, _) = random_journal(&mut random);
        let place = random.below(journal.len() as u64) as usize;
        journal[place] = random.pick(&[0, 1, 2, 255, journal[place] ^ 1, journal[place] ^ 0x80]);
        let account = whole(&journal);
        let listed = Listing::of(&journal).map(|listing| listing.history().account());
        assert_eq!(account, listed, "{journal:x?}");
        assert_eq!(in_pieces(random_pieces(&mut random, &journal)), account, "{journal:x?}");
        good += u32::from(account.is_some());
    }
    assert!(good > 2000, "{good}");
}

/// An account that is full of sent packets and open fragments.
fn large() -> Account {
    let half = HIGHEST_TOTAL / 2;
    let mut account = Account::default();
    account.grid[Fate::Sent as usize] = [half, half, 240 * half];
    account.open_fragments = half + 1;
    account.open_bytes = 240 * (half + 1);
    account.total = HIGHEST_TOTAL;
    account
}

#[test]
fn large_numbers_are_printed() {
    let expected = EXAMPLE
        .replace("sent 1 1 20", "sent 2147483647 2147483647 515396075280")
        .replace("superseded 1 1 32", "superseded 0 0 0")
        .replace("short 1 2 15", "short 0 0 0")
        .replace("aborted 0 1 3", "aborted 0 0 0")
        .replace("open 0 0 0", "open 1 2147483648 515396075520")
        .replace("taken 1", "taken 0")
        .replace("total 6", "total 4294967295");
    assert_eq!(printed(&large()), expected);
}

#[test]
fn any_room() {
    let account = large();
    let expected = printed(&account).into_bytes();
    for size in 0..ENOUGH_ROOM + 10 {
        let mut room = vec![0xaa; size];
        let length = print(&account, &mut room);
        if size < expected.len() {
            assert_eq!(length, 0);
            assert!(room.iter().all(|byte| *byte == 0xaa));
        } else {
            assert_eq!(length, expected.len());
            assert_eq!(room[..length], expected);
            assert!(room[length..].iter().all(|byte| *byte == 0xaa));
        }
    }
}

#[test]
fn what_is_not_sound_is_not_printed() {
    let unsound = [
        Account { total: 1, ..Account::default() },
        Account { open_bytes: 1, ..Account::default() },
        Account { open_fragments: 2, open_bytes: 481, total: 2, ..Account::default() },
        Account::of_numbers([u64::MAX; NUMBERS]),
    ];
    for account in unsound {
        let mut room = [0xaa; 2000];
        assert_eq!(print(&account, &mut room), 0, "{account:?}");
        assert_eq!(room, [0xaa; 2000]);
    }
}
