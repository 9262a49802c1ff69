//! Transactions with the check on, and such with any check byte with it off.

use super::rejected::{around, nearly_full, one_of_each};
use super::{
    answers, down, enable, list, packet, rightly_coded, send, send_coded, send_coded_pattern,
    send_pattern, sends, show, start, up, worked, Named, Send, Whole, STORE_BYTES,
};
use crate::generate::account::set_open;
use crate::generate::state::{busy, fresh, fresh_checked, full};
use crate::generate::Cases;
use crate::pattern::pattern;
use crate::text::Line;
use reference::account::{Account, Fate, BYTES, FRAGMENTS, HIGHEST_TOTAL};
use reference::pec;
use reference::settings::FRESH_SETTINGS;
use reference::state::{State, CHECK_ON};
use reference::translator::Transaction;

/// The most data that have a check byte.
const MOST_DATA: u16 = 255;
/// The seed of data whose first byte is no control byte.
const DATA_SEED: u8 = 0x30;
/// Addresses other than the usual one.
const ADDRESSES: [u8; 8] = [0x00, 0x01, 0x10, 0x80, 0x90, 0x93, 0xc2, 0xff];
/// A long Receive Enable but for its last byte.
const LONG_FORM: [u8; 13] = [0xc9, 2, 3, 4, 5, 6, 7, 8, 9, 10, 11, 12, 13];

/// Lists whose state is shown after each transaction.
const WORKED: [Named; 6] = [
    (
        "a packet open, a Middle with a wrong check byte, a Last that then aborts",
        240,
        &[up(0x84, 20, 0).right(), up(0x04, 30, 0).wrong(0x01), up(0x44, 40, 2).right()],
    ),
    (
        "a Receive Enable with a wrong check byte changes no settings",
        240,
        &[enable(0xc9, 14, 11).wrong(0x80), enable(0x41, 1, 11).wrong(0xff)],
    ),
    (
        "the same where settings were set before",
        240,
        &[
            enable(0xc9, 14, 11).right(),
            enable(0x41, 1, 11).wrong(0x10),
            enable(0x69, 14, 11).wrong(0x08),
            enable(0xc1, 1, 11).right(),
        ],
    ),
    (
        "a long Receive Enable with CBDM and a wrong check byte brings no MAC",
        240,
        &[
            enable(0xc1, 14, 11).wrong(0x02),
            enable(0xc1, 1, 10).right(),
            enable(0xc1, 14, 11).right(),
            enable(0xc1, 1, 11).right(),
        ],
    ),
    (
        "a Middle once more from its First on after a wrong check byte",
        240,
        &[
            up(0x84, 20, 0).right(),
            up(0x04, 30, 0).wrong(0x40),
            up(0x84, 20, 0).right(),
            up(0x04, 30, 0).right(),
            up(0x44, 40, 1).right(),
        ],
    ),
    (
        "every kind once, then with a wrong check byte",
        32,
        &[
            up(0xc4, 20, 1).right(),
            up(0x84, 32, 0).right(),
            up(0x84, 10, 0).right(),
            up(0x44, 5, 5).right(),
            up(0x04, 3, 2).right(),
            enable(0x41, 1, 11).right(),
            up(0xc4, 20, 1).wrong(0x01),
            up(0x84, 32, 0).wrong(0x02),
            up(0x44, 5, 5).wrong(0x04),
            up(0x04, 3, 2).wrong(0x08),
            enable(0x41, 1, 11).wrong(0x10),
            up(0xc5, 3, 7).wrong(0x20),
        ],
    ),
];

const RULES: [Named; 24] = [
    ("a wrong First opens nothing", 240, &[up(0x84, 20, 0).wrong(0x01), up(0x44, 30, 2).right()]),
    (
        "a wrong First onto an open packet: broken and not superseded",
        240,
        &[up(0x84, 20, 0).right(), up(0x84, 30, 0).wrong(0x01), up(0x44, 40, 2).right()],
    ),
    (
        "a wrong Last: broken and not sent",
        240,
        &[up(0x84, 20, 0).right(), up(0x44, 30, 1).wrong(0x80), up(0x44, 30, 2).right()],
    ),
    (
        "a wrong Last with the link down: broken and not linkdown",
        240,
        &[up(0x84, 20, 0).right(), down(0x44, 30, 6).wrong(0x80)],
    ),
    (
        "a wrong Last of too few bytes: broken and not short",
        240,
        &[up(0x84, 8, 0).right(), up(0x44, 8, 5).wrong(0x20)],
    ),
    ("a wrong Middle, none open: not aborted", 240, &[up(0x04, 20, 2).wrong(0x01)]),
    ("a wrong Last, none open: not aborted", 240, &[up(0x44, 20, 2).wrong(0x01)]),
    ("a wrong whole packet: not sent", 240, &[up(0xc4, 20, 1).wrong(0x10), up(0x04, 9, 2).right()]),
    (
        "a wrong whole packet onto an open packet: broken and not superseded",
        240,
        &[up(0x84, 20, 0).right(), up(0xc4, 30, 1).wrong(0x10), up(0x44, 40, 2).right()],
    ),
    (
        "a wrong Receive Enable: broken and not flushed",
        240,
        &[up(0x84, 20, 0).right(), enable(0x41, 1, 11).wrong(0x04), up(0x44, 20, 2).right()],
    ),
    (
        "a wrong Receive Enable of 2 bytes: neither flushed nor refused",
        240,
        &[up(0x84, 20, 0).right(), enable(0x41, 2, 8).wrong(0x04), up(0x44, 20, 2).right()],
    ),
    (
        "a wrong unknown command with F and L: broken, neither flushed nor refused",
        240,
        &[up(0x84, 20, 0).right(), up(0xc5, 5, 7).wrong(0x08), up(0x44, 20, 2).right()],
    ),
    (
        "a wrong unknown command without flags: broken, while a right one ends nothing",
        240,
        &[
            up(0x84, 20, 0).right(),
            up(0x0a, 5, 7).right(),
            up(0x44, 20, 1).right(),
            up(0x84, 20, 0).right(),
            up(0x0a, 5, 7).wrong(0x08),
            up(0x44, 20, 2).right(),
        ],
    ),
    (
        "wrong fragments of 0 bytes: in badcheck and not in badlength",
        240,
        &[up(0x84, 0, 3).wrong(0x01), up(0x04, 0, 3).wrong(0x01), up(0x44, 0, 3).right()],
    ),
    (
        "wrong fragments above the maximum: in badcheck and not in badlength",
        20,
        &[up(0xc4, 21, 3).wrong(0x01), up(0x04, 240, 3).wrong(0x01), up(0x44, 21, 3).right()],
    ),
    (
        "three wrong in a row: one packet broken",
        240,
        &[
            up(0x84, 20, 0).right(),
            up(0x04, 20, 0).wrong(0x01),
            up(0x04, 20, 0).wrong(0x02),
            up(0x44, 20, 2).wrong(0x04),
        ],
    ),
    (
        "broken after three fragments: 1 packet, 3 fragments, 90 bytes",
        240,
        &[
            up(0x84, 20, 0).right(),
            up(0x04, 30, 0).right(),
            up(0x04, 40, 0).right(),
            up(0x44, 50, 1).wrong(0xff),
        ],
    ),
    (
        "past 1536, then a wrong Last: broken and not over",
        240,
        &[
            up(0x84, 240, 0).right(),
            up(0x04, 240, 0).right().times(6),
            up(0x44, 1, 4).wrong(0x01),
            up(0x44, 1, 2).right(),
        ],
    ),
    (
        "1440 bytes, then a wrong Last of 96, which is not written",
        240,
        &[up(0x84, 240, 0).right(), up(0x04, 240, 0).right().times(5), up(0x44, 96, 1).wrong(0x01)],
    ),
    (
        "a wrong Middle is not written, and a later packet begins at the front",
        240,
        &[
            up(0x84, 20, 0).right(),
            up(0x04, 40, 0).wrong(0x01),
            up(0x84, 9, 0).right(),
            up(0x44, 8, 1).right(),
        ],
    ),
    (
        "a bad length with a right check byte is still 3",
        20,
        &[up(0x84, 20, 0).right(), up(0x04, 21, 3).right(), up(0x44, 20, 2).right()],
    ),
    (
        "a MAC kept stays kept after a wrong long form without CBDM",
        240,
        &[
            enable(0xc1, 14, 11).right(),
            enable(0x40, 14, 11).wrong(0x01),
            enable(0x40, 1, 11).right(),
            enable(0xc1, 1, 11).right(),
        ],
    ),
    (
        "a long form with CBDM, right after it was wrong: the MAC is kept from then on",
        240,
        &[
            enable(0xc9, 14, 11).wrong(0x01),
            enable(0xc1, 1, 10).right(),
            enable(0xc9, 14, 11).right(),
            enable(0x41, 1, 11).wrong(0x01),
            enable(0xc1, 1, 11).right(),
        ],
    ),
    (
        "nothing open: a wrong transaction breaks no packet, whatever its command",
        240,
        &[
            up(0x00, 0, 7).wrong(0x01),
            up(0xff, 1, 7).wrong(0x01),
            up(0xc4, 240, 1).wrong(0x01),
            enable(0x41, 1, 11).wrong(0x01),
        ],
    ),
];

/// Every class of commands: name, and the transaction with its answer where none
/// is open, the maximum is 240 and the check byte right.
const CLASSES: [(&str, Send); 20] = [
    ("0x84", up(0x84, 20, 0)),
    ("0x04", up(0x04, 20, 2)),
    ("0x44", up(0x44, 20, 2)),
    ("0x44 with the link down", down(0x44, 20, 2)),
    ("0xC4", up(0xc4, 20, 1)),
    ("0x84 of 0 bytes", up(0x84, 0, 3)),
    ("0x04 of 0 bytes", up(0x04, 0, 3)),
    ("0x44 of 0 bytes", up(0x44, 0, 3)),
    ("0xC4 of 0 bytes", up(0xc4, 0, 3)),
    ("0xCA, short form", enable(0x41, 1, 11)),
    ("0xCA, long form", enable(0xc9, 14, 11)),
    ("0xCA of 0 bytes", enable(0x41, 0, 8)),
    ("0xCA of 2 bytes", enable(0x41, 2, 8)),
    ("0xCA, control byte not allowed", enable(0x71, 1, 9)),
    ("0xCA with CBDM, no MAC kept", enable(0xc1, 1, 10)),
    ("unknown with F and L", up(0xc5, 5, 7)),
    ("unknown with F and L and no data", up(0xff, 0, 7)),
    ("unknown with F alone", up(0x8a, 5, 7)),
    ("unknown with L alone", up(0x4a, 5, 7)),
    ("unknown with neither", up(0x0a, 5, 7)),
];

/// Adds the cases of this subject.
pub fn generate(cases: &mut Cases) {
    worked_examples(cases);
    cases.group("Transactions: check on, every rule of wrong check bytes by an example");
    for (name, maximum, list) in RULES {
        checked_list(cases, name, maximum, list);
        cases.case(packet(64));
    }
    classes(cases);
    rules_with_right_codes(cases);
    single_bits(cases);
    codes_and_addresses(cases);
    long_data(cases);
    order(cases);
    limits(cases);
    without_codes(cases);
}

/// All lists of this subject that have names.
pub fn lists() -> impl Iterator<Item = Named> {
    WORKED.into_iter().chain(RULES)
}

/// A list from a fresh state on with the check on.
fn checked_list(cases: &mut Cases, name: &str, maximum: u32, list: &[Send]) {
    super::list(cases, name, &fresh_checked(maximum), STORE_BYTES, &FRESH_SETTINGS, list);
}

/// A list from what the one before left on.
fn named(cases: &mut Cases, name: &str, list: &[Send]) {
    cases.name(&format!("{name}: {}", answers(list)));
    sends(cases, list);
}

fn start_checked(cases: &mut Cases, maximum: u32) {
    cases.case(start(&fresh_checked(maximum), STORE_BYTES, &FRESH_SETTINGS));
}

fn worked_examples(cases: &mut Cases) {
    cases.group("Transactions: check on, worked examples, shown after each transaction");
    for (name, maximum, list) in WORKED {
        cases.name(&format!("{name}: {}", answers(list)));
        start_checked(cases, maximum);
        for send in list {
            sends(cases, &[*send]);
            cases.case(show());
        }
        cases.case(packet(64));
    }
}

/// Every class with a right check byte, and with a wrong one under maximums that
/// allow its length and that do not, with and without an open packet.
fn classes(cases: &mut Cases) {
    cases.group("Transactions: check on, each class with a right check byte");
    for (name, class) in CLASSES {
        checked_list(cases, name, 240, &[class.right()]);
    }
    for maximum in [240, 20, 19, 1] {
        let title = format!("Transactions: check on, each class wrong, maximum {maximum}");
        cases.group(&title);
        start_checked(cases, maximum);
        let size = maximum.min(20) as u16;
        let (first, last) = (up(0x84, size, 0).right(), up(0x44, size, 2).right());
        for (place, (name, class)) in CLASSES.into_iter().enumerate() {
            let wrong = class.wrong(1 << (place % 8));
            named(cases, &format!("{name}, none open"), &[wrong, last]);
            named(cases, &format!("{name}, one open"), &[first, wrong, last]);
        }
        cases.case(show());
    }
}

/// The lists that show every other rule, with right check bytes, but for those of
/// many fragments.
fn rules_with_right_codes(cases: &mut Cases) {
    cases.group("Transactions: check on, every other rule by an example with right check bytes");
    for (name, maximum, list) in worked::lists() {
        if list.iter().all(|send| send.size <= MOST_DATA && send.times == 1) {
            let right: Vec<Send> = list.iter().copied().map(Send::right).collect();
            checked_list(cases, name, maximum, &right);
        }
    }
}

/// Transactions with each single bit of them turned, and with a data byte more
/// or fewer.
fn single_bits(cases: &mut Cases) {
    for (name, class) in [
        ("a whole packet of 20 bytes", up(0xc4, 20, 1)),
        ("a Receive Enable, short form", enable(0x41, 1, 11)),
        ("a Receive Enable, long form", enable(0xc9, 14, 11)),
    ] {
        let (transaction, data) = right(class);
        cases.group(&format!("Transactions: check on, {name} with single errors"));
        start_checked(cases, 240);
        cases.name("each single bit turned: each answered 17");
        for bit in 0..bits(&data) {
            cases.case(whole(&turned(transaction, &data, bit)));
        }
        cases.name("a data byte fewer or more, and the same check byte: each answered 17");
        for data in of_other_counts(&data, transaction.code) {
            cases.case(send_coded(transaction, &data));
        }
        cases.name(&format!("as it is: each answered {}", class.answer));
        cases.case(send_coded(transaction, &data));
        cases.case(show());
    }
    for (name, class) in
        [("a Middle of 3 bytes", up(0x04, 3, 0)), ("a Receive Enable", enable(0x41, 1, 11))]
    {
        let (transaction, data) = right(class);
        cases.group(&format!(
            "Transactions: check on, {name} onto an open packet with each single bit turned"
        ));
        start_checked(cases, 240);
        for bit in 0..bits(&data) {
            cases.name(&format!(
                "bit {bit} of address, command, check byte and data: answers 0, 17"
            ));
            sends(cases, &[up(0x84, 20, 0).right()]);
            cases.case(whole(&turned(transaction, &data, bit)));
        }
        cases.case(show());
    }
}

/// A transaction with its right check byte.
fn right(class: Send) -> Whole {
    let data = pattern(class.size, class.control.unwrap_or(DATA_SEED));
    (class.right().transaction(&data), data)
}

/// The bits of a transaction of these data, its count left out.
fn bits(data: &[u8]) -> usize {
    8 * (3 + data.len())
}

/// A transaction with a bit of its address, its command, its check byte or its
/// data turned.
fn turned(transaction: Transaction, data: &[u8], bit: usize) -> Whole {
    let (mut transaction, mut data) = (transaction, data.to_vec());
    let mask = 1 << (bit % 8);
    match bit / 8 {
        0 => transaction.address ^= mask,
        1 => transaction.command ^= mask,
        2 => transaction.code ^= mask,
        place => data[place - 3] ^= mask,
    }
    (transaction, data)
}

/// The data without their first or last byte, and with one more.
fn of_other_counts(data: &[u8], code: u8) -> Vec<Vec<u8>> {
    let mut all = vec![data[1..].to_vec(), data[..data.len() - 1].to_vec()];
    all.extend([0, 1, 0xff, code].map(|byte| [data, &[byte]].concat()));
    all.push([&[0], data].concat());
    all
}

fn whole((transaction, data): &Whole) -> Line {
    send_coded(*transaction, data)
}

/// Every check byte, and other addresses.
fn codes_and_addresses(cases: &mut Cases) {
    let class = up(0xc4, 20, 1);
    let (transaction, data) = right(class);
    let coded = |code| send_coded_pattern(Transaction { code, ..transaction }, 20, DATA_SEED);
    cases.group("Transactions: a whole packet with each check byte");
    start_checked(cases, 240);
    cases.name("check on, each wrong one: each answered 17");
    for code in (0..=255).filter(|code| *code != transaction.code) {
        cases.case(coded(code));
    }
    cases.name("check on, the right one: each answered 1");
    cases.case(coded(transaction.code));
    cases.case(show());
    cases.case(start(&fresh(240), STORE_BYTES, &FRESH_SETTINGS));
    cases.name("check off: each answered 1");
    (0..=255).for_each(|code| cases.case(coded(code)));
    cases.case(show());
    cases.group("Transactions: a whole packet under other addresses");
    start_checked(cases, 240);
    cases.name("check on, the right check byte under this address: each answered 1");
    for address in ADDRESSES {
        cases.case(send_coded(rightly_coded(address, 0xc4, true, &data), &data));
    }
    cases.name("check on, that of another address: each answered 17");
    for address in ADDRESSES {
        cases.case(send_coded(Transaction { address, ..transaction }, &data));
    }
    cases.case(show());
    cases.case(start(&fresh(240), STORE_BYTES, &FRESH_SETTINGS));
    cases.name("check off: each answered 1");
    for address in ADDRESSES {
        cases.case(send_coded(Transaction { address, ..transaction }, &data));
    }
    cases.case(show());
}

/// Data around 255 bytes, the most that have a check byte.
fn long_data(cases: &mut Cases) {
    const SIZES: [u16; 6] = [254, 255, 256, 257, 511, 2048];
    let first = up(0x84, 20, 0).right();
    let last = up(0x44, 20, 2).right();
    for (command, answer) in [(0x84, 3), (0x04, 3), (0xc4, 3), (0xca, 8), (0x05, 7), (0xc5, 7)] {
        // Only 0x05 ends nothing, unless its check byte is wrong.
        let joined = if command == 0x05 { last.answered(1) } else { last };
        cases.group(&format!("Transactions: check on, {command:#04x} of about 255 bytes"));
        start_checked(cases, 240);
        for size in SIZES {
            let send = up(command, size, answer);
            let (checked, after) = if size > MOST_DATA {
                (send.right().answered(17), last)
            } else {
                (send.right(), joined)
            };
            let list = [first, checked, after, send.wrong(0x80), send.wrong(0x01)];
            named(cases, &format!("{size} bytes"), &list);
        }
        cases.case(show());
        cases.group(&format!("Transactions: check off, {command:#04x} of about 255 bytes"));
        cases.case(start(&fresh(240), STORE_BYTES, &FRESH_SETTINGS));
        for size in SIZES {
            let send = up(command, size, answer);
            let list = [first, send.right(), joined, send.wrong(0x80).answered(answer)];
            named(cases, &format!("{size} bytes"), &list);
        }
        cases.case(show());
    }
}

/// One transaction of each kind, its check byte wrong.
fn each_wrong(answer: u8) -> Vec<Send> {
    let wrong = |send: Send| send.wrong(0x04).answered(answer);
    one_of_each([answer; 7]).map(wrong).into()
}

/// Wrong check bytes where something before them is wrong too.
fn order(cases: &mut Cases) {
    cases.group("Transactions: check on, wrong check bytes: 12, 13 and 14 before 17");
    let state = fresh_checked(240);
    for (store, answer) in [(0, 12), (1535, 12), (1536, 17)] {
        let name = format!("store of {store} bytes");
        list(cases, &name, &state, store, &FRESH_SETTINGS, &each_wrong(answer));
    }
    for (length, answer) in [(0, 12), (14, 12), (15, 17)] {
        let name = format!("settings of {length} bytes");
        let settings = &FRESH_SETTINGS[..length];
        list(cases, &name, &state, STORE_BYTES, settings, &each_wrong(answer));
    }
    let checked = State { check: CHECK_ON, ..busy() };
    let mut unsound = checked;
    unsound.account.grid[Fate::BadCheck as usize][BYTES] = 1;
    let mut settings = FRESH_SETTINGS;
    settings[1] = 4;
    for (name, state, settings, answer) in [
        ("state not sound, a byte in badcheck", unsound, FRESH_SETTINGS, 13),
        ("state not sound, check 2", State { check: 2, ..checked }, FRESH_SETTINGS, 13),
        ("state not sound, check 255", State { check: 255, ..checked }, FRESH_SETTINGS, 13),
        ("settings not sound", checked, settings, 13),
        ("both sound", checked, FRESH_SETTINGS, 17),
    ] {
        list(cases, name, &state, STORE_BYTES, &settings, &each_wrong(answer));
    }
    for (name, state) in full() {
        let state = State { check: CHECK_ON, ..state };
        list(cases, &name, &state, STORE_BYTES, &FRESH_SETTINGS, &each_wrong(14));
    }
}

/// Wrong check bytes around the highest total.
fn limits(cases: &mut Cases) {
    cases.group("Transactions: check on, wrong check bytes at the limit of the account");
    let state = |account| State { check: CHECK_ON, ..around(account) };
    let mut list = |name: &str, account: Account, list: &[Send]| {
        super::list(cases, name, &state(account), STORE_BYTES, &FRESH_SETTINGS, list);
    };
    let right = up(0xc4, 20, 1).right();
    let wrong = right.wrong(0x01);
    let full = [right.answered(14), wrong.answered(14)];
    let nearly = nearly_full();
    list(
        "total one below the limit, a wrong one fills it",
        nearly,
        &[&[wrong], &full[..]].concat(),
    );
    list(
        "total one below the limit, a right one fills it",
        nearly,
        &[&[right], &full[..]].concat(),
    );
    let mut open = nearly;
    open.refused -= 1;
    set_open(&mut open, 1, 20);
    let last = up(0x44, 20, 14).right();
    let name = "total one below the limit and a packet open, which a wrong one breaks";
    list(name, open, &[wrong, last, last.wrong(0x01).answered(14)]);
    open.refused += 1;
    open.total += 1;
    let name = "total at the limit and a packet open, which nothing breaks any more";
    list(name, open, &[wrong.answered(14), last]);
    let mut bad = nearly;
    bad.refused = 0;
    bad.grid[Fate::BadCheck as usize][FRAGMENTS] = HIGHEST_TOTAL - 1;
    let name = "total one below the limit, all of badcheck, a wrong one fills it";
    list(name, bad, &[&[wrong], &full[..]].concat());
}

/// Transactions without address and check byte, for which zeros stand.
fn without_codes(cases: &mut Cases) {
    cases.group("Transactions: check on, zeros in place of address and check byte");
    start_checked(cases, 240);
    let is_zero = |command: u8, data: &[u8]| pec::code(0, command, data).1 == 0;
    for (command, answer) in [(0xc4, 5), (0xca, 11)] {
        let data_of = |last: u8| [&LONG_FORM[..], &[last]].concat();
        let (right, wrong): (Vec<u8>, Vec<u8>) =
            (0..=255).partition(|last| is_zero(command, &data_of(*last)));
        cases.name(&format!("{command:#04x} whose check byte is 0: each answered {answer}"));
        for last in right {
            cases.case(send(command, true, &data_of(last)));
        }
        cases.name(&format!("{command:#04x} with other last bytes: each answered 17"));
        for last in &wrong[..16] {
            cases.case(send(command, true, &data_of(*last)));
        }
    }
    let (right, wrong): (Vec<u8>, Vec<u8>) =
        (0..=255).partition(|seed| is_zero(0xc4, &pattern(20, *seed)));
    cases.name("patterns of 20 bytes whose check byte is 0: each answered 1");
    for seed in right {
        cases.case(send_pattern(0xc4, true, 20, seed));
    }
    cases.name("other patterns: each answered 17");
    for seed in &wrong[..16] {
        cases.case(send_pattern(0xc4, true, 20, *seed));
    }
    cases.case(show());
}
