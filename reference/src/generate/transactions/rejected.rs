//! Transactions that are not counted, on both sides of each edge.

use super::{down, enable, list, packet, sends, start, up, Send, STORE_BYTES};
use crate::generate::account::{set_open, summed};
use crate::generate::state::{busy, fresh, full, sound, unchecked, unsound};
use crate::generate::Cases;
use reference::account::{Account, Fate, BYTES, FRAGMENTS, HIGHEST_TOTAL};
use reference::settings::{FRESH_SETTINGS, SETTINGS_BYTES};
use reference::state::{State, CHECK_ON, HIGHEST_MAXIMUM};

/// Fills settings that are longer than need be.
const FILL: u8 = 0xee;

/// Adds the cases of this subject.
pub fn generate(cases: &mut Cases) {
    room(cases);
    unsound_states(cases);
    unsound_settings(cases);
    full_accounts(cases);
    order(cases);
    zeros(cases);
}

/// One transaction of each kind. Each would change something.
pub fn one_of_each(answers: [u8; 7]) -> [Send; 7] {
    [
        up(0x84, 20, answers[0]),
        up(0x04, 30, answers[1]),
        down(0x44, 40, answers[2]),
        up(0xc4, 50, answers[3]),
        up(0x84, 0, answers[4]),
        enable(0xc9, 14, answers[5]),
        up(0xc5, 3, answers[6]),
    ]
}

/// The answers of one transaction of each kind where all are counted.
const COUNTED: [u8; 7] = [0, 0, 6, 1, 3, 11, 7];

fn room(cases: &mut Cases) {
    cases.group("Transactions: 12, store or settings too short");
    let state = fresh(240);
    for store in [0, 1, 60, 240, 1535, 1536, 1537, 2047, 2048] {
        let answers = if store < STORE_BYTES { [12; 7] } else { COUNTED };
        let name = format!("store of {store} bytes");
        list(cases, &name, &state, store, &FRESH_SETTINGS, &one_of_each(answers));
        cases.case(packet(50));
        cases.case(packet(1536));
        cases.case(packet(1537));
    }
    for length in [0, 1, 2, 13, 14, 15, 16, 17, 64] {
        let answers = if length < SETTINGS_BYTES { [12; 7] } else { COUNTED };
        let name = format!("settings of {length} bytes");
        let settings = settings_of(length);
        list(cases, &name, &state, STORE_BYTES, &settings, &one_of_each(answers));
    }
}

fn unsound_states(cases: &mut Cases) {
    cases.group("Transactions: 13, state not sound");
    for (name, state) in unsound() {
        cases.name(&format!("{name}: answers 13, 13"));
        cases.case(start(&state, STORE_BYTES, &FRESH_SETTINGS));
        sends(cases, &[up(0xc4, 20, 13), enable(0x41, 1, 13)]);
    }
    cases.group("Transactions: states that are just sound");
    for (name, state) in sound() {
        if state.account.total == HIGHEST_TOTAL {
            continue;
        }
        let fragment = if state.maximum < 17 { 5 } else { 1 };
        let size = state.maximum.min(20) as u16;
        let mut whole = [up(0xc4, size, fragment), enable(0x41, 1, 11)];
        if state.check == CHECK_ON {
            whole = whole.map(Send::right);
        }
        list(cases, &name, &state, STORE_BYTES, &FRESH_SETTINGS, &whole);
    }
}

fn unsound_settings(cases: &mut Cases) {
    cases.group("Transactions: 13, settings not sound");
    let state = fresh(240);
    for (name, control, kept, answers) in [
        ("control 0x00", 0x00, 0, [13; 7]),
        ("bit 6 of the control zero", 0x01, 3, [13; 7]),
        ("notification method 11", 0x70, 3, [13; 7]),
        ("CBDM without RCV_EN", 0xc0, 3, [13; 7]),
        ("kept bits 4", 0x40, 4, [13; 7]),
        ("kept bits 255", 0x40, 255, [13; 7]),
        ("CBDM and no MAC kept", 0xc1, 0, [13; 7]),
        ("CBDM and only the address kept", 0xc1, 2, [13; 7]),
        ("CBDM and a MAC kept, which is sound", 0xc1, 1, COUNTED),
        ("kept bits 3, which is sound", 0x40, 3, COUNTED),
    ] {
        let mut settings = FRESH_SETTINGS;
        settings[0] = control;
        settings[1] = kept;
        list(cases, name, &state, STORE_BYTES, &settings, &one_of_each(answers));
    }
    let mut settings = FRESH_SETTINGS;
    settings[1] = 1;
    let short = [enable(0xc1, 1, 11), up(0xc4, 20, 1)];
    list(cases, "MAC kept from the start", &state, STORE_BYTES, &settings, &short);
}

fn full_accounts(cases: &mut Cases) {
    cases.group("Transactions: 14, account full");
    for (name, state) in full() {
        list(cases, &name, &state, STORE_BYTES, &FRESH_SETTINGS, &one_of_each([14; 7]));
    }
    let nearly = nearly_full();
    for (name, send) in [
        ("a whole packet", up(0xc4, 20, 1)),
        ("a First", up(0x84, 20, 0)),
        ("a middle", up(0x04, 20, 2)),
        ("a fragment of 0 bytes", up(0x84, 0, 3)),
        ("a short packet", up(0xc4, 16, 5)),
        ("a Last with the link down", down(0xc4, 20, 6)),
        ("an unknown command", up(0x00, 20, 7)),
        ("a Receive Enable refused", enable(0x41, 2, 8)),
        ("a Receive Enable taken", enable(0x41, 1, 11)),
    ] {
        let name = format!("total one below the limit, all refused, {name} fills it");
        let then_full = [send, up(0xc4, 20, 14), enable(0x49, 14, 14), up(0x00, 0, 14)];
        list(cases, &name, &around(nearly), STORE_BYTES, &FRESH_SETTINGS, &then_full);
    }
    let mut open = nearly;
    open.refused -= 1;
    set_open(&mut open, 1, 20);
    let name = "total one below the limit and a packet open, its Last fills it";
    let last = [up(0x44, 20, 1), up(0x84, 20, 14)];
    list(cases, name, &around(open), STORE_BYTES, &FRESH_SETTINGS, &last);
    let name = "total at the limit and a packet open, which no command ends any more";
    open.refused += 1;
    open.total += 1;
    let ending = [up(0x44, 20, 14), up(0x84, 20, 14), enable(0x41, 1, 14), up(0x04, 0, 14)];
    list(cases, name, &around(open), STORE_BYTES, &FRESH_SETTINGS, &ending);
    let mut sent = nearly;
    sent.refused = 0;
    sent.grid[Fate::Sent as usize] = [0, HIGHEST_TOTAL - 1, 240 * (HIGHEST_TOTAL - 1)];
    let name = "total one below the limit, all sent, bytes above 32 bits";
    let whole = [up(0xc4, 240, 1), up(0xc4, 240, 14)];
    list(cases, name, &around(sent), STORE_BYTES, &FRESH_SETTINGS, &whole);
    let mut long = Account::default();
    set_open(&mut long, HIGHEST_TOTAL - 2, 240 * (HIGHEST_TOTAL - 2));
    let name = "an open packet of 4294967293 fragments, a middle and its Last fill the account";
    let rest = [up(0x04, 240, 0), up(0x44, 240, 4), up(0x44, 240, 14)];
    list(cases, name, &around(summed(long)), STORE_BYTES, &FRESH_SETTINGS, &rest);
}

/// An account that one more transaction fills, all of them refused.
pub fn nearly_full() -> Account {
    Account { refused: HIGHEST_TOTAL - 1, total: HIGHEST_TOTAL - 1, ..Account::default() }
}

/// The state around an account, for the highest maximum.
pub fn around(account: Account) -> State {
    unchecked(account, HIGHEST_MAXIMUM)
}

fn order(cases: &mut Cases) {
    cases.group("Transactions: 12 before 13 before 14");
    let (_, full) = full().swap_remove(0);
    let mut unsound = full;
    unsound.account.grid[Fate::BadLength as usize][BYTES] = 1;
    let mut unsound_settings = FRESH_SETTINGS;
    unsound_settings[1] = 4;
    let short_unsound = &unsound_settings[..14];
    let sound = &FRESH_SETTINGS;
    for (name, state, store, settings, answer) in [
        ("short store, state not sound", &unsound, 1535, &sound[..], 12),
        ("short store, account full", &full, 1535, &sound[..], 12),
        ("short store, settings not sound", &busy(), 1535, &unsound_settings[..], 12),
        ("short settings, state not sound", &unsound, 1536, &sound[..14], 12),
        ("short settings, account full", &full, 1536, &sound[..14], 12),
        ("short settings that are not sound", &busy(), 1536, short_unsound, 12),
        ("both short", &busy(), 1535, &sound[..14], 12),
        ("state not sound, its total at the limit", &unsound, 1536, &sound[..], 13),
        ("account full, settings not sound", &full, 1536, &unsound_settings[..], 13),
        ("account full", &full, 1536, &sound[..], 14),
        ("none of them", &busy(), 1536, &sound[..], 1),
    ] {
        let size = state.maximum.min(20) as u16;
        list(cases, name, state, store, settings, &[up(0xc4, size, answer)]);
    }
    let mut above = full;
    above.account.total += 1;
    above.account.grid[Fate::Short as usize][FRAGMENTS] += 1;
    let name = "total above the limit, the sum right: not full but not sound";
    list(cases, name, &above, 1536, sound, &[up(0xc4, 20, 13)]);
    cases.name("14 before 3, 7 and 8: answers 14, 14, 14");
    cases.case(start(&full, STORE_BYTES, sound));
    sends(cases, &[up(0x84, 0, 14), up(0xc5, 1, 14), enable(0x41, 2, 14)]);
}

/// A state of zeros, which is not sound.
fn zeros(cases: &mut Cases) {
    cases.group("Transactions: a state of zeros");
    let zeros = State::default();
    let name = "neither store nor settings";
    list(cases, name, &zeros, 0, &[], &[up(0xc4, 20, 12), enable(0x41, 1, 12)]);
    let name = "store and settings good, maximum 0";
    list(cases, name, &zeros, STORE_BYTES, &FRESH_SETTINGS, &[up(0xc4, 20, 13)]);
}

fn settings_of(length: usize) -> Vec<u8> {
    let mut settings = FRESH_SETTINGS.to_vec();
    settings.resize(length, FILL);
    settings
}
