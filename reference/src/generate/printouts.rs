//! Cases of accounts that are printed.

use super::account::{self, busy, clear_what_is_not_counted, random_sound, set_open, summed};
use super::{state, Cases};
use crate::random::Random;
use crate::text::Line;
use reference::account::{is_sound, Account, HIGHEST_TOTAL, LONGEST_FRAGMENT, ROWS};
use reference::printout::{print, ENOUGH_ROOM};

const SEED: u64 = 0x0097_1277;

/// Room for any numbers of 64 bits.
const AMPLE_ROOM: u16 = 768;
const MOST_ROOM: u16 = 2048;

/// Adds the cases of this subject.
pub fn generate(cases: &mut Cases) {
    cases.group("Printouts: sound accounts, each in its exact room, one byte less and one more");
    for (name, account) in account::sound() {
        around(cases, &name, &account);
    }
    cases.group("Printouts: the largest numbers");
    for (name, account) in largest() {
        around(cases, &name, &account);
    }
    rooms(cases);
    cases.group("Printouts: sound accounts of states that are not sound");
    for (name, state) in state::unsound() {
        if is_sound(&state.account) {
            around(cases, &name, &state.account);
        }
    }
    let unsound = account::unsound().into_iter();
    let unsound = unsound.map(|(name, account)| (name, case(&account, AMPLE_ROOM)));
    let title = "Printouts: accounts that are not sound, in ample room";
    cases.named_group(title, "nothing", unsound);
    random(cases);
}

fn around(cases: &mut Cases, name: &str, account: &Account) {
    let length = length(account);
    cases.name(&format!("{name}: nothing, printed, printed"));
    for room in [length - 1, length, length + 1] {
        cases.case(case(account, room));
    }
}

/// Sound accounts that hold the highest total in one line.
fn largest() -> Vec<(String, Account)> {
    let mut all = Vec::new();
    let mut add = |name: String, change: &dyn Fn(&mut Account)| {
        let mut account = Account::default();
        change(&mut account);
        all.push((format!("all that fits {name}"), summed(account)));
    };
    for fate in ROWS {
        add(format!("{fate:?}").to_lowercase(), &|account| {
            account.grid[fate as usize] = [HIGHEST_TOTAL, HIGHEST_TOTAL, 240 * HIGHEST_TOTAL];
            clear_what_is_not_counted(account);
        });
    }
    add("open".to_string(), &|account| {
        set_open(account, HIGHEST_TOTAL, 240 * HIGHEST_TOTAL);
    });
    add("taken".to_string(), &|account| account.taken = HIGHEST_TOTAL);
    add("refused".to_string(), &|account| account.refused = HIGHEST_TOTAL);
    add("in all lines alike".to_string(), &|account| {
        let share = HIGHEST_TOTAL / (ROWS.len() as u64 + 3);
        account.grid = [[share, share, 240 * share]; ROWS.len()];
        clear_what_is_not_counted(account);
        set_open(account, share, 240 * share);
        account.taken = share;
        account.refused = share;
    });
    all
}

/// One account in rooms of many sizes.
fn rooms(cases: &mut Cases) {
    let account = busy();
    let mut text = [0; ENOUGH_ROOM];
    let length = print(&account, &mut text);
    cases.group("Printouts: one account in rooms of many sizes");
    cases.name("rooms that end around the ends of its lines");
    for (place, byte) in text[..length].iter().enumerate() {
        if *byte == b'\n' {
            for room in place..=place + 2 {
                cases.case(case(&account, room as u16));
            }
        }
    }
    cases.name("other rooms");
    for room in [0, 1, 2, 255, 256, 257, 511, 512, 513, MOST_ROOM - 1, MOST_ROOM] {
        cases.case(case(&account, room));
    }
}

fn random(cases: &mut Cases) {
    let mut random = Random::new(SEED);
    cases.group("Printouts: random sound accounts, the room around the length");
    for _ in 0..80 {
        let account = random_sound(&mut random, LONGEST_FRAGMENT);
        let room = length(&account) - 2 + random.below(5) as u16;
        cases.case(case(&account, room));
    }
    cases.group("Printouts: random sound accounts with numbers of every size, in ample room");
    for _ in 0..40 {
        cases.case(case(&of_any_size(&mut random), AMPLE_ROOM));
    }
}

/// A sound account whose numbers have one digit as often as nine.
fn of_any_size(random: &mut Random) -> Account {
    let mut account = Account::default();
    let mut number = || {
        let digits = 1 + random.below(8) as u32;
        random.below(10_u64.pow(digits))
    };
    for fate in ROWS {
        let mut columns = [number(), number(), number()];
        columns.sort();
        let [packets, bytes, fragments] = columns;
        account.grid[fate as usize] = [packets, fragments, bytes];
    }
    account.open_fragments = number();
    account.open_bytes = account.open_fragments;
    account.taken = number();
    account.refused = number();
    clear_what_is_not_counted(&mut account);
    summed(account)
}

fn length(account: &Account) -> u16 {
    // A printout is far shorter than what two bytes can count.
    print(account, &mut [0; ENOUGH_ROOM]) as u16
}

fn case(account: &Account, room: u16) -> Line {
    Line::case("print").numbers(&account.numbers()).u16(room)
}
