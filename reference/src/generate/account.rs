//! Cases of the account.

use super::Cases;
use crate::random::Random;
use crate::text::Line;
use reference::account::{
    Account, Fate, BYTES, FRAGMENTS, HIGHEST_TOTAL, LONGEST_FRAGMENT, NUMBERS, PACKETS, ROWS,
};

const SEED: u64 = 0x000a_cc07;

/// An account with its name.
pub type Named = (String, Account);

/// Adds the cases of this subject.
pub fn generate(cases: &mut Cases) {
    let case = |(name, account): Named| (name, sound_account(&account));
    let at_edges = sound().into_iter().map(case);
    cases.named_group("Account: soundness, at the edges", "sound", at_edges);
    let past_edges = unsound().into_iter().map(case);
    cases.named_group("Account: soundness, past the edges", "not sound", past_edges);
    random(cases);
}

/// The same account with its total made right.
pub fn summed(mut account: Account) -> Account {
    let in_grid = account.grid.iter().fold(0_u64, |sum, row| sum.wrapping_add(row[FRAGMENTS]));
    account.total = in_grid
        .wrapping_add(account.open_fragments)
        .wrapping_add(account.taken)
        .wrapping_add(account.refused);
    account
}

/// A sound account in which every number that may differ from zero does, and
/// no two are alike.
pub fn busy() -> Account {
    let mut account = Account::default();
    for (place, row) in account.grid.iter_mut().enumerate() {
        let place = place as u64;
        *row = [3 + place, 20 + 3 * place, 700 + 11 * place];
    }
    clear_what_is_not_counted(&mut account);
    account.open_fragments = 4;
    account.open_bytes = 333;
    account.taken = 51;
    account.refused = 62;
    summed(account)
}

/// Takes packets and bytes out of the rows that have none.
pub fn clear_what_is_not_counted(account: &mut Account) {
    for fate in ROWS {
        let row = &mut account.grid[fate as usize];
        if !fate.has_packets() {
            row[PACKETS] = 0;
        }
        if !fate.has_bytes() {
            row[BYTES] = 0;
        }
    }
}

/// Accounts at the edges of what is sound.
pub fn sound() -> Vec<Named> {
    let mut all = vec![("all numbers zero".to_string(), Account::default())];
    let mut add = |name: &str, change: &dyn Fn(&mut Account)| {
        let mut account = busy();
        change(&mut account);
        all.push((name.to_string(), summed(account)));
    };
    add("every number in use", &|_| {});
    for fate in ROWS {
        let row = fate as usize;
        if fate.has_packets() {
            add(&format!("{}: packets equal to fragments", row_name(fate)), &|account| {
                account.grid[row][PACKETS] = account.grid[row][FRAGMENTS];
            });
        }
        if fate.has_bytes() {
            add(&format!("{}: bytes 240 times fragments", row_name(fate)), &|account| {
                account.grid[row][BYTES] = 240 * account.grid[row][FRAGMENTS];
            });
        }
        add(&format!("{}: fragments, but no packet and no byte", row_name(fate)), &|account| {
            account.grid[row] = [0, account.grid[row][FRAGMENTS], 0];
        });
        add(&format!("{}: empty", row_name(fate)), &|account| account.grid[row] = [0; 3]);
    }
    for (name, fragments, bytes) in [
        ("none open", 0, 0),
        ("open bytes equal to open fragments", 4, 4),
        ("open bytes 240 times open fragments", 4, 960),
        ("an open packet far past 1536", 1_000_000, 240_000_000),
    ] {
        add(name, &|account| set_open(account, fragments, bytes));
    }
    all.extend(full());
    all
}

/// Gives an account another open packet.
pub fn set_open(account: &mut Account, fragments: u64, bytes: u64) {
    account.open_fragments = fragments;
    account.open_bytes = bytes;
}

/// Sound accounts whose total is the highest, each with another line that
/// holds nearly all.
pub fn full() -> Vec<Named> {
    let rest = HIGHEST_TOTAL - busy().total;
    let mut all: Vec<Named> = Vec::new();
    let mut add = |name: String, change: &dyn Fn(&mut Account)| {
        let mut account = busy();
        change(&mut account);
        all.push((format!("total 4294967295, most of it {name}"), summed(account)));
    };
    add("refused".to_string(), &|account| account.refused += rest);
    add("taken".to_string(), &|account| account.taken += rest);
    add("open".to_string(), &|account| {
        account.open_fragments += rest;
        account.open_bytes += rest;
    });
    for fate in ROWS {
        add(row_name(fate), &|account| account.grid[fate as usize][FRAGMENTS] += rest);
    }
    all
}

/// Accounts that are not sound in a single way, and accounts whose sums do not
/// fit into 64 bits.
pub fn unsound() -> Vec<Named> {
    let mut all: Vec<Named> = Vec::new();
    single(&mut all);
    wide(&mut all);
    all
}

fn single(all: &mut Vec<Named>) {
    let mut add = |name: &str, sum_right: bool, change: &dyn Fn(&mut Account)| {
        let mut account = busy();
        change(&mut account);
        all.push((name.to_string(), if sum_right { summed(account) } else { account }));
    };
    add("total one too high", false, &|account| account.total += 1);
    add("total one too low", false, &|account| account.total -= 1);
    add("total zero", false, &|account| account.total = 0);
    add("one open fragment too many", false, &|account| account.open_fragments += 1);
    add("one open fragment too few", false, &|account| account.open_fragments -= 1);
    add("one taken too many", false, &|account| account.taken += 1);
    add("one taken too few", false, &|account| account.taken -= 1);
    add("one refused too many", false, &|account| account.refused += 1);
    add("one refused too few", false, &|account| account.refused -= 1);
    for fate in ROWS {
        let row = fate as usize;
        add(&format!("{}: one fragment too many", row_name(fate)), false, &|account| {
            account.grid[row][FRAGMENTS] += 1;
        });
        add(&format!("{}: one fragment too few", row_name(fate)), false, &|account| {
            account.grid[row][FRAGMENTS] -= 1;
        });
        add(&format!("{}: packets one above fragments", row_name(fate)), true, &|account| {
            account.grid[row][PACKETS] = account.grid[row][FRAGMENTS] + 1;
        });
        add(
            &format!("{}: bytes one above 240 times fragments", row_name(fate)),
            true,
            &|account| {
                account.grid[row][BYTES] = 240 * account.grid[row][FRAGMENTS] + 1;
            },
        );
        add(&format!("{}: a byte without a fragment", row_name(fate)), true, &|account| {
            account.grid[row] = [0, 0, 1];
        });
        add(&format!("{}: a packet without a fragment", row_name(fate)), true, &|account| {
            account.grid[row] = [1, 0, 0];
        });
    }
    for fate in [Fate::Aborted, Fate::BadLength, Fate::BadCheck] {
        add(&format!("{}: a packet", row_name(fate)), true, &|account| {
            account.grid[fate as usize][PACKETS] = 1;
        });
    }
    for fate in [Fate::BadLength, Fate::BadCheck] {
        let row = fate as usize;
        add(&format!("{}: a byte", row_name(fate)), true, &|account| {
            account.grid[row][BYTES] = 1;
        });
        add(&format!("{}: a byte for each fragment", row_name(fate)), true, &|account| {
            account.grid[row][BYTES] = account.grid[row][FRAGMENTS];
        });
    }
    for (name, fragments, bytes) in [
        ("open bytes one below open fragments", 4, 3),
        ("open fragments and no open byte", 4, 0),
        ("open bytes one above 240 times open fragments", 4, 961),
        ("an open byte and no open fragment", 0, 1),
    ] {
        add(name, true, &|account| set_open(account, fragments, bytes));
    }
}

/// Numbers near the highest. Where the total is made right, it is the sum cut
/// to 64 bits.
fn wide(all: &mut Vec<Named>) {
    for (name, full) in full() {
        let mut above = full;
        above.total += 1;
        above.refused += 1;
        all.push((format!("{name}, one above the limit"), above));
    }
    let mut add = |name: String, change: &dyn Fn(&mut Account)| {
        let mut account = Account::default();
        change(&mut account);
        all.push((name, summed(account)));
    };
    const HALF: u64 = 1 << 63;
    for fate in ROWS {
        let row = fate as usize;
        add(
            format!("{}: 2 to the power of 63 fragments, as many taken, total 0", row_name(fate)),
            &|account| {
                account.grid[row][FRAGMENTS] = HALF;
                account.taken = HALF;
            },
        );
    }
    add("2 to the power of 63 sent and superseded, total 0".to_string(), &|account| {
        account.grid[0] = [0, HALF, 0];
        account.grid[1] = [0, HALF, 0];
    });
    add("2 to the power of 63 taken and refused, total 0".to_string(), &|account| {
        account.taken = HALF;
        account.refused = HALF;
    });
    add("2 to the power of 63 open and refused, total 0".to_string(), &|account| {
        set_open(account, HALF, HALF);
        account.refused = HALF;
    });
    add("the highest number taken, 1 refused, total 0".to_string(), &|account| {
        account.taken = u64::MAX;
        account.refused = 1;
    });
    add("2 to the power of 32 refused".to_string(), &|account| account.refused = 1 << 32);
    add("2 to the power of 60 sent of 0 bytes, product cut to 0".to_string(), &|account| {
        account.grid[0] = [0, 1 << 60, 0];
    });
    add(
        "sent fragments whose bytes are 240 times as many, cut to 64 bits".to_string(),
        &|account| {
            account.grid[0][FRAGMENTS] = u64::MAX / 240 + 1;
            account.grid[0][BYTES] = (u64::MAX / 240 + 1).wrapping_mul(240);
        },
    );
    add(
        "open fragments whose bytes are 240 times as many, cut to 64 bits".to_string(),
        &|account| {
            let fragments = u64::MAX / 240 + 1;
            set_open(account, fragments, fragments.wrapping_mul(240));
        },
    );
    add("bytes the highest number, 10 fragments sent".to_string(), &|account| {
        account.grid[0] = [1, 10, u64::MAX];
    });
    add("open bytes the highest number, 10 open fragments".to_string(), &|account| {
        set_open(account, 10, u64::MAX);
    });
    all.push(("all numbers the highest".to_string(), Account::of_numbers([u64::MAX; NUMBERS])));
    for place in 0..NUMBERS {
        let mut numbers = busy().numbers();
        numbers[place] = u64::MAX;
        let name = format!("number {place}, counted from 0, the highest");
        all.push((name, Account::of_numbers(numbers)));
    }
    // The last number is the total, which is made right.
    for place in 0..NUMBERS - 1 {
        let mut numbers = [0; NUMBERS];
        numbers[place] = u64::MAX;
        let name = format!("zeros but for number {place}, the highest, total cut to 64 bits");
        all.push((name, summed(Account::of_numbers(numbers))));
    }
}

fn random(cases: &mut Cases) {
    let mut random = Random::new(SEED);
    cases.group("Account: any random numbers");
    for _ in 0..20 {
        let numbers = std::array::from_fn(|_| random.u64());
        cases.case(sound_account(&Account::of_numbers(numbers)));
    }
    cases.group("Account: random ones that are sound");
    for _ in 0..40 {
        cases.case(sound_account(&random_sound(&mut random, LONGEST_FRAGMENT)));
    }
    cases.group("Account: random ones that are sound, then one number changed by one");
    for _ in 0..160 {
        cases.case(sound_account(&random_changed(&mut random)));
    }
    cases.group("Account: the same, the total made right again");
    for _ in 0..80 {
        cases.case(sound_account(&summed(random_changed(&mut random))));
    }
}

/// A sound account with one number changed by one.
fn random_changed(random: &mut Random) -> Account {
    let mut numbers = random_sound(random, LONGEST_FRAGMENT).numbers();
    change_by_one(random, &mut numbers);
    Account::of_numbers(numbers)
}

/// Adds one to a random number, or takes one away.
pub fn change_by_one(random: &mut Random, numbers: &mut [u64]) {
    let number = &mut numbers[random.below(numbers.len() as u64) as usize];
    *number = number.wrapping_add(if random.one_in(2) { 1 } else { u64::MAX });
}

/// A sound account whose numbers lie at their ends as often as between, its
/// open packet one for a fragment maximum.
pub fn random_sound(random: &mut Random, maximum: u64) -> Account {
    let mut account = Account::default();
    for fate in ROWS {
        let fragments = random.below(1000);
        let row = &mut account.grid[fate as usize];
        row[FRAGMENTS] = fragments;
        if fate.has_packets() {
            row[PACKETS] = random.between(0, fragments);
        }
        if fate.has_bytes() {
            row[BYTES] = random.between(0, LONGEST_FRAGMENT * fragments);
        }
    }
    let open = random.pick(&[0, 0, 1, 2, 7]);
    set_open(&mut account, open, random.between(open, maximum * open));
    account.taken = random.below(1000);
    account.refused = random.below(1000);
    summed(account)
}

/// The name of a row.
fn row_name(fate: Fate) -> String {
    format!("{fate:?}").to_lowercase()
}

fn sound_account(account: &Account) -> Line {
    Line::case("sound-account").numbers(&account.numbers())
}
