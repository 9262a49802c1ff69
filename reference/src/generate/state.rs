//! Cases of the state.

use super::account::{self, change_by_one, random_sound as random_account, set_open, summed};
use super::Cases;
use crate::random::Random;
use crate::text::Line;
use reference::account::Account;
use reference::state::{self, State, CHECK_OFF, CHECK_ON, HIGHEST_MAXIMUM, NUMBERS};

const SEED: u64 = 0x0005_7a7e;

const MAXIMUMS: [(u32, &str); 12] = [
    (0, "16, the state for 240"),
    (1, "0"),
    (2, "0"),
    (17, "0"),
    (32, "0"),
    (239, "0"),
    (240, "0"),
    (241, "16, the state for 240"),
    (255, "16, the state for 240"),
    (256, "16, the state for 240"),
    (257, "16 and not the state for 1"),
    (u32::MAX, "16, the state for 240"),
];

/// Maximums of a sound state and the open packets that they just allow: name,
/// maximum, open fragments and open bytes.
const ALLOWED: [(&str, u64, u64, u64); 10] = [
    ("maximum 1, none open", 1, 0, 0),
    ("maximum 1, 4 open fragments of 4 bytes", 1, 4, 4),
    ("maximum 84, 4 open fragments of 333 bytes", 84, 4, 333),
    ("maximum 100, 4 open fragments of 4 bytes", 100, 4, 4),
    ("maximum 100, 4 open fragments of 400 bytes", 100, 4, 400),
    ("maximum 239, none open", 239, 0, 0),
    ("maximum 239, 4 open fragments of 956 bytes", 239, 4, 956),
    ("maximum 240, none open", 240, 0, 0),
    ("maximum 240, 4 open fragments of 957 bytes", 240, 4, 957),
    ("maximum 240, 4 open fragments of 960 bytes", 240, 4, 960),
];

/// The same of states that are not sound though their accounts are.
const NOT_ALLOWED: [(&str, u64, u64, u64); 19] = [
    ("maximum 0, none open", 0, 0, 0),
    ("maximum 0, 4 open fragments of 4 bytes", 0, 4, 4),
    ("maximum 241, none open", 241, 0, 0),
    ("maximum 241, 4 open fragments of 333 bytes", 241, 4, 333),
    ("maximum 255, none open", 255, 0, 0),
    ("maximum 256, none open", 256, 0, 0),
    ("maximum 2 to the power of 32 and 32, none open", 0x1_0000_0020, 0, 0),
    (
        "maximum 2 to the power of 62, 4 open fragments of 333 bytes, product cut to 0",
        1 << 62,
        4,
        333,
    ),
    ("maximum 2 to the power of 63, none open", 1 << 63, 0, 0),
    ("maximum 2 to the power of 63, an open fragment of 20 bytes", 1 << 63, 1, 20),
    ("maximum the highest number, none open", u64::MAX, 0, 0),
    ("maximum the highest number, 4 open fragments of 333 bytes", u64::MAX, 4, 333),
    ("maximum 1, an open fragment of 2 bytes", 1, 1, 2),
    ("maximum 1, 4 open fragments of 5 bytes", 1, 4, 5),
    ("maximum 83, 4 open fragments of 333 bytes", 83, 4, 333),
    ("maximum 100, 4 open fragments of 401 bytes", 100, 4, 401),
    ("maximum 100, 4 open fragments of 960 bytes", 100, 4, 960),
    ("maximum 239, an open fragment of 240 bytes", 239, 1, 240),
    ("maximum 239, 4 open fragments of 957 bytes", 239, 4, 957),
];

/// A state with its name.
pub type Named = (String, State);

/// Adds the cases of this subject.
pub fn generate(cases: &mut Cases) {
    cases.group("State: fresh");
    for (maximum, answer) in MAXIMUMS {
        for (check, shown) in [(false, "off"), (true, "on")] {
            cases.name(&format!("maximum {maximum}, check {shown}: {answer}"));
            cases.case(Line::case("fresh-state").u32(maximum).bool(check));
        }
    }
    let case = |(name, state): Named| (name, sound_state(&state));
    let at_edges = sound().into_iter().map(case);
    cases.named_group("State: soundness, at the edges", "sound", at_edges);
    let past_edges = unsound().into_iter().map(case);
    cases.named_group("State: soundness, past the edges", "not sound", past_edges);
    random(cases);
}

/// A fresh state with the check off.
pub fn fresh(maximum: u32) -> State {
    state::fresh(maximum, false).1
}

/// A fresh state with the check on.
pub fn fresh_checked(maximum: u32) -> State {
    state::fresh(maximum, true).1
}

/// The state around an account, with the check off.
pub fn unchecked(account: Account, maximum: u64) -> State {
    State { account, maximum, check: CHECK_OFF }
}

/// A sound state in which every number that may differ from zero does, and no
/// two are alike.
pub fn busy() -> State {
    unchecked(account::busy(), 100)
}

/// States at the edges of what is sound.
pub fn sound() -> Vec<Named> {
    let fresh =
        [1, 32, 239, 240].map(|maximum| (format!("fresh for maximum {maximum}"), fresh(maximum)));
    let mut all = Vec::from(fresh);
    all.extend(around(account::sound(), HIGHEST_MAXIMUM));
    all.extend(ALLOWED.map(opened));
    for maximum in [1, 32, 240] {
        let name = format!("fresh for maximum {maximum}, check on");
        all.push((name, fresh_checked(maximum)));
    }
    all.push(with_check(CHECK_ON));
    all
}

/// The busy state with another check.
fn with_check(check: u8) -> Named {
    (format!("every number in use, check {check}"), State { check, ..busy() })
}

/// Sound states whose account is full.
pub fn full() -> Vec<Named> {
    around(account::full(), busy().maximum).collect()
}

/// States that are not sound for their account, and such whose account is sound.
pub fn unsound() -> Vec<Named> {
    let mut all: Vec<Named> = around(account::unsound(), HIGHEST_MAXIMUM).collect();
    all.extend(NOT_ALLOWED.map(opened));
    all.extend([2, 3, 128, 254, 255].map(with_check));
    all.push((
        "all numbers of the state the highest".to_string(),
        State::of_numbers([u64::MAX; NUMBERS], u8::MAX),
    ));
    all.push(("all numbers of the state zero".to_string(), State::default()));
    all
}

/// The states around these accounts.
fn around(accounts: Vec<account::Named>, maximum: u64) -> impl Iterator<Item = Named> {
    accounts.into_iter().map(move |(name, account)| (name, unchecked(account, maximum)))
}

/// The busy state with another maximum and another open packet.
pub fn with_open(maximum: u64, fragments: u64, bytes: u64) -> State {
    let mut account = account::busy();
    set_open(&mut account, fragments, bytes);
    unchecked(summed(account), maximum)
}

fn opened((name, maximum, fragments, bytes): (&str, u64, u64, u64)) -> Named {
    (name.to_string(), with_open(maximum, fragments, bytes))
}

fn random(cases: &mut Cases) {
    let mut random = Random::new(SEED);
    cases.group("State: random ones that are sound");
    for _ in 0..20 {
        cases.case(sound_state(&random_sound(&mut random)));
    }
    cases.group("State: random ones that are sound, then one number changed by one");
    for _ in 0..40 {
        let mut numbers = random_sound(&mut random).numbers();
        change_by_one(&mut random, &mut numbers);
        cases.case(sound_state(&State::of_numbers(numbers, CHECK_OFF)));
    }
    cases.group("State: any maximum around sound accounts");
    for _ in 0..80 {
        let account = random_account(&mut random, HIGHEST_MAXIMUM);
        let maximum = random.between(0, HIGHEST_MAXIMUM + 1);
        cases.case(sound_state(&unchecked(account, maximum)));
    }
}

/// A sound state whose numbers lie at their ends as often as between.
pub fn random_sound(random: &mut Random) -> State {
    let maximum = 1 + random.below(HIGHEST_MAXIMUM);
    unchecked(random_account(random, maximum), maximum)
}

fn sound_state(state: &State) -> Line {
    Line::case("sound-state").state(state)
}
