//! Long random lists of transactions.

use super::controller::{Controller, Data, Drawn};
use super::state::{fresh, fresh_checked, full, random_sound, unsound, Named};
use super::transactions::{
    packet, send, send_coded, send_coded_pattern, send_pattern, show, start, STORE_BYTES,
};
use super::Cases;
use crate::random::Random;
use crate::text::Line;
use reference::settings::FRESH_SETTINGS;
use reference::state::{State, CHECK_ON};

const SEED: u64 = 0x0011_5757;

const MAXIMUMS: [u32; 8] = [1, 2, 3, 17, 32, 64, 239, 240];
/// For each list from fresh, how many transactions there are for one that is
/// out of order. Packets of many fragments get finished only in the calm ones.
const CALM: [u64; 3] = [10, 25, 60];
/// The calm of all other lists.
const USUAL_CALM: u64 = 10;
const LENGTH: usize = 300;
/// The length of a list with check bytes.
const CODED_LENGTH: usize = 100;
const SHOWN_EVERY: usize = 50;

/// Adds the cases of this subject.
pub fn generate(cases: &mut Cases) {
    for maximum in MAXIMUMS {
        for (list, (calm, extra)) in CALM.into_iter().zip([1, 64, 0]).enumerate() {
            let number = list + 1;
            cases.group(&format!("Lists: maximum {maximum}, random list {number} from fresh"));
            cases.case(start(&fresh(maximum), STORE_BYTES + extra, &FRESH_SETTINGS));
            let seed = SEED + 100 * u64::from(maximum) + list as u64;
            random_list(cases, seed, u64::from(maximum), calm, LENGTH);
        }
    }
    with_codes(cases);
    let mut random = Random::new(SEED);
    for number in 1..=12 {
        cases.group(&format!("Lists: random list {number} from a random sound state"));
        let state = random_sound(&mut random);
        let mut settings = random.bytes(15 + number % 3);
        settings[0] = random.pick(&[0x40, 0x41, 0x49, 0x51, 0x69]);
        settings[1] = random.below(4) as u8;
        cases.case(start(&state, STORE_BYTES, &settings));
        random_list(cases, random.u64(), state.maximum, USUAL_CALM, 60);
    }
    nothing_changes(cases, &mut random);
}

/// Lists with check bytes, some of them wrong, with the check on and off.
fn with_codes(cases: &mut Cases) {
    let mut random = Random::new(SEED ^ 1);
    for (maximum, calm) in MAXIMUMS.into_iter().zip(CALM.into_iter().cycle()) {
        cases.group(&format!("Lists: maximum {maximum}, check on, random list from fresh"));
        cases.case(start(&fresh_checked(maximum), STORE_BYTES, &FRESH_SETTINGS));
        coded_list(cases, random.u64(), u64::from(maximum), calm, CODED_LENGTH);
    }
    for number in 1..=4 {
        cases.group(&format!("Lists: check on, random list {number} from a random sound state"));
        let state = State { check: CHECK_ON, ..random_sound(&mut random) };
        cases.case(start(&state, STORE_BYTES, &FRESH_SETTINGS));
        coded_list(cases, random.u64(), state.maximum, USUAL_CALM, 60);
    }
    for maximum in [64, 240] {
        cases.group(&format!("Lists: maximum {maximum}, check bytes and the check off"));
        cases.case(start(&fresh(maximum), STORE_BYTES, &FRESH_SETTINGS));
        coded_list(cases, random.u64(), u64::from(maximum), USUAL_CALM, 60);
    }
}

fn nothing_changes(cases: &mut Cases, random: &mut Random) {
    let unsound = unsound();
    let full = full();
    let pick = |random: &mut Random, states: &[Named]| {
        states[random.below(states.len() as u64) as usize].clone()
    };
    for _ in 0..4 {
        let (name, state) = pick(random, &unsound);
        cases.group(&format!("Lists: state not sound, {name}: nothing changes"));
        cases.case(start(&state, STORE_BYTES, &FRESH_SETTINGS));
        random_list(cases, random.u64(), state.maximum.clamp(1, 240), USUAL_CALM, 30);
    }
    for _ in 0..4 {
        let (name, state) = pick(random, &full);
        cases.group(&format!("Lists: {name}: nothing changes"));
        cases.case(start(&state, STORE_BYTES, &FRESH_SETTINGS));
        random_list(cases, random.u64(), state.maximum, USUAL_CALM, 30);
    }
    cases.group("Lists: store of 1535 bytes: nothing changes");
    cases.case(start(&fresh(32), STORE_BYTES - 1, &FRESH_SETTINGS));
    random_list(cases, random.u64(), 32, USUAL_CALM, 30);
    cases.group("Lists: settings of 14 bytes: nothing changes");
    cases.case(start(&fresh(32), STORE_BYTES, &FRESH_SETTINGS[..14]));
    random_list(cases, random.u64(), 32, USUAL_CALM, 30);
}

fn random_list(cases: &mut Cases, seed: u64, maximum: u64, calm: u64, length: usize) {
    let controller = Controller::new(seed, maximum, calm);
    drawn_list(cases, controller, length, |_, Drawn { command, link_up, data }| match data {
        Data::Given(data) => send(*command, *link_up, data),
        Data::Pattern { size, seed } => send_pattern(*command, *link_up, *size, *seed),
    });
}

/// A random list with address and check bytes.
fn coded_list(cases: &mut Cases, seed: u64, maximum: u64, calm: u64, length: usize) {
    let controller = Controller::new(seed, maximum, calm);
    drawn_list(cases, controller, length, |controller, drawn| {
        let transaction = controller.coded(drawn, &drawn.bytes());
        match &drawn.data {
            Data::Given(data) => send_coded(transaction, data),
            Data::Pattern { size, seed } => send_coded_pattern(transaction, *size, *seed),
        }
    });
}

/// Transactions as a controller draws them, shown every now and then.
fn drawn_list(
    cases: &mut Cases,
    mut controller: Controller,
    length: usize,
    case: fn(&mut Controller, &Drawn) -> Line,
) {
    for number in 1..=length {
        let drawn = controller.transaction();
        let case = case(&mut controller, &drawn);
        cases.case(case);
        if number % SHOWN_EVERY == 0 || number == length {
            cases.case(show());
            let asked = controller.random.pick(&[60, 61, 200, 1535, 1536, 1537]);
            cases.case(packet(asked));
        }
    }
}
