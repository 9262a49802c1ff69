//! The state that a caller keeps and hands back: the account, and around it the
//! fragment maximum and whether check bytes are looked at.

use crate::account::{self, Account, LONGEST_FRAGMENT};
use crate::answer_numbers::{DONE, MAXIMUM_NOT_ALLOWED};

/// The highest fragment maximum, and the one that a fresh state gets in place
/// of one that is not allowed.
pub const HIGHEST_MAXIMUM: u64 = LONGEST_FRAGMENT;

/// The check of a state that does not look at check bytes.
pub const CHECK_OFF: u8 = 0;
/// The check of a state that does.
pub const CHECK_ON: u8 = 1;

/// The numbers of a state, its check not among them.
pub const NUMBERS: usize = account::NUMBERS + 1;

/// A state; any numbers may be handed in.
#[derive(Clone, Copy, Debug, Default, PartialEq, Eq)]
pub struct State {
    /// The account.
    pub account: Account,
    /// The most data bytes of a fragment.
    pub maximum: u64,
    /// Whether check bytes are looked at, one or zero.
    pub check: u8,
}

impl State {
    /// The state of these numbers, those of the account, then the maximum, and of
    /// a check.
    pub fn of_numbers(numbers: [u64; NUMBERS], check: u8) -> State {
        let account = Account::of_numbers(std::array::from_fn(|place| numbers[place]));
        State { account, maximum: numbers[account::NUMBERS], check }
    }

    /// The numbers of the account, then the maximum.
    pub fn numbers(&self) -> [u64; NUMBERS] {
        let account = self.account.numbers();
        std::array::from_fn(|place| account.get(place).copied().unwrap_or(self.maximum))
    }
}

/// Makes a fresh state: the answer, and the state or, where its maximum is not
/// allowed, the one for the highest; the check is as asked for in both.
pub fn fresh(maximum: u32, check: bool) -> (u8, State) {
    let maximum = u64::from(maximum);
    let (answer, maximum) = if maximum_allowed(maximum) {
        (DONE, maximum)
    } else {
        (MAXIMUM_NOT_ALLOWED, HIGHEST_MAXIMUM)
    };
    let check = if check { CHECK_ON } else { CHECK_OFF };
    (answer, State { account: Account::default(), maximum, check })
}

/// Whether a state is sound.
pub fn is_sound(state: &State) -> bool {
    let State { account, maximum, check } = state;
    // Open fragments of a sound account are few enough for the product.
    account::is_sound(account)
        && maximum_allowed(*maximum)
        && [CHECK_OFF, CHECK_ON].contains(check)
        && account.open_bytes <= maximum * account.open_fragments
}

fn maximum_allowed(maximum: u64) -> bool {
    (1..=HIGHEST_MAXIMUM).contains(&maximum)
}
