//! Answers cases of the store, the account, the state, check bytes and
//! transactions.

use reference::account::{self, Account};
use reference::answer_numbers::DONE;
use reference::history::Transaction;
use reference::state::{self, State};
use reference::{packet, pec};

use super::carried::Carried;
use super::{digest, Stopped};
use crate::pattern::pattern;
use crate::text::{bytes_of_state, Fields, Line, NotACase};

/// The largest store that is carried, and the most data made by a pattern.
const MOST_BYTES: u16 = 2048;
/// The longest settings that are carried.
const MOST_SETTINGS: usize = 64;

const NUMBER_BYTES: usize = 8;

/// What stands for the address byte and the check byte where none is given.
const NONE_GIVEN: u8 = 0;

/// What takes the data of a transaction from the fields.
pub type TakeData = fn(&mut Fields) -> Result<Vec<u8>, NotACase>;

/// Fills a packet up in a store.
pub fn fill(mut fields: Fields) -> Result<Line, Stopped> {
    let mut store = store(&mut fields)?;
    let length = fields.u64()?;
    fields.end()?;
    packet::fill(&mut store, length);
    Ok(Line::answer().u32(digest(&store)))
}

/// Shows a part of a store.
pub fn shown(mut fields: Fields) -> Result<Line, Stopped> {
    let store = store(&mut fields)?;
    let length = fields.u64()?;
    fields.end()?;
    Ok(part(packet::shown(&store, length)))
}

/// Tells whether an account is sound.
pub fn sound_account(mut fields: Fields) -> Result<Line, Stopped> {
    let account = account(&mut fields)?;
    fields.end()?;
    Ok(Line::answer().bool(account::is_sound(&account)))
}

/// Makes a fresh state.
pub fn fresh_state(mut fields: Fields) -> Result<Line, Stopped> {
    let maximum = fields.u32()?;
    let check = fields.bool()?;
    fields.end()?;
    let (answer, state) = state::fresh(maximum, check);
    Ok(Line::answer().u8(answer).state(&state))
}

/// Tells whether a state is sound.
pub fn sound_state(mut fields: Fields) -> Result<Line, Stopped> {
    let state = state(&mut fields)?;
    fields.end()?;
    Ok(Line::answer().bool(state::is_sound(&state)))
}

/// Carries a state, a store and settings from here on.
pub fn start(carried: &mut Carried, mut fields: Fields) -> Result<Line, Stopped> {
    let state = state(&mut fields)?;
    let store = limited_pattern(&mut fields)?;
    let settings = fields.bytes()?;
    fields.end()?;
    if settings.len() > MOST_SETTINGS {
        return Err("settings that are too long".into());
    }
    *carried = Carried::start(state, store, settings);
    Ok(Line::answer().bool(state::is_sound(&state)))
}

/// The code of any bytes, bit by bit and by the table.
pub fn crc(mut fields: Fields) -> Result<Line, Stopped> {
    let start = fields.u8()?;
    let bytes = fields.bytes()?;
    fields.end()?;
    Ok(Line::answer().u8(pec::by_bits(start, &bytes)).u8(pec::by_table(start, &bytes)))
}

/// The code of a transaction, its data taken from the fields.
pub fn code(mut fields: Fields, data: TakeData) -> Result<Line, Stopped> {
    let address = fields.u8()?;
    let command = fields.u8()?;
    let data = data(&mut fields)?;
    fields.end()?;
    let (answer, code) = pec::code(address, command, &data);
    let transaction = Transaction { address, command, data, code, link_up: false };
    if transaction.code_right() != (answer == DONE) {
        return Err(Stopped::Disagreement("another code"));
    }
    Ok(Line::answer().u8(answer).u8(code))
}

/// Does a transaction on what is carried, its data taken from the fields.
pub fn send(carried: &mut Carried, mut fields: Fields, data: TakeData) -> Result<Line, Stopped> {
    let command = fields.u8()?;
    let link_up = fields.bool()?;
    let data = data(&mut fields)?;
    fields.end()?;
    let (address, code) = (NONE_GIVEN, NONE_GIVEN);
    transact(carried, Transaction { address, command, data, code, link_up })
}

/// The same with an address byte and a check byte.
pub fn send_coded(
    carried: &mut Carried,
    mut fields: Fields,
    data: TakeData,
) -> Result<Line, Stopped> {
    let address = fields.u8()?;
    let command = fields.u8()?;
    let link_up = fields.bool()?;
    let data = data(&mut fields)?;
    let code = fields.u8()?;
    fields.end()?;
    transact(carried, Transaction { address, command, data, code, link_up })
}

/// Shows the state and the settings that are carried.
pub fn show(carried: &Carried, fields: Fields) -> Result<Line, Stopped> {
    fields.end()?;
    Ok(Line::answer().state(&carried.state).bytes(&carried.settings))
}

/// Shows a part of the store that is carried.
pub fn packet(carried: &Carried, mut fields: Fields) -> Result<Line, Stopped> {
    let length = fields.u64()?;
    fields.end()?;
    Ok(part(packet::shown(&carried.store, length)))
}

fn transact(carried: &mut Carried, transaction: Transaction) -> Result<Line, Stopped> {
    let (answer, sent) = carried.transact(transaction).map_err(Stopped::Disagreement)?;
    Ok(Line::answer()
        .u8(answer)
        .u16(sent)
        .u32(digest(&bytes_of_state(&carried.state)))
        .u32(digest(&carried.store))
        .u32(digest(&carried.settings)))
}

fn store(fields: &mut Fields) -> Result<Vec<u8>, NotACase> {
    let size = fields.u16()?;
    let seed = fields.u8()?;
    Ok(pattern(size, seed))
}

/// Takes data as it is given.
pub fn given(fields: &mut Fields) -> Result<Vec<u8>, NotACase> {
    fields.bytes()
}

/// Takes a size and a seed, and gives the bytes of that pattern.
pub fn limited_pattern(fields: &mut Fields) -> Result<Vec<u8>, NotACase> {
    let size = fields.u16()?;
    let seed = fields.u8()?;
    limited(size, seed)
}

/// The bytes of a pattern that is not too long.
pub fn limited(size: u16, seed: u8) -> Result<Vec<u8>, NotACase> {
    if size > MOST_BYTES {
        return Err("a pattern that is too long");
    }
    Ok(pattern(size, seed))
}

fn part(part: &[u8]) -> Line {
    // A part is never longer than the longest packet.
    Line::answer().u16(part.len() as u16).u32(digest(part))
}

/// Takes an account.
pub fn account(fields: &mut Fields) -> Result<Account, NotACase> {
    Ok(Account::of_numbers(numbers(&fields.bytes()?)?))
}

fn state(fields: &mut Fields) -> Result<State, NotACase> {
    let bytes = fields.bytes()?;
    let (check, bytes) = bytes.split_last().ok_or("a state of no bytes")?;
    Ok(State::of_numbers(numbers(bytes)?, *check))
}

fn numbers<const COUNT: usize>(bytes: &[u8]) -> Result<[u64; COUNT], NotACase> {
    if bytes.len() != COUNT * NUMBER_BYTES {
        return Err("numbers of the wrong size");
    }
    let mut numbers = [0; COUNT];
    for (number, bytes) in numbers.iter_mut().zip(bytes.chunks(NUMBER_BYTES)) {
        *number = bytes.iter().fold(0, |number, byte| number << 8 | u64::from(*byte));
    }
    Ok(numbers)
}
