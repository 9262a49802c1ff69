//! The second program behind the C interface: each operation with the types,
//! the order and the meaning that `include/tco.h` gives it.

pub mod exported;
pub mod interface;

use reference::setlink::{Media, FAILED, INVALID_PARAMETER};
use reference::settings::AddressInForce;
use reference::status::StatusData;
use reference::{account, packet, pec, printout, setlink, settings, state, status, translator};

use crate::interface::{
    Account, Code, Link, Made, Part, Reply, State, Status, StatusRead, StatusWritten, Transaction,
    BLOCK_BYTES,
};

/// Copper, as `tco_set_link` numbers the media.
pub const COPPER: u32 = 0;
/// Fibre, likewise.
pub const FIBRE: u32 = 1;

const FROM_NOWHERE: u32 = 0;
const FROM_SETTINGS: u32 = 1;
const FROM_FLASH: u32 = 2;

impl From<&account::Account> for Account {
    fn from(own: &account::Account) -> Account {
        let mut grid = own.grid.into_iter().flatten();
        Account {
            grid: std::array::from_fn(|_| grid.next().unwrap_or_default()),
            open_fragments: own.open_fragments,
            open_bytes: own.open_bytes,
            taken: own.taken,
            refused: own.refused,
            total: own.total,
        }
    }
}

impl From<&Account> for account::Account {
    fn from(lent: &Account) -> account::Account {
        account::Account {
            grid: std::array::from_fn(|row| {
                std::array::from_fn(|column| lent.grid[account::COLUMNS * row + column])
            }),
            open_fragments: lent.open_fragments,
            open_bytes: lent.open_bytes,
            taken: lent.taken,
            refused: lent.refused,
            total: lent.total,
        }
    }
}

impl From<&state::State> for State {
    fn from(own: &state::State) -> State {
        State { account: (&own.account).into(), maximum: own.maximum, check: own.check }
    }
}

impl From<&State> for state::State {
    fn from(lent: &State) -> state::State {
        state::State { account: (&lent.account).into(), maximum: lent.maximum, check: lent.check }
    }
}

impl From<Transaction> for translator::Transaction {
    fn from(lent: Transaction) -> translator::Transaction {
        let Transaction { address, command, code, link_up } = lent;
        translator::Transaction { address, command, code, link_up }
    }
}

impl From<StatusData> for Status {
    fn from(own: StatusData) -> Status {
        let StatusData { length, vlan, decision_match, decision_index, vlan_match, vlan_index } =
            own;
        Status { length, vlan, decision_match, decision_index, vlan_match, vlan_index }
    }
}

impl From<Status> for StatusData {
    fn from(lent: Status) -> StatusData {
        let Status { length, vlan, decision_match, decision_index, vlan_match, vlan_index } = lent;
        StatusData { length, vlan, decision_match, decision_index, vlan_match, vlan_index }
    }
}

/// `tco_fresh_state`
pub fn fresh_state(maximum: u32, check: bool) -> Made {
    let (answer, state) = state::fresh(maximum, check);
    Made { answer: answer.into(), state: (&state).into() }
}

/// `tco_fresh_settings`
pub fn fresh_settings(settings: &mut [u8]) -> u32 {
    settings::fresh(settings).into()
}

/// `tco_transact`
pub fn transact(
    state: &mut State,
    store: &mut [u8],
    settings: &mut [u8],
    transaction: Transaction,
    bytes: &[u8],
) -> Reply {
    let mut own = state::State::from(&*state);
    let (answer, sent) = translator::transact(&mut own, store, settings, transaction.into(), bytes);
    *state = (&own).into();
    Reply { answer: answer.into(), sent: sent.into() }
}

/// `tco_check_code`
pub fn check_code(address: u8, command: u8, bytes: &[u8]) -> Code {
    let (answer, code) = pec::code(address, command, bytes);
    Code { answer: answer.into(), code }
}

/// `tco_shown`
pub fn shown(store: &[u8], length: usize) -> usize {
    packet::shown(store, length as u64).len()
}

/// `tco_mac_in_force`
pub fn mac_in_force(settings: &[u8], flash: &[u8]) -> Part {
    part(settings, flash, settings::mac_in_force(settings, flash))
}

/// `tco_ipv4_in_force`
pub fn ipv4_in_force(settings: &[u8], flash: &[u8]) -> Part {
    part(settings, flash, settings::ipv4_in_force(settings, flash))
}

/// `tco_write_status`
pub fn write_status(fields: Status) -> StatusWritten {
    let (answer, field, block) = status::answered(status::write(&fields.into()));
    StatusWritten { answer: answer.into(), field: field.into(), block }
}

/// `tco_read_status`
pub fn read_status(block: &[u8]) -> StatusRead {
    let (answer, field, fields) = status::answered(status::read(block));
    StatusRead { answer: answer.into(), field: field.into(), fields: fields.into() }
}

/// `tco_set_link`
pub fn set_link(in_force: u32, word: u32, host_present: bool, media: u32) -> Link {
    let media = match media {
        COPPER => Media::Copper,
        FIBRE => Media::Fibre,
        _ => return Link { response: FAILED, reason: INVALID_PARAMETER, in_force },
    };
    let decision = setlink::decide(in_force, word, host_present, media);
    Link { response: decision.response, reason: decision.reason, in_force: decision.in_force }
}

/// `tco_print_account`
pub fn print_account(account: Account, out: &mut [u8]) -> usize {
    printout::print(&(&account).into(), out)
}

const _: () = assert!(status::BLOCK_BYTES == BLOCK_BYTES);

fn part(settings: &[u8], flash: &[u8], address: AddressInForce) -> Part {
    let (source, start) = match address {
        AddressInForce::Nowhere => (FROM_NOWHERE, 0),
        AddressInForce::Settings(part) => (FROM_SETTINGS, start_in(settings, part)),
        AddressInForce::Flash(part) => (FROM_FLASH, start_in(flash, part)),
    };
    Part { source, start, length: address.part().len() as u32 }
}

/// Where a part of a buffer starts in it.
fn start_in(whole: &[u8], part: &[u8]) -> u32 {
    (part.as_ptr() as usize - whole.as_ptr() as usize) as u32
}
