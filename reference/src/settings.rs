//! The receive settings, Receive Enable (I210 data sheet, Table 10-10) and the
//! addresses in force.

use std::ops::Range;

use crate::answer_numbers::{
    CONTROL_NOT_ALLOWED, DONE, NOT_SOUND, NO_MAC_KEPT, RECEIVE_ENABLE_LENGTH, RECEIVE_ENABLE_TAKEN,
    TOO_SHORT,
};

/// The bytes of settings that mean something; more may be lent.
pub const SETTINGS_BYTES: usize = 15;
/// The bytes of a Flash block that mean something; more may be lent.
pub const FLASH_BYTES: usize = 10;
/// The size of a short Receive Enable.
pub const SHORT_FORM_BYTES: usize = 1;
/// The size of a long Receive Enable.
pub const LONG_FORM_BYTES: usize = 14;

/// Control byte: receive TCO enable.
pub const RCV_EN: u8 = 1 << 0;
/// Control byte: enable ARP response.
pub const EN_ARP_RES: u8 = 1 << 3;
/// Control byte: notification method; with both bits set it is not supported.
pub const NM: u8 = 3 << 4;
/// Control byte: the reserved bit, which must be one.
pub const MUST_BE_ONE: u8 = 1 << 6;
/// Control byte: configure the dedicated MAC address.
pub const CBDM: u8 = 1 << 7;

/// The control byte of fresh settings.
pub const FRESH_CONTROL: u8 = MUST_BE_ONE;
/// Fresh settings.
pub const FRESH_SETTINGS: [u8; SETTINGS_BYTES] =
    [FRESH_CONTROL, 0, 0, 0, 0, 0, 0, 0, 0, 0, 0, 0, 0, 0, 0];

/// Second byte of the settings: a MAC address is kept.
pub const MAC_KEPT: u8 = 1 << 0;
/// Second byte of the settings: an IPv4 address is kept.
pub const ADDRESS_KEPT: u8 = 1 << 1;

const SETTINGS_CONTROL: usize = 0;
const SETTINGS_KEPT: usize = 1;
const SETTINGS_MAC: Range<usize> = 2..8;
const SETTINGS_IPV4: Range<usize> = 8..12;
const SETTINGS_UNREAD: Range<usize> = 12..15;

// The data sheet counts data bytes from 1, these offsets count from 0.
const DATA_CONTROL: usize = 0;
const DATA_MAC: Range<usize> = 1..7;
const DATA_IPV4: Range<usize> = 7..11;
const DATA_UNREAD: Range<usize> = 11..14;

const FLASH_MAC: Range<usize> = 0..6;
const FLASH_IPV4: Range<usize> = 6..10;

/// An address in force, as a part of the buffer it comes from.
#[derive(Clone, Copy, Debug, PartialEq, Eq)]
pub enum AddressInForce<'a> {
    /// A buffer is too short or the settings are not sound.
    Nowhere,
    /// A part of the settings.
    Settings(&'a [u8]),
    /// A part of the Flash block.
    Flash(&'a [u8]),
}

impl<'a> AddressInForce<'a> {
    /// The bytes of the address; none where there is no address.
    pub fn part(self) -> &'a [u8] {
        match self {
            AddressInForce::Nowhere => &[],
            AddressInForce::Settings(part) | AddressInForce::Flash(part) => part,
        }
    }
}

/// Writes fresh settings, and gives the answer.
pub fn fresh(settings: &mut [u8]) -> u8 {
    if settings.len() < SETTINGS_BYTES {
        return TOO_SHORT;
    }
    settings[..SETTINGS_BYTES].copy_from_slice(&FRESH_SETTINGS);
    DONE
}

/// Whether settings are long enough and sound.
pub fn is_sound(settings: &[u8]) -> bool {
    settings.len() >= SETTINGS_BYTES
        && control_allowed(settings[SETTINGS_CONTROL])
        && settings[SETTINGS_KEPT] <= MAC_KEPT | ADDRESS_KEPT
        && (settings[SETTINGS_CONTROL] & CBDM == 0 || settings[SETTINGS_KEPT] & MAC_KEPT != 0)
}

/// Judges a Receive Enable and, if it is taken, changes the settings; gives
/// the answer.
pub fn receive_enable(settings: &mut [u8], data: &[u8]) -> u8 {
    let answer = judge(settings, data);
    if answer == RECEIVE_ENABLE_TAKEN {
        apply(settings, data);
    }
    answer
}

/// The MAC address in force.
pub fn mac_in_force<'a>(settings: &'a [u8], flash: &'a [u8]) -> AddressInForce<'a> {
    if !is_sound(settings) || flash.len() < FLASH_BYTES {
        AddressInForce::Nowhere
    } else if settings[SETTINGS_CONTROL] & CBDM != 0 {
        AddressInForce::Settings(&settings[SETTINGS_MAC])
    } else {
        AddressInForce::Flash(&flash[FLASH_MAC])
    }
}

/// The IPv4 address in force.
pub fn ipv4_in_force<'a>(settings: &'a [u8], flash: &'a [u8]) -> AddressInForce<'a> {
    if !is_sound(settings) || flash.len() < FLASH_BYTES {
        AddressInForce::Nowhere
    } else if settings[SETTINGS_KEPT] & ADDRESS_KEPT != 0 {
        AddressInForce::Settings(&settings[SETTINGS_IPV4])
    } else {
        AddressInForce::Flash(&flash[FLASH_IPV4])
    }
}

fn control_allowed(control: u8) -> bool {
    control & MUST_BE_ONE != 0
        && control & NM != NM
        && (control & CBDM == 0 || control & RCV_EN != 0)
}

fn judge(settings: &[u8], data: &[u8]) -> u8 {
    if settings.len() < SETTINGS_BYTES {
        return TOO_SHORT;
    }
    if !is_sound(settings) {
        return NOT_SOUND;
    }
    if data.len() != SHORT_FORM_BYTES && data.len() != LONG_FORM_BYTES {
        return RECEIVE_ENABLE_LENGTH;
    }
    let control = data[DATA_CONTROL];
    if !control_allowed(control) {
        return CONTROL_NOT_ALLOWED;
    }
    let mac_kept = settings[SETTINGS_KEPT] & MAC_KEPT != 0;
    if control & CBDM != 0 && data.len() == SHORT_FORM_BYTES && !mac_kept {
        return NO_MAC_KEPT;
    }
    RECEIVE_ENABLE_TAKEN
}

fn apply(settings: &mut [u8], data: &[u8]) {
    let control = data[DATA_CONTROL];
    settings[SETTINGS_CONTROL] = control;
    if data.len() != LONG_FORM_BYTES {
        return;
    }
    // A clear bit leaves the earlier address kept: a later short form goes
    // back to the most recent long form in which the bit was set.
    if control & CBDM != 0 {
        settings[SETTINGS_MAC].copy_from_slice(&data[DATA_MAC]);
        settings[SETTINGS_KEPT] |= MAC_KEPT;
    }
    if control & EN_ARP_RES != 0 {
        settings[SETTINGS_IPV4].copy_from_slice(&data[DATA_IPV4]);
        settings[SETTINGS_KEPT] |= ADDRESS_KEPT;
    }
    settings[SETTINGS_UNREAD].copy_from_slice(&data[DATA_UNREAD]);
}
