//! The answer numbers.

/// A fragment joined its packet, which is open.
pub const JOINED: u8 = 0;

/// Of a call that is no transaction: it did what it was asked for.
pub const DONE: u8 = 0;

/// Packet sent.
pub const PACKET_SENT: u8 = 1;

/// A fragment that is not First where no packet is open.
pub const ABORTED: u8 = 2;

/// A fragment of no bytes or above the fragment maximum.
pub const FRAGMENT_LENGTH: u8 = 3;

/// Packet discarded, its total too long.
pub const PACKET_TOO_LONG: u8 = 4;

/// Packet discarded, its total too short.
pub const PACKET_TOO_SHORT: u8 = 5;

/// Packet discarded, the link down at its Last.
pub const LINK_DOWN: u8 = 6;

/// The command is unknown.
pub const UNKNOWN_COMMAND: u8 = 7;

/// Receive Enable is neither of the short nor of the long form.
pub const RECEIVE_ENABLE_LENGTH: u8 = 8;

/// The control byte of a Receive Enable is not allowed.
pub const CONTROL_NOT_ALLOWED: u8 = 9;

/// A short Receive Enable sets CBDM, but no MAC address is kept.
pub const NO_MAC_KEPT: u8 = 10;

/// Receive Enable taken.
pub const RECEIVE_ENABLE_TAKEN: u8 = 11;

/// A lent buffer is too short.
pub const TOO_SHORT: u8 = 12;

/// The state or the settings are not sound.
pub const NOT_SOUND: u8 = 13;

/// The account is full.
pub const ACCOUNT_FULL: u8 = 14;

/// A status field or a status block is not allowed.
pub const STATUS_NOT_ALLOWED: u8 = 15;

/// The fragment maximum is not allowed.
pub const MAXIMUM_NOT_ALLOWED: u8 = 16;

/// The check byte is not that of the transaction, or there is none for so many
/// data bytes.
pub const BAD_CHECK: u8 = 17;
