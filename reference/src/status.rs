//! The eight bytes of TCO LAN packet status data: I210 data sheet, Tables
//! 10-17 to 10-20.

use crate::answer_numbers::{DONE, STATUS_NOT_ALLOWED};

/// The size of a status block.
pub const BLOCK_BYTES: usize = 8;

/// The longest packet, check bytes included.
pub const LONGEST_PACKET: u16 = 1536;
/// The highest index of a decision filter, though a block has room for 15.
pub const HIGHEST_DECISION_INDEX: u8 = 7;
/// The highest index of a VLAN filter.
pub const HIGHEST_VLAN_INDEX: u8 = 7;

/// CRC stripped is always one and VLAN stripped always zero in the I210.
const PACKET_STATUS: u16 = 0x0001;

const MNG_RESERVED: u16 = 0xfe00;
const MNG_DECISION_MATCH: u16 = 1 << 8;
const MNG_DECISION_INDEX_SHIFT: u32 = 4;
const MNG_DECISION_INDEX: u16 = 0x00f0;
const MNG_VLAN_MATCH: u16 = 1 << 3;
const MNG_VLAN_INDEX: u16 = 0x0007;

const NO_FIELD: u8 = 0;

/// What may be bad, numbered in the order in which it is judged.
#[derive(Clone, Copy, Debug, PartialEq, Eq)]
pub enum Field {
    /// The size of the block.
    BlockSize = 1,
    /// The packet length, with the reserved bits of its word.
    Length = 2,
    /// The packet status.
    PacketStatus = 3,
    /// The reserved bits of the MNG status.
    MngReserved = 4,
    /// The index of the decision filter.
    DecisionIndex = 5,
    /// The index of the VLAN filter.
    VlanIndex = 6,
}

impl Field {
    fn bad_unless(self, allowed: bool) -> Result<(), Field> {
        if allowed {
            Ok(())
        } else {
            Err(self)
        }
    }
}

/// The fields of the status data.
#[derive(Clone, Copy, Debug, Default, PartialEq, Eq)]
pub struct StatusData {
    /// Packet length, check bytes included.
    pub length: u16,
    /// The two bytes of the VLAN tag.
    pub vlan: u16,
    /// Whether a decision filter matched.
    pub decision_match: bool,
    /// Which decision filter matched; zero where none did.
    pub decision_index: u8,
    /// Whether a VLAN filter matched.
    pub vlan_match: bool,
    /// Which VLAN filter matched; zero where none did.
    pub vlan_index: u8,
}

/// Writes a block, or names the first field that is bad.
pub fn write(fields: &StatusData) -> Result<[u8; BLOCK_BYTES], Field> {
    judge_length(fields.length)?;
    judge_indices(fields)?;
    let mut mng_status =
        u16::from(fields.decision_index) << MNG_DECISION_INDEX_SHIFT | u16::from(fields.vlan_index);
    if fields.decision_match {
        mng_status |= MNG_DECISION_MATCH;
    }
    if fields.vlan_match {
        mng_status |= MNG_VLAN_MATCH;
    }
    let mut block = [0; BLOCK_BYTES];
    block[0..2].copy_from_slice(&fields.length.to_le_bytes());
    block[2..4].copy_from_slice(&PACKET_STATUS.to_le_bytes());
    block[4..6].copy_from_slice(&fields.vlan.to_le_bytes());
    block[6..8].copy_from_slice(&mng_status.to_le_bytes());
    Ok(block)
}

/// Reads a block, or names the first field that is bad.
pub fn read(block: &[u8]) -> Result<StatusData, Field> {
    Field::BlockSize.bad_unless(block.len() == BLOCK_BYTES)?;
    let length = u16::from_le_bytes([block[0], block[1]]);
    let packet_status = u16::from_le_bytes([block[2], block[3]]);
    let vlan = u16::from_le_bytes([block[4], block[5]]);
    let mng_status = u16::from_le_bytes([block[6], block[7]]);

    judge_length(length)?;
    Field::PacketStatus.bad_unless(packet_status == PACKET_STATUS)?;
    Field::MngReserved.bad_unless(mng_status & MNG_RESERVED == 0)?;
    let fields = StatusData {
        length,
        vlan,
        decision_match: mng_status & MNG_DECISION_MATCH != 0,
        decision_index: ((mng_status & MNG_DECISION_INDEX) >> MNG_DECISION_INDEX_SHIFT) as u8,
        vlan_match: mng_status & MNG_VLAN_MATCH != 0,
        vlan_index: (mng_status & MNG_VLAN_INDEX) as u8,
    };
    judge_indices(&fields)?;
    Ok(fields)
}

/// The answer, the number of the bad field, zero where none is, and what comes
/// back: zeros where one is.
pub fn answered<T: Default>(outcome: Result<T, Field>) -> (u8, u8, T) {
    match outcome {
        Ok(given) => (DONE, NO_FIELD, given),
        Err(bad) => (STATUS_NOT_ALLOWED, bad as u8, T::default()),
    }
}

/// Judges the whole word of a block: a reserved bit makes it too great.
fn judge_length(length: u16) -> Result<(), Field> {
    Field::Length.bad_unless((1..=LONGEST_PACKET).contains(&length))
}

/// Judges both indices: without its match, no index but zero is left.
fn judge_indices(fields: &StatusData) -> Result<(), Field> {
    let highest_decision = if fields.decision_match { HIGHEST_DECISION_INDEX } else { 0 };
    let highest_vlan = if fields.vlan_match { HIGHEST_VLAN_INDEX } else { 0 };
    Field::DecisionIndex.bad_unless(fields.decision_index <= highest_decision)?;
    Field::VlanIndex.bad_unless(fields.vlan_index <= highest_vlan)
}
