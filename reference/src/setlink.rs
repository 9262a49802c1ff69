//! The Set Link decision: DMTF DSP0222, and the error codes of the I210 data
//! sheet, section 10.6.2.1.

/// Auto-negotiation is asked for; the mode is forced where this bit is zero.
pub const AUTO_NEGOTIATION: u32 = 1 << 0;
/// 10 Mbit/s is selected.
pub const SPEED_10: u32 = 1 << 1;
/// 100 Mbit/s is selected.
pub const SPEED_100: u32 = 1 << 2;
/// 1000 Mbit/s is selected.
pub const SPEED_1000: u32 = 1 << 3;
/// 10 Gbit/s is selected.
pub const SPEED_10G: u32 = 1 << 4;
/// Half duplex is selected.
pub const HALF_DUPLEX: u32 = 1 << 8;
/// Full duplex is selected.
pub const FULL_DUPLEX: u32 = 1 << 9;
/// The two pause bits, which never decide anything.
pub const PAUSE: u32 = 3 << 10;

const SPEEDS: u32 = SPEED_10 | SPEED_100 | SPEED_1000 | SPEED_10G;
const DUPLEXES: u32 = HALF_DUPLEX | FULL_DUPLEX;
const RESERVED: u32 = !(AUTO_NEGOTIATION | SPEEDS | DUPLEXES | PAUSE);

/// Response code: command completed.
pub const COMPLETED: u16 = 0x0000;
/// Response code: command failed.
pub const FAILED: u16 = 0x0001;

/// Reason code: no error.
pub const NO_ERROR: u16 = 0x0000;
/// Reason code: the word selects what cannot be.
pub const INVALID_PARAMETER: u16 = 0x0002;
/// Reason code: Set Link host OS or driver conflict.
pub const HOST_CONFLICT: u16 = 0x0901;
/// Reason code: Set Link media conflict.
pub const MEDIA_CONFLICT: u16 = 0x0902;
/// Reason code: Set Link parameter conflict.
pub const PARAMETER_CONFLICT: u16 = 0x0903;
/// Reason code: Set Link speed conflict.
pub const SPEED_CONFLICT: u16 = 0x0905;

/// The word in force before any Set Link was accepted.
pub const FRESH_WORD: u32 = 0;

/// The medium of the link.
#[derive(Clone, Copy, Debug, PartialEq, Eq)]
pub enum Media {
    /// 10 and 100 in both duplexes, 1000 in full duplex.
    Copper,
    /// 1000 in full duplex.
    Fibre,
}

/// The answer to a Set Link.
#[derive(Clone, Copy, Debug, PartialEq, Eq)]
pub struct Decision {
    /// Response code of DSP0222.
    pub response: u16,
    /// Reason code of DSP0222.
    pub reason: u16,
    /// The word in force afterwards.
    pub in_force: u32,
}

/// Judges a Set Link word, given the word in force before it.
pub fn decide(in_force: u32, word: u32, host_driver_present: bool, media: Media) -> Decision {
    match refusal(word, host_driver_present, media) {
        Some(reason) => Decision { response: FAILED, reason, in_force },
        None => Decision { response: COMPLETED, reason: NO_ERROR, in_force: word },
    }
}

fn refusal(word: u32, host_driver_present: bool, media: Media) -> Option<u16> {
    if host_driver_present {
        return Some(HOST_CONFLICT);
    }
    if word & RESERVED != 0 || word & SPEEDS == 0 {
        return Some(INVALID_PARAMETER);
    }
    let invalid = if word & AUTO_NEGOTIATION != 0 {
        auto_negotiation_refusal(word)
    } else {
        forced_refusal(word)
    };
    if invalid.is_some() {
        return invalid;
    }
    if !selects_pair_of(media, word) {
        return Some(MEDIA_CONFLICT);
    }
    None
}

fn auto_negotiation_refusal(word: u32) -> Option<u16> {
    // What is valid for the device is what it can do on copper, whatever
    // medium is fitted now.
    if selects_pair_of(Media::Copper, word) {
        None
    } else {
        Some(INVALID_PARAMETER)
    }
}

fn forced_refusal(word: u32) -> Option<u16> {
    if (word & SPEEDS).count_ones() > 1 {
        return Some(SPEED_CONFLICT);
    }
    if (word & DUPLEXES).count_ones() != 1 {
        return Some(INVALID_PARAMETER);
    }
    if word & (SPEED_1000 | SPEED_10G) != 0 && word & HALF_DUPLEX != 0 {
        return Some(PARAMETER_CONFLICT);
    }
    if word & SPEED_10G != 0 {
        return Some(INVALID_PARAMETER);
    }
    None
}

/// Whether a selected speed and a selected duplex form a pair of the medium.
fn selects_pair_of(media: Media, word: u32) -> bool {
    let gigabit_full = word & SPEED_1000 != 0 && word & FULL_DUPLEX != 0;
    let slower = word & (SPEED_10 | SPEED_100) != 0 && word & DUPLEXES != 0;
    match media {
        Media::Copper => gigabit_full || slower,
        Media::Fibre => gigabit_full,
    }
}
