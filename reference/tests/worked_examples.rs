//! The worked examples, and one example of each answer.

use reference::answer_numbers::{
    ABORTED, ACCOUNT_FULL, BAD_CHECK, CONTROL_NOT_ALLOWED, DONE, FRAGMENT_LENGTH, JOINED,
    LINK_DOWN, MAXIMUM_NOT_ALLOWED, NOT_SOUND, NO_MAC_KEPT, PACKET_SENT, PACKET_TOO_LONG,
    PACKET_TOO_SHORT, RECEIVE_ENABLE_LENGTH, RECEIVE_ENABLE_TAKEN, STATUS_NOT_ALLOWED, TOO_SHORT,
    UNKNOWN_COMMAND,
};
use reference::setlink::{decide, Decision, Media, FRESH_WORD};
use reference::settings::{
    fresh, ipv4_in_force, is_sound, mac_in_force, receive_enable, AddressInForce,
};
use reference::status::{answered, read, write, Field, StatusData};

const FLASH: [u8; 10] = [0x00, 0xa0, 0xc9, 1, 2, 3, 203, 0, 113, 9];
const LONG: [u8; 14] = [0xc9, 2, 3, 4, 5, 6, 7, 8, 9, 10, 11, 12, 13, 14];

fn made_fresh() -> [u8; 15] {
    let mut settings = [0xee; 15];
    assert_eq!(fresh(&mut settings), DONE);
    settings
}

#[test]
fn answer_numbers() {
    assert_eq!(JOINED, 0);
    assert_eq!(DONE, 0);
    assert_eq!(PACKET_SENT, 1);
    assert_eq!(ABORTED, 2);
    assert_eq!(FRAGMENT_LENGTH, 3);
    assert_eq!(PACKET_TOO_LONG, 4);
    assert_eq!(PACKET_TOO_SHORT, 5);
    assert_eq!(LINK_DOWN, 6);
    assert_eq!(UNKNOWN_COMMAND, 7);
    assert_eq!(RECEIVE_ENABLE_LENGTH, 8);
    assert_eq!(CONTROL_NOT_ALLOWED, 9);
    assert_eq!(NO_MAC_KEPT, 10);
    assert_eq!(RECEIVE_ENABLE_TAKEN, 11);
    assert_eq!(TOO_SHORT, 12);
    assert_eq!(NOT_SOUND, 13);
    assert_eq!(ACCOUNT_FULL, 14);
    assert_eq!(STATUS_NOT_ALLOWED, 15);
    assert_eq!(MAXIMUM_NOT_ALLOWED, 16);
    assert_eq!(BAD_CHECK, 17);
}

#[test]
fn set_link() {
    let accepted = [(0x219, Media::Copper), (0x10d, Media::Copper)];
    for (word, media) in accepted {
        assert_eq!(
            decide(FRESH_WORD, word, false, media),
            Decision { response: 0x0000, reason: 0x0000, in_force: word },
            "word {word:#x}"
        );
    }
    let refused = [
        (0x109, Media::Copper, 0x0002),
        (0x10d, Media::Fibre, 0x0902),
        (0x30c, Media::Copper, 0x0905),
        (0x211, Media::Copper, 0x0002),
        (0x304, Media::Copper, 0x0002),
        (0x108, Media::Copper, 0x0903),
        (0x110, Media::Copper, 0x0903),
        (0x210, Media::Copper, 0x0002),
    ];
    for (word, media, reason) in refused {
        assert_eq!(
            decide(0x204, word, false, media),
            Decision { response: 0x0001, reason, in_force: 0x204 },
            "word {word:#x}"
        );
    }
    assert_eq!(
        decide(0x204, 0x219, true, Media::Copper),
        Decision { response: 0x0001, reason: 0x0901, in_force: 0x204 }
    );
}

#[test]
fn status_data() {
    let examples = [
        (
            StatusData {
                length: 64,
                decision_match: true,
                decision_index: 7,
                ..Default::default()
            },
            [0x40, 0x00, 0x01, 0x00, 0x00, 0x00, 0x70, 0x01],
        ),
        (
            StatusData {
                length: 1536,
                vlan: 0x0123,
                vlan_match: true,
                vlan_index: 5,
                ..Default::default()
            },
            [0x00, 0x06, 0x01, 0x00, 0x23, 0x01, 0x0d, 0x00],
        ),
    ];
    for (fields, block) in examples {
        assert_eq!(write(&fields), Ok(block));
        assert_eq!(read(&block), Ok(fields));
        assert_eq!(answered(write(&fields)), (0, 0, block));
        assert_eq!(answered(read(&block)), (0, 0, fields));
    }
}

#[test]
fn status_fields_not_allowed() {
    let good = StatusData { length: 64, ..Default::default() };
    let examples = [
        (StatusData { length: 0, ..good }, Field::Length, 2),
        (StatusData { length: 1537, ..good }, Field::Length, 2),
        (StatusData { decision_match: true, decision_index: 8, ..good }, Field::DecisionIndex, 5),
        (StatusData { decision_index: 1, ..good }, Field::DecisionIndex, 5),
        (StatusData { vlan_match: true, vlan_index: 8, ..good }, Field::VlanIndex, 6),
        (StatusData { vlan_index: 1, ..good }, Field::VlanIndex, 6),
    ];
    for (fields, bad, number) in examples {
        assert_eq!(write(&fields), Err(bad), "{fields:?}");
        assert_eq!(answered(write(&fields)), (15, number, [0; 8]), "{fields:?}");
    }
}

#[test]
fn status_blocks_not_allowed() {
    let examples: [(&[u8], Field, u8); 9] = [
        (&[0x40, 0, 1, 0, 0, 0, 0], Field::BlockSize, 1),
        (&[0x40, 0, 1, 0, 0, 0, 0, 0, 0], Field::BlockSize, 1),
        (&[0, 0, 1, 0, 0, 0, 0, 0], Field::Length, 2),
        (&[0x40, 0x40, 1, 0, 0, 0, 0, 0], Field::Length, 2),
        (&[0x40, 0, 0, 0, 0, 0, 0, 0], Field::PacketStatus, 3),
        (&[0x40, 0, 1, 0, 0, 0, 0, 2], Field::MngReserved, 4),
        (&[0x40, 0, 1, 0, 0, 0, 0x80, 1], Field::DecisionIndex, 5),
        (&[0x40, 0, 1, 0, 0, 0, 0x10, 0], Field::DecisionIndex, 5),
        (&[0x40, 0, 1, 0, 0, 0, 1, 0], Field::VlanIndex, 6),
    ];
    for (block, bad, number) in examples {
        assert_eq!(read(block), Err(bad), "{block:x?}");
        assert_eq!(answered(read(block)), (15, number, StatusData::default()), "{block:x?}");
    }
}

#[test]
fn fresh_settings() {
    let mut settings = [0xee; 17];
    assert_eq!(fresh(&mut settings), 0);
    assert_eq!(settings, [0x40, 0, 0, 0, 0, 0, 0, 0, 0, 0, 0, 0, 0, 0, 0, 0xee, 0xee]);
    assert!(is_sound(&settings));
    let mut short = [0xee; 14];
    assert_eq!(fresh(&mut short), 12);
    assert_eq!(short, [0xee; 14]);
}

#[test]
fn receive_enable_refused_or_rejected() {
    let mut unsound = made_fresh();
    unsound[1] = 4;
    let examples: [(&[u8], &[u8], u8); 5] = [
        (&made_fresh()[..14], &[0x41], 12),
        (&unsound, &[0x41], 13),
        (&made_fresh(), &[0x41, 0x41], 8),
        (&made_fresh(), &[0x71], 9),
        (&made_fresh(), &[0xc1], 10),
    ];
    for (before, data, answer) in examples {
        let mut settings = before.to_vec();
        assert_eq!(receive_enable(&mut settings, data), answer);
        assert_eq!(settings, before);
    }
}

#[test]
fn receive_enable_taken() {
    let mut settings = made_fresh();
    assert_eq!(receive_enable(&mut settings, &[0x41]), 11);
    assert_eq!(settings, [0x41, 0, 0, 0, 0, 0, 0, 0, 0, 0, 0, 0, 0, 0, 0]);
    assert_eq!(receive_enable(&mut settings, &LONG), 11);
    assert_eq!(settings, [0xc9, 3, 2, 3, 4, 5, 6, 7, 8, 9, 10, 11, 12, 13, 14]);
    assert_eq!(receive_enable(&mut settings, &[0x40]), 11);
    assert_eq!(settings, [0x40, 3, 2, 3, 4, 5, 6, 7, 8, 9, 10, 11, 12, 13, 14]);
    assert_eq!(receive_enable(&mut settings, &[0xc1]), 11);
    assert_eq!(settings, [0xc1, 3, 2, 3, 4, 5, 6, 7, 8, 9, 10, 11, 12, 13, 14]);
}

#[test]
fn addresses_in_force() {
    let mut settings = made_fresh();
    assert_eq!(mac_in_force(&settings, &FLASH), AddressInForce::Flash(&FLASH[..6]));
    assert_eq!(ipv4_in_force(&settings, &FLASH), AddressInForce::Flash(&FLASH[6..]));

    receive_enable(&mut settings, &LONG);
    assert_eq!(mac_in_force(&settings, &FLASH), AddressInForce::Settings(&[2, 3, 4, 5, 6, 7]));
    assert_eq!(ipv4_in_force(&settings, &FLASH), AddressInForce::Settings(&[8, 9, 10, 11]));

    receive_enable(&mut settings, &[0x41]);
    assert_eq!(mac_in_force(&settings, &FLASH), AddressInForce::Flash(&FLASH[..6]));
    assert_eq!(ipv4_in_force(&settings, &FLASH), AddressInForce::Settings(&[8, 9, 10, 11]));

    assert_eq!(mac_in_force(&settings, &FLASH[..9]), AddressInForce::Nowhere);
    assert_eq!(ipv4_in_force(&settings, &FLASH[..9]).part(), &[0; 0]);
    assert_eq!(ipv4_in_force(&settings[..14], &FLASH), AddressInForce::Nowhere);
}
