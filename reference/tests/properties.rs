//! Rules stated another way round than the program has them.

use reference::setlink::{decide, Decision, Media};
use reference::settings::{fresh, ipv4_in_force, is_sound, mac_in_force, receive_enable};
use reference::status::{read, write, Field, StatusData};

/// Speed bit and duplex bit of every pair, with the media that take it.
const PAIRS: [(u32, u32, &[Media]); 8] = [
    (1, 8, &[Media::Copper]),
    (1, 9, &[Media::Copper]),
    (2, 8, &[Media::Copper]),
    (2, 9, &[Media::Copper]),
    (3, 8, &[]),
    (3, 9, &[Media::Copper, Media::Fibre]),
    (4, 8, &[]),
    (4, 9, &[]),
];

fn bit(word: u32, number: u32) -> bool {
    word >> number & 1 == 1
}

/// The reason for refusing a word, by looking at each pair it selects.
fn reason_by_pairs(word: u32, host_driver_present: bool, media: Media) -> u16 {
    let pairs: Vec<_> =
        PAIRS.iter().filter(|(speed, duplex, _)| bit(word, *speed) && bit(word, *duplex)).collect();
    let takes = |media| pairs.iter().any(|(_, _, taken_by)| taken_by.contains(&media));
    let speeds = (1..=4).filter(|speed| bit(word, *speed)).count();
    let reserved = (5..=7).chain(12..=31).any(|number| bit(word, number));

    let mut reasons = Vec::new();
    if host_driver_present {
        reasons.push(0x0901);
    }
    if reserved || speeds == 0 {
        reasons.push(0x0002);
    }
    if bit(word, 0) {
        if !takes(Media::Copper) {
            reasons.push(0x0002);
        }
    } else if speeds > 1 {
        reasons.push(0x0905);
    } else if let [&(speed, duplex, taken_by)] = pairs[..] {
        // One speed and one pair, hence one duplex.
        if speed >= 3 && duplex == 8 {
            reasons.push(0x0903);
        } else if taken_by.is_empty() {
            reasons.push(0x0002);
        }
    } else {
        reasons.push(0x0002);
    }
    if !takes(media) {
        reasons.push(0x0902);
    }
    reasons.first().copied().unwrap_or(0)
}

/// Every word of the bits that have a meaning, with the reserved ones among
/// them, and each of these with one higher bit.
fn words() -> impl Iterator<Item = u32> {
    let with_a_high_bit = (12..32).flat_map(|number| (0..4096).map(move |word| word | 1 << number));
    (0..8192).chain(with_a_high_bit)
}

#[test]
fn set_link_agrees_with_the_pairs() {
    for word in words() {
        for host_driver_present in [false, true] {
            for media in [Media::Copper, Media::Fibre] {
                let reason = reason_by_pairs(word, host_driver_present, media);
                let expected = if reason == 0 {
                    Decision { response: 0, reason: 0, in_force: word }
                } else {
                    Decision { response: 1, reason, in_force: 0x5a5a_5a5a }
                };
                let decision = decide(0x5a5a_5a5a, word, host_driver_present, media);
                assert_eq!(decision, expected, "{word:#x} {host_driver_present} {media:?}");
            }
        }
    }
}

/// Both media are tested, and yet what fibre is refused for, copper accepts.
#[test]
fn set_link_finds_no_media_conflict_on_copper() {
    for word in words() {
        for host_driver_present in [false, true] {
            let [copper, fibre] = [Media::Copper, Media::Fibre]
                .map(|media| decide(0, word, host_driver_present, media).reason);
            let expected = if fibre == 0x0902 { 0 } else { fibre };
            assert_eq!(copper, expected, "{word:#x} {host_driver_present}");
        }
    }
}

/// Every pair of match and index that is allowed, up to the highest index.
fn matches(highest: u8) -> Vec<(bool, u8)> {
    let mut matches = vec![(false, 0)];
    matches.extend((0..=highest).map(|index| (true, index)));
    matches
}

fn all_status_data(lengths: &[u16], vlans: &[u16]) -> Vec<StatusData> {
    let mut all = Vec::new();
    for &length in lengths {
        for &vlan in vlans {
            for (decision_match, decision_index) in matches(7) {
                for (vlan_match, vlan_index) in matches(7) {
                    all.push(StatusData {
                        length,
                        vlan,
                        decision_match,
                        decision_index,
                        vlan_match,
                        vlan_index,
                    });
                }
            }
        }
    }
    all
}

#[test]
fn what_is_written_is_read_back() {
    let lengths: Vec<u16> = (1..=1536).collect();
    for fields in all_status_data(&lengths, &[0, 0x1234, 0xffff]) {
        let block = write(&fields).expect("fields that are allowed");
        assert_eq!(read(&block), Ok(fields));
    }
}

#[test]
fn nothing_is_read_but_what_is_written() {
    let written: Vec<[u8; 8]> = all_status_data(&[300], &[0x1234]).iter().flat_map(write).collect();
    assert_eq!(written.len(), 81);
    for value in 0..=0xffff_u16 {
        let [low, high] = value.to_le_bytes();
        let block = [0x2c, 1, 1, 0, 0x34, 0x12, low, high];
        assert_eq!(read(&block).is_ok(), written.contains(&block), "MNG status {value:#x}");
        let length_alone = read(&[low, high, 1, 0, 0x34, 0x12, 0, 0]).err();
        let expected = first_bad(&[(Field::Length, !(1..=1536).contains(&value))]);
        assert_eq!(length_alone, expected, "length {value}");
        let packet_status_alone = read(&[0x2c, 1, low, high, 0x34, 0x12, 0, 0]).err();
        let expected = first_bad(&[(Field::PacketStatus, value != 1)]);
        assert_eq!(packet_status_alone, expected, "packet status {value:#x}");
        let block = [0x2c, 1, 1, 0, low, high, 0, 0];
        assert_eq!(read(&block).map(|fields| fields.vlan), Ok(value));
    }
}

/// Of the fields said to be bad, the one of the lowest number.
fn first_bad(fields: &[(Field, bool)]) -> Option<Field> {
    let bad = fields.iter().filter(|(_, is_bad)| *is_bad);
    bad.map(|(field, _)| *field).min_by_key(|field| *field as u8)
}

/// The fields of an MNG status, by arithmetic: of 16 values that match and index
/// of the VLAN filter take together, and of 32 that those of the decision filter
/// take, the allowed ones are zero and the eight from the match on.
fn bad_in_mng_status(word: u16) -> [(Field, bool); 3] {
    let decision = word / 16 % 32;
    let vlan = word % 16;
    [
        (Field::VlanIndex, (1..8).contains(&vlan)),
        (Field::DecisionIndex, decision != 0 && !(16..24).contains(&decision)),
        (Field::MngReserved, word >= 512),
    ]
}

#[test]
fn the_first_bad_field_of_a_block_is_named() {
    let lengths = [1, 1536, 0, 1537, 0x4001, 0x8600];
    let packet_statuses = [1, 0, 3, 0x8001];
    for mng_status in 0..=0xffff_u16 {
        let [vlan_index, decision_index, mng_reserved] = bad_in_mng_status(mng_status);
        for length in lengths {
            for packet_status in packet_statuses {
                let words: [u16; 4] = [length, packet_status, 0xabcd, mng_status];
                let expected = first_bad(&[
                    vlan_index,
                    decision_index,
                    mng_reserved,
                    (Field::PacketStatus, packet_status != 1),
                    (Field::Length, length == 0 || length > 1536),
                ]);
                let mut block: Vec<u8> = words.iter().flat_map(|word| word.to_le_bytes()).collect();
                assert_eq!(read(&block).err(), expected, "{words:x?}");
                assert_eq!(read(&block[..7]), Err(Field::BlockSize), "{words:x?}");
                block.push(0);
                assert_eq!(read(&block), Err(Field::BlockSize), "{words:x?}");
            }
        }
    }
}

#[test]
fn only_eight_bytes_are_a_block() {
    for filler in [[0x40, 0, 1, 0, 0, 0, 0x70, 1], [0; 8], [0xff; 8]] {
        let bytes = filler.repeat(40);
        for size in (0..bytes.len()).filter(|size| *size != 8) {
            assert_eq!(read(&bytes[..size]), Err(Field::BlockSize), "{size} bytes");
        }
    }
}

#[test]
fn the_first_bad_field_to_write_is_named() {
    let allowed = matches(7);
    for decision_index in 0..=255 {
        for vlan_index in 0..=255 {
            for (decision_match, vlan_match) in
                [(false, false), (false, true), (true, false), (true, true)]
            {
                let bad_vlan = !allowed.contains(&(vlan_match, vlan_index));
                let bad_decision = !allowed.contains(&(decision_match, decision_index));
                for length in [1, 60, 1536, 0, 1537, 0x4001, 0xffff] {
                    let fields = StatusData {
                        length,
                        vlan: 7,
                        decision_match,
                        decision_index,
                        vlan_match,
                        vlan_index,
                    };
                    let expected = first_bad(&[
                        (Field::VlanIndex, bad_vlan),
                        (Field::DecisionIndex, bad_decision),
                        (Field::Length, length == 0 || length > 1536),
                    ]);
                    assert_eq!(write(&fields).err(), expected, "{fields:?}");
                }
            }
        }
    }
}

/// The control bytes that are allowed, put together from their fields.
fn allowed_controls() -> Vec<u8> {
    let mut controls = Vec::new();
    for notification_method in 0..3 {
        for low_bits in 0..16 {
            let control = 64 + 16 * notification_method + low_bits;
            controls.push(control);
            if low_bits % 2 == 1 {
                controls.push(control + 128);
            }
        }
    }
    controls
}

#[test]
fn sound_settings_are_those_with_an_allowed_control_and_kept_bits() {
    for control in 0..=255 {
        for kept in 0..=255 {
            let mut settings = [0x77; 15];
            settings[0] = control;
            settings[1] = kept;
            let kept_bits: &[u8] = if control < 128 { &[0, 1, 2, 3] } else { &[1, 3] };
            let expected = allowed_controls().contains(&control) && kept_bits.contains(&kept);
            assert_eq!(is_sound(&settings), expected, "{control:#x} {kept}");
        }
    }
}

/// Receive Enable commands of every kind, told apart by their bytes.
fn commands() -> Vec<Vec<u8>> {
    let mut commands = vec![vec![], vec![0x41, 0x41], vec![0x41; 13], vec![0xc9; 15]];
    for (number, control) in
        [0x40, 0x41, 0x49, 0x69, 0xc1, 0xc9, 0x01, 0x71, 0xc0].into_iter().enumerate()
    {
        commands.push(vec![control]);
        let mut long: Vec<u8> = (0..14).map(|place| 16 * number as u8 + place).collect();
        long[0] = control;
        commands.push(long);
    }
    commands
}

/// The settings left by a list of commands, found by searching the list.
fn settings_by_search(list: &[Vec<u8>]) -> [u8; 15] {
    let allowed = |data: &[u8]| {
        (data.len() == 1 || data.len() == 14) && allowed_controls().contains(&data[0])
    };
    let long_forms =
        |upto: usize| list[..upto].iter().rev().filter(|data| data.len() == 14 && allowed(data));
    let last_mac = |upto: usize| long_forms(upto).find(|data| data[0] >= 128);
    let last_address = long_forms(list.len()).find(|data| data[0] & 8 == 8);
    let last_taken = (0..list.len()).rev().find(|&place| {
        let data = &list[place];
        allowed(data) && (data[0] < 128 || data.len() == 14 || last_mac(place).is_some())
    });

    let mut settings = [0; 15];
    settings[0] = last_taken.map_or(0x40, |place| list[place][0]);
    if let Some(data) = last_mac(list.len()) {
        settings[1] += 1;
        settings[2..8].copy_from_slice(&data[1..7]);
    }
    if let Some(data) = last_address {
        settings[1] += 2;
        settings[8..12].copy_from_slice(&data[7..11]);
    }
    if let Some(data) = long_forms(list.len()).next() {
        settings[12..15].copy_from_slice(&data[11..14]);
    }
    settings
}

#[test]
fn settings_are_those_found_in_the_list() {
    let commands = commands();
    for first in &commands {
        for second in &commands {
            for third in &commands {
                let list = [first.clone(), second.clone(), third.clone()];
                let mut lent = [0x99; 18];
                fresh(&mut lent);
                for (place, data) in list.iter().enumerate() {
                    let before = lent;
                    let answer = receive_enable(&mut lent, data);
                    assert!((8..=11).contains(&answer));
                    if answer != 11 {
                        assert_eq!(lent, before, "{list:x?}");
                    }
                    assert_eq!(lent[..15], settings_by_search(&list[..=place]), "{list:x?}");
                    assert_eq!(lent[15..], [0x99; 3]);
                    assert!(is_sound(&lent));
                }
            }
        }
    }
}

#[test]
fn settings_that_are_not_sound_are_left_alone() {
    for length in 0..20 {
        for control in 0..=255 {
            for kept in 0..6 {
                let mut settings = vec![0x33; length];
                for (byte, value) in settings.iter_mut().zip([control, kept]) {
                    *byte = value;
                }
                let before = settings.clone();
                let sound = is_sound(&settings);
                let answer = receive_enable(&mut settings, &[0xc9; 14]);
                match answer {
                    12 => assert!(length < 15),
                    13 => assert!(length >= 15 && !sound),
                    _ => assert!(answer == 11 && sound),
                }
                if answer != 11 {
                    assert_eq!(settings, before);
                }
            }
        }
    }
}

#[test]
fn addresses_are_parts_of_the_buffer_they_come_from() {
    let settings: [u8; 16] = std::array::from_fn(|place| 100 + place as u8);
    let flash: [u8; 11] = std::array::from_fn(|place| 200 + place as u8);
    for control in allowed_controls() {
        for kept in 0..4 {
            let mut settings = settings;
            settings[0] = control;
            settings[1] = kept;
            let mac = mac_in_force(&settings, &flash).part();
            let ipv4 = ipv4_in_force(&settings, &flash).part();
            if control >= 128 && kept % 2 == 0 {
                assert!(mac.is_empty() && ipv4.is_empty());
                continue;
            }
            let first_of_mac = if control >= 128 { &settings[2] } else { &flash[0] };
            let first_of_ipv4 = if kept >= 2 { &settings[8] } else { &flash[6] };
            assert_eq!(mac.len(), 6);
            assert_eq!(ipv4.len(), 4);
            assert!(std::ptr::eq(&mac[0], first_of_mac));
            assert!(std::ptr::eq(&ipv4[0], first_of_ipv4));
        }
    }
}
