//! Cases of the receive settings.

use super::Cases;
use crate::random::Random;
use crate::text::Line;
use reference::settings::{self, FLASH_BYTES, LONG_FORM_BYTES, SETTINGS_BYTES};

const SEED: u64 = 0x005e_7715;

const NOTHING: u8 = 0;
const MAC: u8 = 1;
const ADDRESS: u8 = 2;
const BOTH: u8 = 3;

const FLASH: [u8; FLASH_BYTES] = [0x00, 0xa0, 0xc9, 0x01, 0x02, 0x03, 203, 0, 113, 9];

/// Fills bytes that no case should change.
const FILL: u8 = 0xee;

/// Each combination of kept bits, with control bytes that fit it.
const SOUND: [(u8, u8); 6] =
    [(0x40, NOTHING), (0x41, MAC), (0xc1, MAC), (0x49, ADDRESS), (0x40, BOTH), (0xc9, BOTH)];

/// Settings that are each not sound in one way.
const UNSOUND: [(&str, u8, u8); 11] = [
    ("bit 6 of the control zero", 0x01, BOTH),
    ("control 0x00", 0x00, NOTHING),
    ("notification method 11", 0x71, BOTH),
    ("CBDM without RCV_EN", 0xc0, BOTH),
    ("byte 1 is 4", 0x40, 4),
    ("byte 1 is 7", 0xc1, 7),
    ("byte 1 is 128", 0x40, 128),
    ("byte 1 is 255", 0xc1, 255),
    ("CBDM, nothing kept", 0xc1, NOTHING),
    ("CBDM, only the IPv4 address kept", 0xc9, ADDRESS),
    ("control 0xFF", 0xff, BOTH),
];

/// Name, control byte and kept bits of the settings, data.
const ENABLES: [(&str, u8, u8, &[u8]); 36] = [
    ("short form 0x40: 11, the settings stay as they are", 0x40, NOTHING, &[0x40]),
    ("short form 0x41: 11, the control changes", 0x40, NOTHING, &[0x41]),
    ("short form with EN_ARP_RES, none kept: 11, the control changes", 0x40, NOTHING, &[0x49]),
    ("short form with EN_ARP_RES, address kept: 11, the control changes", 0x40, ADDRESS, &[0x49]),
    ("short form 0x40 after CBDM: 11, the MAC stays kept", 0xc9, BOTH, &[0x40]),
    ("short form with CBDM, MAC kept: 11", 0x41, MAC, &[0xc1]),
    ("short form with CBDM, both kept: 11", 0x41, BOTH, &[0xc1]),
    ("short form with CBDM, nothing kept: 10", 0x41, NOTHING, &[0xc1]),
    ("short form with CBDM, only the address kept: 10", 0x41, ADDRESS, &[0xc1]),
    ("long form with CBDM, nothing kept: 11, MAC set and kept", 0x40, NOTHING, &long(0xc1)),
    ("long form with CBDM, MAC kept: 11, MAC replaced", 0xc1, MAC, &long(0xc1)),
    ("long form with EN_ARP_RES: 11, address set and kept", 0x40, NOTHING, &long(0x49)),
    ("long form with EN_ARP_RES, address kept: 11, address replaced", 0x49, ADDRESS, &long(0x49)),
    ("long form with CBDM and EN_ARP_RES: 11, both set and kept", 0x40, NOTHING, &long(0xc9)),
    ("long form with neither: 11, the control and the last three", 0x40, NOTHING, &long(0x41)),
    ("long form with neither, both kept: 11, both stay kept", 0xc9, BOTH, &long(0x41)),
    ("long form with CBDM alone, both kept: 11, the address stays", 0xc9, BOTH, &long(0xc1)),
    ("long form with EN_ARP_RES alone, both kept: 11, the MAC stays", 0xc9, BOTH, &long(0x49)),
    ("long form with CBDM, address kept: 11, both kept", 0x49, ADDRESS, &long(0xc1)),
    ("long form with EN_ARP_RES, MAC kept: 11, both kept", 0xc1, MAC, &long(0x49)),
    ("long form 0x48, ARP without RCV_EN: 11, address set and kept", 0x40, NOTHING, &long(0x48)),
    ("notification method 01: 11", 0x40, NOTHING, &[0x51]),
    ("notification method 10: 11", 0x40, NOTHING, &[0x61]),
    ("notification method 11: 9", 0x40, NOTHING, &[0x71]),
    ("notification method 11, long form: 9", 0x40, NOTHING, &long(0x71)),
    ("bit 6 zero: 9", 0x40, NOTHING, &[0x01]),
    ("bit 6 zero, long form: 9", 0x40, NOTHING, &long(0x01)),
    ("CBDM without RCV_EN, MAC kept: 9", 0x41, MAC, &[0xc0]),
    ("CBDM without RCV_EN, long form: 9", 0x41, MAC, &long(0xc0)),
    ("all bits that are allowed together: 11", 0x41, MAC, &[0xef]),
    ("no data: 8", 0x40, NOTHING, &[]),
    ("two bytes, allowed control: 8", 0x40, NOTHING, &[0x41, 0x41]),
    ("two bytes, control not allowed: 8 and not 9", 0x40, NOTHING, &[0x71, 0x71]),
    ("two bytes, CBDM and no MAC kept: 8 and not 10", 0x40, NOTHING, &[0xc1, 0xc1]),
    ("CBDM, notification method 11, no MAC kept: 9 and not 10", 0x40, NOTHING, &[0xf1]),
    ("CBDM without RCV_EN, no MAC kept: 9 and not 10", 0x40, NOTHING, &[0xc0]),
];

/// Adds the cases of this subject.
pub fn generate(cases: &mut Cases) {
    named_fresh(cases);
    named_sound(cases);
    named_enables(cases);
    order(cases);
    named_addresses(cases);
    sound_sweep(cases);
    data_lengths(cases);
    settings_lengths(cases);
    control_bytes(cases);
    address_lengths(cases);
    random_sequences(cases);
    random_buffers(cases);
}

fn named_fresh(cases: &mut Cases) {
    cases.group("Receive settings: fresh");
    for length in 0..=20 {
        cases.name(&if length < SETTINGS_BYTES {
            format!("{length} bytes are too short: 12, nothing changes")
        } else {
            format!("{length} bytes: 0, control 0x40, fourteen zeros, the rest unchanged")
        });
        cases.case(fresh_settings(&vec![FILL; length]));
    }
    cases.name("over sound settings: 0, nothing is kept any more");
    cases.case(fresh_settings(&sample(0xc9, BOTH)));
    cases.name("over 40 and 256 bytes: 0, bytes past the fifteenth unchanged");
    cases.case(fresh_settings(&[FILL; 40]));
    cases.case(fresh_settings(&[FILL; 256]));
}

fn named_sound(cases: &mut Cases) {
    cases.group("Receive settings: soundness");
    cases.name("fresh settings are sound");
    let mut made = [FILL; SETTINGS_BYTES];
    settings::fresh(&mut made);
    cases.case(sound_settings(&made));
    for (control, kept) in SOUND {
        cases.name(&format!("settings {}: sound", shown(control, kept)));
        cases.case(sound_settings(&sample(control, kept)));
    }
    for (name, control, kept) in UNSOUND {
        cases.name(&format!("{name}: not sound"));
        cases.case(sound_settings(&sample(control, kept)));
    }
    cases.name("sound settings cut or lengthened to 0 .. 17 and 40 bytes: sound from 15 bytes on");
    for length in (0..=17).chain([40]) {
        cases.case(sound_settings(&resized(&sample(0xc9, BOTH), length)));
    }
    cases.name("settings that are not sound lengthened to 16 and 40 bytes: not sound");
    for length in [16, 40] {
        cases.case(sound_settings(&resized(&sample(0xc9, ADDRESS), length)));
    }
}

fn sound_sweep(cases: &mut Cases) {
    cases.group("Receive settings: soundness of each control byte, MAC kept");
    for control in 0..=255 {
        cases.case(sound_settings(&sample(control, MAC)));
    }
    cases.group("Receive settings: soundness of each byte 1, with CBDM");
    for kept in 0..=255 {
        cases.case(sound_settings(&sample(0xc1, kept)));
    }
}

fn named_enables(cases: &mut Cases) {
    cases.group("Receive Enable: named cases");
    for (name, control, kept, data) in ENABLES {
        cases.name(name);
        cases.case(enable(&sample(control, kept), data));
    }
    for (name, control, kept) in UNSOUND {
        cases.name(&format!("settings not sound ({name}): 13, short and long form"));
        cases.case(enable(&sample(control, kept), &[0x41]));
        cases.case(enable(&sample(control, kept), &long(0xc9)));
    }
}

fn data_lengths(cases: &mut Cases) {
    for (control, kept) in SOUND {
        let before = sample(control, kept);
        cases.group(&format!("Receive Enable: data lengths, settings {}", shown(control, kept)));
        cases.name("0 to 16 bytes with EN_ARP_RES: 11 for 1 and 14, else 8");
        for length in 0..=16 {
            cases.case(enable(&before, &resized(&long(0x49), length)));
        }
        cases.name("0 to 16 bytes with CBDM: 11 for 14, 11 or 10 for 1, else 8");
        for length in 0..=16 {
            cases.case(enable(&before, &resized(&long(0xc9), length)));
        }
    }
    cases.name("255, 256, 257 and 270 bytes: 8");
    for length in [255, 256, 257, 270] {
        cases.case(enable(&sample(0x40, NOTHING), &resized(&long(0x49), length)));
    }
}

fn settings_lengths(cases: &mut Cases) {
    cases.group("Receive Enable: lengths of settings, 12 below 15 bytes, else 11");
    for length in [0, 1, 2, 13, 14, 15, 16, 17, 40, 255, 256, 270] {
        cases.case(enable(&resized(&sample(0x40, NOTHING), length), &[0x41]));
        cases.case(enable(&resized(&sample(0xc1, MAC), length), &[0xe1]));
        cases.case(enable(&resized(&sample(0x40, NOTHING), length), &long(0xc9)));
    }
    cases.name("answered 8, 9, 10 and 13 on 15, 16, 17 and 40 bytes: nothing changes");
    for length in [15, 16, 17, 40] {
        let sound = resized(&sample(0x40, NOTHING), length);
        cases.case(enable(&sound, &[]));
        cases.case(enable(&sound, &[0x71]));
        cases.case(enable(&sound, &[0xc1]));
        cases.case(enable(&resized(&sample(0xc1, NOTHING), length), &[0x41]));
    }
}

fn order(cases: &mut Cases) {
    cases.group("Receive Enable: order of the answers");
    let sound = sample(0x40, NOTHING);
    let unsound = sample(0xc1, NOTHING);
    let two = [0x71, 0x00];
    cases.name("14 bytes of settings, not sound, two data bytes, control not allowed: 12");
    cases.case(enable(&unsound[..14], &two));
    cases.name("14 bytes of settings, not sound, good data: 12");
    cases.case(enable(&unsound[..14], &[0x41]));
    cases.name("14 bytes of settings, two data bytes: 12");
    cases.case(enable(&sound[..14], &two));
    cases.name("no settings and no data: 12");
    cases.case(enable(&[], &[]));
    cases.name("settings not sound, two data bytes, control not allowed: 13");
    cases.case(enable(&unsound, &two));
    cases.name("settings not sound, no data: 13");
    cases.case(enable(&unsound, &[]));
    cases.name("settings not sound, control not allowed: 13");
    cases.case(enable(&unsound, &[0x71]));
    cases.name("settings not sound, CBDM in short form and no MAC kept: 13");
    cases.case(enable(&unsound, &[0xc1]));
    cases.name("settings not sound, a long form that would mend it: 13");
    cases.case(enable(&unsound, &long(0xc9)));
    cases.name("sound settings, two data bytes, control not allowed: 8");
    cases.case(enable(&sound, &two));
    cases.name("sound settings, CBDM in short form, control not allowed, no MAC kept: 9");
    cases.case(enable(&sound, &[0xf1]));
    cases.name("sound settings, CBDM in short form, no MAC kept: 10");
    cases.case(enable(&sound, &[0xc1]));
    cases.name("sound settings, CBDM in long form, no MAC kept: 11");
    cases.case(enable(&sound, &long(0xc1)));
}

fn control_bytes(cases: &mut Cases) {
    for (control, kept) in SOUND {
        let before = sample(control, kept);
        cases.group(&format!(
            "Receive Enable: each control byte, short and long form, settings {}",
            shown(control, kept)
        ));
        for next in 0..=255 {
            cases.case(enable(&before, &[next]));
            cases.case(enable(&before, &long(next)));
        }
    }
}

fn named_addresses(cases: &mut Cases) {
    cases.group("Addresses in force: named cases");
    cases.name("fresh settings: both from the Flash block");
    let mut made = [FILL; SETTINGS_BYTES];
    settings::fresh(&mut made);
    both(cases, &made, &FLASH);
    cases.name("CBDM: the MAC from the settings; no address kept: the IPv4 from the Flash block");
    both(cases, &sample(0xc1, MAC), &FLASH);
    cases.name("MAC kept but CBDM clear: the MAC from the Flash block");
    both(cases, &sample(0x41, MAC), &FLASH);
    cases
        .name("address kept: the IPv4 from the settings; CBDM clear: the MAC from the Flash block");
    both(cases, &sample(0x49, ADDRESS), &FLASH);
    cases.name("address kept, EN_ARP_RES clear: the IPv4 from the settings all the same");
    both(cases, &sample(0x41, ADDRESS), &FLASH);
    cases.name("EN_ARP_RES set, no address kept: the IPv4 from the Flash block");
    both(cases, &sample(0x49, NOTHING), &FLASH);
    cases.name("CBDM and both kept: both from the settings");
    both(cases, &sample(0xc9, BOTH), &FLASH);
    cases.name("both kept, CBDM clear: the MAC from the Flash block, the IPv4 from the settings");
    both(cases, &sample(0x40, BOTH), &FLASH);
    cases.name("Flash block too short: no address, not even from the settings");
    both(cases, &sample(0xc9, BOTH), &FLASH[..9]);
    cases.name("settings too short: no address, not even from the Flash block");
    both(cases, &sample(0x40, NOTHING)[..14], &FLASH);
    cases.name("no buffers: no address");
    both(cases, &[], &[]);
    for (name, control, kept) in UNSOUND {
        cases.name(&format!("settings not sound ({name}): no address"));
        both(cases, &sample(control, kept), &FLASH);
    }
}

fn address_lengths(cases: &mut Cases) {
    for (control, kept) in SOUND {
        cases.group(&format!(
            "Addresses in force: lengths of settings and Flash block, settings {}",
            shown(control, kept)
        ));
        for settings_length in [14, 15, 16] {
            let lent = resized(&sample(control, kept), settings_length);
            for flash_length in [0, 5, 6, 9, 10, 11] {
                both(cases, &lent, &resized(&FLASH, flash_length));
            }
        }
        both(cases, &resized(&sample(control, kept), 256), &FLASH);
        both(cases, &sample(control, kept), &resized(&FLASH, 256));
    }
}

fn random_sequences(cases: &mut Cases) {
    let mut random = Random::new(SEED);
    for number in 1..=24 {
        cases.group(&format!("Receive settings: random sequence {number} from fresh"));
        let extra = random.pick(&[0, 0, 0, 1, 5]);
        let mut lent = random.bytes(SETTINGS_BYTES + extra);
        let flash = random.bytes(FLASH_BYTES);
        cases.case(fresh_settings(&lent));
        settings::fresh(&mut lent);
        for _ in 0..12 {
            let data = random_data(&mut random);
            cases.case(enable(&lent, &data));
            settings::receive_enable(&mut lent, &data);
            both(cases, &lent, &flash);
        }
        cases.case(sound_settings(&lent));
    }
}

fn random_data(random: &mut Random) -> Vec<u8> {
    let length = match random.below(8) {
        0..=2 => 1,
        3..=6 => LONG_FORM_BYTES,
        _ => random.below(20) as usize,
    };
    let mut data = random.bytes(length);
    // Most control bytes are not allowed, so that few sequences would get
    // anywhere if all were drawn alike.
    if length > 0 && !random.one_in(6) {
        data[0] = data[0] & 0xcf | random.pick(&[0x40, 0x50, 0x60]);
    }
    data
}

fn random_buffers(cases: &mut Cases) {
    let mut random = Random::new(SEED + 1);
    cases.group("Receive settings: random bytes and data");
    for _ in 0..60 {
        let settings_length = 12 + random.below(8) as usize;
        let lent = random.bytes(settings_length);
        cases.case(enable(&lent, &random_data(&mut random)));
    }
    cases.group("Receive settings: random bytes, the first two nearly sound");
    for _ in 0..100 {
        let settings_length = 14 + random.below(4) as usize;
        let mut lent = random.bytes(settings_length);
        lent[0] = random.byte() | 0x40;
        lent[1] = random.below(5) as u8;
        let data = random_data(&mut random);
        let flash_length = 9 + random.below(3) as usize;
        let flash = random.bytes(flash_length);
        cases.case(sound_settings(&lent));
        cases.case(enable(&lent, &data));
        both(cases, &lent, &flash);
    }
}

/// Settings whose bytes all differ, kept or not.
const fn sample(control: u8, kept: u8) -> [u8; SETTINGS_BYTES] {
    [control, kept, 0x02, 0x11, 0x22, 0x33, 0x44, 0x55, 192, 0, 2, 1, 0xa1, 0xa2, 0xa3]
}

/// A long form whose bytes all differ from those of the sample.
const fn long(control: u8) -> [u8; LONG_FORM_BYTES] {
    [control, 0x0a, 0xbb, 0xcc, 0xdd, 0xe1, 0xff, 198, 51, 100, 7, 0xb1, 0xb2, 0xb3]
}

fn shown(control: u8, kept: u8) -> String {
    format!("with control {control:#04x} and kept bits {kept}")
}

fn resized(bytes: &[u8], length: usize) -> Vec<u8> {
    let mut resized = bytes.to_vec();
    resized.resize(length, FILL);
    resized
}

fn both(cases: &mut Cases, lent: &[u8], flash: &[u8]) {
    cases.case(Line::case("mac").bytes(lent).bytes(flash));
    cases.case(Line::case("ipv4").bytes(lent).bytes(flash));
}

fn fresh_settings(lent: &[u8]) -> Line {
    Line::case("fresh-settings").bytes(lent)
}

fn sound_settings(lent: &[u8]) -> Line {
    Line::case("sound-settings").bytes(lent)
}

fn enable(lent: &[u8], data: &[u8]) -> Line {
    Line::case("enable").bytes(lent).bytes(data)
}
