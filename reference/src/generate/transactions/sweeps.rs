//! Transactions of every kind, one after the other.

use super::{
    answers, enable, list_from_fresh, packet, send_pattern, sends, show, start, up, Send,
    STORE_BYTES,
};
use crate::generate::state::fresh;
use crate::generate::Cases;
use reference::settings::FRESH_SETTINGS;

const FRAGMENTS: [u8; 4] = [0x84, 0x04, 0x44, 0xc4];
const MAXIMUMS: [u32; 8] = [1, 2, 3, 17, 32, 64, 239, 240];

/// Adds the cases of this subject.
pub fn generate(cases: &mut Cases) {
    fragment_lengths(cases);
    all_commands(cases);
    receive_enables(cases);
    totals(cases);
    cuts(cases);
    links(cases);
    triples(cases);
}

/// Lengths of 0, 1, the maximum and one more.
fn fragment_lengths(cases: &mut Cases) {
    for maximum in MAXIMUMS {
        cases.group(&format!("Transactions: maximum {maximum}, fragment lengths at its edges"));
        let highest = maximum as u16;
        for command in FRAGMENTS {
            let mut none_open = Vec::new();
            let mut one_open = Vec::new();
            for size in [0, 1, highest, highest + 1, 2 * highest + 40] {
                let alone = if size == 0 || size > highest {
                    3
                } else {
                    match command {
                        0x84 => 0,
                        0xc4 if size < 17 => 5,
                        0xc4 => 1,
                        _ => 2,
                    }
                };
                let joined = match (alone, command) {
                    (2, 0x04) => 0,
                    (2, _) if size + highest < 17 => 5,
                    (2, _) => 1,
                    (other, _) => other,
                };
                // The packet before is ended by a whole one, so that none is
                // open, or by nothing, so that one is.
                let ended = if maximum < 17 { 5 } else { 1 };
                none_open.extend([up(0xc4, highest, ended), up(command, size, alone)]);
                one_open.extend([up(0x84, highest, 0), up(command, size, joined)]);
            }
            let name = format!("{command:#04x} of 0, 1, {maximum}, one more and many more");
            list_from_fresh(cases, &format!("{name}, none open"), maximum, &none_open);
            list_from_fresh(cases, &format!("{name}, one open"), maximum, &one_open);
        }
    }
}

fn all_commands(cases: &mut Cases) {
    for (title, before, size) in [
        ("after a First of 20 bytes", 0x84, 5),
        ("after a First of 20 bytes, without data", 0x84, 0),
        ("after a whole packet of 20 bytes, none open", 0xc4, 5),
    ] {
        cases.group(&format!("Transactions: each of the 256 command bytes {title}"));
        cases.case(start(&fresh(240), STORE_BYTES, &FRESH_SETTINGS));
        for command in 0..=255 {
            cases.case(send_pattern(before, true, 20, command));
            cases.case(send_pattern(command, true, size, 0x41));
        }
        cases.case(show());
    }
    cases.group("Transactions: an open packet, the command byte, then its Last of 20 bytes");
    cases.name("sent after a command that ends nothing, else aborted");
    for (low, high) in [(0x00, 0x3f), (0x40, 0x7f), (0x80, 0xbf), (0xc0, 0xff)] {
        cases.case(start(&fresh(32), STORE_BYTES, &FRESH_SETTINGS));
        for command in low..=high {
            cases.case(send_pattern(0x84, true, 20, command));
            cases.case(send_pattern(command, true, 1, 0x41));
            cases.case(send_pattern(0x44, true, 20, command));
        }
        cases.case(show());
    }
}

fn receive_enables(cases: &mut Cases) {
    cases.group("Transactions: Receive Enable with and without an open packet");
    for (name, control, size, answer) in [
        ("no bytes", 0x41, 0, 8),
        ("1 byte", 0x41, 1, 11),
        ("2 bytes", 0x41, 2, 8),
        ("13 bytes", 0x41, 13, 8),
        ("14 bytes", 0x41, 14, 11),
        ("15 bytes", 0x41, 15, 8),
        ("241 bytes, above any fragment maximum", 0x41, 241, 8),
        ("2048 bytes", 0x41, 2048, 8),
        ("control byte not allowed", 0x01, 1, 9),
        ("control byte not allowed, long form", 0xf1, 14, 9),
        ("CBDM, short form, no MAC kept", 0xc1, 1, 10),
        ("CBDM, long form", 0xc1, 14, 11),
        ("CBDM and ARP, long form", 0xc9, 14, 11),
    ] {
        let command = enable(control, size, answer);
        let open = [up(0x84, 20, 0), up(0x04, 20, 0), command, up(0x44, 20, 2), up(0xc4, 20, 1)];
        list_from_fresh(cases, &format!("{name}, two fragments open"), 32, &open);
        let none_open = [command, up(0x84, 20, 0), up(0x44, 20, 1)];
        list_from_fresh(cases, &format!("{name}, none open"), 32, &none_open);
    }
    cases.group("Transactions: Receive Enable with every control byte, short and long form");
    for size in [1, 14] {
        cases.case(start(&fresh(240), STORE_BYTES, &FRESH_SETTINGS));
        for control in 0..=255 {
            cases.case(send_pattern(0xca, true, size, control));
        }
        cases.case(show());
    }
}

/// Totals on both sides of 17, 60 and 1536, in as few fragments as there can be.
fn totals(cases: &mut Cases) {
    cases.group("Transactions: totals at the edges");
    for maximum in [1, 17, 32, 239, 240] {
        for total in
            [1, 2, 15, 16, 17, 18, 58, 59, 60, 61, 62, 63, 64, 1534, 1535, 1536, 1537, 1538]
        {
            // A packet of many single bytes would take too much room here.
            if total > 100 * maximum {
                continue;
            }
            for link_up in [true, false] {
                let list = cut(total, maximum, link_up);
                let link = if link_up { "up" } else { "down" };
                cases.name(&format!(
                    "{total} bytes in fragments of {maximum}, link {link} at the Last: {}",
                    answers(&list)
                ));
                cases.case(start(&fresh(u32::from(maximum)), STORE_BYTES, &FRESH_SETTINGS));
                sends(cases, &list);
                cases.case(packet(u64::from(total)));
            }
        }
    }
}

/// Packets of the same total cut in other ways, one after the other.
fn cuts(cases: &mut Cases) {
    for total in [17, 59, 60, 61, 1536, 1537] {
        cases.group(&format!("Transactions: packets of {total} bytes cut in many ways"));
        cases.case(start(&fresh(240), STORE_BYTES, &FRESH_SETTINGS));
        for size in [1, 2, 7, 16, 17, 20, 30, 32, 59, 60, 61, 96, 120, 128, 192, 239, 240] {
            if total > 100 * size {
                continue;
            }
            let list = cut(total, size, true);
            cases.name(&format!("fragments of {size} and the rest: {}", answers(&list)));
            sends(cases, &list);
            cases.case(packet(u64::from(total).max(60)));
        }
        for first in [1, 16, 17, 33, 58] {
            if first >= total || total > 240 {
                continue;
            }
            let list = [up(0x84, first, 0), up(0x44, total - first, 1)];
            cases.name(&format!("a First of {first} and a Last of the rest: {}", answers(&list)));
            sends(cases, &list);
            cases.case(packet(u64::from(total).max(60)));
        }
        cases.case(show());
    }
}

/// The link up and down at each fragment.
fn links(cases: &mut Cases) {
    cases.group("Transactions: the link up and down at each of three fragments");
    for pattern in 0..8 {
        let [first, middle, last] = [1, 2, 4].map(|bit| pattern & bit != 0);
        let mut list = [up(0x84, 20, 0), up(0x04, 30, 0), up(0x44, 40, if last { 1 } else { 6 })];
        for (send, link_up) in list.iter_mut().zip([first, middle, last]) {
            send.link_up = link_up;
        }
        let shown = [first, middle, last].map(|up| if up { "up" } else { "down" }).join(", ");
        list_from_fresh(cases, &format!("link {shown}"), 240, &list);
    }
}

/// Every triple of kinds of transaction, one after the other.
fn triples(cases: &mut Cases) {
    const KINDS: [(u8, u16); 9] = [
        (0x84, 20),
        (0x04, 20),
        (0x44, 20),
        (0xc4, 20),
        (0x84, 0),
        (0x44, 33),
        (0xca, 1),
        (0xca, 2),
        (0x4a, 3),
    ];
    cases.group("Transactions: each triple of kinds, ended by an unknown command that flushes");
    for (first, (command, size)) in KINDS.into_iter().enumerate() {
        cases.case(start(&fresh(32), STORE_BYTES, &FRESH_SETTINGS));
        for (second, (second_command, second_size)) in KINDS.into_iter().enumerate() {
            for (third, (third_command, third_size)) in KINDS.into_iter().enumerate() {
                let seed = (0x41 + 16 * (9 * first + second) + third) as u8;
                cases.case(send_pattern(command, true, size, 0x41));
                cases.case(send_pattern(second_command, true, second_size, seed));
                cases.case(send_pattern(third_command, true, third_size, seed ^ 0x40));
                // Ends what the three left open, so that each triple starts
                // from none open.
                cases.case(send_pattern(0xc5, true, 0, 0));
            }
        }
        cases.case(show());
    }
}

/// A packet in fragments of a size and a last one of what is left.
fn cut(total: u16, size: u16, link_up: bool) -> Vec<Send> {
    let last = match total {
        1537.. => 4,
        0..=16 => 5,
        _ if !link_up => 6,
        _ => 1,
    };
    if total <= size {
        let whole = up(0xc4, total, last);
        return vec![Send { link_up, ..whole }];
    }
    let mut list = vec![up(0x84, size, 0)];
    let mut left = total - size;
    while left > size {
        list.push(up(0x04, size, 0));
        left -= size;
    }
    let end = up(0x44, left, last);
    list.push(Send { link_up, ..end });
    list
}
