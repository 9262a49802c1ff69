//! The worked examples, and every rule of transactions by an example.

use super::{down, enable, list_from_fresh, packet, send, show, up, Named};
use crate::generate::Cases;

const WORKED: [Named; 10] = [
    ("W1: 0xC4 with 17 bytes, sent length 60", 240, &[up(0xc4, 17, 1)]),
    ("W2: 0xC4 with 16 bytes", 240, &[up(0xc4, 16, 5)]),
    (
        "W3: first and five middles of 240, last of 96, 1536 in all, sent length 1536",
        240,
        &[
            up(0x84, 240, 0),
            up(0x04, 240, 0).times(5),
            up(0x44, 96, 1),
        ],
    ),
    (
        "W4: the same with a last of 97",
        240,
        &[
            up(0x84, 240, 0),
            up(0x04, 240, 0).times(5),
            up(0x44, 97, 4),
        ],
    ),
    ("W5: 0x04 of 3", 240, &[up(0x04, 3, 2)]),
    (
        "W6: 0x84 of 20, 0xCA of 2 bytes, 0x44 of 20",
        240,
        &[up(0x84, 20, 0), enable(0x41, 2, 8), up(0x44, 20, 2)],
    ),
    (
        "W7: 0x84 of 20, 0x04 of 0, 0x44 of 20",
        240,
        &[up(0x84, 20, 0), up(0x04, 0, 3), up(0x44, 20, 2)],
    ),
    ("W8: 0x84 link up, 0x44 link down, 20 each", 240, &[up(0x84, 20, 0), down(0x44, 20, 6)]),
    (
        "W8 the other way about: 0x84 link down, 0x44 link up, sent length 60",
        240,
        &[down(0x84, 20, 0), up(0x44, 20, 1)],
    ),
    (
        "the printout's list: sent 1 1 20, superseded 1 1 32, short 1 2 15, aborted 0 1 3, taken 1, \
         total 6",
        32,
        &[
            up(0xc4, 20, 1),
            up(0x84, 32, 0),
            up(0x84, 10, 0),
            up(0x44, 5, 5),
            up(0x04, 3, 2),
            enable(0x41, 1, 11),
        ],
    ),
];

const SLIPS: [Named; 8] = [
    (
        "slip: a Middle of 0 bytes breaks the packet, so its Last joins nothing",
        240,
        &[up(0x84, 20, 0), up(0x04, 30, 0), up(0x04, 0, 3), up(0x44, 40, 2)],
    ),
    (
        "slip: a Middle of 241 bytes breaks the packet, so its Last joins nothing",
        240,
        &[up(0x84, 20, 0), up(0x04, 241, 3), up(0x04, 30, 2), up(0x44, 40, 2)],
    ),
    (
        "slip: a Receive Enable answered 8 does not keep the packet open, 2 bytes",
        240,
        &[up(0x84, 20, 0), enable(0x41, 2, 8), up(0x04, 20, 2), up(0x44, 20, 2)],
    ),
    (
        "slip: a Receive Enable answered 8 does not keep the packet open, no bytes",
        240,
        &[up(0x84, 20, 0), enable(0x41, 0, 8), up(0x44, 20, 2)],
    ),
    (
        "slip: the link is tested at the Last fragment, down at the First byte only",
        240,
        &[down(0x84, 20, 0), down(0x04, 20, 0), up(0x44, 20, 1)],
    ),
    (
        "slip: the link is tested at the Last fragment, down there only",
        240,
        &[up(0x84, 20, 0), up(0x04, 20, 0), down(0x44, 20, 6)],
    ),
    (
        "slip: a packet answered 4 is not counted as superseded, over 1 7 1537, superseded 0 0 0",
        240,
        &[
            up(0x84, 240, 0),
            up(0x04, 240, 0).times(5),
            up(0x44, 97, 4),
            up(0x84, 20, 0),
            up(0x44, 20, 1),
        ],
    ),
    (
        "slip: a packet answered 4 is not counted as superseded, then a whole one",
        240,
        &[up(0x84, 240, 0), up(0x04, 240, 0).times(5), up(0x44, 240, 4), up(0xc4, 64, 1)],
    ),
];

const SEQUENCE: [Named; 22] = [
    ("fresh, then First: opened", 240, &[up(0x84, 20, 0)]),
    ("fresh, then First and Last: sent", 240, &[up(0xc4, 20, 1)]),
    ("fresh, then neither: aborted", 240, &[up(0x04, 20, 2)]),
    ("fresh, then Last: aborted", 240, &[up(0x44, 20, 2)]),
    ("Last, then First: both accepted", 240, &[up(0xc4, 20, 1), up(0x84, 30, 0)]),
    ("Last, then First and Last: both accepted", 240, &[up(0xc4, 20, 1), up(0xc4, 30, 1)]),
    ("Last, then neither: aborted", 240, &[up(0xc4, 20, 1), up(0x04, 30, 2)]),
    ("Last, then Last: aborted", 240, &[up(0xc4, 20, 1), up(0x44, 30, 2)]),
    (
        "Last of two fragments, then neither and Last: both aborted",
        240,
        &[up(0x84, 20, 0), up(0x44, 20, 1), up(0x04, 30, 2), up(0x44, 30, 2)],
    ),
    (
        "Not Last, then First: the open packet is superseded, no abort",
        240,
        &[up(0x84, 20, 0), up(0x84, 30, 0)],
    ),
    (
        "Not Last, then First and Last: superseded, the whole one is sent",
        240,
        &[up(0x84, 20, 0), up(0xc4, 30, 1)],
    ),
    ("Not Last, then neither: appended", 240, &[up(0x84, 20, 0), up(0x04, 30, 0)]),
    ("Not Last, then Last: appended and sent", 240, &[up(0x84, 20, 0), up(0x44, 30, 1)]),
    (
        "superseded after two fragments, then finished: only the second packet is sent",
        240,
        &[up(0x84, 20, 0), up(0x04, 30, 0), up(0x84, 40, 0), up(0x44, 50, 1)],
    ),
    (
        "a Last answered 5 is a previous Last: a middle after it aborts",
        240,
        &[up(0xc4, 16, 5), up(0x04, 20, 2), up(0x84, 20, 0)],
    ),
    (
        "a Last answered 6 is a previous Last: a Last after it aborts",
        240,
        &[down(0xc4, 20, 6), up(0x44, 20, 2), up(0x84, 20, 0)],
    ),
    (
        "a Last answered 4 is a previous Last: a Last after it aborts",
        240,
        &[
            up(0x84, 240, 0),
            up(0x04, 240, 0).times(5),
            up(0x44, 97, 4),
            up(0x44, 20, 2),
            up(0x04, 20, 2),
        ],
    ),
    (
        "an aborted middle opens no packet",
        240,
        &[up(0x04, 20, 2), up(0x04, 20, 2), up(0x44, 20, 2)],
    ),
    ("an aborted Last opens no packet", 240, &[up(0x44, 20, 2), up(0x04, 20, 2), up(0x44, 20, 2)]),
    ("aborted, then First: opened", 240, &[up(0x04, 20, 2), up(0x84, 20, 0), up(0x44, 20, 1)]),
    ("aborted with the link down: aborted as well", 240, &[down(0x04, 20, 2), down(0x44, 20, 2)]),
    (
        "four Firsts in a row: three superseded",
        240,
        &[up(0x84, 17, 0), up(0x84, 18, 0), up(0x84, 19, 0), up(0x84, 20, 0)],
    ),
];

const FLUSH: [Named; 20] = [
    (
        "Receive Enable taken, short form: flush",
        240,
        &[up(0x84, 20, 0), enable(0x41, 1, 11), up(0x44, 20, 2)],
    ),
    (
        "Receive Enable taken, long form: flush",
        240,
        &[up(0x84, 20, 0), enable(0xc9, 14, 11), up(0x44, 20, 2)],
    ),
    (
        "Receive Enable of no bytes: flush",
        240,
        &[up(0x84, 20, 0), enable(0x41, 0, 8), up(0x44, 20, 2)],
    ),
    (
        "Receive Enable of 13 bytes: flush",
        240,
        &[up(0x84, 20, 0), enable(0x41, 13, 8), up(0x44, 20, 2)],
    ),
    (
        "Receive Enable of 15 bytes: flush",
        240,
        &[up(0x84, 20, 0), enable(0x41, 15, 8), up(0x44, 20, 2)],
    ),
    (
        "Receive Enable, control byte not allowed, short form: flush",
        240,
        &[up(0x84, 20, 0), enable(0x71, 1, 9), up(0x44, 20, 2)],
    ),
    (
        "Receive Enable, control byte not allowed, long form: flush",
        240,
        &[up(0x84, 20, 0), enable(0xc0, 14, 9), up(0x44, 20, 2)],
    ),
    (
        "Receive Enable with CBDM, short form, no MAC kept: flush",
        240,
        &[up(0x84, 20, 0), enable(0xc1, 1, 10), up(0x44, 20, 2)],
    ),
    (
        "the same after a long form with CBDM: taken, flush",
        240,
        &[enable(0xc1, 14, 11), up(0x84, 20, 0), enable(0xc1, 1, 11), up(0x44, 20, 2)],
    ),
    (
        "the same after a long form with CBDM and a control byte not allowed: no MAC is kept",
        240,
        &[enable(0xf1, 14, 9), enable(0xc0, 14, 9), enable(0xc1, 1, 10), enable(0xc1, 14, 11)],
    ),
    (
        "the same after a long form without CBDM: no MAC is kept",
        240,
        &[enable(0x49, 14, 11), enable(0xc1, 1, 10), enable(0xc1, 14, 11), enable(0xc1, 1, 11)],
    ),
    (
        "a MAC stays kept after CBDM was cleared",
        240,
        &[enable(0xc1, 14, 11), enable(0x40, 1, 11), enable(0xc1, 1, 11), enable(0x41, 14, 11)],
    ),
    ("unknown with F and L: flush", 240, &[up(0x84, 20, 0), up(0xc5, 5, 7), up(0x44, 20, 2)]),
    (
        "unknown with F and L and no data: flush",
        240,
        &[up(0x84, 20, 0), up(0xff, 0, 7), up(0x44, 20, 2)],
    ),
    (
        "unknown with F alone: ends nothing",
        240,
        &[up(0x84, 20, 0), up(0x8a, 5, 7), up(0x44, 20, 1)],
    ),
    (
        "unknown with L alone: ends nothing",
        240,
        &[up(0x84, 20, 0), up(0x4a, 5, 7), up(0x44, 20, 1)],
    ),
    (
        "unknown with neither: ends nothing",
        240,
        &[up(0x84, 20, 0), up(0x0a, 5, 7), up(0x44, 20, 1)],
    ),
    (
        "unknown of 0 bytes and above the maximum: its data is not looked at, ends nothing",
        32,
        &[up(0x84, 20, 0), up(0x00, 0, 7), up(0x00, 33, 7), up(0x00, 2048, 7), up(0x44, 20, 1)],
    ),
    (
        "0xC4 flushes nothing: the open packet is superseded",
        240,
        &[up(0x84, 20, 0), up(0xc4, 16, 5), up(0x44, 20, 2)],
    ),
    (
        "nothing open: a flush counts no packet",
        240,
        &[enable(0x41, 1, 11), enable(0x41, 2, 8), up(0xc0, 1, 7), up(0x00, 1, 7)],
    ),
];

const LENGTHS: [Named; 20] = [
    ("0x84 of 0, none open: badlength, nothing is opened", 240, &[up(0x84, 0, 3), up(0x44, 20, 2)]),
    ("0x04 of 0, none open: badlength and not aborted", 240, &[up(0x04, 0, 3), up(0x44, 20, 2)]),
    ("0x44 of 0, none open: badlength and not aborted", 240, &[up(0x44, 0, 3), up(0x44, 20, 2)]),
    ("0xC4 of 0, none open: badlength and not short", 240, &[up(0xc4, 0, 3), up(0x44, 20, 2)]),
    (
        "0x84 of 0, one open: broken and not superseded",
        240,
        &[up(0x84, 20, 0), up(0x84, 0, 3), up(0x44, 20, 2)],
    ),
    ("0x04 of 0, one open: broken", 240, &[up(0x84, 20, 0), up(0x04, 0, 3), up(0x44, 20, 2)]),
    (
        "0x44 of 0, one open: broken and not sent",
        240,
        &[up(0x84, 20, 0), up(0x44, 0, 3), up(0x44, 20, 2)],
    ),
    (
        "0xC4 of 0, one open: broken and not superseded",
        240,
        &[up(0x84, 20, 0), up(0xc4, 0, 3), up(0x44, 20, 2)],
    ),
    ("0x84 of 241, none open: badlength", 240, &[up(0x84, 241, 3), up(0x44, 20, 2)]),
    ("0x04 of 241, none open: badlength", 240, &[up(0x04, 241, 3), up(0x44, 20, 2)]),
    ("0x44 of 241, none open: badlength", 240, &[up(0x44, 241, 3), up(0x44, 20, 2)]),
    ("0xC4 of 241, none open: badlength", 240, &[up(0xc4, 241, 3), up(0x44, 20, 2)]),
    ("0x84 of 241, one open: broken", 240, &[up(0x84, 20, 0), up(0x84, 241, 3), up(0x44, 20, 2)]),
    ("0x04 of 241, one open: broken", 240, &[up(0x84, 20, 0), up(0x04, 241, 3), up(0x44, 20, 2)]),
    ("0x44 of 241, one open: broken", 240, &[up(0x84, 20, 0), up(0x44, 241, 3), up(0x44, 20, 2)]),
    ("0xC4 of 241, one open: broken", 240, &[up(0x84, 20, 0), up(0xc4, 241, 3), up(0x44, 20, 2)]),
    (
        "a fragment answered 3, then First: a new packet",
        240,
        &[up(0x84, 20, 0), up(0x04, 0, 3), up(0x84, 30, 0), up(0x44, 40, 1)],
    ),
    (
        "two fragments answered 3 in a row: one packet broken, two of bad length",
        240,
        &[up(0x84, 20, 0), up(0x04, 0, 3), up(0x04, 241, 3), up(0x44, 40, 2)],
    ),
    (
        "broken after three fragments: 1 packet, 3 fragments, 90 bytes",
        240,
        &[up(0x84, 20, 0), up(0x04, 30, 0), up(0x04, 40, 0), up(0x44, 0, 3)],
    ),
    (
        "Receive Enable of 14 bytes with maximum 13: the maximum does not touch it",
        13,
        &[enable(0xc9, 14, 11), up(0x84, 14, 3), up(0x84, 13, 0)],
    ),
];

const PAST: [Named; 12] = [
    (
        "past 1536: the fragment past it writes nothing, nor a later one of 1 byte",
        240,
        &[
            up(0x84, 240, 0),
            up(0x04, 240, 0).times(5),
            up(0x04, 97, 0),
            up(0x04, 1, 0),
            up(0x04, 240, 0),
        ],
    ),
    (
        "past 1536, then Last: over",
        240,
        &[
            up(0x84, 240, 0),
            up(0x04, 240, 0).times(5),
            up(0x04, 240, 0),
            up(0x04, 2, 0),
            up(0x44, 1, 4),
        ],
    ),
    (
        "past 1536, then Last with the link down: over and not linkdown",
        240,
        &[up(0x84, 240, 0), up(0x04, 240, 0).times(5), up(0x04, 240, 0), down(0x44, 1, 4)],
    ),
    (
        "past 1536, then First: superseded and not over, the new packet starts at the front",
        240,
        &[
            up(0x84, 240, 0),
            up(0x04, 240, 0).times(5),
            up(0x04, 240, 0),
            up(0x84, 30, 0),
            up(0x44, 40, 1),
        ],
    ),
    (
        "past 1536, then 0xC4: superseded and sent",
        240,
        &[up(0x84, 240, 0), up(0x04, 240, 0).times(5), up(0x04, 240, 0), up(0xc4, 30, 1)],
    ),
    (
        "past 1536, then a flush: flushed and not over",
        240,
        &[
            up(0x84, 240, 0),
            up(0x04, 240, 0).times(5),
            up(0x04, 240, 0),
            enable(0x41, 1, 11),
            up(0x44, 20, 2),
        ],
    ),
    (
        "past 1536, then a fragment of 0 bytes: broken and not over",
        240,
        &[
            up(0x84, 240, 0),
            up(0x04, 240, 0).times(5),
            up(0x04, 240, 0),
            up(0x44, 0, 3),
            up(0x44, 20, 2),
        ],
    ),
    (
        "past 1536, then a command that ends nothing: still open",
        240,
        &[up(0x84, 240, 0), up(0x04, 240, 0).times(5), up(0x04, 240, 0), up(0x4a, 1, 7)],
    ),
    (
        "1535 bytes, a middle of 2 goes past and writes nothing, then Last of 1",
        240,
        &[
            up(0x84, 240, 0),
            up(0x04, 240, 0).times(5),
            up(0x04, 95, 0),
            up(0x04, 2, 0),
            up(0x44, 1, 4),
        ],
    ),
    (
        "1535 bytes, then Last of 1: 1536, sent",
        240,
        &[up(0x84, 240, 0), up(0x04, 240, 0).times(5), up(0x04, 95, 0), up(0x44, 1, 1)],
    ),
    (
        "1536 bytes and still open, then Last of 1: over",
        240,
        &[up(0x84, 240, 0), up(0x04, 240, 0).times(5), up(0x04, 96, 0), up(0x44, 1, 4)],
    ),
    (
        "1536 bytes, Last with the link down: linkdown",
        240,
        &[up(0x84, 240, 0), up(0x04, 240, 0).times(5), down(0x44, 96, 6)],
    ),
];

const DISCARDED: [Named; 4] = [
    ("16 bytes, link down: short and not linkdown", 240, &[down(0xc4, 16, 5)]),
    ("17 bytes, link down: linkdown, no fill", 240, &[down(0xc4, 17, 6)]),
    ("1 byte: short, no fill", 240, &[up(0xc4, 1, 5)]),
    ("8 and 8 bytes: short", 240, &[up(0x84, 8, 0), up(0x44, 8, 5)]),
];

const FILLED: [Named; 9] = [
    ("8 and 9 bytes: sent, filled up to 60", 240, &[up(0x84, 8, 0), up(0x44, 9, 1)]),
    ("59 bytes: sent, filled up to 60 by one byte", 240, &[up(0xc4, 59, 1)]),
    ("60 bytes: sent, sent length 60, no fill", 240, &[up(0xc4, 60, 1)]),
    ("61 bytes: sent, sent length 61, no fill", 240, &[up(0xc4, 61, 1)]),
    (
        "20, 20 and 19 bytes: sent, filled up to 60 by one byte",
        20,
        &[up(0x84, 20, 0), up(0x04, 20, 0), up(0x44, 19, 1)],
    ),
    ("59 and 1 bytes: sent, sent length 60, no fill", 240, &[up(0x84, 59, 0), up(0x44, 1, 1)]),
    (
        "1, 59 and 1 bytes: sent, sent length 61, no fill",
        240,
        &[up(0x84, 1, 0), up(0x04, 59, 0), up(0x44, 1, 1)],
    ),
    (
        "59 bytes after a packet of 64: sent, the fill over its bytes",
        240,
        &[up(0xc4, 64, 1), up(0xc4, 59, 1)],
    ),
    ("59 bytes, link down: linkdown, no fill", 240, &[down(0xc4, 59, 6)]),
];

/// The lists, grouped by title.
const GROUPS: [(&str, &[Named]); 8] = [
    ("Transactions: worked examples", &WORKED),
    ("Transactions: slips that have been made", &SLIPS),
    ("Transactions: First and Last", &SEQUENCE),
    ("Transactions: flush", &FLUSH),
    ("Transactions: fragment lengths", &LENGTHS),
    ("Transactions: packets past 1536 bytes", &PAST),
    ("Transactions: short packets and the link", &DISCARDED),
    ("Transactions: the fill, and the bytes behind it as they were", &FILLED),
];

/// Adds the cases of this subject.
pub fn generate(cases: &mut Cases) {
    before_any_start(cases);
    for (title, lists) in GROUPS {
        cases.group(title);
        for (name, maximum, list) in lists {
            list_from_fresh(cases, name, *maximum, list);
            cases.case(packet(64));
        }
    }
}

/// All lists of this subject.
pub fn lists() -> impl Iterator<Item = Named> {
    GROUPS.into_iter().flat_map(|(_, lists)| lists.iter().copied())
}

/// What is carried before anything was given: zeros, no store, no settings.
fn before_any_start(cases: &mut Cases) {
    cases.group("Transactions: before anything is given");
    cases.name("no store and no settings: answers 12, 12, 12");
    cases.case(show());
    cases.case(packet(0));
    cases.case(packet(1));
    cases.case(send(0xc4, true, &[0x11; 20]));
    cases.case(send(0xca, true, &[0x41]));
    cases.case(send(0x00, true, &[]));
    cases.case(show());
}
