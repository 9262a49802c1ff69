//! Transactions: the worked examples, and the translator against the history.

use reference::account::{self, Account, Fate, BYTES, FRAGMENTS, HIGHEST_TOTAL, PACKETS, ROWS};
use reference::history::{History, Place, Setup, Transaction};
use reference::packet::{append, fill, shown};
use reference::pec::code;
use reference::printout::{print, ENOUGH_ROOM};
use reference::random::Random;
use reference::state::{self, fresh, State, NUMBERS};
use reference::translator::{self, transact};

/// Command, number of data bytes, link up.
type Send = (u8, usize, bool);

const UP: bool = true;
const DOWN: bool = false;

/// Everything that a transaction may change.
#[derive(Clone, Debug, PartialEq, Eq)]
struct Kept {
    state: State,
    store: Vec<u8>,
    settings: Vec<u8>,
}

impl Kept {
    fn fresh(maximum: u32) -> Kept {
        Kept::with_check(maximum, false)
    }

    fn with_check(maximum: u32, check: bool) -> Kept {
        let (answer, state) = fresh(maximum, check);
        assert_eq!(answer, 0);
        let mut settings = vec![0xee; 17];
        assert_eq!(reference::settings::fresh(&mut settings), 0);
        Kept { state, store: vec![0xdd; 1540], settings }
    }

    fn transact(&mut self, transaction: &Transaction) -> (u8, u16) {
        let Transaction { address, command, ref data, code, link_up } = *transaction;
        let Kept { state, store, settings } = self;
        let transaction = translator::Transaction { address, command, code, link_up };
        transact(state, store, settings, transaction, data)
    }

    /// Does a transaction of so many bytes, and gives its answer.
    fn send(&mut self, command: u8, bytes: usize, link_up: bool) -> u8 {
        self.transact(&plain(command, bytes, link_up)).0
    }
}

/// A transaction of these data with its right check byte.
fn right(command: u8, data: &[u8]) -> Transaction {
    let (address, (_, code)) = (0x92, code(0x92, command, data));
    Transaction { address, command, data: data.to_vec(), code, link_up: true }
}

/// The same with these bits of its check byte turned.
fn wrong(command: u8, data: &[u8], turned: u8) -> Transaction {
    let right = right(command, data);
    Transaction { code: right.code ^ turned, ..right }
}

/// A transaction of so many bytes without address and check byte.
fn plain(command: u8, bytes: usize, link_up: bool) -> Transaction {
    Transaction { address: 0, command, data: data(bytes), code: 0, link_up }
}

fn data(bytes: usize) -> Vec<u8> {
    (0..bytes).map(|place| 1 + (place % 251) as u8).collect()
}

fn answers(maximum: u32, list: &[Send]) -> (Vec<u8>, Kept) {
    let mut kept = Kept::fresh(maximum);
    let answers = list
        .iter()
        .map(|(command, bytes, link_up)| kept.send(*command, *bytes, *link_up))
        .collect();
    (answers, kept)
}

#[test]
fn marked_examples() {
    let up_to_1440 = [
        (0x84, 240, UP),
        (0x04, 240, UP),
        (0x04, 240, UP),
        (0x04, 240, UP),
        (0x04, 240, UP),
        (0x04, 240, UP),
    ];
    let w3 = [&up_to_1440[..], &[(0x44, 96, UP)]].concat();
    let w4 = [&up_to_1440[..], &[(0x44, 97, UP)]].concat();
    let examples: [(&str, &[Send], &[u8]); 9] = [
        ("W1", &[(0xc4, 17, UP)], &[1]),
        ("W2", &[(0xc4, 16, UP)], &[5]),
        ("W3", &w3, &[0, 0, 0, 0, 0, 0, 1]),
        ("W4", &w4, &[0, 0, 0, 0, 0, 0, 4]),
        ("W5", &[(0x04, 3, UP)], &[2]),
        ("W6", &[(0x84, 20, UP), (0xca, 2, UP), (0x44, 20, UP)], &[0, 8, 2]),
        ("W7", &[(0x84, 20, UP), (0x04, 0, UP), (0x44, 20, UP)], &[0, 3, 2]),
        ("W8", &[(0x84, 20, UP), (0x44, 20, DOWN)], &[0, 6]),
        ("W8 the other way about", &[(0x84, 20, DOWN), (0x44, 20, UP)], &[0, 1]),
    ];
    for (name, list, expected) in examples {
        assert_eq!(answers(240, list).0, expected, "{name}");
    }
}

#[test]
fn sent_lengths_and_bytes() {
    let mut kept = Kept::fresh(240);
    let whole = plain(0xc4, 17, true);
    assert_eq!(kept.transact(&whole), (1, 60));
    assert_eq!(shown(&kept.store, 60), [&data(17)[..], &[0; 43]].concat());
    assert_eq!(kept.store[60..], [0xdd; 1480]);

    for (bytes, sent) in [(59, 60), (60, 60), (61, 61)] {
        let mut kept = Kept::fresh(240);
        let whole = plain(0xc4, bytes, true);
        assert_eq!(kept.transact(&whole), (1, sent), "{bytes}");
        let fill = vec![0; sent as usize - bytes];
        assert_eq!(shown(&kept.store, u64::from(sent)), [data(bytes), fill].concat(), "{bytes}");
        assert!(kept.store[sent as usize..].iter().all(|byte| *byte == 0xdd), "{bytes}");
    }

    let mut packet = Vec::new();
    for (command, bytes) in
        [(0x84, 240), (0x04, 240), (0x04, 240), (0x04, 240), (0x04, 240), (0x04, 240)]
    {
        packet.extend(data(bytes));
        assert_eq!(kept.send(command, bytes, true), 0);
    }
    packet.extend(data(96));
    let last = plain(0x44, 96, true);
    assert_eq!(kept.transact(&last), (1, 1536));
    assert_eq!(shown(&kept.store, 1536), packet);
    assert_eq!(kept.store[1536..], [0xdd; 4]);
}

#[test]
fn discarded_packets_get_no_fill_and_no_bytes_past_the_longest() {
    for (bytes, link_up, answer) in [(16, true, 5), (17, false, 6), (16, false, 5)] {
        let mut kept = Kept::fresh(240);
        assert_eq!(kept.send(0xc4, bytes, link_up), answer);
        assert_eq!(kept.store[..bytes], data(bytes));
        assert!(kept.store[bytes..].iter().all(|byte| *byte == 0xdd));
    }
    let mut kept = Kept::fresh(240);
    let first = [(0x84, 240), (0x04, 240), (0x04, 240), (0x04, 240), (0x04, 240), (0x04, 240)];
    for (command, bytes) in first {
        assert_eq!(kept.send(command, bytes, true), 0);
    }
    let before = kept.store.clone();
    for (command, bytes, answer) in [(0x04, 97, 0), (0x04, 1, 0), (0x44, 20, 4)] {
        assert_eq!(kept.send(command, bytes, true), answer);
        assert_eq!(kept.store, before);
    }
    assert_eq!(kept.state.account.grid[Fate::Over as usize], [1, 9, 1558]);
}

#[test]
fn the_printout() {
    let mut kept = Kept::fresh(32);
    for (command, bytes, answer) in
        [(0xc4, 20, 1), (0x84, 32, 0), (0x84, 10, 0), (0x44, 5, 5), (0x04, 3, 2)]
    {
        assert_eq!(kept.send(command, bytes, true), answer);
    }
    let enable = Transaction { data: vec![0x41], ..plain(0xca, 1, true) };
    assert_eq!(kept.transact(&enable), (11, 0));
    let grid = [
        [1, 1, 20],
        [1, 1, 32],
        [0, 0, 0],
        [0, 0, 0],
        [0, 0, 0],
        [1, 2, 15],
        [0, 0, 0],
        [0, 1, 3],
        [0, 0, 0],
        [0, 0, 0],
    ];
    let account = Account { grid, taken: 1, total: 6, ..Account::default() };
    assert_eq!(kept.state, State { account, maximum: 32, check: 0 });
}

#[test]
fn fresh_states() {
    for (check, number) in [(false, 0), (true, 1)] {
        for maximum in 0..=1000 {
            let (answer, state) = fresh(maximum, check);
            let allowed = (1..=240).contains(&maximum);
            assert_eq!(answer, if allowed { 0 } else { 16 }, "{maximum}");
            let expected = if allowed { u64::from(maximum) } else { 240 };
            let account = Account::default();
            assert_eq!(state, State { account, maximum: expected, check: number });
            assert!(state::is_sound(&state));
        }
        assert_eq!(fresh(u32::MAX, check), fresh(0, check));
    }
}

#[test]
fn numbers_and_states_are_the_same_thing() {
    let numbers: [u64; NUMBERS] = std::array::from_fn(|place| 1000 + place as u64);
    let state = State::of_numbers(numbers, 7);
    assert_eq!((state.numbers(), state.check), (numbers, 7));
    let account = state.account;
    assert_eq!(account.grid[Fate::Sent as usize], [1000, 1001, 1002]);
    assert_eq!(account.grid[Fate::BadLength as usize], [1024, 1025, 1026]);
    assert_eq!(account.grid[Fate::BadCheck as usize], [1027, 1028, 1029]);
    assert_eq!((account.open_fragments, account.open_bytes), (1030, 1031));
    assert_eq!((account.taken, account.refused, account.total), (1032, 1033, 1034));
    assert_eq!(account.numbers(), numbers[..account::NUMBERS]);
    assert_eq!(Account::of_numbers(account.numbers()), account);
    assert_eq!(state.maximum, 1035);
}

#[test]
fn the_store_at_any_place() {
    for size in [0, 1, 59, 60, 1535, 1536, 1537, 1600] {
        for at in (0..1700).chain([1 << 32, 1 << 63, u64::MAX - 2, u64::MAX]) {
            let mut store = vec![0xdd; size];
            append(&mut store, at, &[1, 2, 3]);
            let mut expected = vec![0xdd; size];
            if at < 1700 && at + 3 <= 1536.min(size as u64) {
                for (place, byte) in (at as usize..).zip([1, 2, 3]) {
                    expected[place] = byte;
                }
            }
            assert_eq!(store, expected, "{size} {at}");

            let mut store = vec![0xdd; size];
            fill(&mut store, at);
            for (place, byte) in store.iter().enumerate() {
                let filled = size >= 60 && place < 60 && place as u64 >= at;
                assert_eq!(*byte, if filled { 0 } else { 0xdd }, "{size} {at}");
            }

            let length = shown(&store, at).len() as u64;
            assert_eq!(length, if at <= 1536.min(size as u64) { at } else { 0 });
        }
    }
}

#[test]
fn fragments_onto_an_open_packet() {
    let highest = 240 * (HIGHEST_TOTAL - 1);
    let long = [1 << 16, (1 << 16) + 700, 1 << 31, (1 << 32) - 3, 1 << 32, (1 << 32) + 5, highest];
    for size in [1536, 1537, 2048] {
        for at in (1..1700).chain(long) {
            for (command, bytes) in [(0x04, 1), (0x04, 3), (0x44, 3), (0x04, 240), (0x84, 3)] {
                let open_fragments = (at + 239) / 240;
                let total = open_fragments;
                let account =
                    Account { open_fragments, open_bytes: at, total, ..Account::default() };
                let mut kept = Kept::fresh(240);
                kept.state.account = account;
                kept.store = vec![0xdd; size];
                let answer = kept.send(command, bytes, false);
                let place = if command == 0x84 { 0 } else { at };
                let end = place + bytes as u64;
                let expected_answer = match command {
                    0x44 if end > 1536 => 4,
                    0x44 if end < 17 => 5,
                    0x44 => 6,
                    _ => 0,
                };
                let mut expected = vec![0xdd; size];
                if end <= 1536 {
                    expected[place as usize..end as usize].copy_from_slice(&data(bytes));
                }
                assert_eq!(answer, expected_answer, "{command:#04x} of {bytes} onto {at}");
                assert_eq!(kept.store, expected, "{command:#04x} of {bytes} onto {at}");
            }
        }
    }
}

#[test]
fn a_wrong_middle_breaks_the_open_packet() {
    let mut kept = Kept::with_check(240, true);
    let store = |kept: &Kept| kept.store.clone();
    assert_eq!(kept.transact(&right(0x84, &data(20))), (0, 0));
    let before = store(&kept);
    assert_eq!(kept.transact(&wrong(0x04, &data(30), 0x01)), (17, 0));
    let mut account = Account { total: 2, ..Account::default() };
    account.grid[Fate::Broken as usize] = [1, 1, 20];
    account.grid[Fate::BadCheck as usize] = [0, 1, 0];
    assert_eq!(kept.state, State { account, maximum: 240, check: 1 });
    assert_eq!(kept.transact(&right(0x44, &data(40))), (2, 0));
    account.grid[Fate::Aborted as usize] = [0, 1, 40];
    account.total = 3;
    assert_eq!(kept.state, State { account, maximum: 240, check: 1 });
    assert_eq!(store(&kept), before);
    assert_eq!(kept.transact(&right(0xc4, &data(17))), (1, 60));
}

#[test]
fn a_wrong_receive_enable_changes_no_settings_and_brings_no_mac() {
    let mut long = [0x33; 14];
    long[0] = 0xc9;
    let mut kept = Kept::with_check(240, true);
    let before = kept.settings.clone();
    for turned in 1..=255 {
        assert_eq!(kept.transact(&wrong(0xca, &long, turned)), (17, 0));
        assert_eq!(kept.settings, before);
    }
    assert_eq!(kept.transact(&right(0xca, &[0xc1])), (10, 0));
    assert_eq!(kept.settings, before);
    assert_eq!(kept.transact(&right(0xca, &long)), (11, 0));
    assert_eq!(kept.transact(&wrong(0xca, &[0x41], 0x80)), (17, 0));
    assert_eq!(kept.settings[..2], [0xc9, 3]);
    assert_eq!(kept.transact(&right(0xca, &[0xc1])), (11, 0));
    let account = kept.state.account;
    assert_eq!(account.grid[Fate::BadCheck as usize], [0, 256, 0]);
    assert_eq!((account.taken, account.refused, account.total), (2, 1, 259));
}

/// Whatever its command, its length and the maximum, and whatever is open.
#[test]
fn a_wrong_code_is_counted_alike_for_every_command() {
    for maximum in [1, 19, 20, 240] {
        for command in 0..=255 {
            for (bytes, open) in [(0, false), (1, true), (14, false), (20, true), (255, true)] {
                let mut kept = Kept::with_check(maximum, true);
                let mut account = Account { total: 1, ..Account::default() };
                if open {
                    assert_eq!(kept.transact(&right(0x84, &[0x11])), (0, 0));
                    account.grid[Fate::Broken as usize] = [1, 1, 1];
                    account.total += 1;
                }
                account.grid[Fate::BadCheck as usize] = [0, 1, 0];
                let before = kept.clone();
                assert_eq!(
                    kept.transact(&wrong(command, &data(bytes), 1 << (command % 8))),
                    (17, 0)
                );
                assert_eq!(kept.state, State { account, maximum: maximum.into(), check: 1 });
                assert_eq!(kept.store, before.store);
                assert_eq!(kept.settings, before.settings);
            }
        }
    }
}

#[test]
fn only_the_right_code_is_taken_and_only_with_the_check_on() {
    let good = right(0xc4, &data(20));
    for check in [false, true] {
        for code in 0..=255 {
            let mut kept = Kept::with_check(240, check);
            let taken = !check || code == good.code;
            let (answer, _) = kept.transact(&Transaction { code, ..good.clone() });
            assert_eq!(answer, if taken { 1 } else { 17 }, "{check} {code}");
        }
        for address in 0..=255 {
            let mut kept = Kept::with_check(240, check);
            let taken = !check || address == good.address;
            let (answer, _) = kept.transact(&Transaction { address, ..good.clone() });
            assert_eq!(answer, if taken { 1 } else { 17 }, "{check} {address}");
        }
    }
}

#[test]
fn more_data_than_one_byte_can_count() {
    for (command, answer) in [(0x84, 3), (0x04, 3), (0x44, 3), (0xc4, 3), (0xca, 8), (0x05, 7)] {
        for bytes in [254, 255, 256, 257, 511, 512, 1000] {
            let transaction = right(command, &data(bytes));
            let on = Kept::with_check(240, true).transact(&transaction);
            assert_eq!(on, (if bytes > 255 { 17 } else { answer }, 0), "{command} {bytes}");
            let off = Kept::with_check(240, false).transact(&transaction);
            assert_eq!(off, (answer, 0), "{command} {bytes}");
            for code in 0..=255 {
                let any = Transaction { code, ..transaction.clone() };
                let right = bytes <= 255 && code == transaction.code;
                let expected = if right { answer } else { 17 };
                assert_eq!(
                    Kept::with_check(240, true).transact(&any).0,
                    expected,
                    "{bytes} {code}"
                );
            }
        }
    }
}

#[test]
fn twelve_thirteen_and_fourteen_come_before_seventeen() {
    let transaction = wrong(0xc4, &data(20), 0x04);
    for kind in 0..7 {
        let mut kept = Kept::with_check(240, true);
        rejected_call(&mut kept, &transaction, kind);
    }
    for check in 2..=255 {
        let mut kept = Kept::with_check(240, true);
        kept.state.check = check;
        let before = kept.clone();
        assert_eq!(kept.transact(&transaction), (13, 0));
        assert_eq!(kept.transact(&right(0xc4, &data(20))), (13, 0));
        assert_eq!(kept, before);
    }
    let mut kept = Kept::with_check(240, true);
    kept.state.account.refused = HIGHEST_TOTAL - 1;
    kept.state.account.total = HIGHEST_TOTAL - 1;
    assert_eq!(kept.transact(&transaction), (17, 0));
    let full = kept.clone();
    assert_eq!(kept.transact(&transaction), (14, 0));
    assert_eq!(kept, full);
}

/// Draws transactions, most of them fragments in a plausible order.
struct Controller {
    random: Random,
    maximum: usize,
    /// Whether check bytes are looked at.
    check: bool,
    /// How many transactions there are for one that is out of order.
    calm: u64,
    /// How many fragments there are for a Last.
    fragments: u64,
    sending: bool,
}

impl Controller {
    fn new(seed: u64) -> Controller {
        let mut random = Random::new(seed);
        let maximum = random.pick(&[1, 2, 3, 17, 32, 64, 200, 239, 240]);
        let calm = random.pick(&[4, 4, 40]);
        let fragments = random.pick(&[4, 8, 16]);
        let check = random.one_in(2);
        Controller { random, maximum, check, calm, fragments, sending: false }
    }

    /// What it finds at the start.
    fn kept(&self) -> Kept {
        Kept::with_check(self.maximum as u32, self.check)
    }

    fn history<'a>(&self, list: &'a [Transaction]) -> History<'a> {
        let maximum = self.maximum as u64;
        History::of(Setup { maximum, check: self.check, mac_kept_before: false }, list)
    }

    fn transaction(&mut self) -> Transaction {
        let link_up = !self.random.one_in(6);
        let kind = if self.random.one_in(self.calm) { self.random.below(3) } else { 3 };
        let (command, length) = match kind {
            0 => (self.random.byte(), self.random.below(20) as usize),
            1 => (0xca, self.random.pick(&[0, 1, 1, 1, 2, 14, 14, 14])),
            2 => (self.random.pick(&[0x84, 0x04, 0x44, 0xc4]), self.any_length()),
            _ => {
                let first = !self.sending;
                let last = self.random.one_in(self.fragments);
                self.sending = !last;
                let flags = if first { 0x80 } else { 0 } + if last { 0x40 } else { 0 };
                (0x04 + flags, self.good_length())
            }
        };
        let mut data = self.random.bytes(length);
        if command == 0xca && length > 0 && !self.random.one_in(4) {
            data[0] = self.random.pick(&[0x40, 0x41, 0x49, 0xc1, 0xc9]);
        }
        let address = self.random.byte();
        let wrong = !self.check || self.random.one_in(2 * self.calm);
        let code = if wrong { self.random.byte() } else { code(address, command, &data).1 };
        Transaction { address, command, data, code, link_up }
    }

    fn good_length(&mut self) -> usize {
        match self.random.below(4) {
            0 => 1,
            1 => 1 + self.random.below(self.maximum as u64) as usize,
            _ => self.maximum,
        }
    }

    fn any_length(&mut self) -> usize {
        match self.random.below(4) {
            0 => 0,
            1 => self.maximum + 1,
            2 => self.random.below(300) as usize,
            _ => self.maximum,
        }
    }
}

/// The partition, counted over the places of the list.
fn assert_partition(account: &Account, history: &History, length: usize) {
    assert!(account::is_sound(account));
    let in_grid: u64 = account.grid.iter().map(|row| row[FRAGMENTS]).sum();
    let beside = account.open_fragments + account.taken + account.refused;
    assert_eq!(account.total, in_grid + beside);
    assert_eq!(account.total, length as u64);

    let (mut rows, mut open, mut taken, mut refused) = ([0; ROWS.len()], 0, 0, 0);
    for number in 0..length {
        match history.place(number) {
            Place::InRun(run) => match history.fate(run) {
                Some(fate) => rows[fate as usize] += 1,
                None => open += 1,
            },
            Place::Aborted => rows[Fate::Aborted as usize] += 1,
            Place::BadLength => rows[Fate::BadLength as usize] += 1,
            Place::BadCheck => rows[Fate::BadCheck as usize] += 1,
            Place::Taken => taken += 1,
            Place::Refused(_) => refused += 1,
        }
    }
    assert_eq!(account.grid.map(|row| row[FRAGMENTS]), rows);
    assert_eq!((account.open_fragments, account.taken, account.refused), (open, taken, refused));
}

/// Makes a call that is rejected, and makes sure that it changes nothing.
fn rejected_call(kept: &mut Kept, transaction: &Transaction, kind: u64) {
    let mut lent = kept.clone();
    let answer = match kind {
        0 => {
            lent.store.truncate(1535);
            12
        }
        1 => {
            lent.settings.truncate(14);
            12
        }
        2 => {
            lent.state.account.total += 1;
            13
        }
        3 => {
            lent.state.maximum = [0, 241, 1 << 63][transaction.data.len() % 3];
            13
        }
        6 => {
            lent.state.check = [2, 3, 255][transaction.data.len() % 3];
            13
        }
        4 => {
            lent.settings[1] |= 4;
            13
        }
        _ => {
            lent.state.account.refused += HIGHEST_TOTAL - lent.state.account.total;
            lent.state.account.total = HIGHEST_TOTAL;
            14
        }
    };
    let before = lent.clone();
    assert_eq!(lent.transact(transaction), (answer, 0));
    assert_eq!(lent, before);
    // What was lent is handed back in place of what was carried, as far as it
    // was not cut or damaged for this call.
    if kind != 0 {
        kept.store = lent.store;
    }
    if kind != 1 && kind != 4 {
        kept.settings = lent.settings;
    }
}

#[test]
fn translator_and_history_agree() {
    let mut packets_of = [0; ROWS.len()];
    let mut bad_checks = 0;
    for seed in 0..2000 {
        let mut controller = Controller::new(seed);
        let mut kept = controller.kept();
        let mut list: Vec<Transaction> = Vec::new();
        let length = 10 + controller.random.below(60);
        for _ in 0..length {
            let transaction = controller.transaction();
            if controller.random.one_in(12) {
                let kind = controller.random.below(7);
                rejected_call(&mut kept, &transaction, kind);
            }
            let before = kept.clone();
            let (answer, sent) = kept.transact(&transaction);
            list.push(transaction);
            let history = controller.history(&list);
            let (maximum, check) = (controller.maximum as u64, u8::from(controller.check));
            let state = State { account: history.account(), maximum, check };
            assert_eq!(kept.state, state, "seed {seed}");
            assert_eq!((answer, u64::from(sent)), history.answer(list.len() - 1), "seed {seed}");
            if answer == 1 {
                let run = history.sent().last().expect("a packet was sent");
                let packet: Vec<u8> = history.packet(run).collect();
                assert_eq!(shown(&kept.store, u64::from(sent)), packet, "seed {seed}");
            }
            if let Some(run) = history.open() {
                let stored: Vec<u8> = history.stored(run).collect();
                assert_eq!(kept.store[..stored.len()], stored, "seed {seed}");
            }
            if matches!(answer, 2 | 3 | 7..=11 | 17) {
                assert_eq!(kept.store, before.store, "seed {seed}");
            }
            if answer != 11 {
                assert_eq!(kept.settings, before.settings, "seed {seed}");
            }
            assert_eq!(kept.store[1536..], [0xdd; 4]);
            assert_eq!(kept.settings[15..], [0xee; 2]);
        }
        let history = controller.history(&list);
        assert_partition(&kept.state.account, &history, list.len());
        assert_eq!(history.sent().count() as u64, kept.state.account.grid[0][PACKETS]);
        for (packets, row) in packets_of.iter_mut().zip(kept.state.account.grid) {
            *packets += row[PACKETS];
        }
        bad_checks += kept.state.account.grid[Fate::BadCheck as usize][FRAGMENTS];
    }
    // Lists in which some fate never comes would show little.
    for fate in &ROWS[..7] {
        assert!(packets_of[*fate as usize] > 100, "{fate:?}: {packets_of:?}");
    }
    assert!(bad_checks > 1000, "{bad_checks}");
}

#[test]
fn lines_of_other_fates_stay() {
    for seed in 0..500 {
        let mut controller = Controller::new(7000 + seed);
        let mut kept = controller.kept();
        for _ in 0..40 {
            let before = kept.state.account;
            let (answer, _) = kept.transact(&controller.transaction());
            let after = kept.state.account;
            let own: &[Fate] = match answer {
                0 => &[Fate::Superseded],
                1 => &[Fate::Sent, Fate::Superseded],
                2 => &[Fate::Aborted],
                3 => &[Fate::BadLength, Fate::Broken],
                4 => &[Fate::Over, Fate::Superseded],
                5 => &[Fate::Short, Fate::Superseded],
                6 => &[Fate::LinkDown, Fate::Superseded],
                17 => &[Fate::BadCheck, Fate::Broken],
                _ => &[Fate::Flushed],
            };
            for fate in ROWS {
                if !own.contains(&fate) {
                    assert_eq!(after.grid[fate as usize], before.grid[fate as usize]);
                }
            }
            assert_eq!(after.taken - before.taken, u64::from(answer == 11));
            assert_eq!(after.refused - before.refused, u64::from((7..=10).contains(&answer)));
            assert_eq!(after.total - before.total, 1);
            assert_eq!(kept.state.maximum, controller.maximum as u64);
            assert_eq!(kept.state.check, u8::from(controller.check));
        }
    }
}

/// The numbers of an account that make up its total.
fn lines(account: &Account) -> impl Iterator<Item = u64> + '_ {
    let beside = [account.open_fragments, account.taken, account.refused];
    account.grid.iter().map(|row| row[FRAGMENTS]).chain(beside)
}

/// Soundness of an account. A sum within the limit leaves every product far
/// below 64 bits.
fn expected_sound(account: &Account) -> bool {
    lines(account).try_fold(0, u64::checked_add) == Some(account.total)
        && account.total <= HIGHEST_TOTAL
        && account.grid.iter().all(|row| row[PACKETS] <= row[FRAGMENTS])
        && account.grid.iter().all(|row| row[BYTES] <= 240 * row[FRAGMENTS])
        && account.grid[7][PACKETS] == 0
        && account.grid[8][PACKETS] == 0
        && account.grid[8][BYTES] == 0
        && account.grid[9][PACKETS] == 0
        && account.grid[9][BYTES] == 0
        && account.open_bytes >= account.open_fragments
        && account.open_bytes <= 240 * account.open_fragments
}

#[test]
fn soundness_of_any_numbers() {
    let mut random = Random::new(99);
    let extremes = [0, 1, 239, 240, 241, HIGHEST_TOTAL, 1 << 32, 1 << 63, u64::MAX - 1, u64::MAX];
    let (mut sound_accounts, mut sound_states) = (0, 0);
    for _ in 0..100_000 {
        let numbers =
            std::array::from_fn(|_| if random.one_in(9) { random.pick(&extremes) } else { 0 });
        let mut state = State::of_numbers(numbers, random.pick(&[0, 0, 1, 1, 2, 255]));
        state.maximum = random.pick(&[0, 1, 100, 240, 240, 241, 1 << 63]);
        // Nearly all totals are right but for what is past 64 bits.
        if !random.one_in(8) {
            state.account.total = lines(&state.account).fold(0, u64::wrapping_add);
        }
        let State { account, maximum, check } = state;
        let account_sound = expected_sound(&account);
        let state_sound = account_sound
            && (1..=240).contains(&maximum)
            && check < 2
            && account.open_bytes <= maximum * account.open_fragments;
        assert_eq!(account::is_sound(&account), account_sound, "{account:?}");
        assert_eq!(state::is_sound(&state), state_sound, "{state:?}");
        sound_accounts += u64::from(account_sound);
        sound_states += u64::from(state_sound);
    }
    assert!(sound_states > 1000 && sound_accounts > sound_states + 300, "{sound_states}");
}

/// Bytes of an open packet between what the maximum and what any fragment
/// allows: rejected as a state, printed as an account.
#[test]
fn an_account_is_sound_whatever_the_maximum() {
    for maximum in 1..=240 {
        for (open_bytes, sound, printed) in [
            (3 * maximum, true, true),
            (3 * maximum + 1, false, maximum < 240),
            (720, maximum == 240, true),
            (721, false, false),
        ] {
            let account = Account { open_fragments: 3, open_bytes, total: 3, ..Account::default() };
            let mut kept = Kept::fresh(240);
            kept.state = State { account, maximum, check: 0 };
            let answer = kept.send(0x44, 1, true);
            assert_eq!(answer != 13, sound, "{maximum} {open_bytes}");
            let length = print(&account, &mut [0; ENOUGH_ROOM]);
            assert_eq!(length > 0, printed, "{maximum} {open_bytes}");
        }
    }
}
