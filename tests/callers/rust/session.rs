//! A session of calls on one state, store and settings, each made of the static
//! library and of the second program and compared.

use std::fmt::Debug;

use reference::answer_numbers::{BAD_CHECK, RECEIVE_ENABLE_TAKEN};
use reference::packet::LONGEST_PACKET;
use reference::printout::ENOUGH_ROOM;
use reference::random::Random;
use reference::settings::{FLASH_BYTES, SETTINGS_BYTES};
use reference::state;
use second::interface::{Part, State};

use crate::guarded::{Guarded, GuardedState};
use crate::{archive, inputs};

const STORE_BYTES: usize = LONGEST_PACKET as usize;
const FLASH_MOST: usize = 24;

/// What a call found: nothing, or how the two differ.
type Found = Result<(), String>;

/// An operation, and how often it is drawn beside the others.
struct Operation {
    share: u64,
    name: &'static str,
    call: fn(&mut Session) -> Found,
}

const OPERATIONS: [Operation; 11] = [
    Operation { share: 20, name: "tco_transact", call: Session::transact },
    Operation { share: 1, name: "tco_fresh_state", call: Session::fresh_state },
    Operation { share: 1, name: "tco_fresh_settings", call: Session::fresh_settings },
    Operation { share: 1, name: "tco_check_code", call: Session::check_code },
    Operation { share: 1, name: "tco_shown", call: Session::shown },
    Operation { share: 1, name: "tco_mac_in_force", call: Session::mac_in_force },
    Operation { share: 1, name: "tco_ipv4_in_force", call: Session::ipv4_in_force },
    Operation { share: 1, name: "tco_write_status", call: Session::write_status },
    Operation { share: 1, name: "tco_read_status", call: Session::read_status },
    Operation { share: 2, name: "tco_set_link", call: Session::set_link },
    Operation { share: 1, name: "tco_print_account", call: Session::print_account },
];

/// What the calls of a session share.
pub struct Session {
    random: Random,
    state: state::State,
    store: Vec<u8>,
    settings: Vec<u8>,
    flash: Vec<u8>,
    in_force: u32,
    usual_store: usize,
    usual_settings: usize,
}

impl Session {
    /// The session of a seed.
    pub fn new(seed: u64) -> Session {
        let mut random = Random::new(seed);
        Session {
            state: inputs::state(&mut random),
            store: random.bytes(inputs::STORE_MOST),
            settings: inputs::settings(&mut random),
            flash: random.bytes(FLASH_MOST),
            in_force: random.u32(),
            usual_store: inputs::usual_length(&mut random, STORE_BYTES, inputs::STORE_MOST),
            usual_settings: inputs::usual_length(
                &mut random,
                SETTINGS_BYTES,
                inputs::SETTINGS_MOST,
            ),
            random,
        }
    }

    /// Makes a call of some operation; says which and what where the two differ.
    pub fn call(&mut self) -> Found {
        let all = OPERATIONS.iter().map(|operation| operation.share).sum();
        let mut drawn = self.random.below(all);
        for operation in OPERATIONS {
            if drawn < operation.share {
                let found = (operation.call)(self);
                return found.map_err(|what| format!("{}: {what}", operation.name));
            }
            drawn -= operation.share;
        }
        unreachable!("a number below the sum of the shares is in one of them")
    }

    fn transact(&mut self) -> Found {
        let (transaction, bytes) = inputs::transaction(&mut self.random, &self.state);
        let mut state = State::from(&self.state_for_call(16));
        let mut settings = self.settings_for_call(16);
        let store_length = self.store_length();
        let settings_length = self.settings_length();

        let mut lent_state = GuardedState::new(state);
        let mut lent_store = Guarded::new(&self.store[..store_length], &mut self.random);
        let mut lent_settings = Guarded::new(&settings[..settings_length], &mut self.random);
        let lent_bytes = Guarded::new(&bytes, &mut self.random);
        let got = archive::transact(
            &mut lent_state.state,
            &mut lent_store,
            &mut lent_settings,
            transaction,
            &lent_bytes,
        );
        let wanted = second::transact(
            &mut state,
            &mut self.store[..store_length],
            &mut settings[..settings_length],
            transaction,
            &bytes,
        );
        same("reply", got, wanted)?;
        same("state", lent_state.state, state)?;
        guarded("state", lent_state.intact())?;
        same_bytes("store", &lent_store, &self.store[..store_length])?;
        same_bytes("settings", &lent_settings, &settings[..settings_length])?;
        same_bytes("data", &lent_bytes, &bytes)?;

        // What was altered and then not counted may be rejected for good.
        let counted = wanted.answer <= RECEIVE_ENABLE_TAKEN.into();
        if counted || wanted.answer == BAD_CHECK.into() {
            self.state = (&state).into();
            self.settings = settings;
        }
        Ok(())
    }

    fn fresh_state(&mut self) -> Found {
        let any = self.random.u32();
        let edges = [0, 1, 2, 239, 240, 241, 255, 256, 257, u32::MAX, any, any % 256];
        let maximum = self.random.pick(&edges);
        let check = self.random.one_in(2);
        same("made", archive::fresh_state(maximum, check), second::fresh_state(maximum, check))
    }

    fn fresh_settings(&mut self) -> Found {
        let length = self.settings_length();
        let mut lent = Guarded::new(&self.settings[..length], &mut self.random);
        let got = archive::fresh_settings(&mut lent);
        let wanted = second::fresh_settings(&mut self.settings[..length]);
        same("answer", got, wanted)?;
        same_bytes("settings", &lent, &self.settings[..length])
    }

    fn check_code(&mut self) -> Found {
        let address = self.random.byte();
        let command = self.random.byte();
        let length = inputs::coded_length(&mut self.random);
        let bytes = self.random.bytes(length);
        let lent = Guarded::new(&bytes, &mut self.random);
        let got = archive::check_code(address, command, &lent);
        same("code", got, second::check_code(address, command, &bytes))?;
        same_bytes("data", &lent, &bytes)
    }

    fn shown(&mut self) -> Found {
        let store_length = self.store_length();
        let any = self.random.below(inputs::STORE_MOST as u64) as usize;
        let edges = [0, 1, STORE_BYTES, STORE_BYTES + 1, store_length, store_length + 1, any];
        let beyond = [1 << 16 | 60, 1 << 32 | 60, usize::MAX];
        let length = if self.random.one_in(8) {
            self.random.pick(&beyond)
        } else {
            self.random.pick(&edges)
        };
        let lent = Guarded::new(&self.store[..store_length], &mut self.random);
        let wanted = second::shown(&self.store[..store_length], length);
        same("length", archive::shown(&lent, length), wanted)?;
        same_bytes("store", &lent, &self.store[..store_length])
    }

    fn mac_in_force(&mut self) -> Found {
        self.address(archive::mac_in_force, second::mac_in_force)
    }

    fn ipv4_in_force(&mut self) -> Found {
        self.address(archive::ipv4_in_force, second::ipv4_in_force)
    }

    fn address(
        &mut self,
        archive: fn(&[u8], &[u8]) -> Part,
        second: fn(&[u8], &[u8]) -> Part,
    ) -> Found {
        let settings_length = self.settings_length();
        let settings = &self.settings_for_call(4)[..settings_length];
        let flash_length = inputs::length(&mut self.random, FLASH_BYTES, FLASH_BYTES, FLASH_MOST);
        let flash = &self.flash[..flash_length];
        let lent_settings = Guarded::new(settings, &mut self.random);
        let lent_flash = Guarded::new(flash, &mut self.random);
        same("part", archive(&lent_settings, &lent_flash), second(settings, flash))?;
        same_bytes("settings", &lent_settings, settings)?;
        same_bytes("Flash", &lent_flash, flash)
    }

    fn write_status(&mut self) -> Found {
        let fields = inputs::status(&mut self.random);
        same("written", archive::write_status(fields), second::write_status(fields))
    }

    fn read_status(&mut self) -> Found {
        let block = inputs::block(&mut self.random);
        let lent = Guarded::new(&block, &mut self.random);
        same("read", archive::read_status(&lent), second::read_status(&block))?;
        same_bytes("block", &lent, &block)
    }

    fn set_link(&mut self) -> Found {
        let word = inputs::word(&mut self.random);
        let host_present = self.random.one_in(8);
        let media = self.random.pick(&[0, 0, 0, 1, 1, 1, 2, 256, u32::MAX]);
        let got = archive::set_link(self.in_force, word, host_present, media);
        let wanted = second::set_link(self.in_force, word, host_present, media);
        self.in_force = wanted.in_force;
        same("link", got, wanted)
    }

    fn print_account(&mut self) -> Found {
        let State { account, .. } = State::from(&self.state_for_call(4));
        let exact = second::print_account(account, &mut [0; ENOUGH_ROOM]);
        let length = inputs::length(&mut self.random, exact, exact.max(1), ENOUGH_ROOM);
        let mut wanted = self.random.bytes(length);
        let mut lent = Guarded::new(&wanted, &mut self.random);
        let got = archive::print_account(account, &mut lent);
        same("length", got, second::print_account(account, &mut wanted))?;
        same_bytes("printout", &lent, &wanted)
    }

    fn store_length(&mut self) -> usize {
        inputs::length(&mut self.random, self.usual_store, STORE_BYTES, inputs::STORE_MOST)
    }

    fn settings_length(&mut self) -> usize {
        inputs::length(&mut self.random, self.usual_settings, SETTINGS_BYTES, inputs::SETTINGS_MOST)
    }

    /// The state, altered once in so many times.
    fn state_for_call(&mut self, times: u64) -> state::State {
        if self.random.one_in(times) {
            inputs::altered(&mut self.random, &self.state)
        } else {
            self.state
        }
    }

    /// The settings, altered once in so many times.
    fn settings_for_call(&mut self, times: u64) -> Vec<u8> {
        if self.random.one_in(times) {
            inputs::altered_settings(&mut self.random, &self.settings)
        } else {
            self.settings.clone()
        }
    }
}

fn same<T: PartialEq + Debug>(what: &str, got: T, wanted: T) -> Found {
    if got == wanted {
        return Ok(());
    }
    Err(format!("{what}\n     got: {got:?}\n  wanted: {wanted:?}"))
}

fn same_bytes(what: &str, lent: &Guarded, wanted: &[u8]) -> Found {
    if let Some(place) = (0..wanted.len()).find(|&place| lent[place] != wanted[place]) {
        return same(&format!("byte {place} of the {what}"), lent[place], wanted[place]);
    }
    guarded(what, lent.intact())
}

fn guarded(what: &str, intact: bool) -> Found {
    if intact {
        return Ok(());
    }
    Err(format!("a byte beside the {what} has changed"))
}
