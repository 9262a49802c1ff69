//! What is carried from one case to the next, and the check of the translator
//! against the history.

use reference::answer_numbers::{ACCOUNT_FULL, BAD_CHECK, DONE, NOT_SOUND, PACKET_SENT, TOO_SHORT};
use reference::history::{History, Setup, Transaction};
use reference::packet::{self, LONGEST_PACKET};
use reference::settings::{self, MAC_KEPT};
use reference::state::{self, State, CHECK_ON};
use reference::translator;

/// How the translator and the history disagree.
pub type Disagreement = &'static str;

/// The state, the store and the settings that transactions work on.
#[derive(Default)]
pub struct Carried {
    /// The state.
    pub state: State,
    /// The store.
    pub store: Vec<u8>,
    /// The settings.
    pub settings: Vec<u8>,
    since_fresh: Option<SinceFresh>,
}

/// The counted transactions since the state was fresh.
struct SinceFresh {
    setup: Setup,
    list: Vec<Transaction>,
}

impl Carried {
    /// Carries these from here on.
    pub fn start(state: State, store: Vec<u8>, settings: Vec<u8>) -> Carried {
        let check = state.check == CHECK_ON;
        let is_fresh = u32::try_from(state.maximum)
            .map_or(false, |maximum| state::fresh(maximum, check) == (DONE, state));
        // Without room or sound settings no transaction is ever counted; with
        // them, and from a fresh state on, each is.
        let has_room = store.len() as u64 >= LONGEST_PACKET;
        let is_counted = is_fresh && has_room && settings::is_sound(&settings);
        let since_fresh = is_counted.then(|| {
            let mac_kept_before = settings[1] & MAC_KEPT != 0;
            let setup = Setup { maximum: state.maximum, check, mac_kept_before };
            SinceFresh { setup, list: Vec::new() }
        });
        Carried { state, store, settings, since_fresh }
    }

    /// Does one transaction: the answer and the sent length.
    pub fn transact(&mut self, transaction: Transaction) -> Result<(u8, u16), Disagreement> {
        let before = (self.state, self.store.clone(), self.settings.clone());
        let Transaction { address, command, code, link_up, .. } = transaction;
        let (answer, sent) = translator::transact(
            &mut self.state,
            &mut self.store,
            &mut self.settings,
            translator::Transaction { address, command, code, link_up },
            &transaction.data,
        );
        if answer == BAD_CHECK && (&before.1, &before.2) != (&self.store, &self.settings) {
            return Err("a transaction with a wrong check byte changes store or settings");
        }
        if [TOO_SHORT, NOT_SOUND, ACCOUNT_FULL].contains(&answer) {
            if before != (self.state, self.store.clone(), self.settings.clone()) {
                return Err("a transaction that is not counted changes something");
            }
            if self.since_fresh.is_some() {
                return Err("a transaction is not counted");
            }
        } else if let Some(since_fresh) = &mut self.since_fresh {
            since_fresh.list.push(transaction);
        }
        if let Some(since_fresh) = &self.since_fresh {
            self.check(since_fresh, answer, sent)?;
        }
        Ok((answer, sent))
    }

    fn check(&self, since: &SinceFresh, answer: u8, sent: u16) -> Result<(), Disagreement> {
        let history = History::of(since.setup, &since.list);
        let (account, Setup { maximum, check, .. }) = (history.account(), since.setup);
        if self.state != (State { account, maximum, check: u8::from(check) }) {
            return Err("another state");
        }
        if (answer, u64::from(sent)) != history.answer(since.list.len() - 1) {
            return Err("another answer");
        }
        if answer == PACKET_SENT {
            let shown = packet::shown(&self.store, u64::from(sent));
            let packet = history.sent().last().map(|run| history.packet(run));
            if !packet.map_or(false, |packet| packet.eq(shown.iter().copied())) {
                return Err("another packet sent");
            }
        }
        if let Some(run) = history.open() {
            let mut in_store = self.store.iter().copied();
            if !history.stored(run).all(|byte| in_store.next() == Some(byte)) {
                return Err("another open packet");
            }
        }
        Ok(())
    }
}
