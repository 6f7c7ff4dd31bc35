//! What an office remembers of its turns since the opening: how many they were, or, built with `--cfg keeps_history`, each
//! of them with what the station's clients asked.

use crate::entry::Entry;
use crate::office::Turn;

#[cfg(not(keeps_history))]
#[derive(Default)]
pub struct History {
    turns: u64,
}

#[cfg(not(keeps_history))]
impl History {
    /// The index of the next turn.
    pub fn next(&self) -> u64 {
        self.turns
    }

    pub fn add(&mut self, _turn: &Turn, _entries: &[Entry]) {
        self.turns += 1;
    }
}

#[cfg(keeps_history)]
#[derive(Default)]
pub struct History {
    turns: Vec<Kept>,
}

#[cfg(keeps_history)]
#[allow(dead_code)] // the console prints no history
struct Kept {
    turn: Turn,
    entries: [Entry; crate::ledger::BATCH_LIMIT],
    count: usize,
}

#[cfg(keeps_history)]
impl History {
    /// The index of the next turn.
    pub fn next(&self) -> u64 {
        self.turns.len() as u64
    }

    pub fn add(&mut self, turn: &Turn, entries: &[Entry]) {
        let mut places = [Entry::Deposit { to: 0, amount: 0, reference: 0 }; crate::ledger::BATCH_LIMIT];
        places[..entries.len()].copy_from_slice(entries);
        self.turns.push(Kept { turn: *turn, entries: places, count: entries.len() });
    }
}
