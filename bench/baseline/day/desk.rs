//! A client's end and a station's end of two rings: requests go one way, and answers come back in order.

use crate::clerk::Turn;
use crate::entry::{Entry, EntryRefusal};
use crate::ledger::BATCH_LIMIT;
use crate::ring::{ring, Consumer, Producer};

#[derive(Clone, Copy)]
pub struct Ask {
    ticket: u64,
    entry: Entry,
}

#[derive(Clone, Copy)]
pub struct Answer {
    pub ticket: u64,
    pub entry: Entry,
    pub outcome: Outcome,
}

#[derive(Clone, Copy)]
pub enum Outcome {
    Posted(u64),
    Refused(EntryRefusal),
    Undecided,
}

pub struct Feed {
    asks: Producer<Ask>,
    answers: Consumer<Answer>,
    next: u64,
}

/// What a station holds, and the entries of it once more, side by side.
pub struct Desk {
    asks: Consumer<Ask>,
    answers: Producer<Answer>,
    held: Vec<Ask>,
    entries: Vec<Entry>,
}

pub fn desk(capacity: usize) -> (Feed, Desk) {
    let (asked, gathered) = ring(capacity);
    let (given, collected) = ring(capacity);
    let (held, entries) = (Vec::with_capacity(BATCH_LIMIT), Vec::with_capacity(BATCH_LIMIT));
    (Feed { asks: asked, answers: collected, next: 0 }, Desk { asks: gathered, answers: given, held, entries })
}

impl Feed {
    /// Submits an entry, where there is a place for it.
    pub fn submit(&mut self, entry: Entry) -> Option<u64> {
        let ticket = self.next;
        if !self.asks.push(Ask { ticket, entry }) {
            return None;
        }
        self.next += 1;
        Some(ticket)
    }

    pub fn answer(&mut self) -> Option<Answer> {
        self.answers.pop()
    }
}

impl Desk {
    /// Takes requests as far as a turn and the ring of answers have room, and lends the entries of all that is held.
    pub fn gather(&mut self) -> &[Entry] {
        let room = self.answers.slots().min(BATCH_LIMIT);
        while self.held.len() < room {
            let Some(ask) = self.asks.pop() else {
                break;
            };
            self.held.push(ask);
            self.entries.push(ask.entry);
        }
        &self.entries
    }

    /// Answers each request that is held by a turn that took their entries.
    pub fn settle(&mut self, turn: &Turn) {
        for (ask, verdict) in self.held.iter().zip(turn.verdicts.as_slice()) {
            let outcome = match (verdict, turn.posted) {
                (Err(refusal), _) => Outcome::Refused(*refusal),
                (Ok(()), Some(number)) => Outcome::Posted(number),
                (Ok(()), None) => unreachable!("an accepted entry has a number"),
            };
            self.answers.push(Answer { ticket: ask.ticket, entry: ask.entry, outcome });
        }
        self.held.clear();
        self.entries.clear();
    }

    /// Answers each request that is held that it is undecided.
    pub fn give_up(&mut self) {
        for ask in &self.held {
            self.answers.push(Answer { ticket: ask.ticket, entry: ask.entry, outcome: Outcome::Undecided });
        }
        self.held.clear();
        self.entries.clear();
    }
}
