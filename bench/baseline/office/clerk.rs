//! A clerk that keeps a history of its turns.

use crate::device::Device;
use crate::entry::{Entry, Verdict};
use crate::journal::{AppendRefusal, Journal, OpenRefusal, Record};
use crate::ledger::{Ledger, Verdicts, BATCH_LIMIT};
use crate::line::{Line, Rule};

#[derive(Clone, Copy, Debug)]
pub enum TurnRefusal {
    Faulted,
    NoStation,
    NotPrivileged,
    TooMany,
    Exhausted,
    Device,
}

impl From<AppendRefusal> for TurnRefusal {
    fn from(refusal: AppendRefusal) -> TurnRefusal {
        match refusal {
            AppendRefusal::Faulted => TurnRefusal::Faulted,
            AppendRefusal::Exhausted => TurnRefusal::Exhausted,
            AppendRefusal::Device => TurnRefusal::Device,
        }
    }
}

/// What stands at an unused place of a batch.
const UNUSED: Entry = Entry::Deposit { to: 0, amount: 0, reference: 0 };

/// At most 15 entries, which lie in the value itself.
#[derive(Clone, Copy)]
pub struct Batch {
    entries: [Entry; BATCH_LIMIT],
    count: usize,
}

impl Batch {
    fn of(entries: &[Entry]) -> Batch {
        let mut batch = Batch { entries: [UNUSED; BATCH_LIMIT], count: entries.len() };
        batch.entries[..entries.len()].copy_from_slice(entries);
        batch
    }

    pub fn as_slice(&self) -> &[Entry] {
        &self.entries[..self.count]
    }
}

/// A turn that was taken.
#[derive(Clone, Copy)]
pub struct Turn {
    pub index: u64,
    pub station: usize,
    pub rule: Rule,
    pub entries: Batch,
    pub verdicts: Verdicts,
    pub posted: Option<u64>,
}

pub struct Clerk<D: Device> {
    device: D,
    journal: Journal,
    ledger: Ledger,
    line: Line,
    history: Vec<Turn>,
}

impl<D: Device> Clerk<D> {
    /// The clerk of a device that was formatted and holds no record.
    pub fn open(mut device: D, line: Line) -> Result<Clerk<D>, OpenRefusal> {
        let live = Journal::find(&mut device)?;
        let journal = Journal::read(&mut device, live, |_, _| {})?;
        Ok(Clerk { device, journal, ledger: Ledger::new(), line, history: Vec::new() })
    }

    pub fn stations(&self) -> usize {
        self.line.stations()
    }

    pub fn ledger(&self) -> &Ledger {
        &self.ledger
    }

    pub fn history(&self) -> &[Turn] {
        &self.history
    }

    pub fn next(&self) -> u64 {
        self.journal.next()
    }

    pub fn turn(&mut self, station: usize, entries: &[Entry]) -> Result<Turn, TurnRefusal> {
        let rule = self.admitted(station, entries.len())?;
        let verdicts = self.ledger.screen(entries);
        let record = Record::of(station, accepted(entries, verdicts.as_slice()));
        let posted = match record.is_empty() {
            true => None,
            false => Some(self.journal.append(&mut self.device, &record, self.ledger.accounts())?),
        };
        for entry in accepted(entries, verdicts.as_slice()) {
            self.ledger.post(entry).expect("an accepted entry");
        }
        self.line.make_move(station, rule);
        let index = self.history.len() as u64;
        let turn = Turn { index, station, rule, entries: Batch::of(entries), verdicts, posted };
        self.history.push(turn);
        Ok(turn)
    }

    // The rule by which a station takes a turn with so many entries.
    fn admitted(&self, station: usize, entries: usize) -> Result<Rule, TurnRefusal> {
        if self.journal.is_faulted() {
            return Err(TurnRefusal::Faulted);
        }
        if station >= self.line.stations() {
            return Err(TurnRefusal::NoStation);
        }
        let rule = self.line.privilege(station).ok_or(TurnRefusal::NotPrivileged)?;
        if entries > BATCH_LIMIT {
            return Err(TurnRefusal::TooMany);
        }
        Ok(rule)
    }
}

fn accepted<'a>(entries: &'a [Entry], verdicts: &'a [Verdict]) -> impl Iterator<Item = &'a Entry> {
    let judged = entries.iter().zip(verdicts);
    judged.filter(|(_, verdict)| verdict.is_ok()).map(|(entry, _)| entry)
}
