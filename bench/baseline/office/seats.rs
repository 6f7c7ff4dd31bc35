//! A clerk behind one lock, and a seat for each station.

use crate::clerk::{Clerk, Turn, TurnRefusal};
use crate::device::Device;
use crate::entry::Entry;
use std::sync::{Mutex, PoisonError};

/// A station's list of the turns that it took, and how many the history held when it was last not its turn.
pub struct Seat {
    pub station: usize,
    pub turns: Vec<Turn>,
    pub denied: Option<u64>,
}

pub struct Office<D: Device> {
    clerk: Mutex<Clerk<D>>,
}

impl<D: Device> Office<D> {
    pub fn open(clerk: Clerk<D>) -> (Office<D>, Vec<Seat>) {
        let seat = |station| Seat { station, turns: Vec::new(), denied: None };
        let seats = (0..clerk.stations()).map(seat).collect();
        (Office { clerk: Mutex::new(clerk) }, seats)
    }

    pub fn turn(&self, seat: &mut Seat, entries: &[Entry]) -> Result<Turn, TurnRefusal> {
        seat.turns.reserve(1);
        let (answer, held) = self.answer(seat.station, entries);
        match &answer {
            Ok(turn) => seat.turns.push(*turn),
            Err(TurnRefusal::NotPrivileged) => seat.denied = Some(held),
            Err(_) => {}
        }
        answer
    }

    /// A turn where the history holds fewer than so many, and else None.
    pub fn turn_within(&self, seat: &mut Seat, entries: &[Entry], limit: u64) -> Option<Result<Turn, TurnRefusal>> {
        seat.turns.reserve(1);
        let (answer, held) = self.answer_within(seat.station, entries, limit);
        match &answer {
            Some(Ok(turn)) => seat.turns.push(*turn),
            Some(Err(TurnRefusal::NotPrivileged)) => seat.denied = Some(held),
            Some(Err(_)) | None => {}
        }
        answer
    }

    // What the clerk answers within a limit, and how many turns its history held before.
    fn answer_within(&self, station: usize, entries: &[Entry], limit: u64) -> (Option<Result<Turn, TurnRefusal>>, u64) {
        let mut clerk = self.clerk.lock().unwrap_or_else(PoisonError::into_inner);
        let held = clerk.history().len() as u64;
        ((held < limit).then(|| clerk.turn(station, entries)), held)
    }

    // What the clerk answers, and how many turns its history held before.
    fn answer(&self, station: usize, entries: &[Entry]) -> (Result<Turn, TurnRefusal>, u64) {
        let mut clerk = self.clerk.lock().unwrap_or_else(PoisonError::into_inner);
        let held = clerk.history().len() as u64;
        (clerk.turn(station, entries), held)
    }

    /// The clerk, where each seat's list has as many turns as the history has of its station, in the same places.
    pub fn close(self, seats: &[Seat]) -> Option<Clerk<D>> {
        let clerk = self.clerk.into_inner().unwrap_or_else(PoisonError::into_inner);
        let borne_out = seats.iter().all(|seat| {
            let history = clerk.history().iter().filter(|turn| turn.station == seat.station);
            history.map(|turn| turn.index).eq(seat.turns.iter().map(|turn| turn.index))
        });
        borne_out.then_some(clerk)
    }
}
