//! Stations that take turns, each in a thread of its own.

use crate::clerk::TurnRefusal;
use crate::desk::Desk;
use crate::device::Device;
use crate::seats::{Office, Seat};
use std::sync::atomic::{AtomicBool, Ordering};
use std::thread;

#[derive(Clone, Copy, Debug, PartialEq, Eq)]
pub enum End {
    NotStarted,
    Reached,
    Stopped,
    Tries,
    Refused,
}

pub struct Station {
    pub seat: Seat,
    pub desk: Desk,
    pub end: End,
}

/// Runs the stations until the history holds so many turns.
pub fn run_stations<D: Device + Send>(office: &Office<D>, stations: &mut [Station], moves: u64, tries: u64) {
    let stop = &AtomicBool::new(false);
    let Some((bottom, others)) = stations.split_first_mut() else {
        return;
    };
    thread::scope(|scope| {
        for station in others {
            scope.spawn(move || run_station(office, station, stop, moves, tries));
        }
        run_station(office, bottom, stop, moves, tries);
    });
}

// The run of one station; one that ends otherwise than as Reached stops the others.
fn run_station<D: Device>(office: &Office<D>, station: &mut Station, stop: &AtomicBool, moves: u64, tries: u64) {
    station.end = work(office, station, stop, moves, tries);
    if station.end != End::Reached {
        stop.store(true, Ordering::SeqCst);
    }
}

fn work<D: Device>(office: &Office<D>, station: &mut Station, stop: &AtomicBool, moves: u64, tries: u64) -> End {
    let mut refused = 0;
    loop {
        if stop.load(Ordering::SeqCst) {
            return End::Stopped;
        }
        let entries = station.desk.gather();
        match office.turn_within(&mut station.seat, entries, moves) {
            None => return End::Reached,
            Some(Ok(turn)) => {
                station.desk.settle(&turn);
                refused = 0;
            }
            Some(Err(TurnRefusal::NotPrivileged)) if refused >= tries => return End::Tries,
            Some(Err(TurnRefusal::NotPrivileged)) => {
                refused += 1;
                thread::yield_now();
            }
            Some(Err(refusal)) => {
                if matches!(refusal, TurnRefusal::Device) {
                    station.desk.give_up();
                }
                return End::Refused;
            }
        }
    }
}
