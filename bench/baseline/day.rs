//! Stations that take turns in plain Rust, standard library alone, each in a thread of its own, alone or with a client at
//! each in a thread of its own. Words: how many stations, how many places each ring of a client has, or 0 for no clients,
//! and how many turns are taken.
#![allow(dead_code)]

#[path = "console/banks.rs"]
mod banks;
#[path = "office/clerk.rs"]
mod clerk;
#[path = "day/desk.rs"]
mod desk;
#[path = "console/device.rs"]
mod device;
#[path = "console/entry.rs"]
mod entry;
#[path = "console/journal.rs"]
mod journal;
#[path = "console/ledger.rs"]
mod ledger;
#[path = "console/line.rs"]
mod line;
#[path = "day/ring.rs"]
mod ring;
#[path = "office/seats.rs"]
mod seats;
#[path = "day/stations.rs"]
mod stations;

use banks::sectors_needed;
use clerk::Clerk;
use desk::{desk, Feed, Outcome};
use device::{Device, MemoryDevice};
use entry::Entry;
use journal::format;
use line::Line;
use seats::{Office, Seat};
use stations::{run_stations, End, Station};
use std::env;
use std::sync::atomic::{AtomicBool, Ordering};
use std::thread;
use std::time::Instant;

/// How many stations there are, how many places a ring has, and how many turns are taken.
#[derive(Clone, Copy)]
struct Load {
    stations: usize,
    places: usize,
    turns: u64,
}

const TRIES: u64 = u64::MAX;

/// A client, and how many requests it submitted, how many answers it collected that tell of a posted entry, and how many
/// others.
struct Client {
    feed: Feed,
    submitted: u64,
    posted: u64,
    others: u64,
}

impl Client {
    fn at(feed: Feed) -> Client {
        Client { feed, submitted: 0, posted: 0, others: 0 }
    }

    // Submits one more deposit, where there is a place for it.
    fn submit(&mut self) -> bool {
        let deposit = Entry::Deposit { to: 1, amount: 1, reference: self.submitted };
        let submitted = self.feed.submit(deposit).is_some();
        if submitted {
            self.submitted += 1;
        }
        submitted
    }

    // Collects one more answer, where there is one.
    fn collect(&mut self) -> bool {
        let Some(answer) = self.feed.answer() else {
            return false;
        };
        match answer.outcome {
            Outcome::Posted(_) => self.posted += 1,
            Outcome::Refused(_) | Outcome::Undecided => self.others += 1,
        }
        true
    }

    // Submits and collects until the stations have ended; where it can do neither it lets others go on.
    fn work(&mut self, ended: &AtomicBool) {
        while !ended.load(Ordering::SeqCst) {
            let submitted = self.submit();
            let collected = self.collect();
            if !submitted && !collected {
                thread::yield_now();
            }
        }
    }
}

// Runs the stations, and beside them the clients until the stations have ended.
fn run_beside<D: Device + Send>(office: &Office<D>, stations: &mut [Station], clients: &mut [Client], turns: u64) {
    let ended = &AtomicBool::new(false);
    thread::scope(|scope| {
        for client in clients {
            scope.spawn(move || client.work(ended));
        }
        run_stations(office, stations, turns, TRIES);
        ended.store(true, Ordering::SeqCst);
    });
}

// A client for each seat, and the stations that serve them.
fn seated(seats: Vec<Seat>, places: usize) -> (Vec<Client>, Vec<Station>) {
    let pairs = seats.into_iter().map(|seat| {
        let (feed, desk) = desk(places.max(1));
        (Client::at(feed), Station { seat, desk, end: End::NotStarted })
    });
    pairs.unzip()
}

// The seats of stations that have all had their turns.
fn risen(stations: Vec<Station>) -> Vec<Seat> {
    assert!(stations.iter().all(|station| station.end == End::Reached), "turns for all");
    stations.into_iter().map(|station| station.seat).collect()
}

fn timed(load: Load) {
    let slots = if load.places == 0 { 1 } else { load.turns + 1 };
    let mut device = MemoryDevice::new(sectors_needed(slots));
    format(&mut device, slots).expect("room for the slots");
    let low = vec![false; load.stations];
    let line = Line::new(load.stations as u64, &low, &low).expect("a line");
    let Ok(clerk) = Clerk::open(device, line) else {
        panic!("the device was formatted");
    };
    let (office, seats) = Office::open(clerk);
    let (mut clients, mut stations) = seated(seats, load.places);
    let start = Instant::now();
    match load.places {
        0 => run_stations(&office, &mut stations, load.turns, TRIES),
        _ => run_beside(&office, &mut stations, &mut clients, load.turns),
    }
    let time = start.elapsed().as_nanos();
    let sum = |count: fn(&Client) -> u64| clients.iter().map(count).sum::<u64>();
    let (submitted, posted, others) = (sum(|c| c.submitted), sum(|c| c.posted), sum(|c| c.others));
    let clerk = office.close(&risen(stations)).expect("seats that the history bears out");
    let (taken, next, total) = (clerk.history().len(), clerk.next(), clerk.ledger().total());
    println!("{taken} {next} {total} {submitted} {posted} {others} {time}");
}

fn number(word: &str) -> u64 {
    word.parse().expect("a number")
}

fn main() {
    let words: Vec<String> = env::args().collect();
    let [_, stations, places, turns] = words.as_slice() else {
        panic!("three words");
    };
    timed(Load { stations: number(stations) as usize, places: number(places) as usize, turns: number(turns) });
}
