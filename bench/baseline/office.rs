//! Turns through an office in plain Rust, standard library alone: a clerk behind one `Mutex`, by one thread or by three.
//! Words: how many threads, how many entries a turn has, and how many sweeps of four turns are taken.
#![allow(dead_code)]

#[path = "console/banks.rs"]
mod banks;
#[path = "office/clerk.rs"]
mod clerk;
#[path = "console/device.rs"]
mod device;
#[path = "console/entry.rs"]
mod entry;
#[path = "console/journal.rs"]
mod journal;
#[path = "console/ledger.rs"]
mod ledger;
#[path = "console/line.rs"]
mod line;
#[path = "office/seats.rs"]
mod seats;

use banks::sectors_needed;
use clerk::{Clerk, TurnRefusal};
use device::{Device, MemoryDevice};
use entry::Entry;
use journal::format;
use ledger::{ACCOUNTS, BATCH_LIMIT};
use line::Line;
use seats::{Office, Seat};
use std::env;
use std::thread;
use std::time::Instant;

/// How many sweeps of four turns are taken, and how many entries a turn has.
#[derive(Clone, Copy)]
struct Load {
    sweeps: u32,
    entries: usize,
}

const PLACES: [u32; BATCH_LIMIT] = [0, 1, 2, 3, 4, 5, 6, 7, 8, 9, 10, 11, 12, 13, 14];

/// A deposit, a transfer of a part of it, or a withdrawal of a part of that: each is accepted after those before it.
fn entry_of(station: usize, place: u32) -> Entry {
    let from = 10 * station as u32 + place / 3 + 1;
    let to = from + 5;
    let reference = u64::from(place);
    match place % 3 {
        0 => Entry::Deposit { to: from, amount: 9, reference },
        1 => Entry::Transfer { from, to, amount: 5, reference },
        _ => Entry::Withdraw { from: to, amount: 2, reference },
    }
}

fn batch_of(station: usize) -> [Entry; BATCH_LIMIT] {
    PLACES.map(|place| entry_of(station, place))
}

impl Load {
    fn part_of<'a>(&self, batch: &'a [Entry; BATCH_LIMIT]) -> &'a [Entry] {
        &batch[..self.entries]
    }

    /// The turns of a station: within a sweep the middle one has two.
    fn turns(&self, station: usize) -> usize {
        let sweeps = self.sweeps as usize;
        if station == 1 { 2 * sweeps } else { sweeps }
    }
}

// Takes turns until the seat has all of them; a station whose turn it isn't lets others go on.
fn take_turns<D: Device>(office: &Office<D>, seat: &mut Seat, load: Load) {
    let batch = batch_of(seat.station);
    let turns = load.turns(seat.station);
    while seat.turns.len() < turns {
        match office.turn(seat, load.part_of(&batch)) {
            Ok(_) => {}
            Err(TurnRefusal::NotPrivileged) => thread::yield_now(),
            Err(_) => return,
        }
    }
}

// Each seat's turns in a thread of its own.
fn by_three<D: Device + Send>(office: &Office<D>, seats: &mut [Seat], load: Load) {
    let Some((bottom, others)) = seats.split_first_mut() else {
        return;
    };
    thread::scope(|scope| {
        for seat in others {
            scope.spawn(move || take_turns(office, seat, load));
        }
        take_turns(office, bottom, load);
    });
}

// All seats' turns in the order of the sweep.
fn by_one<D: Device>(office: &Office<D>, seats: &mut [Seat], load: Load) {
    let [bottom, middle, top] = seats else {
        return;
    };
    let batches = [0, 1, 2].map(batch_of);
    for _ in 0..load.sweeps {
        let _ = office.turn(bottom, load.part_of(&batches[0]));
        let _ = office.turn(middle, load.part_of(&batches[1]));
        let _ = office.turn(top, load.part_of(&batches[2]));
        let _ = office.turn(middle, load.part_of(&batches[1]));
    }
}

// A number that depends on each balance.
fn mixed<D: Device>(clerk: &Clerk<D>) -> u64 {
    let mut balances = [0; ACCOUNTS as usize];
    for (account, balance) in clerk.ledger().holding() {
        balances[account as usize - 1] = balance;
    }
    balances.iter().fold(0, |mixed: u64, balance| mixed.wrapping_mul(31).wrapping_add(*balance))
}

fn timed(threads: u32, load: Load) {
    let slots = 4 * u64::from(load.sweeps) + 1;
    let mut device = MemoryDevice::new(sectors_needed(slots));
    format(&mut device, slots).expect("room for the slots");
    let line = Line::new(3, &[false; 3], &[true, false, false]).expect("a line of three");
    let Ok(clerk) = Clerk::open(device, line) else {
        panic!("the device was formatted");
    };
    let (office, mut seats) = Office::open(clerk);
    let start = Instant::now();
    match threads {
        1 => by_one(&office, &mut seats, load),
        _ => by_three(&office, &mut seats, load),
    }
    let time = start.elapsed().as_nanos();
    let clerk = office.close(&seats).expect("seats that the history bears out");
    let (turns, next, total) = (clerk.history().len(), clerk.next(), clerk.ledger().total());
    println!("{turns} {next} {total} {} {time}", mixed(&clerk));
}

fn number(word: &str) -> u32 {
    word.parse().expect("a number")
}

fn main() {
    let words: Vec<String> = env::args().collect();
    let [_, threads, entries, sweeps] = words.as_slice() else {
        panic!("three words");
    };
    timed(number(threads), Load { sweeps: number(sweeps), entries: number(entries) as usize });
}
