//! Posts and screened batches of the ledger of the console in plain Rust. Word: how many accounts the entries are spread
//! over, from 1 to 1,024.
#![allow(dead_code)]

#[path = "console/entry.rs"]
mod entry;
#[path = "console/ledger.rs"]
mod ledger;

use entry::Entry;
use ledger::{Ledger, BATCH_LIMIT};
use std::env;
use std::time::Instant;

const ENTRIES: usize = 4096;
const ROUNDS: u32 = 5000;
const SCREENED_ROUNDS: u32 = 250;

/// The next number of a linear congruential generator.
fn next(seed: u64) -> u64 {
    seed.wrapping_mul(6_364_136_223_846_793_005)
        .wrapping_add(1_442_695_040_888_963_407)
}

/// One of so many accounts.
fn account(word: u64, accounts: u32) -> u32 {
    (word % u64::from(accounts)) as u32 + 1
}

fn entry_of(word: u64, accounts: u32) -> Entry {
    let from = account(word >> 20, accounts);
    let to = account(word >> 30, accounts);
    let amount = (word >> 40) % 1000;
    let reference = word;
    match (word >> 56) % 3 {
        0 => Entry::Deposit { to, amount, reference },
        1 => Entry::Withdraw { from, amount, reference },
        _ => Entry::Transfer { from, to, amount, reference },
    }
}

fn main() {
    let accounts = env::args().nth(1).expect("a word").parse().expect("a number");
    let mut seed = 1;
    let mut entries = Vec::with_capacity(ENTRIES);
    for _ in 0..ENTRIES {
        seed = next(seed);
        entries.push(entry_of(seed, accounts));
    }
    let mut ledger = Ledger::new();

    let start = Instant::now();
    let mut posted: u64 = 0;
    for _ in 0..ROUNDS {
        for entry in &entries {
            if ledger.post(entry).is_ok() {
                posted = posted.wrapping_add(1);
            }
        }
    }
    let time = start.elapsed().as_nanos();
    println!("post {posted} {} {time}", ledger.total());

    let start = Instant::now();
    let mut screened: u64 = 0;
    for _ in 0..SCREENED_ROUNDS {
        for batch in entries.windows(BATCH_LIMIT) {
            let verdicts = ledger.screen(batch);
            let accepted = verdicts.as_slice().iter().filter(|verdict| verdict.is_ok()).count();
            screened = screened.wrapping_add(accepted as u64);
        }
    }
    let time = start.elapsed().as_nanos();
    println!("screen {screened} {} {time}", ledger.total());
}
