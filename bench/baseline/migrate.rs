//! Copies the ledger of a file of layout 2 onto another file in plain Rust, standard library alone: by the same calls of
//! both files, in the same order, as `--migrate`. Words: the older file, the other one, and the slots of each of its banks.
#![allow(dead_code)]

#[path = "console/banks.rs"]
mod banks;
#[path = "console/device.rs"]
mod device;
#[path = "console/entry.rs"]
mod entry;
#[path = "console/journal.rs"]
mod journal;
#[path = "console/ledger.rs"]
mod ledger;
#[path = "migrate/older.rs"]
mod older;

use device::{Device, FileDevice, SECTOR};
use journal::format_with;
use ledger::Ledger;
use older::{Fault, Older};
use std::env;
use std::path::Path;
use std::process::ExitCode;

const DEFAULT_SECTORS: u64 = 64;

fn main() -> ExitCode {
    let words: Vec<String> = env::args().skip(1).collect();
    let [old, new, slots] = &words[..] else {
        eprintln!("the words are two files and a number of slots");
        return ExitCode::from(2);
    };
    match migrate(Path::new(old), Path::new(new), slots.parse().expect("a number of slots")) {
        Ok(()) => {
            println!("migrated {slots}");
            ExitCode::SUCCESS
        }
        Err(_) => {
            eprintln!("migrate refused");
            ExitCode::FAILURE
        }
    }
}

fn migrate(old: &Path, new: &Path, slots: u64) -> Result<(), Fault> {
    let mut old = FileDevice::open(old, 0)?;
    let mut new = FileDevice::open(new, DEFAULT_SECTORS)?;
    new.read(0, &mut [0; SECTOR])?;
    let older = Older::open(&mut old)?;
    let mut ledger = Ledger::new();
    if !ledger.restore(older.read_snapshot(&mut old)?) {
        return Err(Fault);
    }
    older.replay(&mut old, &mut ledger)?;
    drop(old);
    format_with(&mut new, slots, older.next(), ledger.accounts()).map_err(|_| Fault)
}
