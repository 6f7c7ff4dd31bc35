//! The console in plain Rust, standard library alone, as a Rust programmer would write it: the same command line,
//! scripts, layout on the device, order of device calls, and printed lines.

#[path = "console/banks.rs"]
mod banks;
#[path = "console/device.rs"]
mod device;
#[path = "console/engine.rs"]
mod engine;
#[path = "console/entry.rs"]
mod entry;
#[path = "console/faults.rs"]
mod faults;
#[path = "console/history.rs"]
mod history;
#[path = "console/journal.rs"]
mod journal;
#[path = "console/ledger.rs"]
mod ledger;
#[path = "console/line.rs"]
mod line;
#[path = "console/office.rs"]
mod office;
#[path = "console/script.rs"]
mod script;

use device::{Device, FileDevice, MemoryDevice};
use engine::Console;
use faults::Fault;
use std::env;
use std::io::{self, BufWriter, Read};
use std::path::Path;
use std::process::ExitCode;

const DEFAULT_SECTORS: u64 = 64;
const MOST_SECTORS: u64 = 4_000_039;
const SCRIPT_LIMIT: usize = 16_777_216;

/// How many bytes of output are gathered before they are written.
const GATHERED: usize = 65_536;

struct Options {
    device: Option<String>,
    sectors: u64,
}

fn main() -> ExitCode {
    let options = match options(env::args().skip(1)) {
        Ok(options) => options,
        Err(message) => {
            eprintln!("error: {message}");
            return ExitCode::from(2);
        }
    };
    match run(&options) {
        Ok(()) => ExitCode::SUCCESS,
        Err(fault) => {
            eprintln!("{fault}");
            ExitCode::FAILURE
        }
    }
}

fn options(mut words: impl Iterator<Item = String>) -> Result<Options, String> {
    let mut options = Options { device: None, sectors: DEFAULT_SECTORS };
    while let Some(word) = words.next() {
        let (name, value) = match word.split_once('=') {
            Some((name, value)) => (name, value.to_string()),
            None => {
                let value = words.next().ok_or_else(|| format!("{word} needs a value"))?;
                (word.as_str(), value)
            }
        };
        match name {
            "--device" => options.device = Some(value),
            "--sectors" => options.sectors = sectors(&value)?,
            _ => return Err(format!("unexpected word {name}")),
        }
    }
    Ok(options)
}

fn sectors(value: &str) -> Result<u64, String> {
    match value.parse() {
        Ok(sectors) if (1..=MOST_SECTORS).contains(&sectors) => Ok(sectors),
        _ => Err(format!("{value} is no number from 1 to {MOST_SECTORS}")),
    }
}

fn run(options: &Options) -> Result<(), Fault> {
    match &options.device {
        Some(path) => {
            let device = FileDevice::open(Path::new(path), options.sectors);
            run_script(device.map_err(|_| Fault::Device)?)
        }
        None => run_script(MemoryDevice::new(options.sectors)),
    }
}

fn run_script<D: Device>(device: D) -> Result<(), Fault> {
    let script = read_script()?;
    let output = BufWriter::with_capacity(GATHERED, io::stdout().lock());
    Console::new(device, output).run(&script)
}

fn read_script() -> Result<Vec<u8>, Fault> {
    let mut script = Vec::new();
    let mut reader = io::stdin().lock().take(SCRIPT_LIMIT as u64 + 1);
    reader.read_to_end(&mut script).map_err(|_| Fault::Read)?;
    if script.len() > SCRIPT_LIMIT {
        return Err(Fault::TooLong);
    }
    Ok(script)
}
