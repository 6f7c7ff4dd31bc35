//! Runs a script's commands over a device, and prints what they answer.

use crate::device::Device;
use crate::entry::Entry;
use crate::faults::Fault;
use crate::journal::{format, Cause, FormatRefusal, OpenRefusal};
use crate::line::{Line, LineRefusal};
use crate::office::{Office, PostRefusal, Turn, TurnRefusal};
use crate::script::{lines, read_command, Command};
use std::fmt;
use std::io::Write;

/// Why a line of a script was refused. The script goes on.
enum Refusal {
    NoOffice,
    OfficeOpen,
    Format(FormatRefusal),
    Line(LineRefusal),
    Open(OpenRefusal),
    Post(PostRefusal),
    Turn(TurnRefusal),
}

pub struct Console<D: Device, W: Write> {
    device: D,
    office: Option<Office>,
    output: W,
}

impl<D: Device, W: Write> Console<D, W> {
    pub fn new(device: D, output: W) -> Console<D, W> {
        Console { device, office: None, output }
    }

    /// Runs the lines up to the first wrong one. What earlier lines printed stands.
    pub fn run(&mut self, script: &[u8]) -> Result<(), Fault> {
        for (line, text) in (1..).zip(lines(script)) {
            match read_command(text, line) {
                Ok(Some(command)) => self.command(command)?,
                Ok(None) => {}
                Err(cause) => {
                    self.output.flush()?;
                    return Err(Fault::Line { line, cause });
                }
            }
        }
        Ok(self.output.flush()?)
    }

    fn command(&mut self, command: Command) -> Result<(), Fault> {
        match command {
            Command::Format { slots } => self.format(slots),
            Command::Open { stations, x, up } => self.open(stations, &x, &up),
            Command::Post { station, entry } => self.post(station, entry),
            Command::Turn { station } => self.turn(station),
            Command::Bits => self.bits(),
            Command::Balances => self.balances(),
            Command::Crash => {
                self.office = None;
                Ok(writeln!(self.output, "crashed")?)
            }
        }
    }

    fn refuse(&mut self, refusal: Refusal) -> Result<(), Fault> {
        Ok(writeln!(self.output, "refused {refusal}")?)
    }

    fn format(&mut self, slots: u64) -> Result<(), Fault> {
        if self.office.is_some() {
            return self.refuse(Refusal::OfficeOpen);
        }
        match format(&mut self.device, slots) {
            Ok(()) => Ok(writeln!(self.output, "formatted {slots}")?),
            Err(refusal) => self.refuse(Refusal::Format(refusal)),
        }
    }

    fn open(&mut self, stations: u64, x: &[bool], up: &[bool]) -> Result<(), Fault> {
        if self.office.is_some() {
            return self.refuse(Refusal::OfficeOpen);
        }
        let line = match Line::new(stations, x, up) {
            Ok(line) => line,
            Err(refusal) => return self.refuse(Refusal::Line(refusal)),
        };
        match Office::open(&mut self.device, line) {
            Ok(office) => {
                let (next, total) = (office.next(), office.ledger().total());
                self.office = Some(office);
                Ok(writeln!(self.output, "opened {stations} next {next} total {total}")?)
            }
            Err(refusal) => self.refuse(Refusal::Open(refusal)),
        }
    }

    fn post(&mut self, station: u64, entry: Entry) -> Result<(), Fault> {
        let Some(office) = &mut self.office else {
            return self.refuse(Refusal::NoOffice);
        };
        match office.post(station, entry) {
            Ok(count) => Ok(writeln!(self.output, "held {station} {count}")?),
            Err(refusal) => self.refuse(Refusal::Post(refusal)),
        }
    }

    fn turn(&mut self, station: u64) -> Result<(), Fault> {
        let Some(office) = &mut self.office else {
            return self.refuse(Refusal::NoOffice);
        };
        match office.turn(&mut self.device, station) {
            Ok(turn) => print_turn(&mut self.output, &turn)?,
            Err(refusal) => self.refuse(Refusal::Turn(refusal))?,
        }
        // an answer is worth little while it lies in a buffer
        Ok(self.output.flush()?)
    }

    fn bits(&mut self) -> Result<(), Fault> {
        let Some(office) = &self.office else {
            return self.refuse(Refusal::NoOffice);
        };
        let line = office.line();
        let (x, up, privileges) = (Digits(line.x()), Digits(line.up()), line.privileges());
        Ok(writeln!(self.output, "bits {x}/{up} privileges {privileges}")?)
    }

    fn balances(&mut self) -> Result<(), Fault> {
        let Some(office) = &self.office else {
            return self.refuse(Refusal::NoOffice);
        };
        for (account, balance) in office.ledger().holding() {
            writeln!(self.output, "account {account} {balance}")?;
        }
        Ok(writeln!(self.output, "total {}", office.ledger().total())?)
    }
}

fn print_turn<W: Write>(output: &mut W, turn: &Turn) -> Result<(), Fault> {
    let Turn { index, station, rule, .. } = turn;
    match turn.posted {
        Some(sequence) => writeln!(output, "turn {index} station {station} {rule:?} posted {sequence}")?,
        None => writeln!(output, "turn {index} station {station} {rule:?} empty")?,
    }
    for (place, verdict) in turn.verdicts.as_slice().iter().enumerate() {
        match verdict {
            Ok(()) => writeln!(output, "entry {place} ok")?,
            Err(refusal) => writeln!(output, "entry {place} {refusal:?}")?,
        }
    }
    Ok(())
}

/// Bits in the characters 0 and 1.
struct Digits<'a>(&'a [bool]);

impl fmt::Display for Digits<'_> {
    fn fmt(&self, f: &mut fmt::Formatter<'_>) -> fmt::Result {
        self.0.iter().try_for_each(|&bit| f.write_str(if bit { "1" } else { "0" }))
    }
}

impl fmt::Display for Refusal {
    fn fmt(&self, f: &mut fmt::Formatter<'_>) -> fmt::Result {
        match self {
            Refusal::NoOffice => f.write_str("NoOffice"),
            Refusal::OfficeOpen => f.write_str("OfficeOpen"),
            Refusal::Format(refusal) => write!(f, "{refusal:?}"),
            Refusal::Line(refusal) => write!(f, "{refusal:?}"),
            Refusal::Open(refusal) => write!(f, "{refusal}"),
            Refusal::Post(refusal) => write!(f, "{refusal:?}"),
            Refusal::Turn(refusal) => write!(f, "{refusal:?}"),
        }
    }
}

impl fmt::Display for OpenRefusal {
    fn fmt(&self, f: &mut fmt::Formatter<'_>) -> fmt::Result {
        match self {
            OpenRefusal::Unformatted => f.write_str("Unformatted"),
            OpenRefusal::Version(version) => write!(f, "Version {version}"),
            OpenRefusal::Size => f.write_str("Size"),
            OpenRefusal::Damaged { slot, cause } => write!(f, "Damaged {slot} {cause}"),
            OpenRefusal::Device => f.write_str("Device"),
        }
    }
}

impl fmt::Display for Cause {
    fn fmt(&self, f: &mut fmt::Formatter<'_>) -> fmt::Result {
        match self {
            Cause::Header => f.write_str("Header"),
            Cause::Sequence => f.write_str("Sequence"),
            Cause::Tail => f.write_str("Tail"),
            Cause::Bank => f.write_str("Bank"),
            Cause::Entry(place) => write!(f, "Entry {place}"),
            Cause::Verdict(place) => write!(f, "Verdict {place}"),
        }
    }
}
