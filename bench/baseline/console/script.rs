//! The lines of a script as commands.

use crate::entry::Entry;
use crate::faults::LineFault;

pub enum Command {
    Format { slots: u64 },
    Open { stations: u64, x: Vec<bool>, up: Vec<bool> },
    Post { station: u64, entry: Entry },
    Turn { station: u64 },
    Bits,
    Balances,
    Crash,
}

/// The lines of a script, without their ends.
pub fn lines(script: &[u8]) -> impl Iterator<Item = &[u8]> {
    script.split_inclusive(|&byte| byte == b'\n').map(|piece| match piece {
        [line @ .., b'\r', b'\n'] | [line @ .., b'\n'] => line,
        line => line,
    })
}

/// The command of a line, if it has one. An entry's reference is the number of its line.
pub fn read_command(line: &[u8], number: u64) -> Result<Option<Command>, LineFault> {
    let mut words = line.split(|&byte| byte == b' ').filter(|word| !word.is_empty());
    match words.next() {
        None | Some([b'#', ..]) => Ok(None),
        Some(name) => read_named(name, &mut words, number).map(Some),
    }
}

fn read_named<'a>(
    name: &[u8],
    words: &mut impl Iterator<Item = &'a [u8]>,
    line: u64,
) -> Result<Command, LineFault> {
    match name {
        b"format" => {
            let [slots] = exactly(words)?;
            match number(slots)? {
                0 => Err(LineFault::BadNumber),
                slots => Ok(Command::Format { slots }),
            }
        }
        b"open" => {
            let [stations, x, up] = exactly(words)?;
            Ok(Command::Open { stations: number(stations)?, x: bits(x)?, up: bits(up)? })
        }
        b"post" => read_post(words, line),
        b"turn" => {
            let [station] = exactly(words)?;
            Ok(Command::Turn { station: number(station)? })
        }
        b"bits" => exactly::<0>(words).map(|_| Command::Bits),
        b"balances" => exactly::<0>(words).map(|_| Command::Balances),
        b"crash" => exactly::<0>(words).map(|_| Command::Crash),
        _ => Err(LineFault::UnknownCommand),
    }
}

fn read_post<'a>(words: &mut impl Iterator<Item = &'a [u8]>, reference: u64) -> Result<Command, LineFault> {
    let station = words.next().ok_or(LineFault::WrongNumberOfWords)?;
    let kind = words.next().ok_or(LineFault::WrongNumberOfWords)?;
    match kind {
        b"deposit" => {
            let [to, amount] = exactly(words)?;
            let station = number(station)?;
            let entry = Entry::Deposit { to: account(to)?, amount: number(amount)?, reference };
            Ok(Command::Post { station, entry })
        }
        b"withdraw" => {
            let [from, amount] = exactly(words)?;
            let station = number(station)?;
            let entry = Entry::Withdraw { from: account(from)?, amount: number(amount)?, reference };
            Ok(Command::Post { station, entry })
        }
        b"transfer" => {
            let [from, to, amount] = exactly(words)?;
            let station = number(station)?;
            let (from, to) = (account(from)?, account(to)?);
            let entry = Entry::Transfer { from, to, amount: number(amount)?, reference };
            Ok(Command::Post { station, entry })
        }
        b"seal" => {
            let [account] = exactly(words)?;
            let station = number(station)?;
            let entry = Entry::Seal { account: self::account(account)?, reference };
            Ok(Command::Post { station, entry })
        }
        _ => Err(LineFault::UnknownCommand),
    }
}

// All words that are left, where they are so many.
fn exactly<'a, const N: usize>(words: &mut impl Iterator<Item = &'a [u8]>) -> Result<[&'a [u8]; N], LineFault> {
    let mut found: [&[u8]; N] = [&[]; N];
    for word in &mut found {
        *word = words.next().ok_or(LineFault::WrongNumberOfWords)?;
    }
    match words.next() {
        Some(_) => Err(LineFault::WrongNumberOfWords),
        None => Ok(found),
    }
}

fn number(word: &[u8]) -> Result<u64, LineFault> {
    if word.starts_with(b"+") {
        return Err(LineFault::BadNumber);
    }
    let text = std::str::from_utf8(word).map_err(|_| LineFault::BadNumber)?;
    text.parse().map_err(|_| LineFault::BadNumber)
}

fn account(word: &[u8]) -> Result<u32, LineFault> {
    number(word)?.try_into().map_err(|_| LineFault::BadNumber)
}

fn bits(word: &[u8]) -> Result<Vec<bool>, LineFault> {
    let bits = word.iter().map(|byte| match byte {
        b'0' => Ok(false),
        b'1' => Ok(true),
        _ => Err(LineFault::BadBits),
    });
    bits.collect()
}
