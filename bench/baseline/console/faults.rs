//! Why the program ends before its script does.

use std::fmt;
use std::io;

/// Ends the program, with status 1.
pub enum Fault {
    Device,
    Read,
    Write,
    TooLong,
    Line { line: u64, cause: LineFault },
}

/// What is wrong with a line of a script.
#[derive(Clone, Copy)]
pub enum LineFault {
    UnknownCommand,
    WrongNumberOfWords,
    BadNumber,
    BadBits,
}

impl fmt::Display for Fault {
    fn fmt(&self, f: &mut fmt::Formatter<'_>) -> fmt::Result {
        match self {
            Fault::Device => f.write_str("device failed"),
            Fault::Read => f.write_str("read failed"),
            Fault::Write => f.write_str("write failed"),
            Fault::TooLong => f.write_str("script too long"),
            Fault::Line { line, cause } => write!(f, "line {line}: {cause}"),
        }
    }
}

impl fmt::Display for LineFault {
    fn fmt(&self, f: &mut fmt::Formatter<'_>) -> fmt::Result {
        f.write_str(match self {
            LineFault::UnknownCommand => "unknown command",
            LineFault::WrongNumberOfWords => "wrong number of words",
            LineFault::BadNumber => "bad number",
            LineFault::BadBits => "bad bits",
        })
    }
}

/// Within a script only its output is written by calls that answer so.
impl From<io::Error> for Fault {
    fn from(_: io::Error) -> Fault {
        Fault::Write
    }
}
