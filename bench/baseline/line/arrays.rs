//! The line in two arrays of truth values, of which place s belongs to station s.

use crate::Rule;

/// The most stations that a line has.
const MOST_STATIONS: usize = 64;

#[derive(Clone, Copy)]
pub struct Line {
    stations: u8,
    x: [bool; MOST_STATIONS],
    up: [bool; MOST_STATIONS],
}

/// The bits, and false past them.
fn padded(bits: &[bool]) -> [bool; MOST_STATIONS] {
    let mut all = [false; MOST_STATIONS];
    all[..bits.len()].copy_from_slice(bits);
    all
}

impl Line {
    // Whether the bits x of neighbors differ, the lower of which is `below`.
    fn rises(&self, below: usize) -> bool {
        self.x[below] != self.x[below + 1]
    }

    // Whether they are equal, and only the lower one is up.
    fn falls(&self, below: usize) -> bool {
        !self.rises(below) && self.up[below] && !self.up[below + 1]
    }
}

impl crate::Line for Line {
    fn from_bits(x: &[bool], up: &[bool]) -> Line {
        let mut line = Line { stations: x.len() as u8, x: padded(x), up: padded(up) };
        line.up[0] = true;
        line.up[x.len() - 1] = false;
        line
    }

    fn stations(&self) -> u8 {
        self.stations
    }

    fn x(&self, station: u8) -> bool {
        self.x[station as usize]
    }

    fn up(&self, station: u8) -> bool {
        self.up[station as usize]
    }

    fn enabled(&self, station: u8, rule: Rule) -> bool {
        let (s, top) = (station as usize, self.stations as usize - 1);
        match rule {
            Rule::Bottom => s == 0 && self.falls(0),
            Rule::Top => s == top && self.rises(s - 1),
            Rule::Raise => 0 < s && s < top && self.rises(s - 1),
            Rule::Lower => 0 < s && s < top && self.falls(s),
        }
    }

    fn is_legitimate(&self) -> bool {
        let boundaries = 0..self.stations as usize - 1;
        boundaries.filter(|&below| self.rises(below) || self.falls(below)).count() == 1
    }

    fn make_move(&mut self, station: u8, rule: Rule) {
        let s = station as usize;
        match rule {
            Rule::Bottom | Rule::Top => self.x[s] = !self.x[s],
            Rule::Raise => {
                self.x[s] = !self.x[s];
                self.up[s] = true;
            }
            Rule::Lower => self.up[s] = false,
        }
    }
}
