//! The line in two words: bit s of each is that of station s, and all others are zero.

use crate::Rule;

#[derive(Clone, Copy)]
pub struct Line {
    stations: u8,
    x: u64,
    up: u64,
}

/// The word of these bits.
fn packed(bits: &[bool]) -> u64 {
    bits.iter().rev().fold(0, |word, bit| word << 1 | u64::from(*bit))
}

impl Line {
    // The boundaries where the bits x of neighbors differ: bit b is that of stations b and b + 1.
    fn rising(&self) -> u64 {
        (self.x ^ (self.x >> 1)) & self.boundaries()
    }

    // The boundaries where they are equal, and only the lower station is up.
    fn falling(&self) -> u64 {
        !(self.x ^ (self.x >> 1)) & self.up & !(self.up >> 1) & self.boundaries()
    }

    // One bit for each boundary between neighbors, from the bottom.
    fn boundaries(&self) -> u64 {
        (1 << (self.stations - 1)) - 1
    }

    fn rises(&self, below: u8) -> bool {
        self.rising() >> below & 1 == 1
    }

    fn falls(&self, below: u8) -> bool {
        self.falling() >> below & 1 == 1
    }
}

impl crate::Line for Line {
    fn from_bits(x: &[bool], up: &[bool]) -> Line {
        let top = x.len() - 1;
        Line { stations: x.len() as u8, x: packed(x), up: (packed(up) | 1) & !(1 << top) }
    }

    fn stations(&self) -> u8 {
        self.stations
    }

    fn x(&self, station: u8) -> bool {
        self.x >> station & 1 == 1
    }

    fn up(&self, station: u8) -> bool {
        self.up >> station & 1 == 1
    }

    fn enabled(&self, station: u8, rule: Rule) -> bool {
        let top = self.stations - 1;
        match rule {
            Rule::Bottom => station == 0 && self.falls(0),
            Rule::Top => station == top && self.rises(station - 1),
            Rule::Raise => 0 < station && station < top && self.rises(station - 1),
            Rule::Lower => 0 < station && station < top && self.falls(station),
        }
    }

    fn is_legitimate(&self) -> bool {
        self.rising().count_ones() + self.falling().count_ones() == 1
    }

    fn make_move(&mut self, station: u8, rule: Rule) {
        match rule {
            Rule::Bottom | Rule::Top => self.x ^= 1 << station,
            Rule::Raise => {
                self.x ^= 1 << station;
                self.up |= 1 << station;
            }
            Rule::Lower => self.up &= !(1 << station),
        }
    }
}
