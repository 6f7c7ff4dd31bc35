//! The line of stations: whose turn it is.

#[derive(Clone, Copy, Debug)]
pub enum LineRefusal {
    Stations,
    Length,
}

#[derive(Clone, Copy, Debug)]
pub enum Rule {
    Bottom,
    Top,
    Raise,
    Lower,
}

/// Two bits for each station, from the bottom one to the top one.
pub struct Line {
    x: Vec<bool>,
    up: Vec<bool>,
}

impl Line {
    pub fn new(stations: u64, x: &[bool], up: &[bool]) -> Result<Line, LineRefusal> {
        if !(2..=64).contains(&stations) {
            return Err(LineRefusal::Stations);
        }
        if x.len() as u64 != stations || up.len() as u64 != stations {
            return Err(LineRefusal::Length);
        }
        let mut line = Line { x: x.to_vec(), up: up.to_vec() };
        line.up[0] = true;
        line.up[x.len() - 1] = false;
        Ok(line)
    }

    pub fn stations(&self) -> usize {
        self.x.len()
    }

    pub fn x(&self) -> &[bool] {
        &self.x
    }

    pub fn up(&self) -> &[bool] {
        &self.up
    }

    /// The rule by which a station of the line moves, if it may: Raise where it has two.
    pub fn privilege(&self, station: usize) -> Option<Rule> {
        let top = self.stations() - 1;
        match station {
            0 => self.falls(0).then_some(Rule::Bottom),
            _ if station == top => self.rises(station - 1).then_some(Rule::Top),
            _ if self.rises(station - 1) => Some(Rule::Raise),
            _ => self.falls(station).then_some(Rule::Lower),
        }
    }

    pub fn privileges(&self) -> usize {
        (0..self.stations() - 1).filter(|&below| self.rises(below) || self.falls(below)).count()
    }

    pub fn make_move(&mut self, station: usize, rule: Rule) {
        match rule {
            Rule::Bottom | Rule::Top => self.x[station] = !self.x[station],
            Rule::Raise => {
                self.x[station] = !self.x[station];
                self.up[station] = true;
            }
            Rule::Lower => self.up[station] = false,
        }
    }

    fn rises(&self, below: usize) -> bool {
        self.x[below] != self.x[below + 1]
    }

    fn falls(&self, below: usize) -> bool {
        !self.rises(below) && self.up[below] && !self.up[below + 1]
    }
}
