//! Audits of a list of moves of a line in plain Rust, standard library alone. Words: `words` or `arrays`, how the line is
//! kept; how many stations it has; 1 where the bits x of neighbors differ at the start; 1 where the moves are scattered
//! over the line; how many moves the list has, and how often it is audited.

#[path = "line/arrays.rs"]
mod arrays;
#[path = "line/words.rs"]
mod words;

use std::env;
use std::time::Instant;

/// A rule by which a station moves.
#[derive(Clone, Copy)]
enum Rule {
    Bottom,
    Top,
    Raise,
    Lower,
}

/// A station and the rule by which it moves.
#[derive(Clone, Copy)]
struct Move {
    station: u8,
    rule: Rule,
}

/// A line of 2 to 64 stations, which a move changes in place.
trait Line: Copy {
    /// The line with these bits, each list from the bottom station to the top one.
    fn from_bits(x: &[bool], up: &[bool]) -> Self;

    fn stations(&self) -> u8;

    fn x(&self, station: u8) -> bool;

    fn up(&self, station: u8) -> bool;

    /// Whether the station has a privilege by this rule; false of a station past the top one.
    fn enabled(&self, station: u8, rule: Rule) -> bool;

    /// Whether exactly one privilege is present.
    fn is_legitimate(&self) -> bool;

    /// Makes the move of a station by a rule for which it has a privilege.
    fn make_move(&mut self, station: u8, rule: Rule);
}

/// What the audit of a list of moves tells.
struct Audit<L> {
    first_legitimate: Option<usize>,
    last: L,
}

/// Goes through the moves from the start, which has index 0; an error is the index of a move that is no privilege.
fn audit<L: Line>(start: L, moves: &[Move]) -> Result<Audit<L>, usize> {
    let mut line = start;
    let mut first_legitimate = line.is_legitimate().then_some(0);
    for (index, step) in moves.iter().enumerate() {
        if !line.enabled(step.station, step.rule) {
            return Err(index);
        }
        line.make_move(step.station, step.rule);
        if first_legitimate.is_none() && line.is_legitimate() {
            first_legitimate = Some(index + 1);
        }
    }
    Ok(Audit { first_legitimate, last: line })
}

/// What is audited.
struct Work {
    stations: usize,
    alternating: bool,
    scattered: bool,
    moves: usize,
    rounds: usize,
}

/// The line in which no station is up but the bottom one, and the bits x are equal or alternate.
fn start_of<L: Line>(work: &Work) -> L {
    let x: Vec<bool> = (0..work.stations).map(|s| work.alternating && s % 2 == 1).collect();
    L::from_bits(&x, &vec![false; work.stations])
}

/// The next number of a linear congruential generator.
fn next(seed: u64) -> u64 {
    seed.wrapping_mul(6_364_136_223_846_793_005).wrapping_add(1_442_695_040_888_963_407)
}

/// The rule by which the station moves, if it may: Raise where it has two privileges.
fn privilege<L: Line>(line: &L, station: u8) -> Option<Rule> {
    let rules = [Rule::Bottom, Rule::Top, Rule::Raise, Rule::Lower];
    rules.into_iter().find(|rule| line.enabled(station, *rule))
}

/// The move of the first station with a privilege from this place on, round the line.
fn move_from<L: Line>(line: &L, place: usize) -> Move {
    let stations = line.stations() as usize;
    (0..stations)
        .map(|i| ((place + i) % stations) as u8)
        .find_map(|station| privilege(line, station).map(|rule| Move { station, rule }))
        .expect("some station has a privilege")
}

/// The moves that are made by the rules, from the lowest station with a privilege, or from a random place on.
fn moves_from<L: Line>(start: L, work: &Work) -> Vec<Move> {
    let (mut line, mut seed) = (start, 1);
    let mut moves = Vec::with_capacity(work.moves);
    for _ in 0..work.moves {
        seed = next(seed);
        let place = if work.scattered { (seed >> 33) % 64 } else { 0 };
        let step = move_from(&line, place as usize);
        line.make_move(step.station, step.rule);
        moves.push(step);
    }
    moves
}

/// What audits told: the last one, and how many moves all had.
struct Told<L> {
    last: Audit<L>,
    moves: usize,
}

/// Audits the list, and the list without its last move, in turn.
fn audited<L: Line>(start: L, moves: &[Move], rounds: usize) -> Told<L> {
    let mut told = Told { last: Audit { first_legitimate: None, last: start }, moves: 0 };
    for round in 0..rounds {
        let part = &moves[..moves.len() - round % 2];
        let last = audit(start, part).expect("a run");
        told = Told { last, moves: told.moves + part.len() };
    }
    told
}

/// A bit of each station as a word, the bottom one's first.
fn word(bits: impl Iterator<Item = bool>) -> u64 {
    bits.fold(0, |word, bit| 2 * word + u64::from(bit))
}

fn timed<L: Line>(work: &Work) {
    let start: L = start_of(work);
    let moves = moves_from(start, work);
    let clock = Instant::now();
    let told = audited(start, &moves, work.rounds);
    let time = clock.elapsed().as_nanos();
    let line = &told.last.last;
    let x = word((0..line.stations()).map(|s| line.x(s)));
    let up = word((0..line.stations()).map(|s| line.up(s)));
    let first = told.last.first_legitimate.map_or("none".to_string(), |first| first.to_string());
    println!("{} {first} {x} {up} {time}", told.moves);
}

fn main() {
    let words: Vec<String> = env::args().collect();
    let [_, kept, numbers @ ..] = words.as_slice() else {
        panic!("six words");
    };
    let numbers: Vec<usize> = numbers.iter().map(|word| word.parse().expect("a number")).collect();
    let [stations, alternating, scattered, moves, rounds] = numbers[..] else {
        panic!("six words");
    };
    let work = Work { stations, alternating: alternating == 1, scattered: scattered == 1, moves, rounds };
    match kept.as_str() {
        "words" => timed::<words::Line>(&work),
        "arrays" => timed::<arrays::Line>(&work),
        _ => panic!("words or arrays"),
    }
}
