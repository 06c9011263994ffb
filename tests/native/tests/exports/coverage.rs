//! What the tests reached: answers, stops, moves of phases and levels, Sets of thresholds, resets, places, and ways to be bad.
use crate::discovery::Written;
use crate::resets::Resets;
use crate::scripts::{Damage, DAMAGES};
use crate::tokens::Broken;
use crate::written::Scripts;
use std::collections::{BTreeMap, BTreeSet};

const PHASES: [&str; 5] = ["SS0", "ST0", "SS1", "ST1", "SS2"];
const KINDS: [&str; 7] = ["reading", "elapse", "reset", "sensor Set", "band Set", "geometry", "transfer"];

/// Every move that there is, by the kind of event, from and to: nothing else may happen. Since #101 a Set moves an enabled sensor as a reading
/// does, and SS0 to ST1 is none of its moves.
const MOVES: [(u64, u8, u8); 28] = [
    (1, 1, 3),
    (1, 1, 4),
    (1, 2, 3),
    (1, 2, 4),
    (1, 3, 1),
    (1, 3, 2),
    (1, 4, 1),
    (1, 4, 2),
    (2, 1, 2),
    (2, 3, 4),
    (3, 1, 4),
    (3, 2, 4),
    (3, 3, 4),
    (4, 0, 1),
    (4, 0, 2),
    (4, 0, 4),
    (4, 1, 0),
    (4, 1, 3),
    (4, 1, 4),
    (4, 2, 0),
    (4, 2, 3),
    (4, 2, 4),
    (4, 3, 0),
    (4, 3, 1),
    (4, 3, 2),
    (4, 4, 0),
    (4, 4, 1),
    (4, 4, 2),
];

/// What turns the level of a sensor that stays disabled, and to what: readings, a power cycle, and since #101 Sets.
const TURNS: [(u64, u8); 5] = [(1, 0), (1, 1), (3, 0), (4, 0), (4, 1)];

/// What a Set that names a threshold or a fraction finds of its sensor (#101).
#[derive(Clone, Copy, Debug, Default, PartialEq, Eq, PartialOrd, Ord)]
pub enum Found {
    #[default]
    NoReading,
    Reading,
    /// The reading before a power cycle is forgotten.
    PowerCycle,
    /// The reading before another reset is kept.
    OtherReset,
}

/// What a Set with a malformed expression can get (#104): a number that comes before, or 13.
const MALFORMED: [u8; 3] = [1, 2, 13];

#[derive(Default)]
pub struct Coverage {
    scripts: u64,
    bad: u64,
    events: u64,
    /// Of events, and of calls.
    answers: [u64; 14],
    calls: [u64; 14],
    /// Of events on bad scripts.
    bad_events: [u64; 14],
    stops: BTreeMap<u8, u64>,
    moves: BTreeMap<(u64, u8, u8), u64>,
    stays: [u64; 5],
    turns: BTreeMap<(u64, u8), u64>,
    /// By what the Set finds, and whether a reading was refused after that.
    thresholds: BTreeMap<(Found, bool), u64>,
    /// Sets whose expression is malformed, by why, by whether they would unlock an enabled side of the band, and by the answer.
    malformed: BTreeMap<(Broken, bool, u8), u64>,
    /// Sets that empty an expression.
    emptied: u64,
    places: BTreeSet<usize>,
    at_zero: u64,
    damages: BTreeMap<Damage, [u64; 2]>,
    pub discovery: Written,
    pub resets: Resets,
    pub written: Scripts,
}

impl Coverage {
    pub fn new() -> Self {
        Self::default()
    }

    pub fn answer(&mut self, answer: u8) {
        self.calls[answer as usize] += 1;
    }

    pub fn on_bad(&mut self, answer: u8) {
        self.bad_events[answer as usize] += 1;
    }

    pub fn listing(&mut self, answers: &[u8], stops: &[u8], bad: Option<usize>) {
        self.scripts += 1;
        self.events += answers.len() as u64;
        for &a in answers {
            self.answers[a as usize] += 1;
        }
        for &n in stops {
            *self.stops.entry(n).or_default() += 1;
        }
        if let Some(place) = bad {
            self.bad += 1;
            self.at_zero += (place == 0) as u64;
            self.places.insert(place);
        }
    }

    pub fn phase(&mut self, kind: u64, from: u8, to: u8) {
        if from == to {
            self.stays[from as usize] += 1;
            return;
        }
        assert!(MOVES.contains(&(kind, from, to)), "no such move: kind {kind}, {from} to {to}");
        *self.moves.entry((kind, from, to)).or_default() += 1;
    }

    /// The level of a sensor that is disabled before and after an event.
    pub fn level(&mut self, kind: u64, from: u8, to: u8) {
        if from != to {
            assert!(TURNS.contains(&(kind, to)), "no such turn: kind {kind}, to {to}");
            *self.turns.entry((kind, to)).or_default() += 1;
        }
    }

    /// A Set of a threshold or a fraction that is done.
    pub fn threshold(&mut self, found: Found, refused: bool) {
        *self.thresholds.entry((found, refused)).or_default() += 1;
    }

    /// A Set whose expression is malformed.
    pub fn malformed(&mut self, why: Broken, unlocks: bool, answer: u8) {
        assert!(MALFORMED.contains(&answer), "a malformed expression is answered {answer}");
        *self.malformed.entry((why, unlocks, answer)).or_default() += 1;
    }

    /// A Set whose expression is empty.
    pub fn emptied(&mut self, answer: u8) {
        assert_ne!(answer, 13, "an empty expression is not malformed");
        self.emptied += (answer == 0) as u64;
    }

    pub fn damage(&mut self, how: Damage, bad: Option<usize>) {
        self.damages.entry(how).or_default()[bad.is_some() as usize] += 1;
    }

    /// Prints what the scripts reached, and fails where something was not.
    pub fn finish(&self) {
        println!("\nscripts compared: {}, of them bad: {}; events: {}", self.scripts, self.bad, self.events);
        println!("answers to events, 0 to 13: {:?}", self.answers);
        println!(
            "answers of runs: {} done, {} bad script, {} short buffer",
            self.calls[0], self.calls[10], self.calls[11]
        );
        println!("stops: {:?}", self.stops);
        for (&(kind, from, to), n) in &self.moves {
            println!("phase {} to {} by {}: {n}", PHASES[from as usize], PHASES[to as usize], KINDS[kind as usize - 1]);
        }
        println!("phase kept, by phase: {:?}", self.stays);
        for (&(kind, to), n) in &self.turns {
            println!("level of a disabled sensor to {to} by {}: {n}", KINDS[kind as usize - 1]);
        }
        for ((found, refused), n) in &self.thresholds {
            println!("threshold set, found {found:?}, a reading refused since: {refused}: {n}");
        }
        for ((why, unlocks, answer), n) in &self.malformed {
            println!("malformed expression, {why:?}, names an unlock: {unlocks}, answered {answer}: {n}");
        }
        println!("expressions emptied: {}", self.emptied);
        let last = self.places.last().unwrap();
        println!("places: {} at 0, {} different ones, the last {last}", self.at_zero, self.places.len());
        for (how, [good, bad]) in &self.damages {
            println!("damage {how:?}: {bad} bad, {good} still read");
        }
        self.discovery.finish();
        self.resets.finish();
        self.written.finish();
        for (a, &n) in self.answers.iter().enumerate() {
            assert_eq!(n > 0, a <= 9 || a == 13, "answer {a} was reached {n} times");
        }
        assert_eq!(self.malformed.len(), 4 * 2 * MALFORMED.len(), "a Set of a malformed expression was not reached");
        assert!(self.emptied > 0, "no expression was emptied");
        assert!(self.calls[0] > 0 && self.calls[10] > 0 && self.calls[11] > 0, "an answer of a run was not reached");
        assert!(MOVES.iter().all(|m| self.moves.contains_key(m)), "a move was not reached");
        assert!(TURNS.iter().all(|t| self.turns.contains_key(t)), "a turn of a disabled sensor was not reached");
        assert_eq!(self.thresholds.len(), 8, "a Set of a threshold was not reached");
        assert!(self.stays.iter().all(|&n| n > 0), "a phase was not reached");
        assert!(
            DAMAGES.iter().all(|d| self.damages.get(d).is_some_and(|n| n[1] > 0)),
            "a kind of damage was not reached"
        );
        assert!(self.at_zero > 0 && self.places.len() > 2, "places were not reached");
    }

    /// The same of tokens read and written: 0, 2, 3, 4 and 11.
    pub fn tokens(&self) {
        println!("\nanswers of token calls, 0 to 13: {:?}", self.calls);
        assert_eq!(self.calls[13], 0, "the token reader and writer never give 13");
        assert!([0, 2, 3, 4, 11].iter().all(|&a| self.calls[a] > 0), "an answer of a token call was not reached");
    }

    /// The same of single events: all answers but 11 and 12, and on a bad script 1 to 6, 13 and 10.
    pub fn events(&self) {
        println!("\nanswers of single events, 0 to 13: {:?}; of them on bad scripts: {:?}", self.calls, self.bad_events);
        assert!((0..=10).chain([13]).all(|a: usize| self.calls[a] > 0), "an answer of a single event was not reached");
        assert!([1, 2, 3, 4, 5, 6, 10, 13].iter().all(|&a| self.bad_events[a] > 0), "an answer on a bad script was not reached");
    }
}
