//! Resets, judged by the words of documents 01 and 02 from the events and the listings alone: which sides a reset locks, that only a power cycle
//! touches sensors, and which LockOnReset a Set takes.
use crate::scripts::{Event, NO_TYPES};
use crate::Listing;
use std::collections::{BTreeMap, BTreeSet};

/// "1 power cycle, 2 hardware, 4 hot plug"; #105: "bit 8 for the new type".
const BITS: [u64; 4] = [1, 2, 4, 8];

/// #105: "LockOnReset takes 0 to 15".
const GREATEST: u64 = 15;

/// What the granted Sets of a band have stored: whether each side is enabled, and LockOnReset.
#[derive(Clone, Copy)]
pub struct Columns {
    enabled: [bool; 2],
    on_reset: u64,
}

/// "Fresh: all columns 0, .. LockOnReset 1".
pub const FRESH: Columns = Columns { enabled: [false; 2], on_reset: 1 };

impl Columns {
    fn set(&mut self, event: &Event) {
        for bit in [0, 1] {
            if let Some(value) = event.named(bit) {
                self.enabled[bit] = value == 1;
            }
        }
        self.on_reset = event.named(4).unwrap_or(self.on_reset);
    }
}

/// What was reached.
#[derive(Default)]
pub struct Resets {
    /// Sides that are open and under no TRUE expression: by the type, whether it is in the band's set, and whether the side is enabled.
    sides: BTreeMap<(u64, bool, bool), u64>,
    /// Resets, by the type, that found a level TRUE, and a timer running.
    found: BTreeMap<(u64, bool, bool), u64>,
    no_types: BTreeSet<u64>,
    /// Sets that were stored, and those that are too great.
    stored: BTreeSet<u64>,
    too_great: BTreeSet<u64>,
}

impl Resets {
    /// Takes note of an event between two listings, and asserts what the papers say of it.
    pub fn follow(&mut self, bands: &mut [Columns; 16], event: &Event, before: &Listing, after: &Listing) {
        let answer = *after.answers.last().unwrap();
        match (event.kind, event.fields[0]) {
            (3, kind @ 0..=3) => self.reset(bands, kind, answer, before, after),
            (3, kind) => {
                assert_eq!(answer, 2, "type {kind}");
                assert!(before.bands == after.bands && before.sensors == after.sensors, "type {kind}");
                self.no_types.insert(kind);
            }
            (5, band) => self.set(bands, band, event, answer),
            _ => {}
        }
    }

    fn reset(&mut self, bands: &[Columns; 16], kind: u64, answer: u8, before: &Listing, after: &Listing) {
        assert_eq!(answer, 0, "type {kind}");
        let level = before.sensors.iter().any(|s| s[0] == 1);
        let timer = before.sensors.iter().any(|s| s[3] != 0);
        *self.found.entry((kind, level, timer)).or_default() += 1;
        if kind != 0 {
            assert_eq!(before.sensors, after.sensors, "type {kind} touches sensors");
        }
        for (columns, (from, to)) in bands.iter().zip(before.bands.iter().zip(&after.bands)) {
            let in_set = columns.on_reset & BITS[kind as usize] != 0;
            for side in [0, 1] {
                let enabled = columns.enabled[side];
                let locked = from[side] == 1 || enabled && (in_set || to[2] == 1);
                assert_eq!(to[side] == 1, locked, "type {kind}, side {side}, LockOnReset {}", columns.on_reset);
                if from[side] == 0 && to[2] == 0 {
                    *self.sides.entry((kind, in_set, enabled)).or_default() += 1;
                }
            }
        }
    }

    fn set(&mut self, bands: &mut [Columns; 16], band: u64, event: &Event, answer: u8) {
        let set = event.named(4);
        if let Some(set) = set.filter(|&set| set > GREATEST) {
            assert!([1, 2].contains(&answer), "LockOnReset {set} is answered {answer}");
            self.too_great.insert(set);
        }
        if answer == 0 {
            bands[band as usize].set(event);
            self.stored.extend(set);
        }
    }

    /// Prints what was reached, and fails where something was not.
    pub fn finish(&self) {
        for ((kind, in_set, enabled), n) in &self.sides {
            println!("reset {kind}, open sides, in the set: {in_set}, enabled: {enabled}: {n}");
        }
        for ((kind, level, timer), n) in &self.found {
            println!("reset {kind}, a level TRUE: {level}, a timer running: {timer}: {n}");
        }
        println!("LockOnReset stored: {:?}; too great: {:?}", self.stored, self.too_great);
        println!("no reset types: {:?}", self.no_types);
        assert_eq!(self.sides.len(), 4 * 2 * 2, "a side was not reached by a type");
        assert!((0..4).all(|kind| self.found.contains_key(&(kind, true, true))), "a type met no level and timer");
        assert_eq!(self.stored, (0..=GREATEST).collect(), "a set was not stored");
        assert!(self.too_great.contains(&(GREATEST + 1)), "no set was one too great");
        assert!(NO_TYPES.iter().all(|kind| self.no_types.contains(kind)), "what is no type was not reached");
    }
}
