//! Scripts of document 01, made event by event so that the start of each is known, and the ways to make one bad with the place that it
//! then has.
use crate::{random::Random, tokens};

const WIDE: [u64; 7] = [1 << 32, (1 << 32) - 1, 4_294_967_295_999, 4_294_967_296_000, 1 << 48, 1 << 63, u64::MAX];

/// What is no reset type (#105), the bits of types and what the code uses for none among them.
pub const NO_TYPES: [u64; 8] = [4, 5, 8, 15, 16, 255, 256, 1 << 32];

/// A number in groups of seven bits, low group first.
pub fn put(to: &mut Vec<u8>, mut n: u64) {
    while n > 127 {
        to.push(n as u8 | 0x80);
        n >>= 7;
    }
    to.push(n as u8);
}

#[derive(Clone)]
pub struct Event {
    pub kind: u64,
    /// All its numbers in order, a mask among them, but for the byte length.
    pub fields: Vec<u64>,
    /// The expression's bytes where the mask names them.
    pub tokens: Option<Vec<u8>>,
}

impl Event {
    fn new(kind: u64, fields: &[u64]) -> Self {
        Event { kind, fields: fields.to_vec(), tokens: None }
    }

    pub fn bytes(&self) -> Vec<u8> {
        let mut to = Vec::new();
        put(&mut to, self.kind);
        for &n in &self.fields {
            put(&mut to, n);
        }
        if let Some(tokens) = &self.tokens {
            put(&mut to, tokens.len() as u64);
            to.extend(tokens);
        }
        to
    }
}

impl Event {
    /// Whether a band Set names ReadLockEnabled as 1 and ReadLocked as 0.
    pub fn unlocks(&self) -> bool {
        self.named(0) == Some(1) && self.named(2) == Some(0)
    }

    /// The value that a Set names for the column of this bit.
    pub fn named(&self, bit: usize) -> Option<u64> {
        let mask = self.fields[1];
        let place = 2 + (mask & ((1 << bit) - 1)).count_ones() as usize;
        (mask >> bit & 1 == 1).then(|| self.fields[place])
    }

    /// Its fields as a direct call takes them: a Set has a value for every column, and those that its mask does not name may be anything.
    pub fn direct(&self, r: &mut Random) -> Vec<u64> {
        self.columns(|| r.next())
    }

    /// Its numbers in the flat form (#106): its kind, its fields with 0 for a column that is not named, and how many bytes a band Set has.
    pub fn flat(&self) -> Vec<u64> {
        let mut numbers = vec![self.kind];
        numbers.extend(self.columns(|| 0));
        if self.kind == 5 {
            numbers.push(self.tokens.as_ref().map_or(0, |tokens| tokens.len() as u64));
        }
        numbers
    }

    /// Its fields, with a value for every column of a Set.
    fn columns(&self, mut unnamed: impl FnMut() -> u64) -> Vec<u64> {
        let columns = match self.kind {
            4 => 7,
            5 => 5,
            _ => return self.fields.clone(),
        };
        let mask = self.fields[1];
        let mut named = self.fields[2..].iter();
        let mut fields = self.fields[..2].to_vec();
        for bit in 0..columns {
            fields.push(if mask >> bit & 1 == 1 { *named.next().unwrap() } else { unnamed() });
        }
        fields
    }
}

#[derive(Clone)]
pub struct Script {
    pub header: [u64; 3],
    pub events: Vec<Event>,
}

impl Script {
    pub fn header_bytes(&self) -> Vec<u8> {
        let mut to = Vec::new();
        for n in self.header {
            put(&mut to, n);
        }
        to
    }

    pub fn bytes(&self) -> Vec<u8> {
        let mut to = self.header_bytes();
        for e in &self.events {
            to.extend(e.bytes());
        }
        to
    }

    /// Where each event starts, and where the script ends.
    pub fn places(&self) -> Vec<usize> {
        let mut at = self.header_bytes().len();
        let mut places = vec![at];
        for e in &self.events {
            at += e.bytes().len();
            places.push(at);
        }
        places
    }
}

/// Mostly below the count.
fn row(r: &mut Random, count: u64) -> u64 {
    match r.below(40) {
        0 => r.pick(&WIDE),
        1 => r.below(20),
        2 => count,
        _ => r.below(count.max(1)),
    }
}

/// Mostly below `usual`, else anything.
fn value(r: &mut Random, usual: u64) -> u64 {
    match r.below(60) {
        0 => r.pick(&WIDE),
        1 => r.below(2_000),
        _ => r.below(usual),
    }
}

fn mask(r: &mut Random, all: u64) -> u64 {
    match r.below(4) {
        0 => all,
        1 => 1 << r.below(all.count_ones() as u64),
        _ => r.below(all + 1),
    }
}

fn block(r: &mut Random, capacity: u64) -> u64 {
    match r.below(30) {
        0 => r.pick(&WIDE),
        1 => capacity,
        2 => capacity + 1,
        _ => r.below(capacity.min(24) + 1),
    }
}

fn blocks(r: &mut Random, capacity: u64) -> u64 {
    match r.below(20) {
        0 => block(r, capacity),
        1 => 0,
        _ => 1 + r.below((capacity / 3).clamp(1, 8)),
    }
}

fn sensor_set(r: &mut Random, sensors: u64) -> Event {
    let mask = mask(r, 127);
    let mut fields = vec![row(r, sensors), mask];
    for bit in 0..7 {
        if mask >> bit & 1 == 1 {
            fields.push(match bit {
                0 => value(r, 2) | (r.below(3) == 0) as u64,
                2 | 5 => r.pick(&[0, 0, 1, 500, 999, 999, 1_000]),
                3 | 6 => value(r, 5),
                _ => value(r, 4),
            });
        }
    }
    Event::new(4, &fields)
}

/// Mostly a set of the four types, else one that is too great.
fn lock_on_reset(r: &mut Random) -> u64 {
    match r.below(20) {
        0 => r.pick(&[16, 17, 24, 31, 32, 255, 256]),
        1 => r.pick(&WIDE),
        _ => r.below(16),
    }
}

fn band_set(r: &mut Random, bands: u64, sensors: u64) -> Event {
    let mask = mask(r, 63);
    let mut fields = vec![row(r, bands), mask];
    for bit in 0..5 {
        if mask >> bit & 1 == 1 {
            fields.push(match bit {
                0 | 1 => value(r, 2) | r.below(2),
                4 => lock_on_reset(r),
                _ => value(r, 2),
            });
        }
    }
    let mut event = Event::new(5, &fields);
    if mask & 32 != 0 {
        event.tokens = Some(tokens::expression(r, sensors));
    }
    event
}

pub fn event(r: &mut Random, [capacity, bands, sensors]: [u64; 3]) -> Event {
    match r.below(16) {
        0..=3 => {
            let reading = if r.one_in(30) { r.pick(&WIDE) } else { r.below(8) * 500 };
            Event::new(1, &[row(r, sensors), reading])
        }
        4 | 5 => Event::new(2, &[value(r, 6)]),
        6 => Event::new(3, &[if r.one_in(10) { r.pick(&NO_TYPES) } else { value(r, 4) }]),
        7..=9 => sensor_set(r, sensors),
        10..=12 => band_set(r, bands, sensors),
        13 => Event::new(6, &[row(r, bands), block(r, capacity), blocks(r, capacity)]),
        _ => Event::new(7, &[if r.one_in(30) { 2 } else { r.below(2) }, block(r, capacity), blocks(r, capacity)]),
    }
}

/// Sets that bring a drive to life: sensors that are enabled, bands that lie apart and have expressions over them. Sometimes every
/// condition is TRUE to begin with.
fn lively(r: &mut Random, [capacity, bands, sensors]: [u64; 3]) -> Vec<Event> {
    let mut events = Vec::new();
    let all_true = r.one_in(4);
    for sensor in 0..sensors {
        let on = r.below(4);
        let timeout = if all_true { 0 } else { r.below(7) };
        let fields = [sensor, 127, 1, on, 0, timeout, r.below(on + 2), 0, r.below(7)];
        events.push(Event::new(4, &fields));
        if all_true {
            events.push(Event::new(1, &[sensor, 3_000 + on]));
        } else if r.one_in(2) {
            events.push(Event::new(1, &[sensor, r.below(8) * 500]));
        }
    }
    let part = capacity / bands;
    for band in 0..bands {
        let locked = [r.below(2), r.below(2)];
        let mut set = Event::new(5, &[band, 63, 1, r.below(2), locked[0], locked[1], r.below(16)]);
        set.tokens = Some(tokens::unlimited(&tokens::postfix(r, sensors)));
        events.push(set);
        if band > 0 {
            events.push(Event::new(6, &[band, band * part, part.min(1 + r.below(8))]));
        }
    }
    events
}

/// A script that reads to its end.
pub fn structured(r: &mut Random) -> Script {
    let capacity = r.pick(&[1, 2, 10, 16, 24, 1_000, (1 << 48) - 1, 1 << 48]);
    let bands = if r.one_in(4) { 1 + r.below(16) } else { 1 + r.below(4) };
    let sensors = match r.below(8) {
        0 => r.below(17),
        1 => 16,
        _ => 1 + r.below(3),
    };
    let header = [capacity, bands, sensors];
    let count = match r.below(50) {
        0 => 0,
        1 => r.below(400),
        _ => r.below(40),
    };
    let mut events = if r.one_in(2) { lively(r, header) } else { vec![] };
    events.extend((0..count).map(|_| event(r, header)));
    Script { header, events }
}

/// The ways to make a script bad, or only other. All but the last three have a place that is known.
#[derive(Clone, Copy, Debug, PartialEq, Eq, PartialOrd, Ord)]
pub enum Damage {
    Cut,
    LongForm,
    TooGreat,
    UnknownKind,
    UnknownMaskBit,
    HeaderOutOfRange,
    LongExpression,
    Overlong,
    Changed,
    Appended,
    Noise,
}

pub const DAMAGES: [Damage; 11] = [
    Damage::Cut,
    Damage::LongForm,
    Damage::TooGreat,
    Damage::UnknownKind,
    Damage::UnknownMaskBit,
    Damage::HeaderOutOfRange,
    Damage::LongExpression,
    Damage::Overlong,
    Damage::Changed,
    Damage::Appended,
    Damage::Noise,
];

/// A field that is not in shortest form: the last group has another after it that holds nothing.
fn long_form(n: u64) -> Vec<u8> {
    let mut to = Vec::new();
    put(&mut to, n);
    *to.last_mut().unwrap() |= 0x80;
    to.push(0);
    to
}

/// 2^64 or more.
fn too_great(r: &mut Random) -> Vec<u8> {
    let mut to = vec![0x80 | r.next() as u8; 9];
    match r.below(3) {
        0 => to.push(2),
        1 => to.push(0x7f),
        _ => to.extend([0x81, 0x01]),
    }
    to
}

fn bad_mask(r: &mut Random) -> Vec<u8> {
    let kind = r.pick(&[4, 5]);
    let least = if kind == 4 { 128 } else { 64 };
    let mask = least | r.pick(&[0, 1, 2, 32, least << 1, 1 << 40, 1 << 63]);
    let mut to = Vec::new();
    for n in [kind, 0, mask, 0, 0, 0, 0, 0, 0, 0] {
        put(&mut to, n);
    }
    to
}

fn bad_header(r: &mut Random) -> [u64; 3] {
    r.pick(&[
        [0, 1, 0],
        [(1 << 48) + 1, 1, 0],
        [u64::MAX, 1, 0],
        [10, 0, 1],
        [10, 17, 1],
        [10, 1, 17],
        [10, 1, 1 << 32],
        [10, 1 << 63, 1],
    ])
}

fn long_expression(r: &mut Random) -> Vec<u8> {
    let mut to = Vec::new();
    let length = r.pick(&[1_025, 1_025, 1_026, 2_000, u64::MAX]);
    for n in [5, 0, 32, length] {
        put(&mut to, n);
    }
    to.resize(to.len() + 1_030, 0xf0);
    to
}

/// A damaged copy, and its place where that is known by how it was made. A script cut between two events is not bad.
pub fn damaged(r: &mut Random, script: &Script, how: Damage) -> (Vec<u8>, Option<Option<usize>>) {
    let places = script.places();
    let index = r.below(places.len() as u64) as usize;
    let place = places[index];
    let mut bytes = script.bytes();
    // A bad event stands before event `index`, or last.
    let insert = |event: Vec<u8>| {
        let mut with = bytes[..place].to_vec();
        with.extend(event);
        with.extend(&bytes[place..]);
        (with, Some(Some(place)))
    };
    match how {
        Damage::Cut => {
            let end = r.below(bytes.len() as u64 + 1) as usize;
            bytes.truncate(end);
            let bad = match places.binary_search(&end) {
                Ok(_) => None,
                Err(0) => Some(0),
                Err(after) => Some(places[after - 1]),
            };
            (bytes, Some(bad))
        }
        Damage::LongForm => {
            let n = r.pick(&[0, 1, 127, 128, 1 << 20]);
            let field = long_form(n);
            insert(match r.below(3) {
                0 => long_form(1 + n % 7),
                1 => [vec![2], field].concat(),
                _ => [vec![7, 0, 1], field].concat(),
            })
        }
        Damage::TooGreat => {
            let field = too_great(r);
            insert([r.pick(&[&[2u8][..], &[1, 0], &[6, 1, 1], &[]]).to_vec(), field].concat())
        }
        Damage::UnknownKind => {
            let mut to = Vec::new();
            put(&mut to, r.pick(&[0, 8, 9, 64, 127, 128, 129, 1 << 32, u64::MAX]));
            to.extend([0, 0, 0]);
            insert(to)
        }
        Damage::UnknownMaskBit => insert(bad_mask(r)),
        Damage::LongExpression => insert(long_expression(r)),
        Damage::HeaderOutOfRange => {
            let other = Script { header: bad_header(r), events: script.events.clone() };
            (other.bytes(), Some(Some(0)))
        }
        Damage::Overlong => {
            // A reset of type 0 takes two bytes. One byte may be too many, or none.
            let over = r.below(2) as usize;
            while bytes.len() + 2 <= 65_536 + over {
                bytes.extend([3, 0]);
            }
            let short = 65_536 + over - bytes.len();
            let cut = bytes.len();
            bytes.resize(bytes.len() + short, 3);
            let bad = if over == 1 {
                Some(0)
            } else if short == 1 {
                Some(cut)
            } else {
                None
            };
            (bytes, Some(bad))
        }
        Damage::Changed => {
            let at = r.below(bytes.len() as u64) as usize;
            bytes[at] = if r.one_in(2) { r.next() as u8 } else { bytes[at] ^ 1 << r.below(8) };
            (bytes, None)
        }
        Damage::Appended => {
            let n = 1 + r.below(12) as usize;
            bytes.extend(r.bytes(n).iter().map(|b| b & 0x8f));
            (bytes, None)
        }
        Damage::Noise => {
            let n = r.below(60) as usize;
            let mut to = if r.one_in(2) { script.header_bytes() } else { vec![] };
            to.extend(r.bytes(n).iter().map(|b| if b & 0x70 == 0 { *b } else { b & 7 }));
            (to, None)
        }
    }
}
