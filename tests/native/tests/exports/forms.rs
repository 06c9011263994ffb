//! Headers and flat forms made at random (#106): such as a script holds, and such as none does.
use crate::random::Random;
use crate::scripts::{self, put};
use drive_native::script::{Flat, NUMBERS};

/// The ways in which they are made.
#[derive(Clone, Copy, Debug, PartialEq, Eq, PartialOrd, Ord)]
pub enum Way {
    /// Of a made script.
    Script,
    /// Numbers of any size and expressions of any bytes.
    Wide,
    /// Of 65,534 to 65,536 bytes, and of more.
    Longest,
    Overlong,
    Header,
    UnknownKind,
    FieldsCut,
    FieldsLeft,
    TokensCut,
    TokensLeft,
    SensorMask,
    BandMask,
    SensorValue,
    BandValue,
    UnnamedTokens,
    LongExpression,
    /// A Set counts another number of bytes than are there for it.
    OtherCount,
    /// Two to four of these at once.
    Several,
    /// One to three numbers are others.
    Changed,
    Noise,
}

/// What a script holds.
pub const HELD_WAYS: [Way; 3] = [Way::Script, Way::Wide, Way::Longest];

/// What is wrong in the ways that are not about length. The first thirteen may come together.
pub const WRONG_WAYS: [Way; 16] = [
    Way::Header,
    Way::UnknownKind,
    Way::FieldsCut,
    Way::FieldsLeft,
    Way::TokensCut,
    Way::TokensLeft,
    Way::SensorMask,
    Way::BandMask,
    Way::SensorValue,
    Way::BandValue,
    Way::UnnamedTokens,
    Way::LongExpression,
    Way::OtherCount,
    Way::Several,
    Way::Changed,
    Way::Noise,
];

impl Way {
    /// Numbers that are left over may be an event, and another number a right one; two wrongs may make up for each other.
    pub fn may_be_held(self) -> bool {
        matches!(self, Way::FieldsLeft | Way::OtherCount | Way::Several | Way::Changed | Way::Noise)
    }
}

/// The numbers of one event and the bytes of its expression.
pub type Event = (Vec<u64>, Vec<u8>);

/// A number of one to ten groups of seven bits, each as often, the least and the greatest among them.
pub fn wide(r: &mut Random) -> u64 {
    let groups = 1 + r.below(10);
    let least = if groups == 1 { 0 } else { 1 << (7 * (groups - 1)) };
    let greatest = if groups == 10 { u64::MAX } else { (1 << (7 * groups)) - 1 };
    match r.below(4) {
        0 => least,
        1 => greatest,
        _ => least + r.next() % (greatest - least + 1),
    }
}

fn value(r: &mut Random) -> u64 {
    if r.one_in(2) {
        r.below(3)
    } else {
        wide(r)
    }
}

/// Not 0.
fn more(r: &mut Random) -> u64 {
    value(r).max(1)
}

fn header(r: &mut Random) -> [u64; 3] {
    let capacity = r.pick(&[1, 2, 127, 128, 1_000, 16_384, (1 << 48) - 1, 1 << 48]);
    [capacity, 1 + r.below(16), r.below(17)]
}

fn bad_header(r: &mut Random, [capacity, bands, sensors]: [u64; 3]) -> [u64; 3] {
    match r.below(3) {
        0 => [r.pick(&[0, (1 << 48) + 1, 1 << 49, 1 << 63, u64::MAX]), bands, sensors],
        1 => [capacity, r.pick(&[0, 17, 255, 256, 257, (1 << 32) + 1, u64::MAX]), sensors],
        _ => [capacity, bands, r.pick(&[17, 255, 256, 1 << 32, (1 << 32) + 1, u64::MAX])],
    }
}

/// A sensor Set that names these columns: a value for each of them, and 0 for the others.
fn sensor_set(r: &mut Random, mask: u64) -> Event {
    let mut numbers = vec![4, value(r), mask];
    numbers.extend((0..7).map(|bit| if mask >> bit & 1 == 1 { value(r) } else { 0 }));
    (numbers, vec![])
}

/// A band Set likewise, and so many bytes of an expression.
fn band_set(r: &mut Random, mask: u64, length: usize) -> Event {
    let mut numbers = vec![5, value(r), mask];
    numbers.extend((0..5).map(|bit| if mask >> bit & 1 == 1 { value(r) } else { 0 }));
    numbers.push(length as u64);
    (numbers, r.bytes(length))
}

fn length(r: &mut Random) -> usize {
    match r.below(12) {
        0 => r.pick(&[127, 128, 129, 255, 256]),
        1 => r.pick(&[1_022, 1_023, 1_024]),
        2 => r.below(1_025) as usize,
        _ => r.below(20) as usize,
    }
}

fn event(r: &mut Random) -> Event {
    match 1 + r.below(7) {
        4 => {
            let mask = r.below(128);
            sensor_set(r, mask)
        }
        5 => {
            let mask = r.below(64);
            let length = if mask & 32 == 0 { 0 } else { length(r) };
            band_set(r, mask, length)
        }
        kind => {
            let mut numbers = vec![kind];
            numbers.extend((1..NUMBERS[kind as usize - 1]).map(|_| wide(r)));
            (numbers, vec![])
        }
    }
}

fn events(r: &mut Random) -> Vec<Event> {
    let count = if r.one_in(20) { r.below(60) } else { r.below(8) };
    (0..count).map(|_| event(r)).collect()
}

pub fn flat(header: [u64; 3], events: &[Event]) -> Flat {
    let fields = events.iter().flat_map(|(numbers, _)| numbers.iter().copied()).collect();
    let tokens = events.iter().flat_map(|(_, tokens)| tokens.iter().copied()).collect();
    Flat { header, fields, tokens }
}

/// How many bytes a script has for a number.
fn size(n: u64) -> usize {
    let mut bytes = vec![];
    put(&mut bytes, n);
    bytes.len()
}

/// Elapses that take so many bytes, two or more.
fn elapses(bytes: usize) -> Vec<Event> {
    let mut events = vec![(vec![2, 1], vec![]); (bytes - 2) / 2];
    events.push((vec![2, if bytes % 2 == 0 { 2 } else { 300 }], vec![]));
    events
}

/// What a script of the greatest length is made of.
#[derive(Clone, Copy, Debug, PartialEq, Eq, PartialOrd, Ord)]
pub enum Filling {
    Elapses,
    /// Sensor Sets that name nothing: none has more numbers for its bytes.
    EmptySets,
    /// Band Sets with 1,024 bytes of an expression: none has more of these.
    Expressions,
    /// Transfers of the greatest numbers.
    Greatest,
}

pub const FILLINGS: [Filling; 4] = [Filling::Elapses, Filling::EmptySets, Filling::Expressions, Filling::Greatest];

/// A header and a flat form whose script would have so many bytes, 40 or more. Its last event is as long as is needed, or the one before it.
pub fn of_bytes(r: &mut Random, bytes: usize, filling: Filling) -> Flat {
    let header = header(r);
    let mut left = bytes - header.iter().map(|&n| size(n)).sum::<usize>();
    let mut events: Vec<Event> = vec![];
    match filling {
        Filling::Elapses => {}
        Filling::EmptySets => {
            let count = left / 3 - 1;
            events.resize(count, (vec![4, 0, 0, 0, 0, 0, 0, 0, 0, 0], vec![]));
            left -= 3 * count;
        }
        Filling::Expressions => {
            while left > 1_031 {
                events.push((vec![5, 0, 32, 0, 0, 0, 0, 0, 1_024], r.bytes(1_024)));
                left -= 1_029;
            }
            if left > 135 {
                events.push((vec![5, 0, 32, 0, 0, 0, 0, 0, left as u64 - 7], r.bytes(left - 7)));
                left = 2;
            }
        }
        Filling::Greatest => {
            while left > 33 {
                events.push((vec![7, u64::MAX, u64::MAX, u64::MAX], vec![]));
                left -= 31;
            }
        }
    }
    events.extend(elapses(left));
    flat(header, &events)
}

/// What is no kind: around the seven, and such as are one of the seven in their low bits.
pub fn no_kind(r: &mut Random) -> u64 {
    let kind = 1 + r.below(7);
    r.pick(&[0, 8, 9, 127, 128, 128 + kind, 255, 256, 256 + kind, (1 << 32) + kind, (1 << 63) + kind, u64::MAX])
}

/// Makes one thing wrong.
fn make_wrong(r: &mut Random, way: Way, header: &mut [u64; 3], events: &mut Vec<Event>) {
    let at = r.below(events.len() as u64 + 1) as usize;
    match way {
        Way::Header => *header = bad_header(r, *header),
        Way::UnknownKind => {
            let mut numbers = vec![no_kind(r)];
            numbers.extend((0..r.below(10)).map(|_| value(r)));
            events.insert(at, (numbers, vec![]));
        }
        Way::FieldsCut => {
            let mut cut = event(r);
            cut.0.truncate(1 + r.below(cut.0.len() as u64 - 1) as usize);
            cut.1.clear();
            events.push(cut);
        }
        Way::FieldsLeft => {
            let numbers = (0..1 + r.below(3)).map(|_| r.below(9)).collect();
            events.push((numbers, vec![]));
        }
        Way::TokensCut => {
            let length = 1 + length(r).min(1_023);
            let mut cut = band_set(r, 32, length);
            cut.1.truncate(r.below(length as u64) as usize);
            events.push(cut);
        }
        Way::TokensLeft => {
            let left = 1 + length(r);
            events.push((vec![], r.bytes(left)));
        }
        Way::SensorMask => {
            let mask = r.below(128);
            let mut set = sensor_set(r, mask);
            set.0[2] |= r.pick(&[128, 128, 256, 1 << 31, 1 << 32, 1 << 63, u64::MAX << 7]);
            events.insert(at, set);
        }
        Way::BandMask => {
            let mask = r.below(32);
            let mut set = band_set(r, mask, 0);
            set.0[2] |= r.pick(&[64, 64, 128, 256, 1 << 31, 1 << 32, 1 << 63, u64::MAX << 6]);
            events.insert(at, set);
        }
        Way::SensorValue => {
            let column = r.below(7);
            let mask = r.below(128) & !(1 << column);
            let mut set = sensor_set(r, mask);
            set.0[3 + column as usize] = more(r);
            events.insert(at, set);
        }
        Way::BandValue => {
            let column = r.below(5);
            let mask = r.below(32) & !(1 << column);
            let mut set = band_set(r, mask, 0);
            set.0[3 + column as usize] = more(r);
            events.insert(at, set);
        }
        Way::UnnamedTokens => {
            let (mask, length) = (r.below(32), 1 + length(r).min(1_023));
            events.insert(at, band_set(r, mask, length));
        }
        Way::LongExpression => {
            let (mask, length) = (32 + r.below(32), r.pick(&[1_025, 1_025, 1_026, 1_152, 2_048, 65_536]));
            events.insert(at, band_set(r, mask, length));
        }
        _ => {
            let mask = 32 + r.below(32);
            let length = length(r);
            let mut set = band_set(r, mask, length);
            let other = [length + 1, length.saturating_sub(1), 0, 1_024, 1_025].map(|n| n as u64);
            set.0[8] = if r.one_in(3) { r.pick(&[1 << 32, 1 << 63, u64::MAX - 1, u64::MAX]) } else { r.pick(&other) };
            events.insert(at, set);
        }
    }
}

fn noise(r: &mut Random) -> Flat {
    let (count, length) = (r.below(40), r.below(10) as usize);
    let fields = (0..count).map(|_| if r.one_in(8) { wide(r) } else { r.below(9) }).collect();
    Flat { header: header(r), fields, tokens: r.bytes(length) }
}

pub fn made(r: &mut Random, way: Way) -> Flat {
    let mut header = header(r);
    let mut events = events(r);
    match way {
        Way::Script => {
            let script = scripts::structured(r);
            header = script.header;
            events = script.events.iter().map(|e| (e.flat(), e.tokens.clone().unwrap_or_default())).collect();
        }
        Way::Wide | Way::Changed => {}
        Way::Longest | Way::Overlong => {
            let (near, far) = (r.below(3) as usize, r.below(70_000) as usize);
            let bytes = match way {
                Way::Longest => 65_536 - near,
                _ => 65_537 + if r.one_in(2) { near } else { far },
            };
            let filling = r.pick(&FILLINGS);
            return of_bytes(r, bytes, filling);
        }
        Way::Noise => return noise(r),
        Way::Several => {
            for _ in 0..2 + r.below(3) {
                let wrong = r.pick(&WRONG_WAYS[..13]);
                make_wrong(r, wrong, &mut header, &mut events);
            }
        }
        wrong => make_wrong(r, wrong, &mut header, &mut events),
    }
    let mut flat = flat(header, &events);
    if way == Way::Changed && !flat.fields.is_empty() {
        for _ in 0..1 + r.below(3) {
            let at = r.below(flat.fields.len() as u64) as usize;
            flat.fields[at] = value(r);
        }
    }
    flat
}
