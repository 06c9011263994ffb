//! Scripts as header and events (#106), read from bytes and written to them. Header and events are in
//! the flat form: the numbers of all events one after the other, each event its kind and then every
//! field, and the bytes of all expressions one after the other. A sensor Set has a value for each of
//! its seven columns, by rising bit; a band Set has one for each of its five, and then the number of
//! its expression's bytes. What a mask does not name is there too, and 0.

use crate::engine::{Reader, BANDS, CAPACITY_MAX, EXPR_BYTES_MAX, SCRIPT_MAX, SENSORS};
use std::collections::BTreeSet;

/// How many numbers an event of each kind has, from 1 on, its kind among them.
pub const NUMBERS: [usize; 7] = [3, 2, 2, 10, 9, 4, 4];
pub const SENSOR_SET: u64 = 4;
pub const BAND_SET: u64 = 5;

/// The columns of a Set that are numbers, and the bit of a band's expression.
const SENSOR_COLUMNS: usize = 7;
const BAND_COLUMNS: usize = 5;
const EXPRESSION: u64 = 32;

#[derive(Clone, Debug, Default, PartialEq, Eq)]
pub struct Flat {
    /// Capacity, bands and sensors.
    pub header: [u64; 3],
    pub fields: Vec<u64>,
    pub tokens: Vec<u8>,
}

/// Why no script holds a header and a flat form: each is answered 2.
#[derive(Clone, Copy, Debug, PartialEq, Eq, PartialOrd, Ord)]
pub enum Unheld {
    Capacity,
    Bands,
    Sensors,
    UnknownKind,
    /// The numbers end in an event.
    FieldsCut,
    /// A mask has a bit that is no column's.
    SensorMask,
    BandMask,
    /// A value is not 0, and the mask does not name it.
    SensorValue,
    BandValue,
    /// There are bytes, and the mask does not name the expression.
    UnnamedTokens,
    LongExpression,
    /// There are fewer bytes than a Set counts, or more than all Sets count.
    TokensCut,
    TokensLeft,
    LongScript,
}

pub const UNHELD: [Unheld; 14] = [
    Unheld::Capacity,
    Unheld::Bands,
    Unheld::Sensors,
    Unheld::UnknownKind,
    Unheld::FieldsCut,
    Unheld::SensorMask,
    Unheld::BandMask,
    Unheld::SensorValue,
    Unheld::BandValue,
    Unheld::UnnamedTokens,
    Unheld::LongExpression,
    Unheld::TokensCut,
    Unheld::TokensLeft,
    Unheld::LongScript,
];

/// What of a header is out of range.
fn out_of_range([capacity, bands, sensors]: [u64; 3]) -> BTreeSet<Unheld> {
    let mut why = BTreeSet::new();
    if !(1..=CAPACITY_MAX).contains(&capacity) {
        why.insert(Unheld::Capacity);
    }
    if !(1..=BANDS as u64).contains(&bands) {
        why.insert(Unheld::Bands);
    }
    if sensors > SENSORS as u64 {
        why.insert(Unheld::Sensors);
    }
    why
}

fn names(mask: u64, column: usize) -> bool {
    mask >> column & 1 == 1
}

/// Whether a mask has no bit but those of so many columns.
fn known(mask: u64, columns: usize) -> bool {
    mask >> columns == 0
}

// ---------------------------------------------------------------- reading

/// The header and the flat form of a script, or the place at which it is bad.
pub fn read(script: &[u8]) -> Result<Flat, usize> {
    if script.len() > SCRIPT_MAX {
        return Err(0);
    }
    let mut r = Reader { s: script, p: 0 };
    let mut flat = Flat::default();
    for n in &mut flat.header {
        *n = r.num().ok_or(0usize)?;
    }
    if !out_of_range(flat.header).is_empty() {
        return Err(0);
    }
    while r.p < script.len() {
        let place = r.p;
        read_event(&mut r, &mut flat).ok_or(place)?;
    }
    Ok(flat)
}

fn read_event(r: &mut Reader, flat: &mut Flat) -> Option<()> {
    let kind = r.num()?;
    flat.fields.push(kind);
    match kind {
        SENSOR_SET => {
            let sensor = r.num()?;
            let mask = r.num()?;
            flat.fields.extend([sensor, mask]);
            known(mask, SENSOR_COLUMNS).then_some(())?;
            read_values(r, mask, SENSOR_COLUMNS, &mut flat.fields)?;
        }
        BAND_SET => {
            let band = r.num()?;
            let mask = r.num()?;
            flat.fields.extend([band, mask]);
            known(mask, BAND_COLUMNS + 1).then_some(())?;
            read_values(r, mask, BAND_COLUMNS, &mut flat.fields)?;
            let length = if mask & EXPRESSION == 0 { 0 } else { r.num()? };
            (length <= EXPR_BYTES_MAX).then_some(())?;
            flat.fields.push(length);
            flat.tokens.extend(r.bytes(length as usize)?);
        }
        1..=7 => {
            for _ in 1..NUMBERS[kind as usize - 1] {
                flat.fields.push(r.num()?);
            }
        }
        _ => return None,
    }
    Some(())
}

/// A value for each of so many columns, 0 for one that the mask does not name.
fn read_values(r: &mut Reader, mask: u64, columns: usize, to: &mut Vec<u64>) -> Option<()> {
    for column in 0..columns {
        to.push(if names(mask, column) { r.num()? } else { 0 });
    }
    Some(())
}

// ---------------------------------------------------------------- writing

/// A number in groups of seven bits, low group first, the top bit set when more follow.
fn put(to: &mut Vec<u8>, n: u64) {
    let mut rest = n;
    loop {
        let group = (rest % 128) as u8;
        rest /= 128;
        if rest == 0 {
            return to.push(group);
        }
        to.push(group + 128);
    }
}

/// The bytes of the script, or all that was met of why there is none. An event of an unknown kind has
/// no end, so nothing behind it is looked at; nor is it behind one that is cut.
pub fn write(flat: &Flat) -> Result<Vec<u8>, BTreeSet<Unheld>> {
    let mut why = out_of_range(flat.header);
    let mut script = Vec::new();
    for n in flat.header {
        put(&mut script, n);
    }
    if let Err(end) = write_events(&flat.fields, &flat.tokens, &mut script, &mut why) {
        why.insert(end);
    }
    if script.len() > SCRIPT_MAX {
        why.insert(Unheld::LongScript);
    }
    if why.is_empty() {
        Ok(script)
    } else {
        Err(why)
    }
}

/// All events, or what ends them too early or too late.
fn write_events(
    mut fields: &[u64],
    mut tokens: &[u8],
    to: &mut Vec<u8>,
    why: &mut BTreeSet<Unheld>,
) -> Result<(), Unheld> {
    while let Some(&kind) = fields.first() {
        if !(1..=7).contains(&kind) {
            return Err(Unheld::UnknownKind);
        }
        let count = NUMBERS[kind as usize - 1];
        let event = fields.get(..count).ok_or(Unheld::FieldsCut)?;
        fields = &fields[count..];
        match kind {
            SENSOR_SET => {
                let mask = event[2];
                if !known(mask, SENSOR_COLUMNS) {
                    why.insert(Unheld::SensorMask);
                }
                if !write_set(event, &event[3..], to) {
                    why.insert(Unheld::SensorValue);
                }
            }
            BAND_SET => {
                let (mask, length) = (event[2], event[8]);
                if !known(mask, BAND_COLUMNS + 1) {
                    why.insert(Unheld::BandMask);
                }
                if !write_set(event, &event[3..8], to) {
                    why.insert(Unheld::BandValue);
                }
                if length > EXPR_BYTES_MAX {
                    why.insert(Unheld::LongExpression);
                }
                if length > tokens.len() as u64 {
                    return Err(Unheld::TokensCut);
                }
                let (expression, rest) = tokens.split_at(length as usize);
                tokens = rest;
                if mask & EXPRESSION != 0 {
                    put(to, length);
                    to.extend(expression);
                } else if length != 0 {
                    why.insert(Unheld::UnnamedTokens);
                }
            }
            _ => event.iter().for_each(|&n| put(to, n)),
        }
    }
    if tokens.is_empty() {
        Ok(())
    } else {
        Err(Unheld::TokensLeft)
    }
}

/// A Set's kind, row, mask and those values that the mask names; whether all others are 0.
fn write_set(event: &[u64], values: &[u64], to: &mut Vec<u8>) -> bool {
    event[..3].iter().for_each(|&n| put(to, n));
    let mut others = true;
    for (column, &value) in values.iter().enumerate() {
        if names(event[2], column) {
            put(to, value);
        } else {
            others &= value == 0;
        }
    }
    others
}
