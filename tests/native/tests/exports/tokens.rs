//! The token form of an expression, written again from document 01 in the plainest way. An element is a number: a row below 2^32, or 2^32
//! and an operator's code.
use crate::random::Random;

pub const AND: u64 = 1 << 32;
pub const NOT: u64 = AND + 2;

pub fn write(codes: &[u64]) -> Result<Vec<u8>, u8> {
    if codes.iter().any(|&c| c > NOT) {
        return Err(2);
    }
    if codes.len() > 32 {
        return Err(4);
    }
    Ok(unlimited(codes))
}

/// Any number of elements, and any operator byte.
pub fn unlimited(codes: &[u64]) -> Vec<u8> {
    let mut bytes = vec![0xf0];
    for &c in codes {
        if c < AND {
            bytes.extend([0xf2, 0xa4, 0, 0, 0x0c, 0x0e, 0xa4]);
            bytes.extend((c as u32).to_be_bytes());
        } else {
            bytes.extend([0xf2, 0xa4, 0, 0, 0x04, 0x0e, (c - AND) as u8]);
        }
        bytes.push(0xf3);
    }
    bytes.push(0xf1);
    bytes
}

pub fn read(bytes: &[u8]) -> Result<Vec<u64>, u8> {
    if bytes.len() > 1_024 {
        return Err(2);
    }
    let mut rest = bytes.strip_prefix(&[0xf0]).ok_or(3)?;
    let mut codes = Vec::new();
    while rest != [0xf1] {
        if codes.len() == 32 {
            return Err(if rest.first() == Some(&0xf2) { 4 } else { 3 });
        }
        match *rest {
            [0xf2, 0xa4, 0, 0, 0x0c, 0x0e, 0xa4, a, b, c, d, 0xf3, ..] => {
                codes.push(u32::from_be_bytes([a, b, c, d]) as u64);
                rest = &rest[12..];
            }
            [0xf2, 0xa4, 0, 0, 0x04, 0x0e, code @ 0..=2, 0xf3, ..] => {
                codes.push(AND + code as u64);
                rest = &rest[8..];
            }
            _ => return Err(3),
        }
    }
    Ok(codes)
}

/// Why a list is malformed (#104).
#[derive(Clone, Copy, Debug, PartialEq, Eq, PartialOrd, Ord)]
pub enum Broken {
    AndShort,
    OrShort,
    NotShort,
    /// More than one value is left.
    MoreLeft,
}

/// Of a list that is not empty: the first operator that runs short, or what is left. The empty list is not malformed.
pub fn broken(codes: &[u64]) -> Option<Broken> {
    let mut values = 0;
    for &c in codes {
        let (takes, short) = match c {
            AND => (2, Broken::AndShort),
            NOT => (1, Broken::NotShort),
            c if c > AND => (2, Broken::OrShort),
            _ => (0, Broken::MoreLeft),
        };
        if values < takes {
            return Some(short);
        }
        values += 1 - takes;
    }
    (values > 1).then_some(Broken::MoreLeft)
}

fn row(r: &mut Random, sensors: u64) -> u64 {
    match r.below(12) {
        0 => r.below(20),
        1 => r.pick(&[15, 16, 99, 255, 256, 65_536, 0xffff_ffff]),
        _ => r.below(sensors.max(1)),
    }
}

/// A well-formed list of at most 32 elements.
pub fn postfix(r: &mut Random, sensors: u64) -> Vec<u64> {
    let mut codes = vec![row(r, sensors)];
    let most = if r.one_in(6) { 1 + r.below(31) } else { 1 + r.below(6) } as usize;
    while codes.len() < most {
        if r.one_in(3) {
            codes.push(NOT);
        } else if codes.len() + 2 <= 32 {
            codes.push(row(r, sensors));
            codes.push(AND + r.below(2));
        } else {
            break;
        }
    }
    codes
}

/// Any elements in any order.
pub fn any_list(r: &mut Random, most: u64) -> Vec<u64> {
    let n = r.below(most + 1);
    (0..n).map(|_| if r.one_in(2) { AND + r.below(3) } else { row(r, 4) }).collect()
}

/// The bytes of an expression, read or refused, at most 1,024 of them.
pub fn expression(r: &mut Random, sensors: u64) -> Vec<u8> {
    let mut bytes = match r.below(16) {
        0 => vec![],
        1 => unlimited(&[]),
        2 => unlimited(&any_list(r, 5)),
        3 => unlimited(&any_list(r, 32)),
        4 => {
            let mut codes = any_list(r, 8);
            codes.resize(33 + r.below(4) as usize, r.pick(&[0, 1, AND]));
            unlimited(&codes)
        }
        5 => unlimited(&[0, AND + 3 + r.below(200)]),
        _ => unlimited(&postfix(r, sensors)),
    };
    if r.one_in(10) {
        damage(r, &mut bytes);
    }
    bytes.truncate(1_024);
    bytes
}

pub fn damage(r: &mut Random, bytes: &mut Vec<u8>) {
    let at = r.below(bytes.len() as u64 + 1) as usize;
    match r.below(4) {
        0 => bytes.truncate(at),
        1 => bytes.push(r.pick(&[0xf1, 0xf2, 0x00])),
        2 => bytes.insert(at, r.pick(&[0xf0, 0xf1, 0xf2, 0xf3, 0xa4, 0x00])),
        _ => {
            if at < bytes.len() {
                bytes[at] ^= 1 << r.below(8);
            }
        }
    }
}
