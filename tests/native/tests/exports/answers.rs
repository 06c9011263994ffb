//! Discovery answers made at random (#102), right and short.
use crate::random::Random;

const HEADER: usize = 48;
const LOCKING: u16 = 0x0002;
const RANGES: u16 = 0x0401;

/// Codes that a reader does not know, the two known ones with their bytes swapped or nearly right among them.
const UNKNOWN: [u16; 14] =
    [0, 1, 3, 0x0100, 0x0102, 0x0104, 0x0200, 0x0202, 0x0400, 0x0402, 0x0501, 0x8002, 0xc000, 0xffff];
const LENGTHS: [u64; 8] = [0, 1, 3, 4, 11, 12, 13, 255];

/// The ways in which answers are made. All but the first three may make them short.
#[derive(Clone, Copy, Debug, PartialEq, Eq, PartialOrd, Ord)]
pub enum Way {
    Right,
    /// With the two features alone, as a drive writes it, but for the reserved bytes.
    Written,
    /// With bytes behind the end.
    Behind,
    Cut,
    /// Its length field is off by at most 5, or far off, or states an end inside the header.
    Off,
    Far,
    InHeader,
    /// One to three bytes are left before its end.
    Left,
    /// A descriptor has another length.
    OtherLength,
    /// Nothing but a header, or about as long as one.
    HeaderAlone,
    Changed,
    Noise,
}

pub const WAYS: [Way; 12] = [
    Way::Right,
    Way::Written,
    Way::Behind,
    Way::Cut,
    Way::Off,
    Way::Far,
    Way::InHeader,
    Way::Left,
    Way::OtherLength,
    Way::HeaderAlone,
    Way::Changed,
    Way::Noise,
];

fn descriptor(r: &mut Random, code: u16, version: u8, length: u64) -> Vec<u8> {
    let mut bytes = code.to_be_bytes().to_vec();
    let reserved = if r.one_in(3) { r.below(16) as u8 } else { 0 };
    bytes.extend([version << 4 | reserved, length as u8]);
    bytes.extend(r.bytes(length as usize));
    bytes
}

/// Mostly one of the two features, and mostly right.
fn any_descriptor(r: &mut Random) -> Vec<u8> {
    let code = match r.below(8) {
        0..=2 => LOCKING,
        3..=5 => RANGES,
        6 => r.pick(&UNKNOWN),
        _ => r.next() as u16,
    };
    let version = if r.one_in(4) { r.below(16) as u8 } else { 1 };
    let length = if r.one_in(4) { r.pick(&LENGTHS) } else { 12 };
    descriptor(r, code, version, length)
}

/// Lets the length field state this.
pub fn state(bytes: &mut [u8], stated: u32) {
    bytes[..4].copy_from_slice(&stated.to_be_bytes());
}

fn with_header(r: &mut Random, descriptors: &[Vec<u8>]) -> Vec<u8> {
    let mut bytes = vec![0; HEADER];
    bytes[7] = 1;
    if r.one_in(3) {
        bytes = r.bytes(HEADER);
    }
    bytes.extend(descriptors.concat());
    let stated = bytes.len() as u32 - 4;
    state(&mut bytes, stated);
    bytes
}

/// An answer whose length field states its length.
pub fn right(r: &mut Random) -> Vec<u8> {
    let count = r.below(6);
    let all: Vec<_> = (0..count).map(|_| any_descriptor(r)).collect();
    with_header(r, &all)
}

fn written(r: &mut Random) -> Vec<u8> {
    let both = [descriptor(r, LOCKING, 1, 12), descriptor(r, RANGES, 1, 12)];
    with_header(r, &both)
}

/// Where the descriptors of an answer start.
fn places(bytes: &[u8]) -> Vec<usize> {
    let mut at = HEADER;
    let mut places = vec![];
    while at < bytes.len() {
        places.push(at);
        at += 4 + bytes[at + 3] as usize;
    }
    places
}

pub fn made(r: &mut Random, way: Way) -> Vec<u8> {
    let mut bytes = if way == Way::Written { written(r) } else { right(r) };
    let stated = bytes.len() as u32 - 4;
    match way {
        Way::Right | Way::Written => {}
        Way::Behind => {
            let n = 1 + r.below(40) as usize;
            bytes.extend(if r.one_in(2) { r.bytes(n) } else { descriptor(r, LOCKING, 1, 12) });
        }
        Way::Cut => bytes.truncate(r.below(bytes.len() as u64 + 1) as usize),
        Way::Off => {
            let off = r.below(11) as i32 - 5;
            state(&mut bytes, stated.wrapping_add_signed(off));
            if r.one_in(2) {
                bytes.extend(r.bytes(8));
            }
        }
        Way::Far => {
            let far = [u32::MAX, u32::MAX - 3, u32::MAX - 4, 1 << 31, (1 << 31) - 1, stated + 1_000, stated | 1 << 16];
            state(&mut bytes, r.pick(&far));
        }
        Way::InHeader => {
            let inside = r.below(44) as u32;
            state(&mut bytes, inside);
        }
        Way::Left => {
            let left = 1 + r.below(3) as usize;
            bytes.extend(r.bytes(left));
            state(&mut bytes, stated + left as u32);
        }
        Way::OtherLength => {
            let places = places(&bytes);
            if !places.is_empty() {
                let at = r.pick(&places);
                bytes[at + 3] = if r.one_in(2) { r.next() as u8 } else { r.pick(&LENGTHS) as u8 };
            }
        }
        Way::HeaderAlone => {
            bytes.resize(r.pick(&[0, 3, 4, 8, 44, 47, 48, 48, 49, 51, 52]), 0);
            if bytes.len() >= 4 {
                let length = bytes.len() as u32;
                state(&mut bytes, r.pick(&[length - 4, length - 4, 43, 44, length]));
            }
        }
        Way::Changed => {
            for _ in 0..1 + r.below(3) {
                let at = r.below(bytes.len() as u64) as usize;
                bytes[at] = r.next() as u8;
            }
        }
        Way::Noise => {
            let n = r.below(120) as usize;
            bytes = r.bytes(n);
            if n >= 4 {
                let stated = r.below(n as u64 + 2) as u32;
                state(&mut bytes, stated);
            }
        }
    }
    bytes
}
