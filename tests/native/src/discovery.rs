//! The Level 0 discovery answer (#102): written from the locks of a drive, and read from any bytes.
//! Every number of more than one byte has its highest byte first (003, 10.2.14).

use crate::engine::Locks;

/// The header: the length of what follows the length field, the data structure revision, eight
/// reserved bytes, and 32 of the vendor (table 2).
pub const HEADER: usize = 48;
/// A descriptor: the code, the version in the high half of a byte whose low half is reserved, the
/// length of what follows, and so many bytes (table 4).
pub const HEAD: usize = 4;
const REVISION: u32 = 1;

/// The two features (003, table 23; 002, table 8), which have one version and one length.
pub const LOCKING: u16 = 0x0002;
pub const RANGES: u16 = 0x0401;
pub const VERSION: u8 = 1;
pub const LENGTH: usize = 12;

/// The flags of the Locking feature, of which the two higher bits are reserved.
pub const LOCKING_SUPPORTED: u8 = 1;
pub const LOCKED: u8 = 4;
pub const MEDIA_ENCRYPTION: u8 = 8;
pub const FLAGS: u8 = 0x3f;

/// What is written: the header and the two features.
pub const SIZE: usize = HEADER + 2 * (HEAD + LENGTH);

// ---------------------------------------------------------------- writing

/// The flags that 003, 3.6.2.2 fixes, and Locked.
fn flags(locks: &Locks) -> u8 {
    let read = locks.read_enabled & locks.read_locked;
    let write = locks.write_enabled & locks.write_locked;
    let locked = if read | write == 0 { 0 } else { LOCKED };
    LOCKING_SUPPORTED | MEDIA_ENCRYPTION | locked
}

fn feature(code: u16, first: u8) -> [u8; HEAD + LENGTH] {
    let mut bytes = [0; HEAD + LENGTH];
    bytes[..2].copy_from_slice(&code.to_be_bytes());
    bytes[2] = VERSION << 4;
    bytes[3] = LENGTH as u8;
    bytes[4] = first;
    bytes
}

/// The answer of a drive with these locks.
pub fn write(locks: &Locks) -> [u8; SIZE] {
    let mut bytes = [0; SIZE];
    bytes[..4].copy_from_slice(&(SIZE as u32 - 4).to_be_bytes());
    bytes[4..8].copy_from_slice(&REVISION.to_be_bytes());
    let (locking, ranges) = bytes[HEADER..].split_at_mut(HEAD + LENGTH);
    locking.copy_from_slice(&feature(LOCKING, flags(locks)));
    ranges.copy_from_slice(&feature(RANGES, 0));
    bytes
}

// ---------------------------------------------------------------- reading

/// Why an answer is short: each is answered 12. The last two are a descriptor that runs past the end,
/// with its first four bytes or with what follows them.
#[derive(Clone, Copy, Debug, PartialEq, Eq, PartialOrd, Ord)]
pub enum Short {
    HeaderPastBytes,
    EndPastBytes,
    EndInHeader,
    HeadPastEnd,
    DataPastEnd,
}

pub const SHORTS: [Short; 5] = [
    Short::HeaderPastBytes,
    Short::EndPastBytes,
    Short::EndInHeader,
    Short::HeadPastEnd,
    Short::DataPastEnd,
];

#[derive(Clone, Copy, Debug)]
pub struct Descriptor<'a> {
    pub code: u16,
    pub version: u8,
    /// The low half of the version's byte, which is passed over.
    pub reserved: u8,
    pub data: &'a [u8],
}

impl Descriptor<'_> {
    /// Whether it is this feature, in the one version and the one length.
    pub fn is(&self, code: u16) -> bool {
        self.code == code && self.version == VERSION && self.data.len() == LENGTH
    }
}

#[derive(Clone, Copy, Debug, PartialEq, Eq)]
pub struct Shown {
    pub locking: bool,
    pub ranges: bool,
    pub flags: u8,
}

/// The byte after the last that the header's length field states.
pub fn end(bytes: &[u8]) -> Result<usize, Short> {
    let header = bytes.get(..HEADER).ok_or(Short::HeaderPastBytes)?;
    let stated = u32::from_be_bytes(header[..4].try_into().unwrap()) as u64;
    let end = stated + 4;
    if end > bytes.len() as u64 {
        Err(Short::EndPastBytes)
    } else if end < HEADER as u64 {
        Err(Short::EndInHeader)
    } else {
        Ok(end as usize)
    }
}

/// All descriptors, up to the stated end.
pub fn descriptors(bytes: &[u8]) -> Result<Vec<Descriptor<'_>>, Short> {
    let end = end(bytes)?;
    let mut rest = &bytes[HEADER..end];
    let mut all = Vec::new();
    while !rest.is_empty() {
        let &[high, low, version, length, ref after @ ..] = rest else {
            return Err(Short::HeadPastEnd);
        };
        let data = after.get(..length as usize).ok_or(Short::DataPastEnd)?;
        all.push(Descriptor {
            code: u16::from_be_bytes([high, low]),
            version: version >> 4,
            reserved: version & 15,
            data,
        });
        rest = &after[data.len()..];
    }
    Ok(all)
}

/// What an answer shows: of a feature that is there more than once, the first.
pub fn read(bytes: &[u8]) -> Result<Shown, Short> {
    let all = descriptors(bytes)?;
    let first = |code| all.iter().find(|d| d.is(code));
    Ok(Shown {
        locking: first(LOCKING).is_some(),
        ranges: first(RANGES).is_some(),
        flags: first(LOCKING).map_or(0, |d| d.data[0] & FLAGS),
    })
}
