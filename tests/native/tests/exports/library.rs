//! The exported functions of crates/api, each behind a safe function. None has a `requires`, so there is nothing to test before a call.

mod exported {
    extern "C" {
        pub fn drive_list(script: *const u8, script_len: usize, out: *mut u8, out_len: usize, length: *mut usize)
            -> u8;
        pub fn drive_run(
            script: *const u8,
            script_len: usize,
            most: u64,
            answers: *mut u8,
            answers_len: usize,
            stops: *mut u8,
            stops_len: usize,
            place: *mut usize,
            count: *mut usize,
        ) -> u8;
        pub fn tokens_read(bytes: *const u8, bytes_len: usize, out: *mut u64, out_len: usize, count: *mut usize) -> u8;
        pub fn tokens_write(codes: *const u64, codes_len: usize, out: *mut u8, out_len: usize, count: *mut usize)
            -> u8;
        pub fn drive_fresh(
            capacity: u64,
            bands: u64,
            sensors: u64,
            blocks: *mut u64,
            band_count: *mut usize,
            sensor_count: *mut usize,
        ) -> u8;
        pub fn drive_event(
            script: *const u8,
            script_len: usize,
            kind: u64,
            fields: *const u64,
            fields_len: usize,
            tokens: *const u8,
            tokens_len: usize,
            stops: *mut u64,
            place: *mut usize,
        ) -> u8;
        pub fn discovery_write(
            script: *const u8,
            script_len: usize,
            out: *mut u8,
            out_len: usize,
            length: *mut usize,
        ) -> u8;
        pub fn discovery_read(
            bytes: *const u8,
            bytes_len: usize,
            locking: *mut u8,
            ranges: *mut u8,
            flags: *mut u8,
        ) -> u8;
        pub fn script_write(
            capacity: u64,
            bands: u64,
            sensors: u64,
            fields: *const u64,
            fields_len: usize,
            tokens: *const u8,
            tokens_len: usize,
            out: *mut u8,
            out_len: usize,
            length: *mut usize,
        ) -> u8;
        pub fn script_read(
            script: *const u8,
            script_len: usize,
            fields: *mut u64,
            fields_len: usize,
            tokens: *mut u8,
            tokens_len: usize,
            place: *mut usize,
            capacity: *mut u64,
            bands: *mut u64,
            sensors: *mut u64,
            field_count: *mut usize,
            token_count: *mut usize,
        ) -> u8;
    }
}

/// What the numbers behind a pointer hold before a call, and after it where the call does not write them.
pub const UNWRITTEN: usize = 0x5a5a_5a5a;

#[derive(Debug, PartialEq)]
pub struct Told {
    pub answer: u8,
    pub count: usize,
}

#[derive(Debug, PartialEq)]
pub struct Ran {
    pub answer: u8,
    pub place: usize,
    pub count: usize,
}

#[derive(Debug, PartialEq)]
pub struct Fresh {
    pub answer: u8,
    pub capacity: u64,
    pub bands: usize,
    pub sensors: usize,
}

#[derive(Debug, PartialEq)]
pub struct Answered {
    pub answer: u8,
    pub stops: u64,
    pub place: usize,
}

/// What a discovery answer shows, or what the three numbers held before.
#[derive(Debug, PartialEq)]
pub struct Seen {
    pub answer: u8,
    pub locking: u8,
    pub ranges: u8,
    pub flags: u8,
}

/// A script that is read to its header and flat form: the place, the header and how much there is of each, or what these held before.
#[derive(Debug, PartialEq)]
pub struct Apart {
    pub answer: u8,
    pub place: usize,
    pub header: [u64; 3],
    pub field_count: usize,
    pub token_count: usize,
}

impl Told {
    /// A refusal: the number is as it was.
    pub fn refused(answer: u8) -> Self {
        Told { answer, count: UNWRITTEN }
    }
}

impl Answered {
    /// An event that is done.
    pub fn done(stops: u64) -> Self {
        Answered { answer: 0, stops, place: UNWRITTEN }
    }

    /// A refusal, with its place where it is 10: all else is as it was.
    pub fn refused(answer: u8, place: Option<usize>) -> Self {
        Answered { answer, stops: UNWRITTEN as u64, place: place.unwrap_or(UNWRITTEN) }
    }
}

impl Apart {
    /// A refusal, with its place where it is 10: all else is as it was.
    pub fn refused(answer: u8, place: Option<usize>) -> Self {
        let place = place.unwrap_or(UNWRITTEN);
        Apart { answer, place, header: [UNWRITTEN as u64; 3], field_count: UNWRITTEN, token_count: UNWRITTEN }
    }
}

pub fn list(script: &[u8], out: &mut [u8]) -> Told {
    let mut count = UNWRITTEN;
    let answer =
        unsafe { exported::drive_list(script.as_ptr(), script.len(), out.as_mut_ptr(), out.len(), &mut count) };
    Told { answer, count }
}

pub fn run(script: &[u8], most: u64, answers: &mut [u8], stops: &mut [u8]) -> Ran {
    let (mut place, mut count) = (UNWRITTEN, UNWRITTEN);
    let answer = unsafe {
        exported::drive_run(
            script.as_ptr(),
            script.len(),
            most,
            answers.as_mut_ptr(),
            answers.len(),
            stops.as_mut_ptr(),
            stops.len(),
            &mut place,
            &mut count,
        )
    };
    Ran { answer, place, count }
}

pub fn read_tokens(bytes: &[u8], out: &mut [u64]) -> Told {
    let mut count = UNWRITTEN;
    let answer = unsafe { exported::tokens_read(bytes.as_ptr(), bytes.len(), out.as_mut_ptr(), out.len(), &mut count) };
    Told { answer, count }
}

pub fn write_tokens(codes: &[u64], out: &mut [u8]) -> Told {
    let mut count = UNWRITTEN;
    let answer =
        unsafe { exported::tokens_write(codes.as_ptr(), codes.len(), out.as_mut_ptr(), out.len(), &mut count) };
    Told { answer, count }
}

pub fn fresh(capacity: u64, bands: u64, sensors: u64) -> Fresh {
    let (mut blocks, mut band_count, mut sensor_count) = (UNWRITTEN as u64, UNWRITTEN, UNWRITTEN);
    let answer =
        unsafe { exported::drive_fresh(capacity, bands, sensors, &mut blocks, &mut band_count, &mut sensor_count) };
    Fresh { answer, capacity: blocks, bands: band_count, sensors: sensor_count }
}

/// One event on the drive that the script leaves. A Set's fields are its row, its mask and a value for every column.
pub fn event(script: &[u8], kind: u64, fields: &[u64], tokens: &[u8]) -> Answered {
    let (mut stops, mut place) = (UNWRITTEN as u64, UNWRITTEN);
    let answer = unsafe {
        exported::drive_event(
            script.as_ptr(),
            script.len(),
            kind,
            fields.as_ptr(),
            fields.len(),
            tokens.as_ptr(),
            tokens.len(),
            &mut stops,
            &mut place,
        )
    };
    Answered { answer, stops, place }
}

/// The discovery answer of the drive that the script leaves. On a bad script the count is its place.
pub fn write_discovery(script: &[u8], out: &mut [u8]) -> Told {
    let mut count = UNWRITTEN;
    let answer =
        unsafe { exported::discovery_write(script.as_ptr(), script.len(), out.as_mut_ptr(), out.len(), &mut count) };
    Told { answer, count }
}

/// What a discovery answer shows, into numbers that hold beforehand what `before` has.
pub fn read_discovery(bytes: &[u8], before: &Seen) -> Seen {
    let Seen { mut locking, mut ranges, mut flags, .. } = *before;
    let answer =
        unsafe { exported::discovery_read(bytes.as_ptr(), bytes.len(), &mut locking, &mut ranges, &mut flags) };
    Seen { answer, locking, ranges, flags }
}

/// The script of a header and a flat form.
pub fn write_script([capacity, bands, sensors]: [u64; 3], fields: &[u64], tokens: &[u8], out: &mut [u8]) -> Told {
    let mut count = UNWRITTEN;
    let answer = unsafe {
        exported::script_write(
            capacity,
            bands,
            sensors,
            fields.as_ptr(),
            fields.len(),
            tokens.as_ptr(),
            tokens.len(),
            out.as_mut_ptr(),
            out.len(),
            &mut count,
        )
    };
    Told { answer, count }
}

/// The header and the flat form of a script.
pub fn read_script(script: &[u8], fields: &mut [u64], tokens: &mut [u8]) -> Apart {
    let mut all = Apart::refused(0, None);
    let [capacity, bands, sensors] = &mut all.header;
    all.answer = unsafe {
        exported::script_read(
            script.as_ptr(),
            script.len(),
            fields.as_mut_ptr(),
            fields.len(),
            tokens.as_mut_ptr(),
            tokens.len(),
            &mut all.place,
            capacity,
            bands,
            sensors,
            &mut all.field_count,
            &mut all.token_count,
        )
    };
    all
}
