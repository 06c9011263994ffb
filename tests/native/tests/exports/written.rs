//! Scripts written from header and events, and read to them (#106), against the native implementation: every script of the repository and every
//! made one, and flat forms made at random or gone through in order.
use crate::forms::{self, Way, FILLINGS, HELD_WAYS, WRONG_WAYS};
use crate::library::{self, Apart, Ran, Told, UNWRITTEN};
use crate::random::Random;
use drive_native::engine::Lister;
use drive_native::script::{self as native, Flat, Unheld, BAND_SET, NUMBERS, SENSOR_SET, UNHELD};
use std::collections::{BTreeMap, BTreeSet};
use std::path::{Path, PathBuf};

/// What was too short for a script that was read.
#[derive(Clone, Copy, Debug, PartialEq, Eq, PartialOrd, Ord)]
enum Short {
    Neither,
    Fields,
    Tokens,
    Both,
}

const SHORTS: [Short; 4] = [Short::Neither, Short::Fields, Short::Tokens, Short::Both];

impl Short {
    fn of(fields: bool, tokens: bool) -> Short {
        match (fields, tokens) {
            (false, false) => Short::Neither,
            (true, false) => Short::Fields,
            (false, true) => Short::Tokens,
            (true, true) => Short::Both,
        }
    }
}

/// What reading reached.
#[derive(Default)]
pub struct Scripts {
    read: u64,
    bad: u64,
    /// By the answer and what was too short; of a bad script, by whether there was no room at all.
    answers: BTreeMap<(u8, Short), u64>,
    /// With room to spare, and with none.
    spare: u64,
    exact: u64,
}

impl Scripts {
    /// One call, into memory that holds anything beforehand: the numbers, and the whole of both buffers.
    fn compare_read(&mut self, r: &mut Random, script: &[u8], due: &Result<Flat, usize>, rooms: (usize, usize)) {
        let mut fields_due: Vec<u64> = (0..rooms.0).map(|_| r.next()).collect();
        let mut tokens_due = r.bytes(rooms.1);
        let (mut fields, mut tokens) = (fields_due.clone(), tokens_due.clone());
        let apart = library::read_script(script, &mut fields, &mut tokens);
        let (short, apart_due) = match due {
            Err(place) => (Short::of(rooms.0 == 0, rooms.1 == 0), Apart::refused(10, Some(*place))),
            Ok(flat) => {
                let counts = (flat.fields.len(), flat.tokens.len());
                let short = Short::of(rooms.0 < counts.0, rooms.1 < counts.1);
                if short == Short::Neither {
                    fields_due[..counts.0].copy_from_slice(&flat.fields);
                    tokens_due[..counts.1].copy_from_slice(&flat.tokens);
                    self.exact += (rooms == counts) as u64;
                    self.spare += (rooms.0 > counts.0 && rooms.1 > counts.1) as u64;
                    let (field_count, token_count) = counts;
                    (short, Apart { answer: 0, place: UNWRITTEN, header: flat.header, field_count, token_count })
                } else {
                    (short, Apart::refused(11, None))
                }
            }
        };
        assert_eq!(apart, apart_due, "rooms {rooms:?}, script {script:02x?}");
        assert!(fields == fields_due && tokens == tokens_due, "rooms {rooms:?}, script {script:02x?}");
        *self.answers.entry((apart.answer, short)).or_default() += 1;
    }

    /// A script, which is bad exactly at this place if at any: read into buffers that are just long enough, longer, and too short; and what was
    /// read, written again.
    pub fn compare(&mut self, script: &[u8], bad: Option<usize>) {
        let r = &mut Random::new(script.len() as u64);
        let due = native::read(script);
        assert_eq!(due.as_ref().err(), bad.as_ref(), "the two native readers differ on {script:02x?}");
        // For the events before the place of a bad script there is room: no byte of a script gives more than four numbers.
        let enough = (4 * script.len(), script.len());
        let (fields, tokens) = due.as_ref().map_or(enough, |flat| (flat.fields.len(), flat.tokens.len()));
        let spare = (fields + 1 + r.below(20) as usize, tokens + 1 + r.below(20) as usize);
        let one_less = (fields.saturating_sub(1), tokens.saturating_sub(1));
        let less = (r.below(fields as u64 + 1) as usize, r.below(tokens as u64 + 1) as usize);
        let rooms = [(fields, tokens), spare, (one_less.0, spare.1), (spare.0, one_less.1), one_less, less, (0, 0)];
        for rooms in rooms {
            self.compare_read(r, script, &due, rooms);
        }
        let Ok(flat) = due else {
            self.bad += 1;
            return;
        };
        self.read += 1;
        assert!(native::write(&flat).as_deref() == Ok(script), "the native writer on {script:02x?}");
        for room in [script.len(), script.len() + 1 + r.below(20) as usize, script.len() - 1] {
            compare_room(r, &flat, Ok(script), room);
        }
    }

    /// Prints what was reached, and fails where something was not.
    pub fn finish(&self) {
        println!("scripts read to header and events: {}, written again as they were; bad: {}", self.read, self.bad);
        println!(
            "by the answer and what is too short: {:?}; room just enough: {}, to spare: {}",
            self.answers, self.exact, self.spare
        );
        let reached = |answer, short| self.answers.contains_key(&(answer, short));
        assert!(self.read > 0 && self.bad > 0, "no script was read, or none was bad");
        assert!(
            reached(0, Short::Neither) && self.exact > 0 && self.spare > 0,
            "a room that is enough was not reached"
        );
        assert!(SHORTS[1..].iter().all(|&short| reached(11, short)), "a reason of 11 was not reached");
        assert!(
            reached(10, Short::Neither) && reached(10, Short::Both),
            "a bad script was not reached with room and without"
        );
    }
}

/// One call of the writer, into memory that holds anything beforehand: the answer, the length and the whole output.
fn compare_room(r: &mut Random, flat: &Flat, due: Result<&[u8], ()>, room: usize) -> u8 {
    let mut expected = r.bytes(room);
    let mut out = expected.clone();
    let told = library::write_script(flat.header, &flat.fields, &flat.tokens, &mut out);
    let told_due = match due {
        Err(()) => Told::refused(2),
        Ok(script) if room < script.len() => Told::refused(11),
        Ok(script) => {
            expected[..script.len()].copy_from_slice(script);
            Told { answer: 0, count: script.len() }
        }
    };
    assert_eq!(told, told_due, "room {room}, {flat:x?}");
    assert!(out == expected, "room {room}, {flat:x?}");
    told.answer
}

/// How many bytes a script has for a number.
fn groups(n: u64) -> usize {
    (70 - n.max(1).leading_zeros() as usize) / 7
}

/// What writing reached.
#[derive(Default)]
struct Forms {
    lister: Lister,
    calls: u64,
    answers: BTreeMap<u8, u64>,
    /// Forms that no script holds, by each reason, and whether it is the only one.
    unheld: BTreeMap<(Unheld, bool), u64>,
    /// Pairs of reasons that were met in one form.
    pairs: BTreeSet<(Unheld, Unheld)>,
    /// By the way in which they were made: written, and refused with 2.
    ways: BTreeMap<Way, [u64; 2]>,
    /// What was written: kinds, masks by kind, and numbers by kind, place and how many bytes they take.
    kinds: [u64; 7],
    masks: BTreeSet<(u64, u64)>,
    sizes: BTreeSet<(u64, usize, usize)>,
    lengths: BTreeSet<u64>,
    longest: u64,
    events: u64,
}

impl Forms {
    /// A form into outputs that are just long enough, longer and too short; and what is written, run, listed and read again. Whether a script
    /// holds it.
    fn compare(&mut self, r: &mut Random, flat: &Flat) -> bool {
        let due = native::write(flat);
        // No script of these numbers and bytes would be longer.
        let enough = 30 + 10 * flat.fields.len() + flat.tokens.len();
        let length = due.as_ref().map_or(enough, Vec::len);
        let less = r.below(length as u64) as usize;
        for room in [length, length + 1 + r.below(20) as usize, length - 1, less, 0] {
            let answer = compare_room(r, flat, due.as_deref().map_err(|_| ()), room);
            self.calls += 1;
            *self.answers.entry(answer).or_default() += 1;
        }
        match &due {
            Err(why) => self.refused(why),
            Ok(script) => {
                let ran = library::run(script, 0, &mut [], &mut []);
                assert_eq!(ran, Ran { answer: 0, place: UNWRITTEN, count: 0 }, "the run of {script:02x?}");
                if script.len() < 3_000 {
                    let listing = crate::Listing::of(&mut self.lister, script);
                    crate::compare_list(script, &listing, 0);
                }
                assert!(native::read(script).as_ref() == Ok(flat), "the native reader on {script:02x?}");
                Scripts::default().compare_read(r, script, &Ok(flat.clone()), (flat.fields.len(), flat.tokens.len()));
                self.written(flat, script.len());
            }
        }
        due.is_ok()
    }

    fn refused(&mut self, why: &BTreeSet<Unheld>) {
        for &one in why {
            *self.unheld.entry((one, why.len() == 1)).or_default() += 1;
            self.pairs.extend(why.iter().filter(|&&other| one < other).map(|&other| (one, other)));
        }
    }

    fn written(&mut self, flat: &Flat, length: usize) {
        self.longest += (length == 65_536) as u64;
        let mut fields = &flat.fields[..];
        while let Some(&kind) = fields.first() {
            let (event, rest) = fields.split_at(NUMBERS[kind as usize - 1]);
            fields = rest;
            self.events += 1;
            self.kinds[kind as usize - 1] += 1;
            let mut named = |at: usize| {
                self.sizes.insert((kind, at, groups(event[at])));
            };
            match kind {
                SENSOR_SET | BAND_SET => {
                    named(1);
                    let columns = if kind == SENSOR_SET { 7 } else { 5 };
                    (0..columns).filter(|column| event[2] >> column & 1 == 1).for_each(|column| named(3 + column));
                    self.masks.insert((kind, event[2]));
                    if kind == BAND_SET && event[2] & 32 != 0 {
                        self.lengths.insert(event[8]);
                    }
                }
                _ => (1..event.len()).for_each(named),
            }
        }
    }

    /// Prints what was reached.
    fn print(&self) {
        println!(
            "calls: {}, by the answer: {:?}; events written: {}, by kind: {:?}",
            self.calls, self.answers, self.events, self.kinds
        );
        for (way, [written, refused]) in &self.ways {
            println!("flat form {way:?}: {written} written, {refused} held by no script");
        }
        for ((why, alone), n) in &self.unheld {
            println!("held by no script, {why:?}, alone: {alone}: {n}");
        }
        println!(
            "pairs of reasons: {}; masks: {}; sizes of numbers by kind and place: {}; lengths of expressions: {}; scripts of 65,536 bytes: {}",
            self.pairs.len(),
            self.masks.len(),
            self.sizes.len(),
            self.lengths.len(),
            self.longest
        );
    }

    /// Fails where an answer or a reason alone was not reached.
    fn reached(&self) {
        assert!([0, 2, 11].iter().all(|a| self.answers.contains_key(a)), "an answer of a script write was not reached");
        assert!(
            UNHELD.iter().all(|&why| self.unheld.contains_key(&(why, true))),
            "a reason of 2 was not reached alone"
        );
    }
}

/// Flat forms made in every way.
#[test]
fn flat_forms() {
    let r = &mut Random::new(6);
    let mut reached = Forms::default();
    for number in 0..3 * crate::wanted() {
        // A form of the greatest length is rare: it holds as many events as all others together.
        let way = match number % 600 {
            0 => Way::Longest,
            300 => Way::Overlong,
            n if n % 3 == 0 => r.pick(&[Way::Script, Way::Wide]),
            _ => r.pick(&WRONG_WAYS),
        };
        let flat = forms::made(r, way);
        let held = reached.compare(r, &flat);
        reached.ways.entry(way).or_default()[!held as usize] += 1;
    }
    println!("\nflat forms made: {}", 3 * crate::wanted());
    reached.print();
    reached.reached();
    for way in HELD_WAYS {
        let [written, refused] = reached.ways[&way];
        assert!(written > 0 && refused == 0, "{way:?}");
    }
    for way in [Way::Overlong].into_iter().chain(WRONG_WAYS) {
        let [written, refused] = reached.ways[&way];
        assert!(refused > 0 && (written == 0 || way.may_be_held()), "{way:?}");
    }
    assert!(
        UNHELD.iter().all(|&why| reached.unheld.contains_key(&(why, false))),
        "a reason of 2 was not reached with another"
    );
    assert!(reached.kinds.iter().all(|&n| n > 0), "a kind was not written");
}

/// Document 01's worked script.
const WORKED: [u64; 45] = [
    4, 0, 27, 1, 5, 0, 3, 5, 0, 0, 5, 1, 33, 1, 0, 0, 0, 0, 14, 6, 1, 100, 50, 1, 0, 5_000, 2, 5, 7, 0, 99, 2, 7, 1,
    99, 2, 5, 1, 4, 0, 0, 0, 0, 0, 0,
];
const WORKED_TOKENS: [u8; 14] = [0xf0, 0xf2, 0xa4, 0, 0, 0x0c, 0x0e, 0xa4, 0, 0, 0, 0, 0xf3, 0xf1];
const HEADER: [u64; 3] = [1_000, 2, 1];

/// Each header around its limits, with a form that a script holds and with one that none does.
fn headers(r: &mut Random, reached: &mut Forms) {
    for capacity in [0, 1, 2, 127, 128, (1 << 48) - 1, 1 << 48, (1 << 48) + 1, 1 << 49, (1 << 63) + 1, u64::MAX] {
        for bands in [0, 1, 2, 15, 16, 17, 18, 127, 128, 256, 257, 272, (1 << 32) + 1, u64::MAX] {
            for sensors in [0, 1, 15, 16, 17, 18, 128, 256, 257, 272, 1 << 32, (1 << 32) + 16, u64::MAX] {
                let header = [capacity, bands, sensors];
                let in_range = (1..=1 << 48).contains(&capacity) && (1..=16).contains(&bands) && sensors <= 16;
                for kind in [2, 8] {
                    let held = reached.compare(r, &Flat { header, fields: vec![kind, 1], tokens: vec![] });
                    assert_eq!(held, in_range && kind == 2, "{header:?}");
                }
            }
        }
    }
}

/// Each mask of a Set with each column alone not 0: held where it is named. Each mask that has one bit more, with nothing but 0.
fn masks(r: &mut Random, reached: &mut Forms) {
    for (kind, columns) in [(SENSOR_SET, 7), (BAND_SET, 6)] {
        let set = |mask: u64, length: usize| {
            let mut fields = vec![0; NUMBERS[kind as usize - 1]];
            (fields[0], fields[2]) = (kind, mask);
            if kind == BAND_SET {
                fields[8] = length as u64;
            }
            Flat { header: HEADER, fields, tokens: vec![0xf0; length] }
        };
        for mask in 0..1 << columns {
            assert!(reached.compare(r, &set(mask, 0)));
            for column in 0..columns {
                let bytes = kind == BAND_SET && column == 5;
                let mut flat = set(mask, bytes as usize);
                if !bytes {
                    flat.fields[3 + column] = r.pick(&[1, 2, 127, 128, 256, 1 << 32, 1 << 63, u64::MAX]);
                }
                assert_eq!(reached.compare(r, &flat), mask >> column & 1 == 1, "{flat:x?}");
            }
        }
        for bit in columns..64 {
            for low in [0, 1, (1 << columns) - 1] {
                assert!(!reached.compare(r, &set(1 << bit | low, 0)));
            }
        }
    }
}

/// Document 01's script without the numbers behind each place, with every number of bytes up to two too many; and with one number more.
fn cuts(r: &mut Random, reached: &mut Forms) {
    let all = [&WORKED_TOKENS[..], &[0xf0, 0xf1]].concat();
    let mut held = vec![];
    for fields in 0..=WORKED.len() {
        for tokens in 0..=all.len() {
            let flat = Flat { header: HEADER, fields: WORKED[..fields].to_vec(), tokens: all[..tokens].to_vec() };
            if reached.compare(r, &flat) {
                held.push((fields, tokens));
            }
        }
    }
    assert_eq!(held, [(0, 0), (10, 0), (19, 14), (23, 14), (26, 14), (28, 14), (32, 14), (36, 14), (45, 14)]);
    for more in 0..300 {
        let fields = [&WORKED[..], &[more]].concat();
        assert!(!reached.compare(r, &Flat { header: HEADER, fields, tokens: WORKED_TOKENS.to_vec() }));
    }
}

/// Each kind up to 300, and the seven in the low bits of others, with each number of numbers up to twelve.
fn kinds(r: &mut Random, reached: &mut Forms) {
    let high = [8, 16, 31, 32, 63].into_iter().flat_map(|bit| (0..8).map(move |kind| (1 << bit) + kind));
    for kind in (0..=300).chain(high) {
        let due = NUMBERS.get((kind as usize).wrapping_sub(1)).copied();
        for count in 1..=12 {
            let mut fields = vec![0; count];
            fields[0] = kind;
            let held = reached.compare(r, &Flat { header: HEADER, fields, tokens: vec![] });
            assert_eq!(held, due == Some(count), "kind {kind}, {count} numbers");
        }
    }
}

/// Each number of an event that is neither a mask nor a number of bytes: the least and the greatest of each size, alone and in all places.
fn sizes(r: &mut Random, reached: &mut Forms) {
    for size in 1..=10 {
        let least = if size == 1 { 0 } else { 1 << (7 * (size - 1)) };
        let greatest = if size == 10 { u64::MAX } else { (1 << (7 * size)) - 1 };
        for n in [least, greatest] {
            for kind in 1..=7 {
                let mut fields = vec![0; NUMBERS[kind as usize - 1]];
                fields[0] = kind;
                let mut places: Vec<usize> = (1..fields.len()).collect();
                if kind == SENSOR_SET || kind == BAND_SET {
                    places.retain(|&at| at != 2 && !(kind == BAND_SET && at == 8));
                    fields[2] = if kind == SENSOR_SET { 127 } else { 63 };
                }
                for &at in &places {
                    let mut alone = fields.clone();
                    alone[at] = n;
                    assert!(reached.compare(r, &Flat { header: HEADER, fields: alone, tokens: vec![] }));
                    fields[at] = n;
                    assert!(reached.compare(r, &Flat { header: HEADER, fields: fields.clone(), tokens: vec![] }));
                    assert!(reached.sizes.contains(&(kind, at, size)), "kind {kind}, place {at}, size {size}");
                }
            }
        }
    }
}

/// Each number of bytes that an expression may have, and some more; and numbers of bytes that are not there.
fn expressions(r: &mut Random, reached: &mut Forms) {
    let set = |length: u64, tokens: Vec<u8>| {
        let fields = vec![5, 1, 32, 0, 0, 0, 0, 0, length, 2, 1];
        Flat { header: HEADER, fields, tokens }
    };
    for length in 0..=1_030 {
        let flat = set(length, r.bytes(length as usize));
        assert_eq!(reached.compare(r, &flat), length <= 1_024, "{length} bytes");
    }
    for length in [65_536, 70_000] {
        assert!(!reached.compare(r, &set(length, vec![0xf0; length as usize])));
    }
    for length in [1, 15, 1_024, 1_025, 1 << 16, 1 << 32, (1 << 32) + 14, 1 << 63, u64::MAX - 13, u64::MAX] {
        assert!(!reached.compare(r, &set(length, WORKED_TOKENS.to_vec())));
    }
}

/// Scripts of about the greatest length, of each filling, alone and with something wrong behind.
fn lengths(r: &mut Random, reached: &mut Forms) {
    for filling in FILLINGS {
        for bytes in [65_534, 65_535, 65_536, 65_537, 65_538, 65_539, 131_072] {
            let mut flat = forms::of_bytes(r, bytes, filling);
            assert_eq!(reached.compare(r, &flat), bytes <= 65_536, "{filling:?}, {bytes} bytes");
            flat.fields.push(8);
            assert!(!reached.compare(r, &flat));
        }
    }
}

/// The scripts with the most numbers and with the most bytes of expressions: fewer than include/drive.h has as enough.
fn most(r: &mut Random, reached: &mut Forms) {
    let empty = (vec![4, 0, 0, 0, 0, 0, 0, 0, 0, 0], vec![]);
    let fields = forms::flat([1, 1, 0], &vec![empty; 21_844]);
    assert_eq!(fields.fields.len(), 218_440);
    let set = |length: usize| (vec![5, 0, 32, 0, 0, 0, 0, 0, length as u64], vec![0xf0; length]);
    let tokens = forms::flat([1, 1, 0], &[vec![set(1_024); 63], vec![set(701)]].concat());
    assert_eq!(tokens.tokens.len(), 65_213);
    assert!(reached.compare(r, &fields) && reached.compare(r, &tokens));
    let tokens = forms::flat([1, 1, 0], &[vec![set(1_024); 63], vec![set(702)]].concat());
    assert!(!reached.compare(r, &tokens));
}

/// The limits of headers, kinds, masks, bytes and lengths, each gone through in order.
#[test]
fn flat_limits() {
    let r = &mut Random::new(7);
    let mut reached = Forms::default();
    for part in [headers, masks, cuts, kinds, sizes, expressions, lengths, most] {
        part(r, &mut reached);
    }
    println!("\nlimits of flat forms");
    reached.print();
    reached.reached();
    assert_eq!(reached.masks.len(), 128 + 64, "a mask was not written");
    assert_eq!(reached.sizes.len(), 24 * 10, "a size of a number was not written");
    assert_eq!(reached.lengths.len(), 1_025, "a length of an expression was not written");
    assert!(reached.longest > 0, "no script of the greatest length was written");
}

/// The files of a folder of the repository with this ending, of which there are so many.
fn files(folder: &str, ending: &str, count: usize) -> Vec<PathBuf> {
    let folder = Path::new(env!("CARGO_MANIFEST_DIR")).join("../..").join(folder);
    let mut files: Vec<_> = folder.read_dir().unwrap().map(|file| file.unwrap().path()).collect();
    files.retain(|file| file.to_str().unwrap().ends_with(ending));
    files.sort();
    assert!(files.len() >= count, "{} has {} files", folder.display(), files.len());
    files
}

/// The scripts of the crate vectors, each after its length in four bytes, low first.
fn vectors() -> Vec<Vec<u8>> {
    let data = std::fs::read(Path::new(env!("CARGO_MANIFEST_DIR")).join("../../crates/vectors/stdin")).unwrap();
    let mut rest = &data[..];
    let mut scripts = vec![];
    while let Some((size, after)) = rest.split_first_chunk() {
        let (script, after) = after.split_at(u32::from_le_bytes(*size) as usize);
        scripts.push(script.to_vec());
        rest = after;
    }
    assert!(scripts.len() >= 1_095 && rest.is_empty());
    scripts
}

/// Every script of the repository.
#[test]
fn stored_scripts() {
    let mut lister = Lister::new();
    let mut reached = Scripts::default();
    let stdin = ["listing", "listing_most", "listing_overlong", "listing_empty"]
        .map(|name| files(&format!("crates/{name}"), "stdin", 1));
    let stored = [files("examples", ".bin", 7), files("tests/native/mixes", ".bin", 22), stdin.concat()].concat();
    let stored = stored.iter().map(|file| std::fs::read(file).unwrap());
    for script in vectors().into_iter().chain(stored) {
        let bad = crate::Listing::of(&mut lister, &script).bad;
        reached.compare(&script, bad);
    }
    println!("\nscripts of the repository");
    reached.finish();
}
