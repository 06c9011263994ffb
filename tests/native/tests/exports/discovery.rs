//! The discovery answer (#102), written of every script and read from answers made at random, against the native implementation.
use crate::answers::{self, Way, WAYS};
use crate::library::{self, Seen, Told};
use crate::random::Random;
use drive_native::discovery::{self as native, Descriptor, Short, Shown, LOCKING, RANGES, SHORTS, SIZE};
use drive_native::engine::{Lister, Locks};
use std::collections::BTreeMap;

/// What a drive's locks are to the Locked flag.
#[derive(Clone, Copy, Debug, PartialEq, Eq, PartialOrd, Ord)]
enum Lock {
    Open,
    /// A side is locked and not enabled, and Locked is 0.
    NotEnabled,
    ReadAlone,
    WriteAlone,
    BothSides,
    /// Of one band, the first or another.
    FirstBandAlone,
    OtherBandAlone,
}

const LOCKS: [Lock; 7] = [
    Lock::Open,
    Lock::NotEnabled,
    Lock::ReadAlone,
    Lock::WriteAlone,
    Lock::BothSides,
    Lock::FirstBandAlone,
    Lock::OtherBandAlone,
];

/// What the answers of the written scripts reached.
#[derive(Default)]
pub struct Written {
    /// By the answer, and whether the output was too short.
    answers: BTreeMap<(u8, bool), u64>,
    locks: BTreeMap<Lock, u64>,
}

impl Written {
    fn locks(&mut self, locks: &Locks) {
        let read = locks.read_enabled & locks.read_locked;
        let write = locks.write_enabled & locks.write_locked;
        let mut reach = |lock| *self.locks.entry(lock).or_default() += 1;
        reach(match (read != 0, write != 0) {
            (true, true) => Lock::BothSides,
            (true, false) => Lock::ReadAlone,
            (false, true) => Lock::WriteAlone,
            (false, false) if locks.read_locked | locks.write_locked != 0 => Lock::NotEnabled,
            (false, false) => Lock::Open,
        });
        let bands = read | write;
        if bands.is_power_of_two() {
            reach(if bands == 1 { Lock::FirstBandAlone } else { Lock::OtherBandAlone });
        }
    }

    /// Prints what was reached, and fails where something was not.
    pub fn finish(&self) {
        println!("discovery answers written, by the answer and whether the output is too short: {:?}", self.answers);
        println!("locks: {:?}", self.locks);
        for reached in [(0, false), (10, false), (10, true), (11, true)] {
            assert!(self.answers.contains_key(&reached), "an answer of a discovery write was not reached");
        }
        assert!(LOCKS.iter().all(|l| self.locks.contains_key(l)), "locks were not reached");
    }
}

/// The answer of a script, into an output that is just long enough, longer, and too short; and what is written, read again with the bytes
/// behind it.
pub fn compare_write(r: &mut Random, lister: &mut Lister, script: &[u8], reached: &mut Written) {
    let locks = lister.locks(script);
    if let Ok(locks) = &locks {
        reached.locks(locks);
    }
    let longer = SIZE + 1 + r.below(40) as usize;
    let shorter = r.pick(&[SIZE - 1, SIZE - 1, 64, 48, 1, 0]);
    for room in [SIZE, longer, shorter] {
        let mut expected = r.bytes(room);
        let mut out = expected.clone();
        let told = library::write_discovery(script, &mut out);
        reached.answers.entry((told.answer, room < SIZE)).and_modify(|n| *n += 1).or_insert(1);
        let due = match &locks {
            Err(place) => Told { answer: 10, count: *place },
            Ok(_) if room < SIZE => Told::refused(11),
            Ok(locks) => {
                expected[..SIZE].copy_from_slice(&native::write(locks));
                Told { answer: 0, count: SIZE }
            }
        };
        assert_eq!(told, due, "room {room}, script {script:02x?}");
        assert!(out == expected, "room {room}, script {script:02x?}\n{out:02x?}");
        if told.answer == 0 {
            assert_eq!(compare_read(r, &out), Ok(Shown { locking: true, ranges: true, flags: expected[52] }));
        }
    }
}

/// What is read from bytes, which is what the native reader shows. The three numbers hold beforehand what no answer shows.
fn compare_read(r: &mut Random, bytes: &[u8]) -> Result<Shown, Short> {
    let before = Seen {
        answer: 0,
        locking: 2 + r.below(254) as u8,
        ranges: 2 + r.below(254) as u8,
        flags: 64 + r.below(192) as u8,
    };
    let seen = library::read_discovery(bytes, &before);
    let expected = native::read(bytes);
    let due = match expected {
        Ok(shown) => Seen { answer: 0, locking: shown.locking as u8, ranges: shown.ranges as u8, flags: shown.flags },
        Err(_) => Seen { answer: 12, ..before },
    };
    assert_eq!(seen, due, "{bytes:02x?}");
    expected
}

/// What there is to be seen in an answer that is not short.
#[derive(Clone, Copy, Debug, PartialEq, Eq, PartialOrd, Ord)]
enum Sight {
    Both,
    LockingAlone,
    RangesAlone,
    Neither,
    /// No descriptor, and no byte behind.
    Nothing,
    RepeatedLocking,
    RepeatedRanges,
    /// An unknown feature, and one of the two after it.
    UnknownBefore,
    /// One of the two codes with another version or another length, before a right one, after it, or without.
    VersionBefore,
    VersionAfter,
    VersionAlone,
    LengthBefore,
    LengthAfter,
    LengthAlone,
    /// A reserved flag, the reserved half of a version byte of a feature that is shown, another revision.
    ReservedFlag,
    ReservedHalf,
    OtherRevision,
    /// Behind the end, also a Locking feature where none is before it.
    Behind,
    LockingBehind,
    /// Descriptors of no bytes and of the most.
    Empty,
    Longest,
}

const SIGHTS: [Sight; 21] = [
    Sight::Both,
    Sight::LockingAlone,
    Sight::RangesAlone,
    Sight::Neither,
    Sight::Nothing,
    Sight::RepeatedLocking,
    Sight::RepeatedRanges,
    Sight::UnknownBefore,
    Sight::VersionBefore,
    Sight::VersionAfter,
    Sight::VersionAlone,
    Sight::LengthBefore,
    Sight::LengthAfter,
    Sight::LengthAlone,
    Sight::ReservedFlag,
    Sight::ReservedHalf,
    Sight::OtherRevision,
    Sight::Behind,
    Sight::LockingBehind,
    Sight::Empty,
    Sight::Longest,
];

/// What the answers that were read reached.
#[derive(Default)]
pub struct Read {
    calls: u64,
    shorts: BTreeMap<Short, u64>,
    sights: BTreeMap<Sight, u64>,
    /// By the way in which they were made: read, and short.
    ways: BTreeMap<Way, [u64; 2]>,
}

impl Read {
    /// What is passed over of one of the two codes, by its version alone or by its length alone, and where.
    fn passed(&mut self, all: &[Descriptor], code: u16) {
        let right = all.iter().position(|d| d.is(code));
        for (at, d) in all.iter().enumerate().filter(|(_, d)| d.code == code) {
            let sights = match (d.version == native::VERSION, d.data.len() == native::LENGTH) {
                (false, true) => [Sight::VersionBefore, Sight::VersionAfter, Sight::VersionAlone],
                (true, false) => [Sight::LengthBefore, Sight::LengthAfter, Sight::LengthAlone],
                _ => continue,
            };
            self.see(sights[right.map_or(2, |right| (at > right) as usize)]);
        }
    }

    fn see(&mut self, sight: Sight) {
        *self.sights.entry(sight).or_default() += 1;
    }

    fn sights(&mut self, bytes: &[u8], shown: Shown) {
        let end = native::end(bytes).unwrap();
        let all = native::descriptors(bytes).unwrap();
        let of = |code: u16| all.iter().filter(move |d| d.is(code)).collect::<Vec<_>>();
        let (locking, ranges) = (of(LOCKING), of(RANGES));
        self.see(match (shown.locking, shown.ranges) {
            (true, true) => Sight::Both,
            (true, false) => Sight::LockingAlone,
            (false, true) => Sight::RangesAlone,
            (false, false) => Sight::Neither,
        });
        let known = |d: &Descriptor| d.code == LOCKING || d.code == RANGES;
        let unknown = all.iter().position(|d| !known(d));
        let behind = &bytes[end..];
        for (sight, holds) in [
            (Sight::Nothing, all.is_empty() && behind.is_empty()),
            (Sight::RepeatedLocking, locking.iter().any(|d| (d.data[0] ^ locking[0].data[0]) & native::FLAGS != 0)),
            (Sight::RepeatedRanges, ranges.len() > 1),
            (Sight::UnknownBefore, unknown.is_some_and(|at| all[at..].iter().any(|d| d.is(LOCKING) || d.is(RANGES)))),
            (Sight::ReservedFlag, locking.first().is_some_and(|d| d.data[0] & !native::FLAGS != 0)),
            (Sight::ReservedHalf, locking.iter().chain(&ranges).any(|d| d.reserved != 0)),
            (Sight::OtherRevision, bytes[4..8] != [0, 0, 0, 1]),
            (Sight::Behind, !behind.is_empty()),
            (Sight::LockingBehind, !shown.locking && matches!(behind, [0, 2, 0x10..=0x1f, 12, _, ..])),
            (Sight::Empty, all.iter().any(|d| d.data.is_empty())),
            (Sight::Longest, all.iter().any(|d| d.data.len() == 255)),
        ] {
            if holds {
                self.see(sight);
            }
        }
        self.passed(&all, LOCKING);
        self.passed(&all, RANGES);
    }

    fn compare(&mut self, r: &mut Random, bytes: &[u8]) -> Result<Shown, Short> {
        let shown = compare_read(r, bytes);
        self.calls += 1;
        match shown {
            Ok(shown) => self.sights(bytes, shown),
            Err(short) => *self.shorts.entry(short).or_default() += 1,
        }
        shown
    }

    fn finish(&self) {
        println!("\ndiscovery answers read: {}; short: {:?}", self.calls, self.shorts);
        println!("seen in them: {:?}", self.sights);
        for (way, [read, short]) in &self.ways {
            println!("discovery answer {way:?}: {read} read, {short} short");
        }
        assert!(SHORTS.iter().all(|s| self.shorts.contains_key(s)), "a reason of 12 was not reached");
        assert!(SIGHTS.iter().all(|s| self.sights.contains_key(s)), "something to be seen was not reached");
        assert!(WAYS.iter().all(|w| self.ways.contains_key(w)), "a way to make an answer was not reached");
    }
}

/// Answers made in every way; some also cut at every place, and with every length that is off by at most 5.
#[test]
fn discovery_answers() {
    let r = &mut Random::new(5);
    let mut reached = Read::default();
    for number in 0..5 * crate::wanted() {
        let way = r.pick(&WAYS);
        let bytes = answers::made(r, way);
        let shown = reached.compare(r, &bytes);
        reached.ways.entry(way).or_default()[shown.is_err() as usize] += 1;
        if number % 50 != 0 {
            continue;
        }
        let right = answers::right(r);
        for end in 0..=right.len() {
            let cut = reached.compare(r, &right[..end]);
            assert_eq!(cut.is_ok(), end == right.len(), "an answer that is cut is short");
        }
        let behind = [&right[..], &r.bytes(6)].concat();
        for off in -5..=5 {
            let mut bytes = if r.one_in(2) { right.clone() } else { behind.clone() };
            answers::state(&mut bytes, (right.len() as u32 - 4).wrapping_add_signed(off));
            let _ = reached.compare(r, &bytes);
        }
    }
    reached.finish();
}
