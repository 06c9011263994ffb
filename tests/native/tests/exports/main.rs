//! The exported functions and the program against the native engine, on scripts and calls made at random, the same at every run. SCRIPTS in the
//! environment says how many scripts, 10,000 where it is not set. What was reached is counted and printed, and a test fails where an
//! answer, a move of a phase, a kind of damage, something to be seen in a discovery answer or a reason for which no script holds a flat form was
//! not.
#[cfg(no_library)]
compile_error!("crates/api/out/libapi.a is missing: build it with `rt lib` in crates/api");

mod answers;
mod coverage;
mod discovery;
mod forms;
mod library;
mod program;
mod random;
mod resets;
mod scripts;
mod tokens;
mod written;

use drive_native::engine::Lister;
use coverage::{Coverage, Found};
use library::{Answered, Ran, Told, UNWRITTEN};
use random::Random;
use scripts::{Damage, Event, Script, DAMAGES};

/// The greatest header: capacity, bands and sensors.
const GREATEST: [u64; 3] = [1 << 48, 16, 16];

/// What lent memory holds before a call.
const PATTERN: u8 = 0xa5;

fn wanted() -> u64 {
    match std::env::var("SCRIPTS") {
        Ok(n) => n.parse().expect("SCRIPTS is a number"),
        Err(_) => 10_000,
    }
}

/// An engine's listing, taken apart.
struct Listing {
    text: Vec<u8>,
    answers: Vec<u8>,
    stops: Vec<u8>,
    /// ReadLocked, WriteLocked and the value of each band.
    bands: Vec<[u8; 3]>,
    /// The level, the phase, the condition and the timer of each sensor.
    sensors: Vec<[u32; 4]>,
    bad: Option<usize>,
}

impl Listing {
    fn of(lister: &mut Lister, script: &[u8]) -> Listing {
        let text = lister.list(script).to_vec();
        let mut all = Listing { text: vec![], answers: vec![], stops: vec![], bands: vec![], sensors: vec![], bad: None };
        for line in std::str::from_utf8(&text).unwrap().lines() {
            let words: Vec<&str> = line.split(' ').collect();
            let number = |i: usize| words[i].parse::<usize>().unwrap();
            match words[0] {
                "e" => {
                    all.answers.push(number(2) as u8);
                    all.stops.push(number(3) as u8);
                }
                "b" => all.bands.push([2, 3, 4].map(|i| number(i) as u8)),
                "s" => all.sensors.push([2, 3, 4, 5].map(|i| number(i) as u32)),
                "f" => all.bad = Some(number(1)),
                _ => {}
            }
        }
        all.text = text;
        all
    }
}

/// The listing, into an output that is just long enough, longer, and one byte too short.
fn compare_list(script: &[u8], expected: &Listing, slack: usize) {
    let text = &expected.text;
    let mut out = vec![PATTERN; text.len() + slack];
    let told = library::list(script, &mut out);
    assert_eq!(told, Told { answer: 0, count: text.len() }, "script {script:02x?}");
    assert!(out[..text.len()] == text[..], "script {script:02x?}\n{}", String::from_utf8_lossy(&out));
    assert!(out[text.len()..].iter().all(|&b| b == PATTERN));

    let mut short = vec![PATTERN; text.len() - 1];
    assert_eq!(library::list(script, &mut short), Told::refused(11));
    assert!(short.iter().all(|&b| b == PATTERN));
}

/// The run of at most so many events; then with one of the two buffers too short.
fn compare_run(r: &mut Random, script: &[u8], expected: &Listing, reached: &mut Coverage) {
    let all = expected.answers.len();
    let some = r.below(all as u64 + 1);
    let most = r.pick(&[u64::MAX, 65_536, all as u64, some]);
    let count = all.min(most as usize);
    let mut answers = vec![PATTERN; count + 3];
    let mut stops = vec![PATTERN; count + 5];
    let ran = library::run(script, most, &mut answers, &mut stops);
    reached.answer(ran.answer);
    if let Some(place) = expected.bad {
        assert_eq!(ran, Ran { answer: 10, place, count: UNWRITTEN }, "script {script:02x?}");
        assert!(answers.iter().chain(&stops).all(|&b| b == PATTERN));
        return;
    }
    assert_eq!(ran, Ran { answer: 0, place: UNWRITTEN, count }, "script {script:02x?}");
    assert!(
        answers[..count] == expected.answers[..count] && stops[..count] == expected.stops[..count],
        "script {script:02x?}"
    );
    assert!(answers[count..].iter().chain(&stops[count..]).all(|&b| b == PATTERN));
    if count > 0 {
        let first = r.one_in(2);
        let mut answers = vec![PATTERN; count - first as usize];
        let mut stops = vec![PATTERN; count - !first as usize];
        let ran = library::run(script, most, &mut answers, &mut stops);
        assert_eq!(ran, Ran { answer: 11, place: UNWRITTEN, count: UNWRITTEN });
        assert!(answers.iter().chain(&stops).all(|&b| b == PATTERN));
        reached.answer(ran.answer);
    }
}

fn compare(r: &mut Random, lister: &mut Lister, script: &[u8], reached: &mut Coverage) -> Listing {
    let expected = Listing::of(lister, script);
    let slack = r.below(3) as usize * 7;
    compare_list(script, &expected, slack);
    assert!(program::listed(script) == expected.text, "the program on script {script:02x?}");
    compare_run(r, script, &expected, reached);
    discovery::compare_write(r, lister, script, &mut reached.discovery);
    reached.written.compare(script, expected.bad);
    reached.listing(&expected.answers, &expected.stops, expected.bad);
    expected
}

/// What is known of a sensor's readings: what a Set of a threshold finds, and whether one was refused since.
type Readings = [(Found, bool); 16];

/// Takes note of an event that was answered: of a reading, of a power cycle, and of a Set that names a threshold or a fraction.
fn note(readings: &mut Readings, event: &Event, answer: u8, reached: &mut Coverage) {
    match (event.kind, answer) {
        (1, 0) => readings[event.fields[0] as usize] = (Found::Reading, false),
        (1, 2) => readings[event.fields[0] as usize].1 = true,
        (3, 0) if event.fields[0] == 0 => {
            for one in readings {
                let found = if one.0 == Found::NoReading { Found::NoReading } else { Found::PowerCycle };
                *one = (found, false);
            }
        }
        (3, 0) => {
            for one in readings.iter_mut().filter(|one| one.0 == Found::Reading) {
                one.0 = Found::OtherReset;
            }
        }
        (4, 0) if event.fields[1] & (2 | 4 | 16 | 32) != 0 => {
            let (found, refused) = readings[event.fields[0] as usize];
            reached.threshold(found, refused);
        }
        (5, answer) => note_expression(event, answer, reached),
        _ => {}
    }
}

/// Takes note of a band Set with an expression that reads as tokens: a malformed one, or an empty one.
fn note_expression(event: &Event, answer: u8, reached: &mut Coverage) {
    let Some(Ok(codes)) = event.tokens.as_deref().map(tokens::read) else { return };
    if codes.is_empty() {
        reached.emptied(answer);
    }
    if let Some(why) = tokens::broken(&codes) {
        reached.malformed(why, event.unlocks(), answer);
    }
}

/// The moves of each sensor at each event and what each reset does, from the listings of what the script begins with; one of these is compared
/// too.
fn follow(r: &mut Random, lister: &mut Lister, script: &Script, reached: &mut Coverage) {
    let bytes = script.bytes();
    let places = script.places();
    let mut readings = Readings::default();
    let mut bands = [resets::FRESH; 16];
    let mut before = Listing::of(lister, &bytes[..places[0]]);
    for (event, &end) in script.events.iter().zip(&places[1..]) {
        let after = Listing::of(lister, &bytes[..end]);
        for (from, to) in before.sensors.iter().zip(&after.sensors) {
            reached.phase(event.kind, from[1] as u8, to[1] as u8);
            if from[1] == 0 && to[1] == 0 {
                reached.level(event.kind, from[0] as u8, to[0] as u8);
            }
        }
        note(&mut readings, event, *after.answers.last().unwrap(), reached);
        reached.resets.follow(&mut bands, event, &before, &after);
        before = after;
    }
    let part = &bytes[..r.pick(&places)];
    let expected = Listing::of(lister, part);
    compare_list(part, &expected, 0);
}

#[test]
fn all_scripts() {
    let mut lister = Lister::new();
    let mut reached = Coverage::new();
    for number in 0..wanted() {
        let r = &mut Random::new(number + 1);
        let script = scripts::structured(r);
        if number % 2 == 0 {
            let listing = compare(r, &mut lister, &script.bytes(), &mut reached);
            assert_eq!(listing.bad, None);
            assert_eq!(listing.answers.len(), script.events.len());
            if script.events.len() < 60 {
                follow(r, &mut lister, &script, &mut reached);
            }
            continue;
        }
        // A script of the greatest length is rare: it holds as many events as all others together.
        let how = if number % 400 == 1 { Damage::Overlong } else { r.pick(&DAMAGES) };
        let how = if how == Damage::Overlong && number % 400 != 1 { Damage::Cut } else { how };
        let (bytes, known) = scripts::damaged(r, &script, how);
        let listing = compare(r, &mut lister, &bytes, &mut reached);
        if let Some(place) = known {
            assert_eq!(listing.bad, place, "{how:?} {bytes:02x?}");
        }
        reached.damage(how, listing.bad);
    }
    reached.finish();
}

/// The last event of a script, given directly on the drive that the others leave.
fn compare_event(r: &mut Random, lister: &mut Lister, script: &Script, reached: &mut Coverage) {
    let bytes = script.bytes();
    let places = script.places();
    let listing = Listing::of(lister, &bytes);
    let Some(event) = script.events.last() else { return };
    let last = script.events.len() - 1;
    let expected = match listing.answers[last] {
        0 => Answered::done(listing.stops[last] as u64),
        answer => Answered::refused(answer, None),
    };
    let fields = event.direct(r);
    let tokens = event.tokens.clone().unwrap_or_else(|| r.pick(&[&b""[..], b"xyz"]).to_vec());
    let before = &bytes[..places[last]];
    let got = library::event(before, event.kind, &fields, &tokens);
    assert_eq!(got, expected, "script {before:02x?} kind {} fields {fields:?} tokens {tokens:02x?}", event.kind);
    reached.answer(got.answer);
}

/// Numbers that no script can hold: 2, unless there is no such row. On a bad script there is none that the greatest header does not count.
fn compare_beyond(r: &mut Random, script: &Script, reached: &mut Coverage) {
    let mut bytes = script.bytes();
    let [_, mut bands, mut sensors] = script.header;
    if r.one_in(3) {
        bytes = scripts::damaged(r, script, Damage::UnknownKind).0;
        (bands, sensors) = (GREATEST[1], GREATEST[2]);
    }
    let row = r.below(18);
    let mut fields = vec![row, r.below(64), 0, 0, 0, 0, 0, 0, 0];
    let (kind, count, tokens) = match r.below(4) {
        0 => {
            fields[1] |= r.pick(&[128, 256, 1 << 32, 1 << 63]);
            (4, sensors, vec![])
        }
        1 => {
            fields[1] |= r.pick(&[64, 128, 1 << 32, 1 << 63]);
            (5, bands, vec![])
        }
        2 => (5, bands, vec![0xf0; r.pick(&[1_025, 1_026, 70_000])]),
        _ => (r.pick(&[0, 8, 9, 1 << 32, u64::MAX]), 18, vec![]),
    };
    let answer = if row < count { 2 } else { 1 };
    let got = library::event(&bytes, kind, &fields, &tokens);
    assert_eq!(got, Answered::refused(answer, None), "kind {kind} fields {fields:?}");
    reached.answer(got.answer);
}

/// An event on a bad script: the number from 1 to 6, or 13, that it gets on the fresh drive of the greatest header, by the engine, or else 10 and
/// the place.
fn compare_bad(r: &mut Random, lister: &mut Lister, script: &Script, reached: &mut Coverage) {
    let how = r.pick(&[Damage::UnknownKind, Damage::UnknownMaskBit, Damage::HeaderOutOfRange]);
    let (bytes, known) = scripts::damaged(r, script, how);
    let header = if r.one_in(2) { script.header } else { GREATEST };
    let event = scripts::event(r, header);
    let alone = Script { header: GREATEST, events: vec![event.clone()] };
    let expected = match Listing::of(lister, &alone.bytes()).answers[0] {
        answer @ (1..=6 | 13) => Answered::refused(answer, None),
        _ => Answered::refused(10, known.unwrap()),
    };
    let fields = event.direct(r);
    let got = library::event(&bytes, event.kind, &fields, &event.tokens.clone().unwrap_or_default());
    assert_eq!(got, expected, "script {bytes:02x?} kind {} fields {fields:?}", event.kind);
    reached.answer(got.answer);
    reached.on_bad(got.answer);
}

/// Single events given directly: such as scripts hold, such as none can hold, and on bad scripts.
#[test]
fn direct_events() {
    let mut lister = Lister::new();
    let mut reached = Coverage::new();
    let r = &mut Random::new(4);
    for number in 0..wanted() {
        let script = scripts::structured(r);
        compare_event(r, &mut lister, &script, &mut reached);
        if number % 4 == 0 {
            compare_beyond(r, &script, &mut reached);
        }
        compare_bad(r, &mut lister, &script, &mut reached);
    }
    reached.events();
}

/// Document 01's own script and listing.
#[test]
fn the_paper() {
    let script = [
        &[0xe8, 0x07, 0x02, 0x01, 0x04, 0x00, 0x1b, 0x01, 0x05, 0x03, 0x05, 0x05, 0x01, 0x21, 0x01, 0x0e][..],
        &[0xf0, 0xf2, 0xa4, 0x00, 0x00, 0x0c, 0x0e, 0xa4, 0x00, 0x00, 0x00, 0x00, 0xf3, 0xf1],
        &[0x06, 0x01, 0x64, 0x32, 0x01, 0x00, 0x88, 0x27, 0x02, 0x05, 0x07, 0x00, 0x63, 0x02, 0x07, 0x01, 0x63, 0x02],
        &[0x05, 0x01, 0x04, 0x00],
    ]
    .concat();
    let text =
        "e 0 0 0\ne 1 0 0\ne 2 0 0\ne 3 0 0\ne 4 0 1\ne 5 9 0\ne 6 0 0\ne 7 8 0\nb 0 0 0 0\nb 1 1 0 1\ns 0 1 2 1 0\n";
    let mut out = [PATTERN; 200];
    assert_eq!(library::list(&script, &mut out), Told { answer: 0, count: text.len() });
    assert_eq!(&out[..text.len()], text.as_bytes());
}

/// The fresh call, in range and out of it.
#[test]
fn fresh() {
    let r = &mut Random::new(3);
    let (mut done, mut refused) = (0, 0);
    for _ in 0..2_000 {
        let capacity = r.pick(&[0, 1, 2, 1_000, (1 << 48) - 1, 1 << 48, (1 << 48) + 1, u64::MAX]);
        let bands = r.pick(&[0, 1, 2, 15, 16, 17, 1 << 32, u64::MAX]);
        let sensors = r.pick(&[0, 1, 15, 16, 17, 1 << 32, u64::MAX]);
        let fits = (1..=1 << 48).contains(&capacity) && (1..=16).contains(&bands) && sensors <= 16;
        let expected = if fits {
            library::Fresh { answer: 0, capacity, bands: bands as usize, sensors: sensors as usize }
        } else {
            library::Fresh { answer: 2, capacity: 1, bands: 1, sensors: 0 }
        };
        assert_eq!(library::fresh(capacity, bands, sensors), expected);
        *if fits { &mut done } else { &mut refused } += 1;
    }
    assert!(done > 100 && refused > 100);
    println!("\nfresh calls: {done} done, {refused} out of range");
}

/// The answer that a script's band Set gets for these bytes, by the engine.
fn by_script(lister: &mut Lister, bytes: &[u8]) -> u8 {
    let mut script = vec![1, 1, 0, 5, 0, 32];
    scripts::put(&mut script, bytes.len() as u64);
    script.extend(bytes);
    Listing::of(lister, &script).answers[0]
}

fn compare_read(lister: &mut Lister, bytes: &[u8], reached: &mut Coverage) {
    const CODE: u64 = 0xa5a5_a5a5_a5a5_a5a5;
    let mut out = [CODE; 40];
    let told = library::read_tokens(bytes, &mut out);
    reached.answer(told.answer);
    match tokens::read(bytes) {
        Err(answer) => {
            assert_eq!(told, Told::refused(answer), "{bytes:02x?}");
            assert!(out.iter().all(|&c| c == CODE));
        }
        Ok(codes) => {
            assert_eq!(told, Told { answer: 0, count: codes.len() }, "{bytes:02x?}");
            assert_eq!(out[..codes.len()], codes[..]);
            assert!(out[codes.len()..].iter().all(|&c| c == CODE));
            let mut back = [PATTERN; 400];
            assert_eq!(library::write_tokens(&codes, &mut back), Told { answer: 0, count: bytes.len() });
            assert_eq!(&back[..bytes.len()], bytes);
            if !codes.is_empty() {
                let mut short = vec![CODE; codes.len() - 1];
                assert_eq!(library::read_tokens(bytes, &mut short), Told::refused(11));
                assert!(short.iter().all(|&c| c == CODE));
            }
        }
    }
    if bytes.len() <= 1_024 {
        let malformed = tokens::read(bytes).is_ok_and(|codes| tokens::broken(&codes).is_some());
        let answer = if malformed { 13 } else { told.answer };
        assert_eq!(answer, by_script(lister, bytes), "{bytes:02x?}");
    }
}

fn compare_write(r: &mut Random, codes: &[u64], reached: &mut Coverage) {
    let expected = tokens::write(codes);
    let needed = expected.as_ref().map_or(0, |b| b.len());
    let room = r.pick(&[0, needed.saturating_sub(1), needed, needed, needed + 9, 500]);
    let mut out = vec![PATTERN; room];
    let told = library::write_tokens(codes, &mut out);
    reached.answer(told.answer);
    let expected = expected.and_then(|bytes| if room < needed { Err(11) } else { Ok(bytes) });
    match expected {
        Err(answer) => {
            assert_eq!(told, Told::refused(answer), "{codes:x?}");
            assert!(out.iter().all(|&b| b == PATTERN));
        }
        Ok(bytes) => {
            assert_eq!(told, Told { answer: 0, count: bytes.len() }, "{codes:x?}");
            assert!(out[..needed] == bytes[..] && out[needed..].iter().all(|&b| b == PATTERN), "{codes:x?}");
        }
    }
}

/// Tokens read and written directly, against the plain form and the engine.
#[test]
fn direct_tokens() {
    let mut lister = Lister::new();
    let mut reached = Coverage::new();
    let r = &mut Random::new(2);
    for _ in 0..wanted() {
        let mut bytes = tokens::expression(r, 4);
        if r.one_in(20) {
            bytes.resize(r.pick(&[1_023, 1_024, 1_025, 1_026, 5_000]), 0xf1);
        }
        compare_read(&mut lister, &bytes, &mut reached);
        let mut codes = if r.one_in(2) { tokens::postfix(r, 4) } else { tokens::any_list(r, 40) };
        if r.one_in(6) {
            let at = r.below(codes.len() as u64 + 1) as usize;
            codes.insert(at, r.pick(&[tokens::NOT + 1, tokens::NOT + 256, u64::MAX]));
        }
        compare_write(r, &codes, &mut reached);
    }
    reached.tokens();
}
