//! The program itself, target/bin/listing, which tests/run has built: a script on standard input, its listing on standard output.
use std::io::Write;
use std::process::{Command, Stdio};

const PROGRAM: &str = concat!(env!("CARGO_MANIFEST_DIR"), "/../../target/bin/listing");

/// What the program prints for a script. The script is written while the program reads it, and the listing read when it is closed.
pub fn listed(script: &[u8]) -> Vec<u8> {
    let mut running = Command::new(PROGRAM)
        .stdin(Stdio::piped())
        .stdout(Stdio::piped())
        .spawn()
        .expect("target/bin/listing is there: tests/program has it built");
    let mut input = running.stdin.take().unwrap();
    // The program reads one byte more than a script may have, and no more.
    let read = script.len().min(65_537);
    input.write_all(&script[..read]).expect("the program reads its input");
    drop(input);
    let ended = running.wait_with_output().unwrap();
    assert!(ended.status.success(), "the program ends well: {:?}", ended.status);
    ended.stdout
}
