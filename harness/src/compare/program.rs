//! The program `sheet`, by standard input and output.

use std::io::{ErrorKind, Write};
use std::path::Path;
use std::process::{Command, Output, Stdio};

use plain::random::Random;
use plain::strips::{answer_sheet, LONGEST_STRIP};

use super::Tally;
use crate::guarded::Guarded;
use crate::strip_maker::some_sheet;

/// Runs the program on a sheet. It reads no more than the byte that makes a
/// sheet too long, and may be gone while the rest is still being written.
fn run_program(program: &Path, sheet: &[u8]) -> Output {
    let mut child = Command::new(program)
        .stdin(Stdio::piped())
        .stdout(Stdio::piped())
        .stderr(Stdio::piped())
        .spawn()
        .unwrap_or_else(|error| panic!("{} does not start: {error}", program.display()));
    let mut input = child.stdin.take().expect("standard input is piped");
    if let Err(error) = input.write_all(sheet) {
        assert_eq!(
            error.kind(),
            ErrorKind::BrokenPipe,
            "writing to the program: {error}"
        );
    }
    drop(input);
    child
        .wait_with_output()
        .expect("the program can be waited for")
}

fn compare_one(tally: &mut Tally, case: u64, program: &Path, sheet: &[u8]) {
    let mut replies = vec![0; LONGEST_STRIP];
    let report = answer_sheet(sheet, &mut replies);
    replies.truncate(report.bytes as usize);
    let output = run_program(program, sheet);
    tally.count(report.number);
    let right =
        output.status.code() == Some(0) && output.stdout == replies && output.stderr.is_empty();
    if !right {
        tally.differs(case, || {
            format!(
                "input: {}\nplain: {}\nprogram: {}, standard error {}, {}\n",
                Guarded::new(sheet),
                Guarded::new(&replies),
                output.status,
                Guarded::new(&output.stderr),
                Guarded::new(&output.stdout),
            )
        });
    }
}

pub fn compare(seed: u64, count: u64, program: &Path) -> Tally {
    let mut tally = Tally::new("the program sheet", seed);
    for case in 0..count {
        let mut random = Random::for_case(seed, 7, case);
        let sheet = some_sheet(&mut random);
        compare_one(&mut tally, case, program, &sheet);
    }
    tally
}
