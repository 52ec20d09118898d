//! Whole sheets in reply buffers of all lengths.

use std::collections::BTreeMap;

use plain::random::Random;
use plain::strips::{answer_sheet, kind, LONGEST_STRIP};

use super::{listed, Tally};
use crate::calls::SheetCall;
use crate::guarded::Guarded;
use crate::strip_maker::some_sheet;

/// How many bytes the replies have where there is room for all of them.
fn bytes_needed(sheet: &[u8]) -> usize {
    let mut replies = vec![0; 2 * LONGEST_STRIP];
    answer_sheet(sheet, &mut replies).bytes as usize
}

fn reply_length(random: &mut Random, sheet: &[u8]) -> usize {
    match random.below(20) {
        0 => random.index(9),
        1..=3 => random.index(600),
        4 | 5 => random.index(LONGEST_STRIP + 1),
        6..=8 => bytes_needed(sheet),
        9..=11 => (bytes_needed(sheet) + random.index(13)).saturating_sub(6),
        _ => LONGEST_STRIP,
    }
}

fn some_call(random: &mut Random) -> SheetCall {
    let sheet = some_sheet(random);
    let length = reply_length(random, &sheet);
    SheetCall {
        input: Guarded::new(&sheet),
        replies: Guarded::new(&random.bytes(length)),
    }
}

/// What the replies of all sheets say, so that one sees what was put to test.
#[derive(Default)]
struct Answered {
    accepted: BTreeMap<u64, u64>,
    refused: BTreeMap<u64, u64>,
}

impl Answered {
    /// Reads replies back, one behind the other.
    fn read(&mut self, mut replies: &[u8]) {
        while let Some((first, rest)) = replies.split_first_chunk::<4>() {
            let first = u32::from_be_bytes(*first);
            if first >> 28 == kind::REFUSED {
                *self
                    .refused
                    .entry(u64::from(first >> 20 & 0xFF))
                    .or_default() += 1;
                replies = rest;
            } else {
                *self.accepted.entry(u64::from(first >> 28)).or_default() += 1;
                let count = (first & 0x0FFF_FFFF) as usize;
                replies = &rest[count.next_multiple_of(4)..];
            }
        }
    }
}

pub fn compare(seed: u64, count: u64) -> Tally {
    let mut tally = Tally::new("sheets", seed);
    let mut answered = Answered::default();
    for case in 0..count {
        let mut random = Random::for_case(seed, 6, case);
        let (report, after) = tally.compare(case, &some_call(&mut random));
        answered.read(&after.replies[..report.bytes as usize]);
    }
    tally.remark(format!(
        "orders accepted, by kind: {}",
        listed(&answered.accepted)
    ));
    tally.remark(format!(
        "orders refused, by refusal: {}",
        listed(&answered.refused)
    ));
    tally
}
