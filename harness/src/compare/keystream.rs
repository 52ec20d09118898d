//! A new session is opened, skips, and applies keystream to a window.

use std::collections::BTreeMap;

use plain::random::Random;

use super::{listed, Tally};
use crate::calls::KeystreamCall;
use crate::guarded::Guarded;
use crate::material;

const MOST_WORDS: u64 = 1 << 50;

/// An accepted skip steps word by word, so it must not be longer than this.
const LONGEST_SKIP: u64 = 20_000;

/// Limits in words: at the borders, or of the size of the buffers.
fn some_limit(random: &mut Random) -> u64 {
    match random.below(10) {
        0 => random.pick(&[0, MOST_WORDS + 1, 1 << 62, (1 << 62) + 1, 1 << 63, u64::MAX]),
        1 => random.pick(&[1, 2, 3]),
        2 | 3 => MOST_WORDS,
        4 => random.pick(&[MOST_WORDS - 1, 1 << 32, (1 << 32) + 1]),
        5 | 6 => random.between(1, 60),
        _ => random.between(1, 3_000),
    }
}

/// A skip that is short, or around the limit, or far past it.
fn some_skip(random: &mut Random, limit: u64) -> u64 {
    let end = limit.saturating_mul(4);
    match random.below(10) {
        0 => random.pick(&[
            (1 << 52) + 1,
            (1 << 52) + 4,
            1 << 63,
            u64::MAX - 1,
            u64::MAX,
        ]),
        1 if end <= LONGEST_SKIP => (end + 3).saturating_sub(random.below(8)),
        2 | 3 => random.below(40),
        4 => random.below(LONGEST_SKIP),
        5 if end <= LONGEST_SKIP => random.below(end + 1),
        _ => 0,
    }
}

fn buffer_length(random: &mut Random) -> usize {
    match random.below(8) {
        0 => random.index(5),
        1 | 2 => random.index(24),
        3..=6 => random.index(300),
        _ => random.index(6_000),
    }
}

/// A window within a buffer of this length.
fn valid_window(random: &mut Random, length: usize) -> (usize, usize) {
    let start = random.index(length + 1);
    match random.below(5) {
        0 => (0, length),
        1 => (start, length - start),
        2 => (start, 0),
        _ => (start, random.index(length - start + 1)),
    }
}

/// A window that passes the buffer, also by a sum that passes 64 bits.
fn wrong_window(random: &mut Random, length: usize) -> (usize, usize) {
    let start = random.index(length + 1);
    let more = 1 + random.index(9);
    match random.below(6) {
        0 => (start, length - start + 1),
        1 => (start, length - start + more),
        2 => (length + more, 0),
        3 => (usize::MAX - random.index(length + 1), more + length),
        4 => (start, usize::MAX - random.index(length + 1)),
        _ => (usize::MAX, random.pick(&[0, 1, usize::MAX])),
    }
}

/// A window whose end is at the limit, or just past it.
fn window_at_limit(random: &mut Random, length: usize, left: u64) -> (usize, usize) {
    let count = left
        .saturating_add(random.below(3))
        .saturating_sub(random.below(3));
    let count = usize::try_from(count).unwrap_or(usize::MAX).min(length);
    (random.index(length - count + 1), count)
}

fn some_call(random: &mut Random) -> KeystreamCall {
    let generator = material::generator(random, 40);
    let key = match random.one_in(5) {
        true => material::wrong_key(random, generator, 300),
        false => material::valid_key(random, generator),
    };
    let iv = match random.one_in(5) {
        true => material::wrong_iv(random, generator, 300),
        false => material::valid_iv(random, generator),
    };
    let limit = some_limit(random);
    let skipped = some_skip(random, limit);
    let length = buffer_length(random);
    let left = limit.saturating_mul(4).saturating_sub(skipped);
    let (start, count) = match random.below(8) {
        0 => wrong_window(random, length),
        1 | 2 => window_at_limit(random, length, left),
        _ => valid_window(random, length),
    };
    KeystreamCall {
        generator,
        key: Guarded::new(&key),
        iv: Guarded::new(&iv),
        limit,
        skipped,
        buffer: Guarded::new(&material::bytes(random, length)),
        start,
        count,
    }
}

pub fn compare(seed: u64, count: u64) -> Tally {
    let mut tally = Tally::new("keystream of sessions", seed);
    let (mut accepted, mut key_faults, mut iv_faults) =
        (BTreeMap::new(), BTreeMap::new(), BTreeMap::new());
    for case in 0..count {
        let mut random = Random::for_case(seed, 3, case);
        let (outcome, call) = tally.compare(case, &some_call(&mut random));
        match outcome.number {
            0 => *accepted.entry(u64::from(call.generator)).or_default() += 1,
            3 => *key_faults.entry(outcome.member).or_default() += 1,
            4 => *iv_faults.entry(outcome.member).or_default() += 1,
            _ => {}
        }
    }
    tally.remark(format!("accepted, by generator: {}", listed(&accepted)));
    tally.remark(format!("key faults, by member: {}", listed(&key_faults)));
    tally.remark(format!("IV faults, by member: {}", listed(&iv_faults)));
    tally
}
