//! Trace: states that a key and an IV reach, that nearly are reached, and
//! that none reach.

use std::collections::BTreeMap;

use plain::ciphers::{start_register, Snow2, Snow3g};
use plain::generator::Generator;
use plain::random::Random;

use super::{listed, Tally};
use crate::calls::TraceCall;
use crate::guarded::Guarded;
use crate::material;

const FARTHEST: u64 = 1 << 20;

/// The words of a cipher before its first step: as a key and an IV put them
/// there, or nearly so. The words of the finite state machine stand behind.
fn start_words(random: &mut Random, key_bytes: usize, machine_words: usize) -> Vec<u32> {
    let key = material::bytes(random, key_bytes);
    let iv = material::bytes(random, 16);
    let mut words = start_register(&key, &iv).to_vec();
    words.extend(vec![0; machine_words]);
    match random.below(10) {
        0..=4 => {}
        5..=7 => {
            // One bit is other: an IV word of it is another IV, the rest none.
            let place = random.index(words.len());
            words[place] ^= 1 << random.index(32);
        }
        8 => mingle(random, &mut words),
        _ => {
            let place = random.index(words.len());
            words[place] = random.word();
        }
    }
    words
}

/// Takes some words from the register of another key, of either length, under
/// the same or another IV, so that a key fits in part.
fn mingle(random: &mut Random, words: &mut [u32]) {
    let length = random.pick(&[16, 32]);
    let key = material::bytes(random, length);
    let iv = material::bytes(random, 16);
    let other = start_register(&key, &iv);
    let (from, to) = random.pick(&[(0, 4), (4, 8), (8, 12), (12, 16), (0, 8), (8, 16)]);
    words[from..to].copy_from_slice(&other[from..to]);
}

/// A state of SNOW 2.0 so many steps after what is, or nearly is, a load.
fn snow2_state(random: &mut Random, steps: u64) -> Vec<u32> {
    if random.one_in(10) {
        return material::state(random, Snow2::SIZE);
    }
    let key_bytes = random.pick(&[16, 32]);
    let mut snow2 = Snow2::zeroed();
    let start = start_words(random, key_bytes, 2);
    snow2.fill(&start).expect("as many words as the state has");
    snow2.run_in();
    (0..steps).for_each(|_| snow2.forward());
    snow2.state()
}

/// A state of SNOW 3G so many steps after what is, or nearly is, a load.
fn snow3g_state(random: &mut Random, steps: u64) -> Vec<u32> {
    if random.one_in(10) {
        return material::state(random, Snow3g::SIZE);
    }
    let key_bytes = if random.one_in(12) { 16 } else { 32 };
    let mut snow3g = Snow3g::zeroed();
    let start = start_words(random, key_bytes, 3);
    snow3g.fill(&start).expect("as many words as the state has");
    snow3g.run_in();
    (0..steps).for_each(|_| snow3g.forward());
    snow3g.state()
}

/// A state of the generator, `steps` of its words after such a beginning.
fn state_after(random: &mut Random, generator: u32, steps: u64) -> Vec<u32> {
    match generator {
        0 => snow2_state(random, steps),
        1 => snow3g_state(random, steps),
        3 => [snow2_state(random, steps), snow3g_state(random, steps)].concat(),
        // An odd number of steps below reaches nothing.
        4 => {
            let odd = u64::from(random.one_in(10));
            snow2_state(random, 2 * steps + odd)
        }
        _ => material::state(random, 16),
    }
}

/// How many words a state is behind its beginning, and how many are asked for.
fn distances(random: &mut Random) -> (u64, u64) {
    let steps = match random.below(400) {
        0 => random.pick(&[FARTHEST - 1, FARTHEST]),
        1..=80 => 0,
        81..=300 => random.below(40),
        _ => random.below(400),
    };
    let asked = match random.below(20) {
        0 => steps + 1,
        1 => steps.saturating_sub(1),
        2 => random.below(100),
        3 => random.pick(&[FARTHEST + 1, 1 << 32, 1 << 63, u64::MAX]),
        _ => steps,
    };
    (steps, asked)
}

/// A buffer of random contents: mostly long enough.
fn some_buffer(random: &mut Random) -> Guarded<u8> {
    let length = match random.below(12) {
        0 => 254,
        1 if random.one_in(2) => random.index(254),
        2..=5 => 256 + random.index(300),
        _ => 255,
    };
    Guarded::new(&random.bytes(length))
}

fn some_call(random: &mut Random) -> TraceCall {
    let generator = material::generator(random, 60);
    let (steps, n) = distances(random);
    let mut state = state_after(random, generator, steps);
    if random.one_in(24) {
        let other = random.pick(&[0, 15, 16, 17, 18, 19, 20, 36, 37, 38, 60]);
        state.resize(other, 0);
    }
    let (key, iv) = (some_buffer(random), some_buffer(random));
    TraceCall {
        generator,
        state: Guarded::new(&state),
        n,
        key,
        iv,
    }
}

pub fn compare(seed: u64, count: u64) -> Tally {
    let mut tally = Tally::new("trace", seed);
    let (mut found, mut none) = (BTreeMap::new(), BTreeMap::new());
    for case in 0..count {
        let mut random = Random::for_case(seed, 4, case);
        let (names, call) = tally.compare(case, &some_call(&mut random));
        let generator = u64::from(call.generator);
        match names.number {
            0 => *found.entry(generator).or_default() += 1,
            10 => *none.entry(generator).or_default() += 1,
            _ => {}
        }
    }
    tally.remark(format!("found, by generator: {}", listed(&found)));
    tally.remark(format!("none there, by generator: {}", listed(&none)));
    tally
}
