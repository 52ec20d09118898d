//! Labels: every small combination of lengths and numbers, and random ones.

use plain::random::Random;

use super::Tally;
use crate::calls::LabelCall;
use crate::guarded::Guarded;

fn call(random: &mut Random, key: usize, iv: usize, number: u64) -> LabelCall {
    LabelCall {
        key: Guarded::new(&random.bytes(key)),
        iv: Guarded::new(&random.bytes(iv)),
        number,
    }
}

fn some_number(random: &mut Random) -> u64 {
    let any = random.long();
    match random.below(4) {
        0 => random.pick(&[
            1 << 32,
            (1 << 32) + 3,
            1 << 62,
            1 << 63,
            u64::MAX - 7,
            u64::MAX,
        ]),
        1 => any,
        _ => random.below(16),
    }
}

fn some_call(random: &mut Random) -> LabelCall {
    let key = match random.one_in(6) {
        true => random.index(301),
        false => random.pick(&[16, 32]),
    };
    let iv = match random.one_in(6) {
        true => random.index(301),
        false => 16,
    };
    let number = some_number(random);
    call(random, key, iv, number)
}

pub fn compare(seed: u64, count: u64) -> Tally {
    let mut tally = Tally::new("labels", seed);
    let mut random = Random::for_case(seed, 5, u64::MAX);
    for key in 0..=40 {
        for iv in 0..=20 {
            for number in 0..=20 {
                tally.compare(tally.cases(), &call(&mut random, key, iv, number));
            }
        }
    }
    for case in 0..count {
        let mut random = Random::for_case(seed, 5, case);
        tally.compare(case, &some_call(&mut random));
    }
    tally
}
