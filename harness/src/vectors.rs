//! The plain implementation against what the standards print.

use crate::ciphers::{start_register, Register, Snow2};
use crate::fields;
use crate::generator::Generator;

fn lines(name: &str) -> Vec<Vec<String>> {
    let folder = concat!(env!("CARGO_MANIFEST_DIR"), "/../crates/vectors/data/");
    let text = std::fs::read_to_string(format!("{folder}{name}")).unwrap();
    text.lines()
        .map(|line| line.split_whitespace().map(str::to_owned).collect())
        .collect()
}

fn number(field: &str) -> u32 {
    let digits = field.strip_prefix("0x").unwrap_or(field);
    u32::from_str_radix(digits, 16).unwrap()
}

fn table(name: &str) -> Vec<u32> {
    lines(name)
        .concat()
        .iter()
        .map(|field| number(field))
        .collect()
}

/// The entries at which the printed table differs from the computed one.
fn differing(name: &str, computed: impl Fn(u8) -> u32) -> Vec<u8> {
    let printed = table(name);
    assert_eq!(printed.len(), 256, "{name}");
    (0..=255)
        .filter(|&v| printed[usize::from(v)] != computed(v))
        .collect()
}

#[test]
fn tables_are_as_printed() {
    let t0 = |v| fields::S1_T0[usize::from(v)];
    let u0 = |v| fields::S2_T0[usize::from(v)];
    let none: [u8; 0] = [];
    assert_eq!(
        differing("etsi_sr.txt", |v| fields::SR[usize::from(v)].into()),
        none
    );
    assert_eq!(
        differing("iso_sub.txt", |v| fields::SR[usize::from(v)].into()),
        none
    );
    assert_eq!(
        differing("etsi_sq.txt", |v| fields::SQ[usize::from(v)].into()),
        none
    );
    assert_eq!(
        differing("etsi_mul_alpha.txt", |v| fields::MUL_ALPHA[usize::from(v)]),
        none
    );
    assert_eq!(
        differing("etsi_div_alpha.txt", |v| fields::DIV_ALPHA[usize::from(v)]),
        none
    );
    for i in 0..4 {
        let rotation = 8 * i;
        let s1_table = format!("etsi_s1_t{i}.txt");
        assert_eq!(differing(&s1_table, |v| t0(v).rotate_left(rotation)), none);
        let s2_table = format!("etsi_s2_t{i}.txt");
        assert_eq!(differing(&s2_table, |v| u0(v).rotate_left(rotation)), none);
    }
}

#[test]
fn misprints_of_the_scan_are_those_listed() {
    let mul = differing("iso_alpha_mul.txt", |v| fields::MUL_ALPHA[usize::from(v)]);
    assert_eq!(mul, [0x49, 0xC5, 0xE8, 0xFE]);
    let div = differing("iso_alpha_inv_mul.txt", |v| {
        fields::DIV_ALPHA[usize::from(v)]
    });
    assert_eq!(div, [0x47, 0x63, 0x6E, 0xA1, 0xDB, 0xEB, 0xF2]);
}

/// A key as printed; two of ISO lack their last byte.
fn key_bytes(field: &str) -> Vec<u8> {
    let mut digits = field.to_owned();
    if digits.len() == 30 {
        digits.push_str("AA");
    }
    let byte = |i: usize| u8::from_str_radix(&digits[2 * i..2 * i + 2], 16).unwrap();
    (0..digits.len() / 2).map(byte).collect()
}

fn iv_bytes(fields: &[String]) -> Vec<u8> {
    fields
        .iter()
        .flat_map(|field| number(field).to_be_bytes())
        .collect()
}

fn check_keystreams(name: &str) -> usize {
    let vectors = lines(name);
    for line in &vectors {
        let mut snow2 = Snow2::zeroed();
        snow2
            .load(&key_bytes(&line[0]), &iv_bytes(&line[1..5]))
            .unwrap();
        for printed in &line[5..] {
            assert_eq!(snow2.word(), number(printed), "{name}: {line:?}");
            snow2.forward();
        }
    }
    vectors.len()
}

#[test]
fn keystreams_are_as_printed() {
    assert_eq!(check_keystreams("iso_a3_keystreams.txt"), 5);
    assert_eq!(check_keystreams("snow2_paper_keystreams.txt"), 8);
}

/// The printed words of a state, in our order; none where nothing is printed.
fn printed_state(line: &[String]) -> Vec<Option<u32>> {
    let word = |field: &String| (field != "-").then(|| number(field));
    let register = line[1..17].iter().rev().map(word);
    register.chain(line[17..19].iter().map(word)).collect()
}

#[test]
fn states_are_as_printed_but_for_two_misprints() {
    let key = key_bytes("80000000000000000000000000000000");
    let iv = iv_bytes(&["4", "3", "2", "1"].map(str::to_owned));
    let mut snow2 = Snow2::zeroed();
    snow2.load(&key, &iv).unwrap();
    let mut misprints = 0;
    let mut words = 0;
    for line in lines("iso_a3_states.txt") {
        let time: i32 = line[0].parse().unwrap();
        let held = state_at(&snow2, &key, &iv, time);
        for (printed, held) in printed_state(&line).into_iter().zip(held) {
            let Some(printed) = printed else { continue };
            words += 1;
            if printed != held {
                let pair = (printed, held);
                assert!(pair == (0xFFFF_FFFB, 0xFFFF_FFFF) || pair == (0x8ECA_CDDB, 0x8ECA_CCDB));
                misprints += 1;
            }
        }
    }
    assert_eq!((words, misprints), (700, 37));
}

/// The state at a time of the standard: the load has time 0, the register with
/// key and IV −33, and that with the key alone −34.
fn state_at(loaded: &Snow2, key: &[u8], iv: &[u8], time: i32) -> Vec<u32> {
    let iv = if time == -34 { &[0; 16] } else { iv };
    let mut state = start_register(key, iv).to_vec();
    state.extend([0, 0]);
    let mut snow2 = Snow2::zeroed();
    snow2.fill(&state).unwrap();
    if time >= 0 {
        snow2 = loaded.clone();
        (0..time).for_each(|_| snow2.forward());
    } else if time > -33 {
        (0..time + 33).for_each(|_| snow2.feed());
    }
    snow2.state()
}

#[test]
fn the_register_hands_out_its_key() {
    let key: Vec<u8> = (0..64).collect();
    let mut register = Register::zeroed();
    register.load(&key, &[]).unwrap();
    assert_eq!(register.word(), 0x3C3D_3E3F);
    register.forward();
    assert_eq!(register.word(), 0x3839_3A3B);
}
