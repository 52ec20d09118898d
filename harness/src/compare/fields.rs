//! All entries of the tables, and many words through the boxes.

use plain::fields;
use plain::random::Random;

use super::Tally;
use crate::library;

fn plain_table(table: u32, entry: u8) -> u32 {
    let at = usize::from(entry);
    match table {
        0 => fields::SR[at].into(),
        1 => fields::SQ[at].into(),
        2 => fields::MUL_ALPHA[at],
        3 => fields::DIV_ALPHA[at],
        4 => fields::S1_T0[at],
        5 => fields::S2_T0[at],
        6 => fields::SR_INVERSE[at].into(),
        7 => fields::SQ_INVERSE[at].into(),
        _ => 0,
    }
}

fn plain_box(which: u32, word: u32) -> u32 {
    match which {
        0 => fields::s1(word),
        1 => fields::s2(word),
        2 => fields::s1_inverse(word),
        3 => fields::s2_inverse(word),
        4 => fields::times_alpha(word),
        5 => fields::over_alpha(word),
        _ => 0,
    }
}

/// The eight tables, and some numbers that no table has.
pub fn compare_tables(seed: u64) -> Tally {
    let mut tally = Tally::new("tables, by entry", seed);
    for table in (0..=9).chain([255, 256, u32::MAX]) {
        for entry in 0..=255 {
            let (plain, proved) = (plain_table(table, entry), library::table(table, entry));
            tally.count(0);
            if plain != proved {
                tally.differs(tally.cases(), || {
                    format!(
                        "table {table} entry {entry:02X}: plain {plain:08X} proved {proved:08X}"
                    )
                });
            }
        }
    }
    tally
}

/// Words with one byte, one bit, or bytes that are all alike.
fn edge_words() -> Vec<u32> {
    let mut words = vec![0, u32::MAX, 0x7FFF_FFFF, 0x8000_0000, 0x0102_0304];
    for place in 0..4 {
        words.extend((0..=255).map(|byte: u32| byte << (8 * place)));
    }
    words.extend((0..32).map(|bit| !(1 << bit)));
    words.extend((0..=255).map(|byte: u32| byte * 0x0101_0101));
    words
}

/// Edge words and random ones through the six boxes, and some numbers that no
/// box has.
pub fn compare_boxes(seed: u64, count: u64) -> Tally {
    let mut tally = Tally::new("boxes, by word and box", seed);
    let mut random = Random::for_case(seed, 1, 0);
    let mut words = edge_words();
    words.extend((0..count).map(|_| random.word()));
    for word in words {
        for which in [0, 1, 2, 3, 4, 5, 6, u32::MAX] {
            let (plain, proved) = (plain_box(which, word), library::box_of(which, word));
            tally.count(0);
            if plain != proved {
                tally.differs(tally.cases(), || {
                    format!("box {which} word {word:08X}: plain {plain:08X} proved {proved:08X}")
                });
            }
        }
    }
    tally
}
