//! Byte fields, the two boxes, mixing, and multiplication by α.
//!
//! Every table is computed from its formula while this file is compiled.

/// The tap bytes of the three fields.
pub const TAPS_SR: u8 = 0x1B;
pub const TAPS_SQ: u8 = 0x69;
pub const TAPS_ALPHA: u8 = 0xA9;

/// v times x in the field of `taps` (MULx of ETSI/SAGE SNOW 3G).
pub const fn double(v: u8, taps: u8) -> u8 {
    if v & 0x80 != 0 {
        (v << 1) ^ taps
    } else {
        v << 1
    }
}

/// a times b in the field of `taps`.
pub const fn product(mut a: u8, b: u8, taps: u8) -> u8 {
    let mut sum = 0;
    let mut bit = 0;
    while bit < 8 {
        if (b >> bit) & 1 == 1 {
            sum ^= a;
        }
        a = double(a, taps);
        bit += 1;
    }
    sum
}

/// v to the power n, by squaring.
pub const fn power(v: u8, mut n: u32, taps: u8) -> u8 {
    let mut result = 1;
    let mut square = v;
    while n > 0 {
        if n & 1 == 1 {
            result = product(result, square, taps);
        }
        square = product(square, square, taps);
        n >>= 1;
    }
    result
}

/// The Rijndael box (FIPS 197).
const fn sr_formula(v: u8) -> u8 {
    let b = power(v, 254, TAPS_SR);
    b ^ b.rotate_left(1) ^ b.rotate_left(2) ^ b.rotate_left(3) ^ b.rotate_left(4) ^ 0x63
}

/// The box from a Dickson polynomial (ETSI/SAGE SNOW 3G, annex 1).
const fn sq_formula(v: u8) -> u8 {
    const EXPONENTS: [u32; 9] = [1, 9, 13, 15, 33, 41, 45, 47, 49];
    let mut sum = 0x25;
    let mut i = 0;
    while i < EXPONENTS.len() {
        sum ^= power(v, EXPONENTS[i], TAPS_SQ);
        i += 1;
    }
    sum
}

/// The word of the products of c with β to four powers, β being `02`.
const fn alpha_formula(c: u8, exponents: [u32; 4]) -> u32 {
    let mut bytes = [0; 4];
    let mut i = 0;
    while i < 4 {
        bytes[i] = product(c, power(2, exponents[i], TAPS_ALPHA), TAPS_ALPHA);
        i += 1;
    }
    u32::from_be_bytes(bytes)
}

/// Mixing by the circulant matrix of rows 2 1 1 3, 3 2 1 1, 1 3 2 1, 1 1 3 2.
pub const fn mix(word: u32, taps: u8) -> u32 {
    let w = word.to_be_bytes();
    let d = [
        double(w[0], taps),
        double(w[1], taps),
        double(w[2], taps),
        double(w[3], taps),
    ];
    u32::from_be_bytes([
        d[0] ^ w[1] ^ w[2] ^ d[3] ^ w[3],
        d[0] ^ w[0] ^ d[1] ^ w[2] ^ w[3],
        w[0] ^ d[1] ^ w[1] ^ d[2] ^ w[3],
        w[0] ^ w[1] ^ d[2] ^ w[2] ^ d[3],
    ])
}

const fn sr_table() -> [u8; 256] {
    let mut table = [0; 256];
    let mut v = 0;
    while v < 256 {
        table[v] = sr_formula(v as u8);
        v += 1;
    }
    table
}

const fn sq_table() -> [u8; 256] {
    let mut table = [0; 256];
    let mut v = 0;
    while v < 256 {
        table[v] = sq_formula(v as u8);
        v += 1;
    }
    table
}

const fn inverse_table(table: &[u8; 256]) -> [u8; 256] {
    let mut inverse = [0; 256];
    let mut v = 0;
    while v < 256 {
        inverse[table[v] as usize] = v as u8;
        v += 1;
    }
    inverse
}

const fn alpha_table(exponents: [u32; 4]) -> [u32; 256] {
    let mut table = [0; 256];
    let mut c = 0;
    while c < 256 {
        table[c] = alpha_formula(c as u8, exponents);
        c += 1;
    }
    table
}

/// What the least significant byte of a word adds to the mixed word, once it
/// went through a box. The other bytes add the same, rotated.
const fn share_table(table: &[u8; 256], taps: u8) -> [u32; 256] {
    let mut shares = [0; 256];
    let mut v = 0;
    while v < 256 {
        shares[v] = mix(table[v] as u32, taps);
        v += 1;
    }
    shares
}

/// What the least significant byte of a word adds to the word that mixing
/// takes to it: mixing four times gives a word back, so three more undo one.
const fn unmix_table(taps: u8) -> [u32; 256] {
    let mut shares = [0; 256];
    let mut v = 0;
    while v < 256 {
        shares[v] = mix(mix(mix(v as u32, taps), taps), taps);
        v += 1;
    }
    shares
}

pub static SR: [u8; 256] = sr_table();
pub static SQ: [u8; 256] = sq_table();
pub static SR_INVERSE: [u8; 256] = inverse_table(&sr_table());
pub static SQ_INVERSE: [u8; 256] = inverse_table(&sq_table());
pub static MUL_ALPHA: [u32; 256] = alpha_table([23, 245, 48, 239]);
pub static DIV_ALPHA: [u32; 256] = alpha_table([16, 39, 6, 64]);
pub static S1_T0: [u32; 256] = share_table(&sr_table(), TAPS_SR);
pub static S2_T0: [u32; 256] = share_table(&sq_table(), TAPS_SQ);
static S1_UNMIX: [u32; 256] = unmix_table(TAPS_SR);
static S2_UNMIX: [u32; 256] = unmix_table(TAPS_SQ);

/// The shares of the four bytes of a word, joined.
#[inline]
fn joined_shares(shares: &[u32; 256], word: u32) -> u32 {
    let [w0, w1, w2, w3] = word.to_be_bytes();
    shares[w3 as usize]
        ^ shares[w2 as usize].rotate_left(8)
        ^ shares[w1 as usize].rotate_left(16)
        ^ shares[w0 as usize].rotate_left(24)
}

#[inline]
fn each_byte(table: &[u8; 256], word: u32) -> u32 {
    u32::from_be_bytes(word.to_be_bytes().map(|byte| table[byte as usize]))
}

#[inline]
pub fn s1(word: u32) -> u32 {
    joined_shares(&S1_T0, word)
}

#[inline]
pub fn s2(word: u32) -> u32 {
    joined_shares(&S2_T0, word)
}

#[inline]
pub fn s1_inverse(word: u32) -> u32 {
    each_byte(&SR_INVERSE, joined_shares(&S1_UNMIX, word))
}

#[inline]
pub fn s2_inverse(word: u32) -> u32 {
    each_byte(&SQ_INVERSE, joined_shares(&S2_UNMIX, word))
}

#[inline]
pub fn times_alpha(word: u32) -> u32 {
    (word << 8) ^ MUL_ALPHA[(word >> 24) as usize]
}

#[inline]
pub fn over_alpha(word: u32) -> u32 {
    (word >> 8) ^ DIV_ALPHA[(word & 0xFF) as usize]
}

#[cfg(test)]
mod tests {
    use super::*;
    use crate::random::Random;

    /// The power as it is defined: 1 multiplied n times by v.
    fn slow_power(v: u8, n: u32, taps: u8) -> u8 {
        (0..n).fold(1, |result, _| product(result, v, taps))
    }

    #[test]
    fn powers_are_repeated_products() {
        for v in 0..=255 {
            for n in [0, 1, 2, 9, 13, 45, 49, 245, 254] {
                for taps in [TAPS_SR, TAPS_SQ, TAPS_ALPHA] {
                    assert_eq!(power(v, n, taps), slow_power(v, n, taps));
                }
            }
        }
    }

    #[test]
    fn boxes_by_shares_are_boxes_and_mixing() {
        let mut random = Random::new(1);
        for _ in 0..10_000 {
            let w = random.word();
            assert_eq!(s1(w), mix(each_byte(&SR, w), TAPS_SR));
            assert_eq!(s2(w), mix(each_byte(&SQ, w), TAPS_SQ));
        }
    }

    #[test]
    fn inverses_undo_both_ways() {
        let mut random = Random::new(2);
        for _ in 0..10_000 {
            let w = random.word();
            assert_eq!(s1_inverse(s1(w)), w);
            assert_eq!(s1(s1_inverse(w)), w);
            assert_eq!(s2_inverse(s2(w)), w);
            assert_eq!(s2(s2_inverse(w)), w);
            assert_eq!(over_alpha(times_alpha(w)), w);
            assert_eq!(times_alpha(over_alpha(w)), w);
        }
    }
}
