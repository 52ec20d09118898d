//! Labels: the words of a key and an IV by their numbers.

#[derive(Clone, Copy, PartialEq, Eq, Debug)]
pub enum LabelFault {
    KeyLength,
    IvLength,
    NoSuchNumber,
}

impl LabelFault {
    pub fn number(self) -> u64 {
        match self {
            LabelFault::KeyLength => 3,
            LabelFault::IvLength => 4,
            LabelFault::NoSuchNumber => 13,
        }
    }
}

/// Word `number` of the bytes, the last four being word 0.
fn word_of(bytes: &[u8], number: u64) -> Option<&[u8]> {
    let number = usize::try_from(number).ok()?;
    bytes.rchunks_exact(4).nth(number)
}

/// The four bytes of the word with this number: the words of the key come
/// first, and then those of the IV.
pub fn label<'a>(key: &'a [u8], iv: &'a [u8], number: u64) -> Result<&'a [u8], LabelFault> {
    if key.len() != 16 && key.len() != 32 {
        return Err(LabelFault::KeyLength);
    }
    if iv.len() != 16 {
        return Err(LabelFault::IvLength);
    }
    let key_words = key.len() as u64 / 4;
    let word = match number.checked_sub(key_words) {
        None => word_of(key, number),
        Some(rest) => word_of(iv, rest),
    };
    word.ok_or(LabelFault::NoSuchNumber)
}

#[cfg(test)]
mod tests {
    use super::*;

    #[test]
    fn words_are_numbered_from_the_last() {
        let key: Vec<u8> = (0..32).collect();
        let iv: Vec<u8> = (100..116).collect();
        assert_eq!(label(&key, &iv, 0), Ok(&[28, 29, 30, 31][..]));
        assert_eq!(label(&key, &iv, 7), Ok(&[0, 1, 2, 3][..]));
        assert_eq!(label(&key, &iv, 8), Ok(&[112, 113, 114, 115][..]));
        assert_eq!(label(&key, &iv, 11), Ok(&[100, 101, 102, 103][..]));
        assert_eq!(label(&key, &iv, 12), Err(LabelFault::NoSuchNumber));
        assert_eq!(label(&key[..16], &iv, 4), Ok(&[112, 113, 114, 115][..]));
        assert_eq!(label(&key[..16], &iv, 8), Err(LabelFault::NoSuchNumber));
        assert_eq!(label(&key[..17], &[], 99), Err(LabelFault::KeyLength));
        assert_eq!(label(&key, &iv[..15], 99), Err(LabelFault::IvLength));
    }
}
