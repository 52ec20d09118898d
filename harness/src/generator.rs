//! What a keystream generator does, and how it refuses.

/// Keys and IVs are at most this long, and buffers for them at least.
pub const LONGEST: usize = 255;

/// A refused load. The member says which part of a combined generator
/// refused, 0 being the generator itself.
#[derive(Clone, Copy, PartialEq, Eq, Debug)]
pub enum Fault {
    Key(u8),
    Iv(u8),
}

impl Fault {
    pub fn number(self) -> u64 {
        match self {
            Fault::Key(_) => 3,
            Fault::Iv(_) => 4,
        }
    }

    pub fn member(self) -> u64 {
        match self {
            Fault::Key(member) | Fault::Iv(member) => u64::from(member),
        }
    }

    /// The same cause, named as that of another member.
    pub fn of_member(self, member: u8) -> Self {
        match self {
            Fault::Key(_) => Fault::Key(member),
            Fault::Iv(_) => Fault::Iv(member),
        }
    }
}

/// A filling with another count of words than the state has.
#[derive(Clone, Copy, PartialEq, Eq, Debug)]
pub struct WrongCount;

impl WrongCount {
    pub const NUMBER: u64 = 12;
}

/// The key and the IV of a load.
#[derive(Clone, PartialEq, Eq, Debug)]
pub struct Origin {
    pub key: Vec<u8>,
    pub iv: Vec<u8>,
}

/// A keystream generator. Every list of `SIZE` words is a state of it.
pub trait Generator: Clone {
    const SIZE: usize;

    /// A generator whose state is zero words.
    fn zeroed() -> Self;

    /// Takes the state of a key and an IV; a refused load leaves zero words.
    fn load(&mut self, key: &[u8], iv: &[u8]) -> Result<(), Fault>;

    fn forward(&mut self);

    fn backward(&mut self);

    /// The keystream word of the present state.
    fn word(&self) -> u32;

    /// The key and the IV whose load is the present state, if there are any.
    fn origin(&self) -> Option<Origin>;

    /// Takes the words of a list as the state.
    fn fill(&mut self, words: &[u32]) -> Result<(), WrongCount>;

    /// The words of the state, in the order in which `fill` takes them.
    fn state(&self) -> Vec<u32>;

    fn clear(&mut self) {
        *self = Self::zeroed();
    }
}
