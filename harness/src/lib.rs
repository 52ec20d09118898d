//! A plain implementation of the collection, written from its documentation
//! alone. The program of this package compares it with the proved library.

pub mod ciphers;
pub mod fields;
pub mod generator;
pub mod labels;
pub mod layers;
pub mod random;
pub mod session;
pub mod strips;

#[cfg(test)]
mod vectors;
