//! Made inputs, from a seed.

pub mod floats;
pub mod numerals;
pub mod scenes;
