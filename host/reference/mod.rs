//! Implementations of their own of what the library does, written from the description of the format and of the steps, to compare
//! with and to measure against. They are no part of the library: tests and benchmark take them in by path, each what it needs.
#![allow(dead_code)]

pub mod glass;
pub mod index;
pub mod join;
pub mod mixtures;
pub mod order;
pub mod plain;
pub mod random;
pub mod rays;
pub mod saves;
pub mod scene;
pub mod sort;
pub mod tidy;
pub mod tuned;
