//! Stands for num_traits: `Float` is named as a bound, and nothing of it is used.
#![no_std]

pub trait Float {}
impl Float for f32 {}
impl Float for f64 {}
