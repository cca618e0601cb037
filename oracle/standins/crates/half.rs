//! Stands for half: `f16` by its bits. No value is ever computed.
#![no_std]
#![allow(non_camel_case_types)]

#[derive(Clone, Copy, Debug, Default, PartialEq, PartialOrd)]
pub struct f16(u16);

impl f16 {
    pub const ZERO: Self = Self(0);
    pub const MIN: Self = Self(0xfbff);
    pub const MAX: Self = Self(0x7bff);

    pub const fn from_f32_const(_: f32) -> Self {
        panic!("the stand-in of half computes no value")
    }

    pub const fn to_bits(self) -> u16 {
        self.0
    }
}

impl num_traits::Float for f16 {}
