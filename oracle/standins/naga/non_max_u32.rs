//! Stands for non_max_u32: a number below 4,294,967,295.

use core::fmt;

#[derive(Clone, Copy, Debug, Eq, Hash, Ord, PartialEq, PartialOrd)]
pub struct NonMaxU32(u32);

impl NonMaxU32 {
    pub const fn new(number: u32) -> Option<Self> {
        if number == u32::MAX {
            None
        } else {
            Some(Self(number))
        }
    }

    pub const fn get(self) -> u32 {
        self.0
    }
}

impl fmt::Display for NonMaxU32 {
    fn fmt(&self, to: &mut fmt::Formatter) -> fmt::Result {
        self.0.fmt(to)
    }
}
