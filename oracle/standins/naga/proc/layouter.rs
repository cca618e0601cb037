//! Stands for layouter: names, and the alignment that sizes of matrices use, in units of the scalar: a vector of three is
//! aligned as one of four.

pub struct LayoutError;
pub struct LayoutErrorInner;
pub struct Layouter;
pub struct TypeLayout;

pub struct Alignment(u32);

impl From<crate::VectorSize> for Alignment {
    fn from(size: crate::VectorSize) -> Self {
        Alignment(match size {
            crate::VectorSize::Bi => 2,
            crate::VectorSize::Tri | crate::VectorSize::Quad => 4,
        })
    }
}

impl core::ops::Mul<u32> for Alignment {
    type Output = u32;
    fn mul(self, count: u32) -> u32 {
        self.0 * count
    }
}
