//! Stands for overloads: Math is never asked for, so no overload is ever made.

use super::TypeResolution;
use crate::{common::ForDebugWithTypes, ir, UniqueArena};

pub struct MissingSpecialType;

pub struct Conclusion;

impl Conclusion {
    pub fn into_resolution(
        self,
        _: &ir::SpecialTypes,
    ) -> Result<TypeResolution, MissingSpecialType> {
        Err(MissingSpecialType)
    }
}

pub struct Rule {
    pub conclusion: Conclusion,
}

pub trait OverloadSet: Sized {
    fn arg(self, index: usize, inner: &ir::TypeInner, types: &UniqueArena<ir::Type>) -> Self;
    fn is_empty(&self) -> bool;
    fn most_preferred(&self) -> Rule;
}

pub enum NoOverload {}

impl OverloadSet for NoOverload {
    fn arg(self, _: usize, _: &ir::TypeInner, _: &UniqueArena<ir::Type>) -> Self {
        self
    }
    fn is_empty(&self) -> bool {
        match *self {}
    }
    fn most_preferred(&self) -> Rule {
        match *self {}
    }
}

impl ForDebugWithTypes for NoOverload {}

impl ir::MathFunction {
    pub fn overloads(&self) -> NoOverload {
        panic!("the stand-in of overloads types no Math row")
    }
}
