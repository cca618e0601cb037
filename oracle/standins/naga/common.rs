//! Stands for common: debug texts that name types. They are dropped.

use crate::{proc::TypeResolution, Type, TypeInner, UniqueArena};

pub trait ForDebugWithTypes: Sized {
    fn for_debug(&self, _: &UniqueArena<Type>) -> &'static str {
        ""
    }
}

impl ForDebugWithTypes for TypeInner {}
impl ForDebugWithTypes for &TypeInner {}
impl ForDebugWithTypes for TypeResolution {}
