//! Stands for span: errors are kept, places in a text are not.

use crate::{Handle, UniqueArena};

pub struct SourceLocation;
pub struct Span;
pub struct SpanContext;
pub struct WithSpan<E>(pub E);

pub trait AddSpan: Sized {
    fn with_span_handle<T>(self, _: Handle<T>, _: &UniqueArena<T>) -> WithSpan<Self> {
        WithSpan(self)
    }
}

impl AddSpan for crate::valid::EntryPointError {}
