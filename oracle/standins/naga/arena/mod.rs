//! Stands for the arenas. `handle.rs` beside it is the source's own.
//!
//! Entries of a `UniqueArena` may be closed: a look into one, while `watch` is on, is a stop.
//! So the source itself says where it looks into a type of unknown kind.

mod handle;
pub use handle::Handle;

use alloc::{boxed::Box, vec::Vec};
use core::{cell::Cell, marker::PhantomData, ops};

#[derive(Clone, Debug)]
pub struct Arena<T> {
    data: Vec<T>,
}

impl<T> Default for Arena<T> {
    fn default() -> Self {
        Self { data: Vec::new() }
    }
}

impl<T> Arena<T> {
    pub fn append(&mut self, value: T) -> Handle<T> {
        self.data.push(value);
        Handle::from_usize(self.data.len() - 1)
    }

    pub fn iter(&self) -> impl Iterator<Item = (Handle<T>, &T)> {
        self.data.iter().enumerate().map(|(i, value)| (Handle::from_usize(i), value))
    }

    pub fn len(&self) -> usize {
        self.data.len()
    }
}

impl<T> ops::Index<Handle<T>> for Arena<T> {
    type Output = T;
    fn index(&self, handle: Handle<T>) -> &T {
        &self.data[handle.index()]
    }
}

/// What a look into a closed entry unwinds with.
pub struct ClosedLook;

#[derive(Clone, Debug)]
pub struct UniqueArena<T> {
    data: Vec<T>,
    closed: Vec<bool>,
    watch: Cell<bool>,
}

impl<T> Default for UniqueArena<T> {
    fn default() -> Self {
        Self {
            data: Vec::new(),
            closed: Vec::new(),
            watch: Cell::new(false),
        }
    }
}

impl<T: PartialEq> UniqueArena<T> {
    pub fn insert(&mut self, value: T, closed: bool) -> Handle<T> {
        let at = match self.data.iter().position(|held| *held == value) {
            Some(at) => at,
            None => {
                self.data.push(value);
                self.closed.push(closed);
                self.data.len() - 1
            }
        };
        Handle::from_usize(at)
    }
}

impl<T> UniqueArena<T> {
    pub fn iter(&self) -> impl Iterator<Item = (Handle<T>, &T)> {
        self.data.iter().enumerate().map(|(i, value)| (Handle::from_usize(i), value))
    }

    pub fn len(&self) -> usize {
        self.data.len()
    }

    pub fn watch(&self, on: bool) {
        self.watch.set(on);
    }
}

impl<T> ops::Index<Handle<T>> for UniqueArena<T> {
    type Output = T;
    fn index(&self, handle: Handle<T>) -> &T {
        if self.watch.get() && self.closed[handle.index()] {
            std::panic::resume_unwind(Box::new(ClosedLook));
        }
        &self.data[handle.index()]
    }
}

#[derive(Clone, Debug)]
pub struct Range<T>(PhantomData<T>);
