//! Stands for emitter: a name only.

pub struct Emitter;
