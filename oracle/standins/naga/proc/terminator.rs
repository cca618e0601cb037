//! Stands for terminator: a name only.

pub fn ensure_block_returns(_: &mut crate::Block) {}
