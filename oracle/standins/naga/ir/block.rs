//! Stands for ir/block.rs: statements are not read.

#[derive(Clone, Debug, Default)]
pub struct Block;
