//! Stands for index: names, and the length that sizes are resolved to.

pub struct BoundsCheckPolicies;
pub struct BoundsCheckPolicy;
pub struct IndexableLengthError;

pub enum IndexableLength {
    Known(u32),
    Dynamic,
}
