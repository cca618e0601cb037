//! Stands for valid. `compose.rs` beside it is the source's own.

mod compose;
pub use compose::{validate_compose, ComposeError};

pub const MAX_TYPE_SIZE: u32 = 0x4000_0000;

pub enum EntryPointError {
    BadMeshOutputVariableField,
    BadMeshOutputVariableType,
}
