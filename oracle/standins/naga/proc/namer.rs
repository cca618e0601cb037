//! Stands for namer: names only.

pub struct EntryPointIndex;
pub struct ExternalTextureNameKey;
pub struct NameKey;
pub struct Namer;
