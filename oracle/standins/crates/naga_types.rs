//! Stands for naga_types: maps that stay empty, and names that no row's type rests on.

pub type FastHashMap<K, V> = std::collections::HashMap<K, V>;
pub type FastHashSet<K> = std::collections::HashSet<K>;
pub type FastIndexMap<K, V> = std::collections::HashMap<K, V>;
pub type FastIndexSet<K> = std::collections::HashSet<K>;

#[derive(Clone, Debug, PartialEq)]
pub struct ResourceBinding;

#[derive(Clone, Copy, Debug, PartialEq)]
pub enum ShaderStage {
    Task,
    Mesh,
    RayGeneration,
    AnyHit,
    ClosestHit,
    Miss,
}

pub mod glsl {
    pub enum GlslScalarKind {
        Sint,
        Uint,
        Float,
    }

    pub enum GlslVectorSize {
        Bi,
        Tri,
        Quad,
    }

    pub struct GlslScalar {
        pub kind: GlslScalarKind,
        pub width: u8,
    }

    pub enum GlslUniformType {
        Scalar(GlslScalar),
        Vector {
            size: GlslVectorSize,
            scalar: GlslScalar,
        },
        Matrix {
            columns: GlslVectorSize,
            rows: GlslVectorSize,
            scalar: GlslScalar,
        },
    }
}
