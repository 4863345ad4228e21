//! The published crate's path to the volume mesh.
pub mod volume_mesh;
