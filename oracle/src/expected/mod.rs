//! What each step must answer and leave in the lent tables.
//!
//! Refusals and their order are a plain model of docs/RULES.md, sections 10 to 12. What is answered
//! comes from the lifted Rust, except for the numbering by faces, the files and the coverage, which the Rust does not have.

pub mod components;
pub mod coverage;
pub mod faces;
pub mod graded;
pub mod grid;
pub mod keep;
pub mod mesh;
pub mod mesh_file;
pub mod plan;
pub mod refine;
pub mod vtk;
