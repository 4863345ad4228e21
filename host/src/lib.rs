//! Safe bindings to Sporeferry, and the host side of its command-line tool.
//!
//! The steps are [`Plan::new`], [`Plan::refine`], [`Plan::grid`], [`Grid::representatives`],
//! [`Grid::keep_cover`], [`Grid::keep_crust`], [`Grid::marks`], [`Grid::add_coverage`], [`Mesh::components`],
//! [`Mesh::face_components`], [`Mesh::one_piece`], [`Mesh::to_bytes`], [`Mesh::from_bytes`], [`Mesh::to_vtk`] and
//! [`Mesh::from_vtk`]. Each sizes and lends the tables of one function of `include/sporeferry.h` and gives its answer
//! or a [`Refusal`]. That library
//! is proved; these bindings and the modules below are ordinary Rust, tested and not proved.
//!
//! [`lent`] has the same functions over tables of the caller's own. [`cover::cover`] goes the whole way from a
//! part's surface to its mesh; [`shells`] tells what a closed surface encloses, [`advice`] which cell sizes a part
//! takes, [`quality`] how good a mesh is.
//!
//! ```
//! use sporeferry::{Bounds, Plan};
//! let plan = Plan::new(Bounds { min: [0.0; 3], max: [4.0, 1.0, 1.0] }, 1.0, 1)?;
//! let refined = plan.refine(&vec![0; plan.octants()])?;
//! let grid = plan.grid(&refined.split)?;
//! let crossing = vec![1; grid.cells.len()];
//! let kept = grid.keep_crust(plan.cell(), &crossing)?;
//! assert!(kept.mesh.one_piece()?);
//! # Ok::<(), sporeferry::Refusal>(())
//! ```

#![deny(unsafe_code)]

pub mod advice;
mod answers;
mod corners;
pub mod cover;
mod crossed;
pub mod crossing;
pub mod edges;
mod grid;
mod joined;
pub mod json;
pub mod kinds;
#[allow(unsafe_code)]
pub mod lent;
mod mesh;
pub mod part;
mod patch;
mod plan;
pub mod progress;
pub mod quality;
mod ray;
mod refusal;
pub mod sha256;
pub mod shells;
pub mod signals;
pub mod spacing;
pub mod stl;
pub mod surface;
#[cfg(test)]
mod testing;
mod vector;
pub mod weld;
pub mod whole_file;

pub use grid::{Grid, Kept, Marks, Representative};
pub use mesh::{Components, Mesh, Pieces};
pub use plan::{Bounds, Plan, Refined};
pub use refusal::{Refusal, Step, TooLarge};
