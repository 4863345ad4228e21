//! The Rust that Sporeferry is ported from: parts of parry2d 0.31.1 (Apache-2.0), lifted.
//!
//! `transformation::volume_mesh` is the published text; `oracle/CHANGES.md` lists each line that
//! differs. The modules here stand in for what it leans on: `math` and `utils::hashmap` for glam
//! and hashbrown, `bounding_volume` for the one function it takes of the published `Aabb`, and
//! `lent` for the shape, whose answers come from tables instead.

// The published text stays as it is.
#![allow(clippy::let_and_return)]

extern crate alloc;

pub mod bounding_volume;
pub mod lent;
pub mod math;
pub mod transformation;
pub mod utils;
