//! The published crate's path to its hash map.
pub mod hashmap;
