//! Holds Sporeferry's C library against the Rust it was ported from.
//!
//! `expected` says what each step must answer and leave in the lent tables: the refusals from a
//! plain model of docs/RULES.md, what is answered from the lifted Rust. `calls` puts one call of a
//! step to both sides and compares everything lent, guard entries around it included. `steps`
//! makes the inputs.

pub mod calls;
pub mod expected;
pub mod lent;
pub mod library;
pub mod random;
pub mod report;
pub mod steps;
