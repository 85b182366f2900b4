//! The proved library's calls, and a plain Rust implementation of the same things that shares no code with it.
pub mod plain;
pub mod proved;
pub mod random;
