//! A second control, written in plain Rust from the rules in prose and not from the proved code, and what compares the
//! two. It shares nothing with the proved code but the numbers and bytes that go in and come out.

pub mod fast;
pub mod plain;
pub mod proved;
pub mod random;
