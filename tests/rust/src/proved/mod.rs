//! The way to the proved code: the calls of its library, and where its programs are.

pub mod library;
pub mod programs;
