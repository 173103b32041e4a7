//! What the tests and benchmarks of the proved code are made of: an independent
//! implementation, inputs, peers made for speed, and the way to the proved code.

pub mod answers;
pub mod examples;
pub mod fast;
pub mod generators;
pub mod oracle;
pub mod proved;
