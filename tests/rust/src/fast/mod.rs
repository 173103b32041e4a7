//! Fast peers: a monitor, a closure and a search made for speed. The benchmarks set them
//! beside the proved library, tests on long traces compare with them, and the tests of
//! the oracle hold them to the definitions.

pub mod closure;
pub mod display;
pub mod monitor;
pub mod search;
