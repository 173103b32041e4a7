//! Inputs for the tests and benchmarks: random and damaged traces and macros from a seed,
//! traces whose tests merge many classes, and traces that reach all windows.

pub mod capitals;
pub mod damaged_macros;
pub mod damaged_tests;
pub mod layouts;
pub mod macros;
pub mod merges;
pub mod random;
pub mod repeats;
pub mod spread;
pub mod traces;
pub mod windows;
pub mod written_out;
