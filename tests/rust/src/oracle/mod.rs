//! The oracle: traces, windows, models, macros and verdicts, written from documents 01 and 02
//! and the paper's definitions alone, plainly and slowly, to test the proved code against. It
//! uses nothing outside this folder.

pub mod classes;
pub mod closure;
pub mod display;
pub mod enumeration;
pub mod execution;
pub mod layout;
pub mod letter;
pub mod listing;
pub mod model;
pub mod monitor;
pub mod reader;
pub mod refusal;
pub mod report;
pub mod state;
pub mod syntax;
pub mod token;
pub mod trace;
pub mod unequal_word;
pub mod verdict;
pub mod window;
