//! `oracle monitor|display|model|read|points|layout|verdict`: reads a packed trace or a macro from
//! standard input and prints what the program of that name prints; `points` prints what
//! `reader_runs` prints behind an input's name.

use std::io::{Read, Write};
use std::process::ExitCode;

use fadzgime_tests::oracle::listing::print_points;
use fadzgime_tests::oracle::report::{
    print_display, print_layout, print_model, print_monitor, print_read, print_verdict,
};

const USAGE: &str = "usage: oracle monitor|display|model|read|points|layout|verdict < input";

fn main() -> ExitCode {
    let command = std::env::args().nth(1).unwrap_or_default();
    let print: fn(&[u8]) -> String = match command.as_str() {
        "monitor" => print_monitor,
        "display" => print_display,
        "model" => print_model,
        "read" => print_read,
        "points" => print_points,
        "layout" => print_layout,
        "verdict" => print_verdict,
        _ => {
            eprintln!("{USAGE}");
            return ExitCode::from(2);
        }
    };
    let mut input = Vec::new();
    let read = std::io::stdin().read_to_end(&mut input);
    let written = read.and_then(|_| std::io::stdout().write_all(print(&input).as_bytes()));
    match written {
        Ok(()) => ExitCode::SUCCESS,
        Err(error) => {
            eprintln!("oracle: {error}");
            ExitCode::FAILURE
        }
    }
}
