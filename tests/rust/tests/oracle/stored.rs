//! The stored runs of `monitor_runs`, `display_runs`, `model_runs`, `verdict_runs`, `layout_runs` and `reader_runs`: each
//! expected output is the oracle's.

use std::fs;
use std::path::{Path, PathBuf};

use fadzgime_tests::examples::example_macros;
use fadzgime_tests::fast::display::fast_display;
use fadzgime_tests::fast::monitor::fast_monitor;
use fadzgime_tests::oracle::listing::print_points;
use fadzgime_tests::oracle::monitor::monitor;
use fadzgime_tests::oracle::report::{
    PROGRAM_TRACE, display_lines, print_display, print_layout, print_model, print_verdict,
};

/// The folder of a program.
fn folder(program: &str) -> PathBuf {
    Path::new(env!("CARGO_MANIFEST_DIR")).join("../../crates").join(program)
}

/// The inputs of a program by name, in the order in which it is given them.
fn inputs(folder: &Path) -> Vec<(String, Vec<u8>)> {
    let names = fs::read_to_string(folder.join("args")).expect("the arguments");
    let input = |name: &str| fs::read(folder.join("data").join(name)).expect("an input");
    names.lines().map(|name| (name.to_string(), input(name))).collect()
}

/// Compares what is stored for a program with what it has to print for each of its inputs, all of which it is given.
fn check(program: &str, printed: fn(&str, &[u8]) -> String) {
    let folder = folder(program);
    let inputs = inputs(&folder);
    assert_eq!(fs::read_dir(folder.join("data")).expect("the inputs").count(), inputs.len());
    let expected: String = inputs.iter().map(|(name, input)| printed(name, input)).collect();
    let stored = fs::read_to_string(folder.join("stdout")).expect("the stored output");
    for (stored, expected) in stored.lines().zip(expected.lines()) {
        assert_eq!(stored, expected, "{program}");
    }
    assert_eq!(stored, expected, "{program}");
}

/// The line that `monitor_runs` prints for a trace; of a long one by the fast monitor, which other tests hold to the
/// definitions.
fn judged(name: &str, bytes: &[u8]) -> String {
    let found = if bytes.len() > 4_096 { fast_monitor(bytes) } else { monitor(bytes) };
    match found {
        Ok(found) => {
            let [incoherent, infeasible] =
                [found.incoherent, found.infeasible].map(|number| number.unwrap_or(0));
            format!("{name} judged {incoherent} {infeasible}\n")
        }
        Err(refusal) => format!("{name} refused {} {}\n", refusal.number, refusal.place),
    }
}

#[test]
fn monitor_runs() {
    check("monitor_runs", judged);
}

/// The lines that `display_runs` prints for a trace; of a long one by the fast monitor, and none for one that is too long.
fn displayed(name: &str, bytes: &[u8]) -> String {
    match bytes.len() {
        0..=4_096 => format!("{name}:\n{}", print_display(bytes)),
        4_097..=PROGRAM_TRACE => format!("{name}:\n{}", display_lines(fast_display(bytes))),
        _ => String::new(),
    }
}

#[test]
fn display_runs() {
    check("display_runs", displayed);
}

#[test]
fn model_runs() {
    check("model_runs", |name, input| format!("{name}: {}", print_model(input)));
}

#[test]
fn verdict_runs() {
    check("verdict_runs", |name, input| format!("{name}:\n{}", print_verdict(input)));
}

#[test]
fn layout_runs() {
    check("layout_runs", |name, input| format!("{name}:\n{}", print_layout(input)));
}

/// Every macro of `examples/` is among the inputs of `layout_runs`, as it stands there.
#[test]
fn layout_runs_have_the_examples() {
    let stored: Vec<_> =
        inputs(&folder("layout_runs")).into_iter().filter(|(name, _)| name.starts_with("example_")).collect();
    let macros = example_macros()
        .into_iter()
        .map(|example| (format!("example_{}", example.name), example.text.into_bytes()));
    assert_eq!(stored, macros.collect::<Vec<_>>());
}

#[test]
fn reader_runs() {
    check("reader_runs", |name, input| format!("{name}: {}", print_points(input)));
}
