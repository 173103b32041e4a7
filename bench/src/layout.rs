//! The house layout of example macros, and of macros and prints that are as long as may be.

use std::hint::black_box;
use std::time::Duration;

use fadzgime_tests::examples::example_macros;
use fadzgime_tests::oracle::layout::layout;
use fadzgime_tests::oracle::refusal::Refusal;
use fadzgime_tests::proved::library::{self, LAYOUT_ANSWER, LAYOUT_OUTPUT};

use crate::instructions::Call;
use crate::measure::{Both, Sides, best_times};
use crate::table::{Figures, Table, print_headings};

/// The call's name.
pub const NAME: &str = "layout";

/// The declarations of two macros in small letters and capitals, which are used in another spelling.
const DECLARATIONS: &str = "Vars Aa Bb Cc Dd Ee Ff Gg Hh;Funs Cap/1 Add/2 Step/1 Last/2;";

/// Both layouts of a macro.
pub struct Run<'a> {
    text: &'a [u8],
    out: Vec<u8>,
    answer: [u64; LAYOUT_ANSWER],
    found: Result<String, Refusal>,
}

impl Run<'_> {
    /// No run over this macro yet.
    pub fn new(text: &[u8]) -> Run<'_> {
        Run {
            text,
            out: vec![0; LAYOUT_OUTPUT],
            answer: [u64::MAX; LAYOUT_ANSWER],
            found: Err(Refusal::plain(0)),
        }
    }
}

impl Sides for Run<'_> {
    fn proved(&mut self) {
        library::layout(self.text, &mut self.out, &mut self.answer);
    }

    fn rust(&mut self) {
        self.found = layout(black_box(self.text), LAYOUT_OUTPUT);
    }

    fn compare(&self) {
        let print = self.found.as_ref().expect("it has a print");
        assert_eq!(self.answer, [0, 0, print.len() as u64]);
        assert_eq!(&self.out[..print.len()], print.as_bytes());
    }
}

/// The macros by name.
fn macros() -> Vec<(String, String)> {
    let steps = ["aa:=add(AA,bB);", "BB:=CAP(cc);", "cC:=last(DD,Ee);", "dd:=step(ff);"];
    let steps: String = steps.into_iter().cycle().take(256).collect();
    let blocks = "if aa=bb{while cC!=DD{".repeat(8) + "hh:=GG;" + &"}}else{}".repeat(8);
    let made = [
        ("681 skips", format!("vars xyz;{}", "skip;".repeat(681))),
        ("256 assignments", format!("{DECLARATIONS}{steps}")),
        ("16 deep, 5 times", format!("{DECLARATIONS}{}", blocks.repeat(5))),
        ("a long comment", format!("vars x;#{}", "-".repeat(4_088))),
        ("blanks among names", format!("vars a{}b;{}", " ".repeat(2_700), "b:=b;".repeat(256))),
    ];
    let examples = example_macros().into_iter().map(|example| (example.name, example.text));
    examples.chain(made.map(|(name, text)| (name.to_string(), text))).collect()
}

/// Prints the layouts' table.
pub fn table(count: bool) -> Table {
    println!("Layout (microseconds and thousand instructions a macro)");
    print!("{:<26}{:>8}{:>8}", "macro", "bytes", "print");
    print_headings();
    println!();
    let macros = macros();
    let mut runs: Vec<Run> = macros.iter().map(|(_, text)| Run::new(text.as_bytes())).collect();
    let times = best_times(&mut runs);
    let mut table = Table::new("Layout");
    for (((name, _), run), times) in macros.iter().zip(&runs).zip(times) {
        line(&mut table, name, run, times, count);
    }
    println!("note: Rust makes a tree and prints it; the proved code prints from the tokens");
    println!();
    table
}

/// Prints the line of one macro.
fn line(table: &mut Table, name: &str, run: &Run, times: Both<Duration>, count: bool) {
    let counted = count.then(|| Call { name: NAME, input: run.text, table: 0 }.instructions()).flatten();
    let figures = Figures {
        times: times.map(|time| time.as_secs_f64() * 1e6),
        instructions: counted.map(|both| both.map(|number| number as f64 / 1e3)),
    };
    print!("{name:<26}{:>8}{:>8}", run.text.len(), run.answer[2]);
    table.print(name, &figures);
    println!();
}
