//! The proved programs against the oracle: what they print. The feature `programs`
//! switches these tests on; the environment's `FADZGIME_PROGRAMS` names the folder
//! that holds the programs, and one that is not there is a failure.

#[cfg(feature = "verdict")]
use std::fs;
use std::io::Write;
use std::path::Path;
use std::process::{Command, Output, Stdio};

#[cfg(feature = "verdict")]
use fadzgime_tests::answers::{CAPITALS, EQUAL_SIDES_MACROS, named_tests};
use fadzgime_tests::answers::{CLASS_NUMBERS, DISPLAYS, EQUAL_SIDES_TRACES, UNEQUAL_WORDS};
#[cfg(feature = "verdict")]
use fadzgime_tests::examples::example_macros;
use fadzgime_tests::fast::display::fast_display;
use fadzgime_tests::fast::monitor::fast_monitor;
#[cfg(feature = "verdict")]
use fadzgime_tests::generators::damaged_macros::damaged_text;
#[cfg(feature = "verdict")]
use fadzgime_tests::generators::macros::{macro_text, random_macro};
use fadzgime_tests::generators::merges::merging_trace;
use fadzgime_tests::generators::random::Random;
#[cfg(feature = "verdict")]
use fadzgime_tests::generators::spread::Spread;
use fadzgime_tests::generators::traces::{
    any_trace, damage_trace, random_header, random_letter, unequal_trace,
};
#[cfg(feature = "verdict")]
use fadzgime_tests::oracle::report::print_verdict;
use fadzgime_tests::oracle::report::{
    PROGRAM_TRACE, display_lines, judgement_lines, print_display, print_model, print_monitor,
};
use fadzgime_tests::oracle::trace::Trace;
use fadzgime_tests::proved::programs::program;

/// What a program does with an input.
fn run(path: &Path, input: &[u8]) -> Output {
    let piped = Stdio::piped;
    let mut child = Command::new(path)
        .stdin(piped())
        .stdout(piped())
        .stderr(piped())
        .spawn()
        .expect("the program starts");
    // A program that has refused may have closed its input.
    let _ = child.stdin.take().expect("an input").write_all(input);
    child.wait_with_output().expect("the program ends")
}

/// What a program prints for an input; nothing goes to standard error.
fn printed(path: &Path, input: &[u8]) -> String {
    let output = run(path, input);
    assert!(output.status.success(), "{}", output.status);
    assert_eq!(String::from_utf8_lossy(&output.stderr), "");
    String::from_utf8_lossy(&output.stdout).to_string()
}

fn check(name: &str, inputs: impl Iterator<Item = Vec<u8>>, expected: fn(&[u8]) -> String) {
    let path = program(name);
    for input in inputs {
        assert_eq!(printed(&path, &input), expected(&input), "{}", String::from_utf8_lossy(&input));
    }
}

/// A macro, well formed two times in three.
#[cfg(feature = "verdict")]
fn some_macro(seed: u64) -> Vec<u8> {
    let random = &mut Random::new(seed);
    if random.once_in(3) {
        return damaged_text(random);
    }
    let read = random_macro(random, 30);
    macro_text(random, &read)
}

/// A trace, well formed two times in three.
fn some_trace(seed: u64) -> Vec<u8> {
    let random = &mut Random::new(seed);
    let trace = any_trace(random, 40);
    if random.once_in(3) { damage_trace(random, &trace) } else { trace.pack() }
}

/// The outcome that lines begin with: `verdict fail`, `refused 9`.
#[cfg(feature = "verdict")]
fn outcome(lines: &str) -> String {
    lines.split_whitespace().take(2).collect::<Vec<_>>().join(" ")
}

#[cfg(feature = "verdict")]
#[test]
fn verdict() {
    let mut spread = Spread::default();
    for text in (0..5_000).map(some_macro) {
        spread.add(&outcome(&print_verdict(&text)), &text);
    }
    println!("verdict: {spread:?}");
    let verdicts = ["verdict pass", "verdict fail", "verdict incoherent"];
    assert!(verdicts.iter().all(|word| spread.is_often(word, 100)), "{spread:?}");
    let often = |number: u8| spread.is_often(&format!("refused {number}"), 20);
    assert!((7..=13).chain([16]).all(often), "{spread:?}");
    check("verdict", (0..5_000).map(some_macro), print_verdict);
}

/// Texts with capitals, macros that test what is already equal and tests with names, against the lines that were
/// settled for them.
#[cfg(feature = "verdict")]
#[test]
fn verdict_on_settled_texts() {
    let path = program("verdict");
    let settled = CAPITALS.iter().chain(&EQUAL_SIDES_MACROS).map(|(text, lines)| (text.to_string(), *lines));
    for (text, lines) in settled.chain(named_tests()) {
        assert_eq!(printed(&path, text.as_bytes()), lines, "{text}");
    }
}

/// The tables of a page of `docs/`: the cells of each line.
#[cfg(any(feature = "verdict", feature = "layout"))]
fn table_lines(page: &str) -> Vec<Vec<String>> {
    let path = Path::new(env!("CARGO_MANIFEST_DIR")).join("../../docs").join(page);
    let text = fs::read_to_string(path).expect("the page");
    let lines = text.lines().filter_map(|line| line.strip_prefix("| ")?.strip_suffix(" |"));
    lines.map(|line| line.split(" | ").map(str::to_string).collect()).collect()
}

/// What stands in back quotes.
#[cfg(any(feature = "verdict", feature = "layout"))]
fn quoted(cell: &str) -> Option<&str> {
    cell.strip_prefix('`')?.strip_suffix('`')
}

/// A text with a `^` at the place of its refusal, and the line that the number beside it makes.
#[cfg(feature = "verdict")]
fn marked(text: &str, number: &str) -> Option<(String, String)> {
    let place = text.find('^')?;
    let number: u32 = number.parse().ok()?;
    Some((text.replacen('^', "", 1), format!("refused {number} at {place}\n")))
}

/// The refusals that the tables of `docs/SPEC.md` (11.6) and `docs/MACROS.md` show.
#[cfg(feature = "verdict")]
#[test]
fn verdict_on_documents() {
    let by_place = table_lines("SPEC.md").into_iter().flat_map(|cells| {
        let pairs = cells.chunks_exact(2).map(|pair| marked(quoted(&pair[0])?, &pair[1]));
        pairs.flatten().collect::<Vec<_>>()
    });
    let by_line = table_lines("MACROS.md").into_iter().filter_map(|cells| {
        let (text, line) = (quoted(&cells[0])?, quoted(cells.get(1)?)?);
        line.starts_with("refused ").then(|| (text.to_string(), format!("{line}\n")))
    });
    let (by_place, by_line) = (by_place.collect::<Vec<_>>(), by_line.collect::<Vec<_>>());
    assert!(by_place.len() >= 24 && by_line.len() >= 28, "{} and {}", by_place.len(), by_line.len());
    let path = program("verdict");
    for (text, line) in by_place.iter().chain(&by_line) {
        assert_eq!(printed(&path, text.as_bytes()), *line, "{text}");
        assert_eq!(print_verdict(text.as_bytes()), *line, "{text}");
    }
}

/// The macros of `examples/`, also against the lines stored beside them.
#[cfg(feature = "verdict")]
#[test]
fn verdict_on_examples() {
    let path = program("verdict");
    let examples = example_macros();
    assert!(examples.len() > 10);
    for example in &examples {
        assert_eq!(printed(&path, example.text.as_bytes()), example.printed, "{}", example.name);
    }
    check("verdict", examples.into_iter().map(|example| example.text.into_bytes()), print_verdict);
}

/// Inputs about as long as a macro may be, and longer; none; bytes that are no text.
#[cfg(feature = "verdict")]
#[test]
fn verdict_on_long_inputs() {
    let padded = |length: usize| [b"vars x y;assert x=y;".as_slice(), &vec![b' '; length - 20]].concat();
    let lengths = [4_095, 4_096, 4_097, 5_000, 100_000];
    let others = [vec![], vec![0xff; 3], b"vars x;".to_vec()];
    check("verdict", lengths.into_iter().map(padded).chain(others), print_verdict);
}

/// The program `layout`, also against the program `verdict`.
#[cfg(feature = "layout")]
mod layout {
    use fadzgime_tests::answers::layouts;
    use fadzgime_tests::examples::example_macros;
    use fadzgime_tests::generators::damaged_macros::damaged_text;
    use fadzgime_tests::generators::layouts::text_to_lay_out;
    use fadzgime_tests::generators::random::Random;
    use fadzgime_tests::oracle::layout::layout;
    use fadzgime_tests::oracle::report::{PROGRAM_PRINT, print_layout, print_verdict};
    use fadzgime_tests::proved::programs::program;

    use super::{check, printed, quoted, table_lines};

    /// A macro, well formed two times in three.
    fn some_text(seed: u64) -> Vec<u8> {
        let random = &mut Random::new(seed);
        if random.once_in(3) { damaged_text(random) } else { text_to_lay_out(random).1 }
    }

    /// The layout of a text that has one is its own layout, and has the verdict of the text.
    fn check_print(text: &[u8]) {
        if layout(text, PROGRAM_PRINT).is_ok() {
            let print = printed(&program("layout"), text);
            assert_eq!(printed(&program("layout"), print.as_bytes()), print);
            let path = program("verdict");
            assert_eq!(printed(&path, print.as_bytes()), printed(&path, text), "{print}");
        }
    }

    #[test]
    fn on_random_texts() {
        check("layout", (0..3_000).map(some_text), print_layout);
    }

    #[test]
    fn on_its_prints() {
        (3_000..4_000).map(some_text).for_each(|text| check_print(&text));
    }

    /// Texts whose layouts are settled, where the bytes are lent that the program lends.
    #[test]
    fn on_settled_texts() {
        let path = program("layout");
        for settled in layouts() {
            let text = settled.text.as_bytes();
            let lines = settled.layout.unwrap_or_else(|refusal| format!("{refusal}\n"));
            let found = printed(&path, text);
            assert!(settled.lent != PROGRAM_PRINT || found == lines, "{found} for {}", settled.text);
            assert_eq!(found, print_layout(text), "{}", settled.text);
            check_print(text);
        }
    }

    /// The prints that the table of `docs/SPEC.md` (8.6) shows.
    #[test]
    fn on_documents() {
        let rows = table_lines("SPEC.md").into_iter().filter_map(|cells| {
            let (text, print) = (quoted(&cells[0])?, quoted(cells.get(1)?)?);
            print.starts_with("vars ").then(|| (text.to_string(), print.replace("\\n", "\n")))
        });
        let rows = rows.collect::<Vec<_>>();
        assert!(rows.len() >= 6, "{}", rows.len());
        for (text, print) in rows {
            assert_eq!(printed(&program("layout"), text.as_bytes()), print, "{text}");
        }
    }

    /// The macros of `examples/`; the verdict on a print is also the one that is stored.
    #[test]
    fn on_examples() {
        let examples = example_macros();
        assert!(examples.len() > 10);
        for example in &examples {
            check_print(example.text.as_bytes());
            let print = printed(&program("layout"), example.text.as_bytes());
            assert_eq!(printed(&program("verdict"), print.as_bytes()), example.printed, "{}", example.name);
            assert_eq!(print_verdict(print.as_bytes()), example.printed, "{}", example.name);
        }
        check("layout", examples.into_iter().map(|example| example.text.into_bytes()), print_layout);
    }

    /// Inputs about as long as a macro may be, and longer; prints about as long as they may be; none; bytes that are
    /// no text.
    #[test]
    fn on_long_inputs() {
        let padded = |length: usize| [b"vars x y;Assert X=y;".as_slice(), &vec![b' '; length - 20]].concat();
        let skips = |count: usize| format!("vars xyz;{}", "skip;".repeat(count)).into_bytes();
        let lengths = [4_095, 4_096, 4_097, 5_000, 100_000];
        let counts = [680, 681, 682, 817, 818];
        let others = [vec![], vec![0xff; 3], b"vars x;".to_vec()];
        let inputs = lengths.into_iter().map(padded).chain(counts.into_iter().map(skips)).chain(others);
        check("layout", inputs, print_layout);
    }
}

/// A trace of so many letters, and all of it but the last byte.
fn long_trace(seed: u64, length: usize) -> [Vec<u8>; 2] {
    let random = &mut Random::new(seed);
    let header = random_header(random);
    let letters = (0..length).map(|_| random_letter(random, &header, [4, 2, 1, 0])).collect();
    let bytes = Trace { header, letters }.pack();
    let odd = bytes[..bytes.len() - 1].to_vec();
    [bytes, odd]
}

/// Traces about as long as the model takes, and longer ones; none; one byte.
#[test]
fn model_on_long_inputs() {
    let lengths = [1_023, 1_024, 1_025, 1_026, 2_000, 40_000, 100_000];
    let traces = (0..4).flat_map(|seed| lengths.into_iter().flat_map(move |length| long_trace(seed, length)));
    check("model", traces.chain([vec![], vec![0x32]]), print_model);
}

/// Traces longer than what the monitor reads at a time; none; one byte.
#[test]
fn monitor_on_long_inputs() {
    let lengths = [32_766, 32_767, 32_768, 100_000];
    let traces = (0..4).flat_map(|seed| lengths.into_iter().flat_map(move |length| long_trace(seed, length)));
    check("monitor", traces.chain([vec![], vec![0x32]]), |bytes| judgement_lines(fast_monitor(bytes)));
}

/// Traces that test what is already equal, against the lines that were settled for them.
#[test]
fn monitor_on_settled_traces() {
    let path = program("monitor");
    for judged in &EQUAL_SIDES_TRACES {
        assert_eq!(printed(&path, &judged.bytes()), judged.lines, "{}", judged.letters);
    }
}

#[test]
fn monitor() {
    check("monitor", (0..1_000).map(some_trace), print_monitor);
}

#[test]
fn model() {
    check("model", (0..1_000).map(some_trace), print_model);
}

/// A trace with many classes that merge or many unequal pairs, well formed two times in three.
fn displayed_trace(seed: u64) -> Vec<u8> {
    let random = &mut Random::new(seed);
    let trace = if random.once_in(2) { merging_trace(random, 40) } else { unequal_trace(random, 40) };
    if random.once_in(3) { damage_trace(random, &trace) } else { trace.pack() }
}

#[test]
fn display() {
    check("display", (0..1_000).map(some_trace), print_display);
    check("display", (0..1_000).map(displayed_trace), print_display);
}

/// Traces whose displays, numbers of classes or unequal pairs were settled.
#[test]
fn display_on_settled_traces() {
    let path = program("display");
    for settled in &DISPLAYS {
        assert_eq!(printed(&path, &settled.bytes()), settled.lines, "{}", settled.text);
    }
    let numbers = CLASS_NUMBERS.iter().map(|settled| settled.words);
    let traces = numbers.chain(UNEQUAL_WORDS.iter().map(|settled| settled.words));
    let bytes = |words: &[u16]| words.iter().flat_map(|word| word.to_be_bytes()).collect();
    check("display", traces.map(bytes), print_display);
}

/// Traces up to the longest that is displayed, all well formed or but for the last letter; traces without a last byte;
/// none; one byte.
#[test]
fn display_on_long_inputs() {
    let most = PROGRAM_TRACE / 2 - 1;
    let lengths = [1_000, 9_999, 10_000, most - 1, most];
    let traces = (0..4).flat_map(|seed| lengths.into_iter().flat_map(move |length| long_trace(seed, length)));
    let refused = lengths
        .map(|length| [&[0x32, 0x00], [0x02, 0x00].repeat(length - 1).as_slice(), &[0xff; 2]].concat());
    let others = [vec![], vec![0x32], vec![0xff; PROGRAM_TRACE]];
    let inputs = traces.chain(refused).chain(others);
    check("display", inputs, |bytes| display_lines(fast_display(bytes)));
}

/// An input that is too long, whatever its bytes are: nothing is printed, and a line on standard error says so. That is not
/// the line of a read that failed.
#[test]
fn display_on_too_long_inputs() {
    let path = program("display");
    for length in [PROGRAM_TRACE + 1, PROGRAM_TRACE + 2, 100_000] {
        let [long, _] = long_trace(1, length);
        for input in [&long[..length], &vec![0xff; length], &vec![0x00; length]] {
            assert_eq!(print_display(input), "");
            let output = run(&path, input);
            assert_eq!(String::from_utf8_lossy(&output.stdout), "", "{length} bytes");
            let told = String::from_utf8_lossy(&output.stderr).to_string();
            assert!(told.ends_with('\n') && told.lines().count() == 1, "{told:?}");
            assert!(!told.starts_with("read: "), "{told:?}");
        }
    }
}
