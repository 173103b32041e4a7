//! Tests with names (document 02): "A macro's executions are those of this expansion." A macro with tests beside the one in
//! which each test is written out, with two more registers and a function in the place of the test.

use std::collections::BTreeMap;

use fadzgime_tests::answers::named_tests;
use fadzgime_tests::examples::example_macros;
use fadzgime_tests::generators::macros::{macro_text, macro_with_tests};
use fadzgime_tests::generators::random::{Random, cases};
use fadzgime_tests::generators::written_out::{WRITTEN_REGISTERS, named_loops, written_out};
use fadzgime_tests::oracle::layout::print_macro;
use fadzgime_tests::oracle::letter::Letter;
use fadzgime_tests::oracle::reader::read_macro;
use fadzgime_tests::oracle::report::verdict_lines;
use fadzgime_tests::oracle::syntax::{HIDDEN_REGISTERS, Macro};
use fadzgime_tests::oracle::verdict::{Answer, Event, MAX_PAIRS, search};

use crate::search::{executions, walked};

/// The lines of a verdict without the count of pairs, the registers that are written out named as the hidden ones.
fn lines(answer: &Answer) -> Vec<String> {
    let lines = verdict_lines(answer);
    let kept = lines.lines().filter(|line| !line.starts_with("pairs "));
    let hide = |line: &str| {
        WRITTEN_REGISTERS
            .iter()
            .zip(HIDDEN_REGISTERS)
            .fold(line.to_string(), |line, (written, hidden)| line.replace(written, hidden))
    };
    kept.map(hide).collect()
}

/// The comparison of a test is never the first incoherent letter: nothing is ever applied to `result` or `truth`.
fn check_comparison(answer: &Answer) {
    if let Some(Event::Incoherent(letters)) = &answer.verdict.event
        && let Some(&Letter::Equal { first, .. }) = letters.last()
    {
        assert!(usize::from(first) < answer.read.registers.len(), "{:?}", answer.read);
    }
}

/// Both macros have the same verdict, with the same execution, model and packed answer, and as many pairs if no while asks a
/// test. Written out, a while has its application twice, so a pair before it may count twice. Gives the verdict's word and
/// whether a while asks a test.
fn check(read: &Macro, most: usize) -> Option<(&'static str, bool)> {
    let written = written_out(read);
    assert_eq!(written.header(), read.header(), "{read:?}");
    let loops = named_loops(&read.statements);
    assert_eq!(written.points(), read.points() + loops, "{read:?}");
    let answer = |read: &Macro| search(read, most).ok().map(|verdict| Answer::of(read.clone(), verdict));
    let (named, plain) = (answer(read)?, answer(&written)?);
    assert_eq!(named.verdict.event, plain.verdict.event, "{read:?}");
    assert_eq!(named.pack(), plain.pack(), "{read:?}");
    assert_eq!(lines(&named), lines(&plain), "{read:?}");
    let (fewest, most) = (named.verdict.pairs, named.verdict.pairs * if loops > 0 { 2 } else { 1 });
    assert!((fewest..=most).contains(&plain.verdict.pairs), "{read:?}");
    check_comparison(&named);
    Some((named.verdict.word(), loops > 0))
}

#[test]
fn verdicts() {
    let mut counts: BTreeMap<(&str, bool), usize> = BTreeMap::new();
    for seed in 0..cases(4_000) {
        let read = macro_with_tests(&mut Random::new(seed), 24);
        if let Some(kind) = check(&read, MAX_PAIRS) {
            *counts.entry(kind).or_default() += 1;
        }
    }
    println!("verdict, with a while on a test: {counts:?}");
    assert!(counts.len() == 6 && counts.values().all(|&count| count > 40) || cases(10) < 10, "{counts:?}");
}

/// The whole executions of up to so many letters are the same, by walking and by Definition 2.
#[test]
fn whole_executions() {
    let mut loops = 0;
    for seed in 0..cases(400) {
        let read = macro_with_tests(&mut Random::new(seed), 6);
        let written = written_out(&read);
        let found = walked(&read, 9);
        assert_eq!(found, walked(&written, 9), "{read:?}");
        assert_eq!(found, executions(&read.statements, 9), "{read:?}");
        assert_eq!(found, executions(&written.statements, 9), "{read:?}");
        loops += usize::from(named_loops(&read.statements) > 0);
    }
    assert!(loops > 40 || cases(10) < 10, "{loops}");
}

/// What is written out is the text of a macro, too: it is read as it stands, and its print has no line of tests.
#[test]
fn texts() {
    for seed in 0..cases(1_000) {
        let random = &mut Random::new(seed);
        let written = written_out(&macro_with_tests(random, 24));
        assert_eq!(read_macro(&macro_text(random, &written)), Ok(written.clone()));
        assert_eq!(read_macro(print_macro(&written).as_bytes()), Ok(written.clone()));
    }
}

/// The macros that were settled, and those of `examples/`.
#[test]
fn settled_macros() {
    let settled = named_tests().into_iter().map(|(text, _)| text);
    let examples = example_macros().into_iter().map(|example| example.text);
    let mut checked = 0;
    for read in settled.chain(examples).filter_map(|text| read_macro(text.as_bytes()).ok()) {
        assert!(check(&read, MAX_PAIRS).is_some(), "{read:?}");
        checked += usize::from(!read.tests.is_empty());
    }
    assert!(checked >= 8, "{checked}");
}

/// "A while returning to the first": behind the body comes the application of before. Written out it is another point,
/// and what is known there is a pair of its own even where it was known before the loop.
#[test]
fn pairs_of_a_while() {
    let pairs = |text: &str| {
        let read = read_macro(text.as_bytes()).expect("it reads");
        search(&read, MAX_PAIRS).expect("few pairs").pairs
    };
    assert_eq!(pairs("vars x; tests hot/1; assume hot(x); while hot(x) { }"), 4);
    let front = "vars x r q; funs hot/1; r := hot(x); assume r = q;";
    assert_eq!(pairs(&format!("{front} r := hot(x); while r = q {{ r := hot(x); }}")), 5);
    assert_eq!(pairs(&format!("{front} r := hot(x); while r = q {{ }}")), 4);
}
