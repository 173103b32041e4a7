//! Tests with names by the proved library alone: a macro with tests, and the macro in which each of them is written out, have
//! the same verdict, with the same execution and model.

use std::collections::BTreeMap;

use fadzgime_tests::generators::macros::{macro_text, macro_with_tests};
use fadzgime_tests::generators::random::{Random, cases};
use fadzgime_tests::generators::written_out::{named_loops, written_out};
use fadzgime_tests::oracle::syntax::Macro;
use fadzgime_tests::oracle::verdict::{MAX_PAIRS, PAIR_BYTES};
use fadzgime_tests::proved::library::{self, READ_ANSWER, VERDICT_ANSWER, VERDICT_OUTPUT};

/// The refusal that says that the table is full.
const FULL: u64 = 14;

/// The numbers of a verdict, and what is written.
fn judged(text: &[u8]) -> ([u64; VERDICT_ANSWER], Vec<u8>) {
    let (mut table, mut out) = (vec![0; MAX_PAIRS * PAIR_BYTES], vec![0; VERDICT_OUTPUT]);
    let mut answer = [u64::MAX; VERDICT_ANSWER];
    library::verdict(text, &mut table, &mut out, &mut answer);
    (answer, out)
}

/// The counts of registers, functions and points.
fn counts(text: &[u8]) -> [u64; 3] {
    let mut answer = [u64::MAX; READ_ANSWER];
    library::read(text, &mut answer);
    let [number, place, registers, functions, points] = answer;
    assert_eq!([number, place], [0, 0], "{}", String::from_utf8_lossy(text));
    [registers, functions, points]
}

/// Compares a macro with what is written out; gives the verdict and whether a while asks a test, but for full tables.
fn check(random: &mut Random, read: &Macro) -> Option<(u64, bool)> {
    let loops = named_loops(&read.statements) as u64;
    let (text, written) = (macro_text(random, read), macro_text(random, &written_out(read)));
    let shown = String::from_utf8_lossy(&text);
    let [registers, functions, points] = counts(&text);
    assert_eq!(counts(&written), [registers, functions, points + loops], "{shown}");
    let ((named, out), (plain, written_out)) = (judged(&text), judged(&written));
    let ([refusal, _, word, pairs, letters], [_, _, _, more, _]) = (named, plain);
    if named[0] == FULL || plain[0] == FULL {
        return None;
    }
    assert_eq!(refusal, 0, "{shown}");
    assert_eq!([plain[0], plain[2], plain[4]], [refusal, word, letters], "{shown}");
    assert_eq!(out, written_out, "{shown}");
    let most = if loops > 0 { 2 * pairs } else { pairs };
    assert!((pairs..=most).contains(&more), "{pairs} and {more} pairs: {shown}");
    Some((word, loops > 0))
}

#[test]
fn verdicts() {
    let mut spread: BTreeMap<(u64, bool), usize> = BTreeMap::new();
    for seed in 0..cases(10_000) {
        let random = &mut Random::new(seed + 3_000_000);
        let read = macro_with_tests(random, 24);
        if let Some(kind) = check(random, &read) {
            *spread.entry(kind).or_default() += 1;
        }
    }
    println!("verdict, with a while on a test: {spread:?}");
    assert!(spread.len() == 6 && spread.values().all(|&count| count > 100) || cases(10) < 10, "{spread:?}");
}
