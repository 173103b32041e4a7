//! A test of what is already equal (document 02): the settled answers, and this rule beside document 01's stricter one.

use std::collections::BTreeMap;

use fadzgime_tests::answers::{EQUAL_SIDES_MACROS, EQUAL_SIDES_TRACES, Judged};
use fadzgime_tests::fast::monitor::fast_monitor;
use fadzgime_tests::fast::search::fast_search;
use fadzgime_tests::generators::macros::random_macro;
use fadzgime_tests::generators::random::{Random, cases};
use fadzgime_tests::generators::traces::any_trace;
use fadzgime_tests::oracle::letter::Letter;
use fadzgime_tests::oracle::monitor::{
    Judgement, Rule, is_coherent, is_strictly_coherent, judge, judge_by, monitor, tests_equal_sides,
};
use fadzgime_tests::oracle::reader::read_macro;
use fadzgime_tests::oracle::refusal::Refusal;
use fadzgime_tests::oracle::report::{print_monitor, print_verdict};
use fadzgime_tests::oracle::state::State;
use fadzgime_tests::oracle::syntax::Macro;
use fadzgime_tests::oracle::trace::{Trace, read_trace};
use fadzgime_tests::oracle::verdict::{Answer, Event, MAX_PAIRS, search, search_by};
use fadzgime_tests::oracle::window::Window;

use crate::trace;

/// The trace that the letters of a settled one name: registers and functions in the order of the header.
fn named(judged: &Judged) -> Trace {
    let registers = match judged.words[0] >> 12 {
        3 => "x y z",
        4 => "x y u v",
        _ => "x y u v w",
    };
    let functions = match judged.words[0] & 0x0fff {
        0x300 => "f/2",
        0x400 => "f/1 g/1",
        _ => "f/1",
    };
    let statement = |letter: &str| {
        let letter = letter.trim();
        if letter.contains(":=") { format!("{letter};") } else { format!("assume {letter};") }
    };
    // A comma between arguments has no blank behind it.
    let statements: String = judged.letters.split(", ").map(statement).collect();
    trace(&format!("vars {registers}; funs {functions}; {statements}"))
}

#[test]
fn settled_traces() {
    for judged in &EQUAL_SIDES_TRACES {
        let bytes = judged.bytes();
        assert_eq!(named(judged).pack(), bytes, "{}", judged.letters);
        assert_eq!(print_monitor(&bytes), judged.lines, "{}", judged.letters);
        assert_eq!(fast_monitor(&bytes), monitor(&bytes), "{}", judged.letters);
        let found = monitor(&bytes).expect("well formed");
        assert_eq!(judged.numbers(), [found.incoherent, found.infeasible].map(|number| number.unwrap_or(0)));
    }
}

#[test]
fn settled_macros() {
    for (text, lines) in EQUAL_SIDES_MACROS {
        assert_eq!(print_verdict(text.as_bytes()), lines, "{text}");
        let read = read_macro(text.as_bytes()).expect("reads");
        assert_eq!(fast_search(&read, MAX_PAIRS), search(&read, MAX_PAIRS), "{text}");
    }
}

/// What document 01's rule found in the inputs that were settled first: the first six traces, and both first macros.
#[test]
fn settled_inputs_by_the_strict_rule() {
    let strictly = |judged: &Judged| {
        let trace = read_trace(&judged.bytes(), None).expect("well formed");
        judge_by(is_strictly_coherent, &trace)
    };
    for (judged, number) in EQUAL_SIDES_TRACES.iter().zip([3, 4, 3, 6, 3, 3]) {
        let expected = Judgement { incoherent: Some(number), infeasible: None };
        assert_eq!(strictly(judged), expected, "{}", judged.letters);
    }
    for (text, _) in &EQUAL_SIDES_MACROS[..2] {
        let read = read_macro(text.as_bytes()).expect("reads");
        let verdict = search_by(is_strictly_coherent, &read, MAX_PAIRS).expect("few pairs");
        assert_eq!(verdict.word(), "incoherent", "{text}");
    }
}

/// The letters of a trace that are not equal tests of sides which are equal before them, with their numbers.
fn other_letters(trace: &Trace) -> Vec<(usize, Letter)> {
    let mut state = State::start(trace.header);
    let mut kept = Vec::new();
    for (index, letter) in trace.letters.iter().enumerate() {
        if !tests_equal_sides(&state, letter) {
            kept.push((index + 1, *letter));
        }
        state = state.after(letter);
    }
    kept
}

/// A trace that the strict rule lets through is let through alike. One that it stops is stopped by the same letter, unless
/// that one tests equal sides: then later or never.
fn check_milder(trace: &Trace) {
    let (found, strict) = (judge(trace), judge_by(is_strictly_coherent, trace));
    let Some(number) = strict.incoherent else {
        assert_eq!(found, strict, "{trace:?}");
        return;
    };
    let before = State::after_all(trace.header, &trace.letters[..number - 1]);
    if tests_equal_sides(&before, &trace.letters[number - 1]) {
        assert!(found.incoherent.is_none_or(|later| later > number), "{trace:?}");
        assert!(strict.infeasible.is_none() || found.infeasible == strict.infeasible, "{trace:?}");
    } else {
        assert_eq!(found, strict, "{trace:?}");
    }
}

/// A trace is coherent exactly if it is so by the strict rule without its tests of equal sides; if not, the first
/// incoherent letter is the same. Both have the same infeasible letter, and the same window in the end.
fn check_without_equal_sides(trace: &Trace) {
    let kept = other_letters(trace);
    let letters: Vec<Letter> = kept.iter().map(|&(_, letter)| letter).collect();
    let rest = Trace { header: trace.header, letters };
    let (found, strict) = (judge(trace), judge_by(is_strictly_coherent, &rest));
    let number = |place: usize| kept[place - 1].0;
    assert_eq!(found.incoherent, strict.incoherent.map(number), "{trace:?}");
    assert_eq!(found.infeasible, strict.infeasible.map(number), "{trace:?}");
    let window = |trace: &Trace, found: Judgement| {
        let count = found.incoherent.map_or(trace.letters.len(), |number| number - 1);
        Window::of(&State::after_all(trace.header, &trace.letters[..count]))
    };
    assert_eq!(window(trace, found), window(&rest, strict), "{trace:?}");
}

#[test]
fn traces_by_both_rules() {
    for seed in 0..cases(4_000) {
        let trace = any_trace(&mut Random::new(seed), 40);
        check_milder(&trace);
        check_without_equal_sides(&trace);
    }
}

/// What was answered, in a word.
fn word(answer: &Result<Answer, Refusal>) -> &'static str {
    answer.as_ref().map_or("full", |answer| answer.verdict.word())
}

/// The execution at whose last letter the strict rule stops, if that letter tests equal sides.
fn stopped_at_equal_sides(strict: &Result<Answer, Refusal>) -> Option<&[Letter]> {
    let answer = strict.as_ref().ok()?;
    let Some(Event::Incoherent(letters)) = &answer.verdict.event else { return None };
    let (last, before) = letters.split_last()?;
    let before = State::after_all(answer.read.header(), before);
    tests_equal_sides(&before, last).then_some(letters)
}

/// The answer stays, with verdict, pairs, execution and model, or 14, unless the strict rule stops at a test of equal sides:
/// so it does wherever that rule finds nothing incoherent. Else the event is another one, no shorter and behind no fewer
/// pairs. Gives whether the answer stays, and its word.
fn check_macro(read: &Macro, most: usize) -> (&'static str, &'static str) {
    let answer = |rule: Rule| search_by(rule, read, most).map(|verdict| Answer::of(read.clone(), verdict));
    let (found, strict) = (answer(is_coherent), answer(is_strictly_coherent));
    let Some(stopped) = stopped_at_equal_sides(&strict) else {
        assert_eq!(found, strict, "{read:?}");
        return ("stays", word(&found));
    };
    if let (Ok(found), Ok(strict)) = (&found, &strict) {
        assert!(found.verdict.pairs >= strict.verdict.pairs, "{read:?}");
        if let Some(event) = &found.verdict.event {
            assert_ne!(*event, Event::Incoherent(stopped.to_vec()), "{read:?}");
            assert!(event.letters().len() >= stopped.len(), "{read:?}");
        }
    }
    ("moves", word(&found))
}

#[test]
fn macros_by_both_rules() {
    let mut counts: BTreeMap<(&str, &str), usize> = BTreeMap::new();
    for seed in 0..cases(3_000) {
        let random = &mut Random::new(seed);
        let (read, most) = (random_macro(random, 30), *random.pick(&[20, 200]));
        *counts.entry(check_macro(&read, most)).or_default() += 1;
    }
    println!("from the strict rule's answers: {counts:?}");
    assert!(counts.len() == 8 && counts.values().all(|&count| count > 20) || cases(10) < 10, "{counts:?}");
}
