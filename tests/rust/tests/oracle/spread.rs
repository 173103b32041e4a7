//! The generators reach what they are for.

use std::collections::{BTreeMap, BTreeSet};

use fadzgime_tests::generators::damaged_macros::damaged_text;
use fadzgime_tests::generators::layouts::text_to_lay_out;
use fadzgime_tests::generators::macros::{DEEPEST, macro_text, random_macro};
use fadzgime_tests::generators::random::Random;
use fadzgime_tests::generators::repeats::Way;
use fadzgime_tests::generators::spread::Spread;
use fadzgime_tests::generators::traces::{any_trace, damage_trace};
use fadzgime_tests::oracle::closure::TermId;
use fadzgime_tests::oracle::layout::print_macro;
use fadzgime_tests::oracle::letter::Letter;
use fadzgime_tests::oracle::model::show_model;
use fadzgime_tests::oracle::monitor::{judge, tests_equal_sides};
use fadzgime_tests::oracle::reader::read_macro;
use fadzgime_tests::oracle::refusal::Refusal;
use fadzgime_tests::oracle::state::State;
use fadzgime_tests::oracle::syntax::{Macro, Statement};
use fadzgime_tests::oracle::token::{Placed, Token, Word, is_same_name, token_at};
use fadzgime_tests::oracle::trace::{Trace, read_trace};
use fadzgime_tests::oracle::verdict::verdict;

#[test]
fn traces() {
    let mut counts: BTreeMap<(bool, bool), usize> = BTreeMap::new();
    let (mut long, mut refused) = (0, BTreeMap::<u8, usize>::new());
    for seed in 0..3_000 {
        let random = &mut Random::new(seed);
        let trace = any_trace(random, 40);
        let judgement = judge(&trace);
        *counts.entry((judgement.incoherent.is_some(), judgement.infeasible.is_some())).or_default() += 1;
        long += usize::from(judgement.incoherent.unwrap_or(trace.letters.len()) > 20);
        if let Err(refusal) = show_model(&damage_trace(random, &trace), 60) {
            *refused.entry(refusal.number).or_default() += 1;
        }
    }
    println!("incoherent, infeasible: {counts:?}; long coherent beginnings {long}; refused {refused:?}");
    assert!(counts.len() == 4 && counts.values().all(|&count| count > 50));
    assert!(long > 500);
    assert!([1, 2, 3, 4, 6].iter().all(|number| refused.contains_key(number)));
}

/// What a trace has to do with tests of what is already equal while something above it is lost: how the sides are equal,
/// and what comes behind such a test, up to the first incoherent letter.
fn about_equal_sides(trace: &Trace) -> BTreeSet<&'static str> {
    let mut about = BTreeSet::new();
    let stopped = judge(trace).incoherent;
    let mut state = State::start(trace.header);
    let mut tested: Vec<TermId> = Vec::new();
    for letter in &trace.letters[..stopped.unwrap_or(trace.letters.len())] {
        let is_tested =
            |register: u8| tested.iter().any(|&term| state.closure.equal(term, state.value(register)));
        let equal = tests_equal_sides(&state, letter);
        match *letter {
            Letter::Equal { first, second } if equal && !state.all_above_held(state.value(first)) => {
                about.extend(["any", Way::of(&state, first, second).name()]);
                tested.push(state.value(first));
            }
            Letter::Equal { first, second } if !equal && (is_tested(first) || is_tested(second)) => {
                about.insert("then tested against another");
            }
            Letter::Apply { first, second, .. } if is_tested(first) || second.is_some_and(is_tested) => {
                about.insert("then applied");
            }
            Letter::Unequal { first, second } if is_tested(first) || is_tested(second) => {
                about.insert("then an unequal test");
            }
            _ => {}
        }
        state = state.after(letter);
    }
    if stopped.is_some() && !tested.is_empty() {
        about.insert("then incoherent");
    }
    if !state.is_feasible() && !tested.is_empty() {
        about.insert("infeasible");
    }
    about
}

#[test]
fn tests_of_what_is_equal() {
    let mut whole: BTreeMap<&str, usize> = BTreeMap::new();
    let mut damaged = 0;
    for seed in 0..3_000 {
        let random = &mut Random::new(seed);
        let trace = any_trace(random, 40);
        about_equal_sides(&trace).into_iter().for_each(|kind| *whole.entry(kind).or_default() += 1);
        let read = read_trace(&damage_trace(random, &trace), None);
        damaged += usize::from(read.is_ok_and(|trace| !about_equal_sides(&trace).is_empty()));
    }
    println!("{whole:?}; {damaged} damaged ones");
    assert!(whole.len() == 10 && whole.values().all(|&count| count > 50), "{whole:?}");
    assert!(damaged > 50, "{damaged}");
}

/// How deep blocks are nested.
fn nesting(statements: &[Statement]) -> usize {
    let inner = |statement: &Statement| match statement {
        Statement::If(_, yes, no) => 1 + nesting(yes).max(nesting(no)),
        Statement::While(_, body) => 1 + nesting(body),
        _ => 0,
    };
    statements.iter().map(inner).max().unwrap_or(0)
}

/// The tokens of a text, one after the other, up to its end or to what is none.
pub fn tokens(text: &[u8]) -> Vec<Placed> {
    let mut tokens = Vec::new();
    let mut at = 0;
    while let Ok(placed) = token_at(text, at)
        && placed.token != Token::End
    {
        at = placed.end;
        tokens.push(placed);
    }
    tokens
}

/// The names among the tokens of a text.
fn names(text: &[u8]) -> Vec<String> {
    let name = |placed: Placed| if let Token::Name(name) = placed.token { Some(name) } else { None };
    tokens(text).into_iter().filter_map(name).collect()
}

/// Is a name used in another spelling than it was declared in?
fn is_respelt(text: &[u8], read: &Macro) -> bool {
    let declared: Vec<&String> = read.declared().collect();
    names(text).iter().any(|name| !declared.contains(&name))
}

#[test]
fn macros() {
    let mut spread = Spread::default();
    let (mut pairs, mut deep, mut deepest, mut respelt) = (0, 0, 0, 0);
    for seed in 0..1_000 {
        let random = &mut Random::new(seed);
        let read = random_macro(random, 60);
        deep += usize::from(nesting(&read.statements) > 8);
        deepest = deepest.max(nesting(&read.statements));
        let text = macro_text(random, &read);
        respelt += usize::from(is_respelt(&text, &read));
        let table = *random.pick(&[1_000, 4_000, 65_536]);
        let word = match verdict(&text, table, usize::MAX) {
            Err(_) => "full",
            Ok(answer) => {
                pairs += answer.verdict.pairs;
                answer.verdict.word()
            }
        };
        spread.add(word, &text);
    }
    println!(
        "{spread:?} {pairs} pairs; {deep} nested more than 8 deep, at most {deepest}; {respelt} with uses respelt"
    );
    assert!(["pass", "fail", "incoherent", "full"].iter().all(|word| spread.is_often(word, 50)));
    assert!(deep > 20 && deepest == DEEPEST && respelt > 200);
}

/// What a refusal has to do with capitals, if it has.
fn about_capitals(text: &[u8], refusal: &Refusal) -> Option<&'static str> {
    let rest = &text[refusal.place..];
    let in_name = |byte: &u8| byte.is_ascii_alphanumeric() || *byte == b'_';
    let run: String = rest.iter().copied().take_while(in_name).map(char::from).collect();
    let capital = run.contains(|letter: char| letter.is_ascii_uppercase());
    let before = names(&text[..refusal.place]);
    let declared = before.iter().any(|known| is_same_name(known, &run));
    match refusal.number {
        8 if b"[]@`\x11\x12\x1d".contains(&rest[0]) => Some("a neighbour by one bit"),
        8 if capital => Some("a long run with a capital"),
        9 if capital => Some("a word or name with a capital that does not fit"),
        10 if declared && !before.contains(&run) => Some("declared in two spellings"),
        _ => None,
    }
}

#[test]
fn damaged_macros() {
    let mut spread = Spread::default();
    let mut about: BTreeMap<&str, usize> = BTreeMap::new();
    for seed in 0..5_000 {
        let text = damaged_text(&mut Random::new(seed));
        let read = read_macro(&text);
        spread.add(&read.as_ref().map_or_else(|refusal| refusal.number, |_| 0).to_string(), &text);
        if let Some(kind) = read.err().and_then(|refusal| about_capitals(&text, &refusal)) {
            *about.entry(kind).or_default() += 1;
        }
    }
    println!("{spread:?}; {about:?}");
    let numbers = ["0", "7", "8", "9", "10", "11", "12", "13", "16"];
    assert!(numbers.iter().all(|number| spread.is_often(number, 40)), "{spread:?}");
    assert!(about.len() == 4 && about.values().all(|&count| count > 30));
}

/// The elses of some statements, absent ones too.
fn elses(statements: &[Statement]) -> Vec<&[Statement]> {
    let mut found: Vec<&[Statement]> = Vec::new();
    for statement in statements {
        match statement {
            Statement::If(_, yes, no) => {
                found.push(no);
                found.extend(elses(yes).into_iter().chain(elses(no)));
            }
            Statement::While(_, body) => found.extend(elses(body)),
            _ => {}
        }
    }
    found
}

/// What there is in a text that the layout has to deal with.
fn about_layout(text: &[u8], read: &Macro) -> Vec<&'static str> {
    let placed = tokens(text);
    let kinds: Vec<&Token> = placed.iter().map(|placed| &placed.token).collect();
    let is_empty = |part: &[&Token]| part == [&Token::OpenBrace, &Token::CloseBrace];
    let is_empty_else = |part: &[&Token]| *part[0] == Token::Word(Word::Else) && is_empty(&part[1..3]);
    let touches = |pair: &[Placed]| {
        matches!(pair[0].token, Token::One | Token::Two)
            && matches!(pair[1].token, Token::Name(_))
            && pair[0].end == pair[1].start
    };
    let names = names(text);
    let used_once = |name: &String| names.iter().filter(|other| is_same_name(other, name)).count() == 1;
    let elses = elses(&read.statements);
    let length = print_macro(read).len();
    let found = [
        ("an empty block", kinds.windows(2).any(is_empty)),
        ("an empty else", kinds.windows(3).any(is_empty_else)),
        (
            "an empty else in a block",
            kinds.windows(4).any(|part| is_empty_else(part) && *part[3] == Token::CloseBrace),
        ),
        ("an else of skip", elses.contains(&[Statement::Skip].as_slice())),
        ("an else of an if", elses.iter().any(|no| matches!(no, [Statement::If(..)]))),
        ("a number that touches a name", placed.windows(2).any(touches)),
        ("a register that is never used", read.registers.iter().any(used_once)),
        ("a function that is never used", read.functions.iter().any(|(name, _)| used_once(name))),
        ("a use that is respelt", is_respelt(text, read)),
        ("a comment", text.contains(&b'#')),
        ("a tab", text.contains(&b'\t')),
        ("a CR", text.contains(&b'\r')),
        ("a print of just about 4,096 bytes", (4_092..=4_096).contains(&length)),
        ("a print of more", length > 4_096),
    ];
    found.into_iter().filter_map(|(kind, there)| there.then_some(kind)).collect()
}

/// Each of so many kinds, as `about` finds them in a text, is met in the texts to lay out.
pub fn laid_out_texts_have(kinds: usize, about: fn(&[u8], &Macro) -> Vec<&'static str>) {
    let mut met: BTreeMap<&str, usize> = BTreeMap::new();
    for seed in 0..2_000 {
        let (read, text) = text_to_lay_out(&mut Random::new(seed));
        about(&text, &read).into_iter().for_each(|kind| *met.entry(kind).or_default() += 1);
    }
    println!("{met:?}");
    assert!(met.len() == kinds && met.values().all(|&count| count > 50), "{met:?}");
}

#[test]
fn layouts() {
    laid_out_texts_have(14, about_layout);
}
