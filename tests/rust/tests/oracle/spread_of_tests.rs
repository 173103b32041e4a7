//! The generators reach what tests with names bring: each kind of condition in each place, and each way in which a line of
//! tests or a use of one is refused.

use std::collections::{BTreeMap, BTreeSet};

use fadzgime_tests::generators::damaged_macros::damaged_text;
use fadzgime_tests::generators::macros::random_macro;
use fadzgime_tests::generators::random::Random;
use fadzgime_tests::oracle::letter::{Letter, MAX_FUNCTIONS, MAX_REGISTERS};
use fadzgime_tests::oracle::reader::read_macro;
use fadzgime_tests::oracle::refusal::Refusal;
use fadzgime_tests::oracle::syntax::{Macro, Statement};
use fadzgime_tests::oracle::token::{Placed, Token, Word, is_same_name, token_at};
use fadzgime_tests::oracle::verdict::{Verdict, search};

use crate::spread::{laid_out_texts_have, tokens};

/// The conditions with names among some statements: the statement's word, whether there is a `!`, how many arguments.
fn named(statements: &[Statement]) -> BTreeSet<String> {
    let mut found = BTreeSet::new();
    for statement in statements {
        let (word, blocks): (&str, Vec<&[Statement]>) = match statement {
            Statement::Skip | Statement::Assign(_) => continue,
            Statement::Assume(_) => ("assume", vec![]),
            Statement::Assert(_) => ("assert", vec![]),
            Statement::If(_, yes, no) => ("if", vec![yes, no]),
            Statement::While(_, body) => ("while", vec![body]),
        };
        if let Some(Letter::Apply { second, .. }) = statement.applied() {
            let bang = if statement.condition().is_some_and(|condition| condition.equal) { "" } else { "!" };
            let arguments = if second.is_some() { "(a,b)" } else { "(a)" };
            found.insert(format!("{word} {bang}t{arguments}"));
        }
        found.extend(blocks.into_iter().flat_map(named));
    }
    found
}

/// What there is of tests in a macro.
fn about_macro(read: &Macro) -> BTreeSet<String> {
    let mut about = named(&read.statements);
    let kinds = [
        ("none of them used", about.is_empty()),
        ("with functions", !read.functions.is_empty()),
        ("without functions", read.functions.is_empty()),
        ("eight registers in all", read.header().registers == MAX_REGISTERS),
        ("four functions and tests", read.header().functions == MAX_FUNCTIONS),
    ];
    about.extend(kinds.iter().filter(|(_, there)| *there).map(|(kind, _)| kind.to_string()));
    about
}

#[test]
fn macros() {
    let mut about: BTreeMap<String, usize> = BTreeMap::new();
    let mut words: BTreeMap<&str, usize> = BTreeMap::new();
    for seed in 0..3_000 {
        let read = random_macro(&mut Random::new(seed), 30);
        if read.tests.is_empty() {
            continue;
        }
        about_macro(&read).into_iter().for_each(|kind| *about.entry(kind).or_default() += 1);
        if !named(&read.statements).is_empty() {
            let found = search(&read, [5, 20, 341][seed as usize % 3]);
            *words.entry(found.as_ref().map_or("full", Verdict::word)).or_default() += 1;
        }
    }
    println!("macros with tests: {about:?}; with uses of them: {words:?}");
    assert!(about.len() == 16 + 5 && about.values().all(|&count| count > 20), "{about:?}");
    assert!(words.len() == 4 && words.values().all(|&count| count > 50), "{words:?}");
}

/// The word of the list in which a name was declared, if it was, in these first tokens of a text.
fn sort(before: &[Placed], name: &str) -> Option<Word> {
    let is_it = |placed: &Placed| matches!(&placed.token, Token::Name(known) if is_same_name(known, name));
    list(&before[..before.iter().position(is_it)?])
}

/// The word of the last list that these tokens begin.
fn list(before: &[Placed]) -> Option<Word> {
    before.iter().rev().find_map(|placed| match placed.token {
        Token::Word(word @ (Word::Vars | Word::Funs | Word::Tests)) => Some(word),
        _ => None,
    })
}

/// Does a statement begin behind these tokens?
fn ends_statement(before: &[Placed]) -> bool {
    let last = before.last().map(|placed| &placed.token);
    last.is_some_and(|last| matches!(last, Token::Semicolon | Token::OpenBrace | Token::CloseBrace))
}

/// A refusal by 9 that has to do with tests.
fn misfit(before: &[Placed], here: &Token) -> Option<&'static str> {
    let has_line = list(before) == Some(Word::Tests);
    let behind = |place: usize| before.len().checked_sub(place).map(|place| &before[place].token);
    match here {
        Token::Not => Some("9: a `!`"),
        Token::Word(Word::Result | Word::Truth) => Some("9: `result` or `truth`"),
        Token::Word(Word::Tests) if before.is_empty() => Some("9: tests in front"),
        Token::Word(Word::Tests) if !ends_statement(before) => Some("9: `tests` as a name"),
        Token::Word(Word::Tests) if has_line => Some("9: tests twice"),
        Token::Word(Word::Tests) => Some("9: tests behind a statement"),
        Token::Word(Word::Funs) if has_line => Some("9: functions behind tests"),
        Token::Equal | Token::Unequal if behind(1) == Some(&Token::Close) => Some("9: a test compared"),
        _ if behind(2) == Some(&Token::Not) => Some("9: no arguments behind `!`"),
        _ => None,
    }
}

/// A refusal by 10 in the line of tests.
fn misdeclared(before: &[Placed], name: &str) -> Option<&'static str> {
    match (list(before)?, sort(before, name)) {
        (Word::Tests, Some(Word::Vars)) => Some("10: a test named as a register"),
        (Word::Tests, Some(Word::Funs)) => Some("10: a test named as a function"),
        (Word::Tests, Some(_)) => Some("10: a test named as a test"),
        (Word::Tests, None) => Some("10: a fifth of functions and tests"),
        _ => None,
    }
}

/// A refusal by 11 at a name that is a test where none is due, or none where one is due.
fn misused(before: &[Placed], name: &str, applied: bool) -> Option<&'static str> {
    let sort = sort(before, name);
    let is_test = sort == Some(Word::Tests);
    match (&before.last()?.token, is_test) {
        (Token::Becomes, true) if applied => Some("11: a test behind `:=`, with arguments"),
        (Token::Becomes, true) => Some("11: a test behind `:=`"),
        (Token::Open | Token::Comma, true) => Some("11: a test as an argument"),
        (Token::Equal | Token::Unequal, true) => Some("11: a test on the right side"),
        (Token::Word(_), true) => Some("11: a test alone in a condition"),
        (_, true) if ends_statement(before) => Some("11: a test as a target"),
        (Token::Not, false) => Some(match sort {
            Some(Word::Vars) => "11: a register behind `!`",
            Some(_) => "11: a function behind `!`",
            None => "11: an unknown name behind `!`",
        }),
        (Token::Word(_), false) if applied => Some(match sort {
            Some(Word::Vars) => "11: a register before `(`",
            Some(_) => "11: a function before `(`",
            None => "11: an unknown name before `(`",
        }),
        _ => None,
    }
}

/// A refusal by 11 at a `,` or `)` behind the first argument of a test.
fn miscounted(before: &[Placed], here: &Token) -> Option<&'static str> {
    let [.., function, _, _] = before else { return None };
    let Token::Name(name) = &function.token else { return None };
    match (sort(before, name)?, here) {
        (Word::Tests, Token::Comma) => Some("11: a test with an argument too many"),
        (Word::Tests, Token::Close) => Some("11: a test with an argument too few"),
        _ => None,
    }
}

/// What a refusal has to do with tests, if it has.
fn about_tests(text: &[u8], refusal: &Refusal) -> Option<&'static str> {
    let before = tokens(&text[..refusal.place]);
    let placed = token_at(text, refusal.place).ok()?;
    let applied = token_at(text, placed.end).is_ok_and(|next| next.token == Token::Open);
    match (refusal.number, &placed.token) {
        (9, here) => misfit(&before, here),
        (10, Token::Name(name)) => misdeclared(&before, name),
        (11, Token::Name(name)) => misused(&before, name, applied),
        (11, here) => miscounted(&before, here),
        (13, _) if list(&tokens(text)) == Some(Word::Tests) => Some("13: with tests"),
        (16, _) if before.iter().any(|placed| placed.token == Token::Word(Word::Funs)) => {
            Some("16: behind functions")
        }
        (16, _) => Some("16: behind registers"),
        _ => None,
    }
}

#[test]
fn damaged_macros() {
    let mut about: BTreeMap<&str, usize> = BTreeMap::new();
    for seed in 0..20_000 {
        let text = damaged_text(&mut Random::new(seed));
        let refusal = read_macro(&text).err();
        if let Some(kind) = refusal.and_then(|refusal| about_tests(&text, &refusal)) {
            *about.entry(kind).or_default() += 1;
        }
    }
    println!("refused because of tests: {about:?}");
    assert!(about.len() == 30 && about.values().all(|&count| count > 20), "{} {about:?}", about.len());
}

/// What there is in a text that the layout of tests has to deal with.
fn about_layout(text: &[u8], read: &Macro) -> Vec<&'static str> {
    let placed = tokens(text);
    let is_word = |token: &Token| matches!(token, Token::Word(_));
    let gap = |pair: &[Placed]| pair[0].end < pair[1].start;
    let behind_bang = |pair: &[Placed]| pair[0].token == Token::Not && gap(pair);
    let before_bang = |pair: &[Placed]| is_word(&pair[0].token) && pair[1].token == Token::Not;
    let touching = |pair: &[Placed]| {
        matches!(pair[0].token, Token::One | Token::Two)
            && matches!(pair[1].token, Token::Name(_))
            && !gap(pair)
    };
    let line = placed.iter().position(|placed| placed.token == Token::Word(Word::Tests));
    let entries = line.map_or(&placed[..0], |start| {
        let end = placed[start..].iter().position(|placed| placed.token == Token::Semicolon);
        &placed[start..start + end.unwrap_or(0)]
    });
    let found = [
        ("a line of tests", !read.tests.is_empty()),
        ("a blank behind `!`", placed.windows(2).any(behind_bang)),
        ("a blank before `!`", placed.windows(2).any(|pair| before_bang(pair) && gap(pair))),
        ("no blank before `!`", placed.windows(2).any(|pair| before_bang(pair) && !gap(pair))),
        ("an arity that touches a test", entries.windows(2).any(touching)),
    ];
    found.into_iter().filter_map(|(kind, there)| there.then_some(kind)).collect()
}

#[test]
fn layouts() {
    laid_out_texts_have(5, about_layout);
}
