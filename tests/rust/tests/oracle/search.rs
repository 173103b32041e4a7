//! Executions, and the verdict by pairs against plain enumeration.

use std::collections::BTreeSet;

use fadzgime_tests::generators::macros::random_macro;
use fadzgime_tests::generators::random::{Random, cases};
use fadzgime_tests::oracle::enumeration::{Enumerated, enumerate};
use fadzgime_tests::oracle::execution::{Onward, Points, Rest};
use fadzgime_tests::oracle::letter::Letter;
use fadzgime_tests::oracle::model::Model;
use fadzgime_tests::oracle::monitor::{first_infeasible, judge};
use fadzgime_tests::oracle::reader::read_macro;
use fadzgime_tests::oracle::refusal::Refusal;
use fadzgime_tests::oracle::syntax::{Condition, Macro, Statement};
use fadzgime_tests::oracle::trace::Trace;
use fadzgime_tests::oracle::verdict::{Event, search, verdict};

pub type Words = BTreeSet<Vec<u16>>;

/// The words of these letters followed by words of the others, up to a length.
fn concatenate(left: &Words, right: &Words, most: usize) -> Words {
    let joined = |a: &Vec<u16>| right.iter().map(|b| [a.as_slice(), b].concat()).collect::<Vec<_>>();
    left.iter().flat_map(joined).filter(|word| word.len() <= most).collect()
}

fn word(letter: Letter) -> Words {
    Words::from([vec![letter.pack()]])
}

/// A condition that is found to hold; a test with a name is applied first.
fn asked(condition: &Condition) -> Words {
    let letters = condition.applied.into_iter().chain([condition.letter()]);
    Words::from([letters.map(|letter| letter.pack()).collect()])
}

/// Exec of Definition 2 without asserts: the whole executions of up to so many letters.
pub fn executions(statements: &[Statement], most: usize) -> Words {
    let empty = Words::from([vec![]]);
    statements.iter().fold(empty.clone(), |before, statement| {
        let these = match statement {
            Statement::Skip => empty.clone(),
            Statement::Assign(letter) => word(*letter),
            Statement::Assume(condition) | Statement::Assert(condition) => asked(condition),
            Statement::If(condition, yes, no) => {
                let mut both = concatenate(&asked(condition), &executions(yes, most), most);
                both.extend(concatenate(&asked(&condition.opposite()), &executions(no, most), most));
                both
            }
            Statement::While(condition, body) => {
                let round = concatenate(&asked(condition), &executions(body, most), most);
                let mut rounds = empty.clone();
                loop {
                    let more: Words = rounds.union(&concatenate(&rounds, &round, most)).cloned().collect();
                    if more == rounds {
                        break;
                    }
                    rounds = more;
                }
                concatenate(&rounds, &asked(&condition.opposite()), most)
            }
        };
        concatenate(&before, &these, most)
    })
}

/// The whole executions of up to so many letters by walking, not ended at a failure.
pub fn walked(read: &Macro, most: usize) -> Words {
    let mut whole = Words::new();
    let mut level = vec![(vec![], Rest::all(&read.statements))];
    for _ in 0..=most {
        let mut next = Vec::new();
        for (letters, rest) in level {
            if rest.is_empty() {
                whole.insert(letters.clone());
            }
            for (letter, onward) in rest.branches() {
                if let Onward::To(rest) = onward {
                    let mut longer: Vec<u16> = letters.clone();
                    longer.push(letter.pack());
                    next.push((longer, rest));
                }
            }
        }
        level = next;
    }
    whole
}

/// Walking letter by letter gives the executions of Definition 2.
#[test]
fn walks_are_executions() {
    for seed in 0..cases(400) {
        let read = random_macro(&mut Random::new(seed), 6);
        assert_eq!(walked(&read, 8), executions(&read.statements, 8), "{read:?}");
    }
}

/// The table of points allows the same letters as what is left of the statements.
#[test]
fn points_walk_alike() {
    for seed in 0..cases(1_000) {
        let random = &mut Random::new(seed);
        let read = random_macro(random, 12);
        let points = Points::of(&read.statements);
        let (mut rest, mut point) = (Rest::all(&read.statements), points.first);
        for _ in 0..40 {
            assert_eq!(rest.is_empty(), point.is_none());
            let Some(at) = point else { break };
            let (by_rest, by_point) = (rest.branches(), points.branches(at));
            let letters: Vec<Letter> = by_rest.iter().map(|(letter, _)| *letter).collect();
            assert_eq!(letters, by_point.iter().map(|(letter, _)| *letter).collect::<Vec<_>>());
            let chosen = random.below(letters.len());
            match (by_rest[chosen].1.clone(), by_point[chosen].1.clone()) {
                (Onward::To(next), Onward::To(target)) => (rest, point) = (next, target),
                (Onward::Failure, Onward::Failure) => break,
                (left, right) => panic!("{left:?} against {right:?}"),
            }
        }
    }
}

/// The event is what document 01 says of it.
fn check_event(read: &Macro, event: &Event) {
    let trace = Trace { header: read.header(), letters: event.letters().to_vec() };
    let judgement = judge(&trace);
    match event {
        Event::Incoherent(letters) => assert_eq!(judgement.incoherent, Some(letters.len())),
        Event::Fail(letters) => {
            assert_eq!(judgement.incoherent, None);
            assert_eq!(first_infeasible(&trace), None);
            assert_eq!(Model::of(&trace).first_false_test(letters), None);
        }
    }
}

/// Merging pairs changes neither the first event nor the count of pairs.
#[test]
fn search_against_enumeration() {
    let (mut whole, mut bounded) = ([0; 3], 0);
    for seed in 0..cases(1_500) {
        let read = random_macro(&mut Random::new(seed), 14);
        let Ok(found) = search(&read, 400) else { continue };
        match enumerate(&read, 600) {
            Enumerated::Whole(verdict) => {
                assert_eq!(found, verdict, "{read:?}");
                verdict.event.iter().for_each(|event| check_event(&read, event));
                whole[match verdict.event {
                    None => 0,
                    Some(Event::Fail(_)) => 1,
                    Some(Event::Incoherent(_)) => 2,
                }] += 1;
            }
            Enumerated::Bounded { length, pairs } => {
                let longer = |event: Event| event.letters().len() > length;
                assert!(pairs <= found.pairs, "{read:?}");
                assert!(found.event.is_none_or(longer), "{read:?}");
                bounded += 1;
            }
        }
    }
    assert!(whole.iter().all(|&count| count > 50) && bounded > 50 || cases(1) == 0, "{whole:?} {bounded}");
}

/// A loop without event has no more pairs than longer and longer enumeration finds.
#[test]
fn all_pairs_are_reached() {
    let text = b"vars x y z; funs n/1; while x != y { x := n(x); if x = z { z := n(x); } } assert x = y;";
    let read = read_macro(text).expect("reads");
    let found = search(&read, 1024).expect("few pairs");
    match enumerate(&read, 20_000) {
        Enumerated::Whole(verdict) => assert_eq!(verdict, found),
        Enumerated::Bounded { pairs, .. } => assert_eq!(pairs, found.pairs),
    }
}

/// Full exactly when the count passes N; the refusals 14 and 6 and their order.
#[test]
fn table_and_output() {
    let list = b"vars x y; funs n/1; while x != y { x := n(x); } assert x = y;";
    assert_eq!(verdict(list, 3 * 192 - 1, 0), Err(Refusal::plain(14)));
    assert_eq!(verdict(list, 3 * 192, 0).expect("pass").verdict.pairs, 3);
    assert_eq!(verdict(list, 0, 0), Err(Refusal::plain(14)));
    let failing = b"vars x y; assert x = y;";
    assert_eq!(verdict(failing, 191, 0), Err(Refusal::plain(14)));
    // 2 + 2 L + 4 + 2 R + 5 rows = 2 + 2 + 4 + 4
    assert_eq!(verdict(failing, 192, 11), Err(Refusal::plain(6)));
    let answer = verdict(failing, 192, 12).expect("fits");
    assert_eq!(answer.pack(), [0x20, 0, 0xc0, 0x08, 0, 3, 0, 0, 0, 1, 0, 2]);
    let incoherent = b"vars x y z; funs f/1; z := f(x); z := f(z); assume x = y; assert x = y;";
    assert_eq!(verdict(incoherent, 3 * 192, 7), Err(Refusal::plain(6)));
    let answer = verdict(incoherent, 3 * 192, 8).expect("fits");
    assert_eq!((answer.verdict.pairs, answer.pack().len()), (3, 8));
}

/// For every N the search is full exactly if more pairs come before the event.
#[test]
fn full_exactly_above_the_count() {
    for seed in 0..cases(300) {
        let read = random_macro(&mut Random::new(seed), 10);
        let Ok(found) = search(&read, 300) else { continue };
        for most in [0, found.pairs.saturating_sub(1), found.pairs, found.pairs + 1] {
            let expected = if most < found.pairs { Err(Refusal::plain(14)) } else { Ok(found.clone()) };
            assert_eq!(search(&read, most), expected, "{read:?}");
        }
    }
}

/// A failing letter that is incoherent counts as incoherent; an infeasible one is
/// no event and leaves no pair.
#[test]
fn failing_letters() {
    let incoherent = b"vars x y z; funs f/1; z := f(x); z := f(z); assert x != y;";
    let answer = verdict(incoherent, 65_536, 100).expect("fits");
    assert!(matches!(answer.verdict.event, Some(Event::Incoherent(_))));
    let passes = b"vars x y; assume x = y; assert x = y;";
    let answer = verdict(passes, 65_536, 0).expect("passes");
    assert_eq!((answer.verdict.event, answer.verdict.pairs), (None, 2));
}

/// Pairs of the event's length and an earlier branch count.
#[test]
fn pairs_before_the_event() {
    let text = b"vars x y z; if x = y { z := x; } else { assert z = z; assert x = y; }";
    let answer = verdict(text, 65_536, 100).expect("fits");
    // The empty execution, both branches, behind z = z; z != z is infeasible.
    assert_eq!(answer.verdict.pairs, 4);
    assert_eq!(answer.verdict.event.expect("fails").letters().len(), 3);
}

/// Infeasible executions are followed.
#[test]
fn infeasible_executions_are_followed() {
    let text = b"vars x y z; funs f/1; assume x != x; z := f(x); z := f(z); assume x = y;";
    let answer = verdict(text, 65_536, 100).expect("fits");
    assert!(matches!(answer.verdict.event, Some(Event::Incoherent(letters)) if letters.len() == 4));
}
