//! Models: Corollary 2 against a search of all small models, and the shown model.

use fadzgime_tests::generators::random::{Random, cases};
use fadzgime_tests::generators::traces::{Profile, any_trace, random_trace};
use fadzgime_tests::oracle::closure::{Closure, Term};
use fadzgime_tests::oracle::letter::{Header, Letter};
use fadzgime_tests::oracle::model::Model;
use fadzgime_tests::oracle::monitor::first_infeasible;
use fadzgime_tests::oracle::state::State;
use fadzgime_tests::oracle::trace::Trace;

use crate::trace;

/// Entries of functions' tables that were chosen so far.
type Tables = Vec<((u8, usize, Option<usize>), usize)>;

/// Is there a model with so many values, these tables and these present values
/// that satisfies the letters? Entries are chosen when they are first needed.
fn some_model(letters: &[Letter], count: usize, values: &[usize], tables: &Tables) -> bool {
    let Some((letter, rest)) = letters.split_first() else { return true };
    let value = |register: u8| values[usize::from(register)];
    let with = |target: u8, result: usize| {
        let mut next = values.to_vec();
        next[usize::from(target)] = result;
        next
    };
    match *letter {
        Letter::Copy { target, source } => some_model(rest, count, &with(target, value(source)), tables),
        Letter::Equal { first, second } => {
            value(first) == value(second) && some_model(rest, count, values, tables)
        }
        Letter::Unequal { first, second } => {
            value(first) != value(second) && some_model(rest, count, values, tables)
        }
        Letter::Apply { target, function, first, second } => {
            let key = (function, value(first), second.map(value));
            if let Some((_, result)) = tables.iter().find(|(known, _)| *known == key) {
                return some_model(rest, count, &with(target, *result), tables);
            }
            (0..count).any(|result| {
                let mut more = tables.clone();
                more.push((key, result));
                some_model(rest, count, &with(target, result), &more)
            })
        }
    }
}

/// Is there a model of any initial values?
fn is_satisfiable(trace: &Trace, count: usize) -> bool {
    let registers = u32::from(trace.header.registers);
    (0..count.pow(registers)).any(|start| {
        let values: Vec<usize> = (0..registers).map(|register| start / count.pow(register) % count).collect();
        some_model(&trace.letters, count, &values, &Tables::new())
    })
}

/// "A trace is feasible if some model satisfies all its tests. By Corollary 2 this
/// is so exactly when no unequal test joins terms equal in the closure." As many
/// values as there are computed terms suffice.
#[test]
fn feasible_exactly_without_clash() {
    let headers = [Header::new(2, &[1]), Header::new(2, &[2]), Header::new(3, &[1]), Header::new(2, &[1, 1])];
    let profile = Profile { weights: [1, 3, 3, 2], incoherent: 1, infeasible: 1, repeats: 20 };
    let (mut feasible, mut infeasible) = (0, 0);
    for seed in 0..cases(3_000) {
        let random = &mut Random::new(seed);
        let header = *random.pick(&headers);
        let length = 1 + random.below(6);
        let trace = random_trace(random, header, profile, length);
        let state = State::after_all(header, &trace.letters);
        assert_eq!(is_satisfiable(&trace, state.terms.len()), state.is_feasible(), "{trace:?}");
        *(if state.is_feasible() { &mut feasible } else { &mut infeasible }) += 1;
    }
    assert!(feasible > 100 && infeasible > 100 || cases(1) == 0);
}

/// The shown model satisfies its trace, coherent or not; its numbers are right.
#[test]
fn shown_model_satisfies_trace() {
    for seed in 0..cases(5_000) {
        let trace = any_trace(&mut Random::new(seed), 32);
        let model = Model::of(&trace);
        assert!(model.is_well_formed(&trace.header), "{trace:?}");
        assert!(model.rows.iter().all(|row| row.result != 0 && row.first != 0 && row.second != Some(0)));
        if first_infeasible(&trace).is_none() {
            assert_eq!(model.first_false_test(&trace.letters), None, "{trace:?}");
        } else {
            assert!(model.first_false_test(&trace.letters).is_some(), "{trace:?}");
        }
        let bytes = 4 + 2 * usize::from(trace.header.registers) + 5 * model.rows.len();
        assert_eq!(model.pack().len(), bytes);
    }
}

/// A prefix of an infeasible trace is feasible exactly before the named letter.
#[test]
fn first_infeasible_is_first() {
    for seed in 0..cases(2_000) {
        let trace = any_trace(&mut Random::new(seed), 24);
        let first = first_infeasible(&trace).unwrap_or(usize::MAX);
        for length in 0..=trace.letters.len() {
            let state = State::after_all(trace.header, &trace.letters[..length]);
            assert_eq!(state.is_feasible(), length < first);
        }
    }
}

/// The closure is an equivalence that holds the equations and is a congruence, and
/// it is the least one: joining anything less misses a demand. The latter is seen
/// by a second way to compute it, by rounds over all pairs of terms.
#[test]
fn closure_by_rounds() {
    for seed in 0..cases(2_000) {
        let trace = any_trace(&mut Random::new(seed), 20);
        let state = State::after_all(trace.header, &trace.letters);
        let relation = least_relation(&state);
        let closure = Closure::of(&state.terms, &state.equalities);
        for (a, row) in relation.iter().enumerate() {
            for (b, &related) in row.iter().enumerate() {
                assert_eq!(related, closure.equal(a, b), "{trace:?}");
            }
        }
    }
}

/// The least relation under the rules of document 01, as a table of truths.
fn least_relation(state: &State) -> Vec<Vec<bool>> {
    let count = state.terms.len();
    let mut relation = vec![vec![false; count]; count];
    loop {
        let mut next = relation.clone();
        for a in 0..count {
            next[a][a] = true;
            for b in 0..count {
                next[a][b] |= relation[b][a];
                next[a][b] |= state.equalities.contains(&(a, b));
                next[a][b] |= (0..count).any(|c| relation[a][c] && relation[c][b]);
                next[a][b] |= congruent(&relation, state.terms[a], state.terms[b]);
            }
        }
        if next == relation {
            return relation;
        }
        relation = next;
    }
}

fn congruent(relation: &[Vec<bool>], left: Term, right: Term) -> bool {
    let Term::Application { function: f, first: a, second: b } = left else { return false };
    let Term::Application { function: g, first: c, second: d } = right else { return false };
    let seconds = match (b, d) {
        (Some(b), Some(d)) => relation[b][d],
        (None, None) => true,
        _ => false,
    };
    f == g && relation[a][c] && seconds
}

/// Rows are distinct by function and values, numbered by the closure of the whole
/// trace: the later test makes two rows one.
#[test]
fn rows_by_values() {
    let apart = Model::of(&trace("vars x y u v; funs f/1; u:=f(x); v:=f(y);"));
    assert_eq!((apart.values, apart.rows.len()), (7, 2));
    let joined = Model::of(&trace("vars x y u v; funs f/1; u:=f(x); v:=f(y); assume x=y;"));
    assert_eq!((joined.values, joined.rows.len()), (5, 1));
    assert_eq!(joined.starts, [1, 1, 2, 3]);
    assert_eq!(joined.rows[0].result, 4);
}

/// "Count of values": classes and value 0, without functions too.
#[test]
fn values_without_functions() {
    assert_eq!(Model::of(&trace("vars x y; assume x=y;")).values, 2);
}
