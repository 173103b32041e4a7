//! The window's parts, and that they carry everything the next letter needs.

use std::collections::HashMap;
use std::collections::hash_map::Entry;

use fadzgime_tests::generators::random::{Random, cases};
use fadzgime_tests::generators::traces::{random_header, random_letter};
use fadzgime_tests::generators::windows::all_letters;
use fadzgime_tests::oracle::letter::{Header, Letter};
use fadzgime_tests::oracle::monitor::is_coherent;
use fadzgime_tests::oracle::state::State;
use fadzgime_tests::oracle::window::Window;

use crate::trace;

fn window(text: &str) -> Window {
    let trace = trace(text);
    Window::of(&State::after_all(trace.header, &trace.letters))
}

#[test]
fn start() {
    let start = window("vars x y z; funs f/1;");
    assert_eq!(start.names, [0, 1, 2]);
    assert!(start.unequal.is_empty() && start.results.is_empty() && start.computed.is_empty());
    assert!(start.marks.is_empty() && !start.infeasible);
}

/// "Its prose says classes, and the prose decides": y is in the class of the
/// overwritten argument.
#[test]
fn result_under_classes() {
    let window = window("vars x y; funs f/1; y:=x; x:=f(x);");
    assert_eq!(window.names, [0, 1]);
    assert_eq!(window.results.into_iter().collect::<Vec<_>>(), [((0, 1, None), 0)]);
}

/// The result may be lost and the application is still computed; the argument is
/// marked.
#[test]
fn lost_result() {
    let window = window("vars x y; funs f/1; y:=f(x); y:=x;");
    assert!(window.results.is_empty());
    assert_eq!(window.computed.into_iter().collect::<Vec<_>>(), [(0, 0, None)]);
    assert_eq!(window.marks.into_iter().collect::<Vec<_>>(), [0]);
}

/// A lost argument marks the other one and what the result lies above.
#[test]
fn lost_argument() {
    let window = window("vars a b w z; funs f/2; z:=f(a,w); w:=b;");
    assert_eq!(window.marks.into_iter().collect::<Vec<_>>(), [0]);
    assert!(window.computed.is_empty());
}

#[test]
fn unequal_pairs() {
    let known = window("vars x y z; assume x!=y; z:=y;").unequal;
    assert_eq!(known.into_iter().collect::<Vec<_>>(), [(0, 1), (1, 0)]);
    assert!(window("vars x y z; assume x!=y; y:=z;").unequal.is_empty());
    assert!(window("vars x y z; assume x!=y; assume z!=z; assume x!=z;").unequal.is_empty());
    // Nothing is inferred from the results.
    let window = window("vars x y u v; funs f/1; u:=f(x); v:=f(y); assume u!=v;");
    assert!(!window.unequal.contains(&(0, 1)));
}

/// What a letter does, seen from outside: the window after it if it is coherent.
type Outcome = Option<Window>;

fn outcome(state: &State, letter: &Letter) -> Outcome {
    let after = state.after(letter);
    is_coherent(state, letter, &after).then(|| Window::of(&after))
}

/// "The window carries everything the next letter needs": coherent traces with one
/// window go on alike, whatever letter comes next.
#[test]
fn window_carries_everything() {
    let mut seen: HashMap<(u16, Window), Vec<Outcome>> = HashMap::new();
    let mut repeated = 0;
    for seed in 0..cases(300) {
        let random = &mut Random::new(seed);
        let header = *random.pick(&[Header::new(2, &[2]), Header::new(3, &[1]), Header::new(3, &[2])]);
        let mut state = State::start(header);
        for _ in 0..12 {
            let outcomes: Vec<_> =
                all_letters(&header).iter().map(|letter| outcome(&state, letter)).collect();
            match seen.entry((header.pack(), Window::of(&state))) {
                Entry::Occupied(known) => {
                    repeated += 1;
                    assert_eq!(*known.get(), outcomes);
                }
                Entry::Vacant(place) => drop(place.insert(outcomes)),
            }
            let letter = random_letter(random, &header, [3, 3, 2, 1]);
            if outcome(&state, &letter).is_some() {
                state = state.after(&letter);
            }
        }
    }
    assert!(repeated > 100 || cases(1) == 0);
}

/// An equal test is coherent exactly if its sides are of one class or neither is marked; of one class, it leaves the
/// window as it is.
#[test]
fn equal_tests_by_classes_and_marks() {
    let mut equal_and_marked = 0;
    for seed in 0..cases(1_000) {
        let random = &mut Random::new(seed);
        let header = random_header(random);
        let mut state = State::start(header);
        for _ in 0..20 {
            let letter = random_letter(random, &header, [2, 3, 3, 1]);
            let after = state.after(&letter);
            let coherent = is_coherent(&state, &letter, &after);
            if let Letter::Equal { first, second } = letter {
                let window = Window::of(&state);
                let name = |register: u8| window.names[usize::from(register)];
                let marked = |register: u8| window.marks.contains(&name(register));
                let equal = name(first) == name(second);
                assert_eq!(coherent, equal || !marked(first) && !marked(second));
                assert!(!equal || Window::of(&after) == window);
                equal_and_marked += usize::from(equal && marked(first));
            }
            if coherent {
                state = after;
            }
        }
    }
    assert!(equal_and_marked > 100 || cases(10) < 10, "{equal_and_marked}");
}
