//! The unequal pairs of a window as one word: by the definition, by the window's parts and by the
//! monitor made for speed.

use std::collections::{BTreeMap, BTreeSet};
use std::fs;
use std::path::Path;

use fadzgime_tests::answers::UNEQUAL_WORDS;
use fadzgime_tests::fast::monitor::FastMonitor;
use fadzgime_tests::generators::random::{Random, cases};
use fadzgime_tests::generators::traces::{any_trace, unequal_trace};
use fadzgime_tests::generators::windows::{all_letters, first_traces};
use fadzgime_tests::oracle::letter::{Header, Letter};
use fadzgime_tests::oracle::monitor::is_coherent;
use fadzgime_tests::oracle::state::State;
use fadzgime_tests::oracle::trace::Trace;
use fadzgime_tests::oracle::unequal_word::{unequal_word, unequal_words};
use fadzgime_tests::oracle::window::Window;

use crate::{specified_trace, trace};

/// Is the bit of these registers set?
fn has(word: u64, a: u8, b: u8) -> bool {
    word >> (8 * a + b) & 1 == 1
}

/// The pairs of a word, in both orders.
fn pairs(word: u64) -> BTreeSet<(u8, u8)> {
    let all = (0..8).flat_map(|a| (0..8).map(move |b| (a, b)));
    all.filter(|&(a, b)| has(word, a, b)).collect()
}

/// The word of a window: its pairs are those of part 2. It is symmetric, joins no register with
/// itself, has no bit of a register that names no class, and is 0 once infeasible.
fn check_word(word: u64, window: &Window) {
    let is_name = |register: u8| window.names.get(usize::from(register)) == Some(&register);
    for (a, b) in pairs(word) {
        assert!(a != b && has(word, b, a), "{word:x}");
        assert!(is_name(a) && is_name(b), "{word:x}, {window:?}");
    }
    assert!(word == 0 || !window.infeasible, "{word:x}");
    assert_eq!(pairs(word), window.unequal, "{window:?}");
}

/// Two monitors: the definitions, and the one made for speed.
#[derive(Clone)]
struct Monitors {
    state: State,
    fast: FastMonitor,
    running: bool,
}

impl Monitors {
    fn start(header: Header) -> Monitors {
        Monitors { state: State::start(header), fast: FastMonitor::start(header), running: true }
    }

    /// Takes a letter; one that is incoherent stops both.
    fn take(&mut self, letter: &Letter) {
        if !self.running {
            return;
        }
        let after = self.state.after(letter);
        self.running = is_coherent(&self.state, letter, &after);
        assert_eq!(self.fast.perform(letter), self.running, "{letter:?}");
        if self.running {
            self.state = after;
        }
    }

    /// The word, the same by all definitions.
    fn word(&self) -> u64 {
        let word = unequal_word(&self.state);
        check_word(word, &Window::of(&self.state));
        assert_eq!(self.fast.unequal_word(), word, "{:?}", self.state);
        word
    }
}

/// The monitors after each beginning of a trace.
fn beginnings(trace: &Trace) -> Vec<Monitors> {
    let mut monitors = vec![Monitors::start(trace.header)];
    for letter in &trace.letters {
        let mut next = monitors[monitors.len() - 1].clone();
        next.take(letter);
        monitors.push(next);
    }
    monitors
}

/// The words after each beginning of a trace.
fn words(trace: &Trace) -> Vec<u64> {
    let words: Vec<u64> = beginnings(trace).iter().map(Monitors::word).collect();
    assert_eq!(unequal_words(trace), words, "{trace:?}");
    words
}

/// The last of the words of a macro text of assignments and assumes.
fn last(text: &str) -> u64 {
    *words(&trace(text)).last().expect("that of the header alone")
}

/// Traces whose words were settled, in their packed form.
#[test]
fn settled_words() {
    for settled in &UNEQUAL_WORDS {
        let bytes: Vec<u8> = settled.words.iter().flat_map(|word| word.to_be_bytes()).collect();
        let trace = trace(settled.text);
        assert_eq!(trace.pack(), bytes, "{}", settled.text);
        assert_eq!(words(&trace), settled.unequal, "{}", settled.text);
    }
}

/// The traces and words that the table of `docs/SPEC.md` (5.7) shows.
#[test]
fn specified_words() {
    let path = Path::new(env!("CARGO_MANIFEST_DIR")).join("../../docs/SPEC.md");
    let page = fs::read_to_string(path).expect("the page");
    let rows: Vec<_> = page.lines().filter_map(specified).collect();
    assert_eq!(rows.len(), 4);
    for (trace, words) in rows {
        assert_eq!(unequal_words(&trace), words, "{trace:?}");
    }
}

/// A line of that table: its trace, and its words as sums of powers of two.
fn specified(line: &str) -> Option<(Trace, Vec<u64>)> {
    let (trace, words) = specified_trace(line)?;
    Some((trace, words.split(", ").map(sum_of_powers).collect::<Option<Vec<u64>>>()?))
}

/// `0`, or powers of two with `+` between them.
fn sum_of_powers(text: &str) -> Option<u64> {
    if text == "0" {
        return Some(0);
    }
    text.split(" + ").map(|power| Some(1 << power.strip_prefix("2^")?.parse::<u32>().ok()?)).sum()
}

/// Assignments and assumes, and the unequal pairs after them, the lower register first.
const EXAMPLES: [(&str, &[(u8, u8)]); 30] = [
    ("vars x; assume x=x;", &[]),
    ("vars x y; assume x!=y;", &[(0, 1)]),
    ("vars x y; assume y!=x; assume x!=y;", &[(0, 1)]),
    // Registers that name no class have no bits: a copy, and sides of an equal test.
    ("vars x y z; assume x!=z; y:=x;", &[(0, 2)]),
    ("vars x y z; y:=x; assume y!=z;", &[(0, 2)]),
    ("vars x y z w; y:=x; w:=z; assume w!=y;", &[(0, 2)]),
    ("vars x y z; assume x=y; assume z!=y;", &[(0, 2)]),
    // The name moves down with a copy, up where the lowest register is overwritten.
    ("vars x y z; assume y!=z; x:=y;", &[(0, 2)]),
    ("vars x y z; assume y!=z; x:=z;", &[(0, 1)]),
    ("vars x y z w; assume x!=w; y:=x; z:=x; x:=w;", &[(0, 1)]),
    ("vars x y z w; assume x!=w; y:=x; z:=x; x:=w; y:=w;", &[(0, 2)]),
    ("vars x y z w; funs f/1; assume x!=w; y:=x; x:=f(x);", &[(1, 3)]),
    // A pair is lost with the last register of a class, and does not come back.
    ("vars x y z; assume x!=y; x:=z;", &[]),
    ("vars x y z; assume x!=y; y:=x;", &[]),
    ("vars x y z; assume x!=y; assume x!=z; y:=x;", &[(0, 2)]),
    ("vars x y; funs f/1; assume x!=y; x:=f(x);", &[]),
    ("vars x y z; assume x!=y; z:=x; x:=y; z:=y;", &[]),
    // Equal tests carry the pairs of both classes to the lower name.
    ("vars x y z; assume y!=z; assume y=x;", &[(0, 2)]),
    ("vars x y z; assume y!=z; assume x=z;", &[(0, 1)]),
    ("vars x y z w; assume x!=z; assume y!=w; assume x=y;", &[(0, 2), (0, 3)]),
    ("vars x y z w; assume x!=z; assume y!=w; assume x=y; assume z=w;", &[(0, 2)]),
    // So do equal tests whose classes merge others by congruence.
    ("vars x y u v w; funs f/1; u:=f(x); v:=f(y); assume v!=w; assume x=y;", &[(2, 4)]),
    ("vars v y x u w; funs f/2; u:=f(x,w); v:=f(y,w); assume u!=w; assume x=y;", &[(0, 4)]),
    ("vars a b c d; funs f/1; b:=f(a); c:=f(b); assume d!=c; assume a=b;", &[(0, 3)]),
    // An application whose result is held takes the result's class.
    ("vars u x y v; funs f/1; v:=f(x); assume v!=y; u:=f(x);", &[(0, 2)]),
    // Nothing is inferred from results.
    ("vars x y u v; funs f/1; u:=f(x); v:=f(y); assume u!=v;", &[(2, 3)]),
    // None once infeasible: by a register, by an equal test, by congruence, and behind it.
    ("vars x y z; assume x!=y; assume z!=z;", &[]),
    ("vars x y z; assume x!=z; assume x!=y; assume x=y;", &[]),
    ("vars x y u v z; funs f/1; assume x!=z; u:=f(x); v:=f(y); assume u!=v; assume x=y;", &[]),
    ("vars x y z; assume x!=y; assume x=y; assume x!=z; y:=z; assume y!=x;", &[]),
];

#[test]
fn examples() {
    for (text, expected) in EXAMPLES {
        let both_orders = expected.iter().flat_map(|&(a, b)| [(a, b), (b, a)]).collect();
        assert_eq!(pairs(last(text)), both_orders, "{text}");
    }
}

/// An incoherent letter leaves the word, and so does every letter behind it.
#[test]
fn incoherent_letters() {
    let lost = "vars x y z; funs f/1; assume x!=y; z:=f(x); z:=f(z);";
    for behind in ["assume x=y;", "z:=f(x);", "z:=f(x); assume x!=z;", "z:=f(x); y:=x; assume x!=x;"] {
        let words = words(&trace(&format!("{lost} {behind}")));
        assert!(words[1..].iter().all(|&word| word == 0x102), "{behind}");
    }
}

/// All pairs of all registers; those of registers beyond the count of the header are none.
#[test]
fn all_pairs() {
    let names = ["a", "b", "c", "d", "e", "f", "g", "h"];
    for count in 1..=names.len() {
        let names = &names[..count];
        let tests = names.iter().flat_map(|a| names.iter().map(move |b| (a, b))).filter(|(a, b)| a < b);
        let tests: String = tests.map(|(a, b)| format!("assume {b}!={a};")).collect();
        let word = last(&format!("vars {};{tests}", names.join(" ")));
        assert_eq!(word.count_ones() as usize, count * (count - 1));
        assert!(pairs(word).iter().all(|&(a, b)| usize::from(a.max(b)) < count));
        assert!(count < 8 || word == 0x7fbf_dfef_f7fb_fdfe);
    }
}

/// Every letter after every window under a header.
#[test]
fn every_window() {
    for header in [Header::new(2, &[1]), Header::new(3, &[]), Header::new(3, &[1]), Header::new(4, &[])] {
        for letters in first_traces(header, 3_000) {
            let mut monitors = Monitors::start(header);
            letters.iter().for_each(|letter| monitors.take(letter));
            for letter in all_letters(&header) {
                let mut next = monitors.clone();
                next.take(&letter);
                next.word();
            }
        }
    }
}

/// What the words of random traces meet, and how often.
type Met = BTreeMap<&'static str, usize>;

/// Counts what is met at a letter.
fn meet(met: &mut Met, before: &Monitors, letter: &Letter, after: &Monitors) {
    let (old, new) = (before.fast.unequal_word(), after.fast.unequal_word());
    let infeasible = !after.state.is_feasible();
    let moves = old != new && !infeasible;
    let merges = before.fast.classes().saturating_sub(after.fast.classes());
    let is_equal = matches!(letter, Letter::Equal { .. });
    let kinds = [
        ("a word that is not 0", new != 0),
        ("six pairs or more", new.count_ones() >= 12),
        ("a copy that moves pairs", moves && matches!(letter, Letter::Copy { .. })),
        ("an application that moves pairs", moves && matches!(letter, Letter::Apply { .. })),
        ("an equal test that moves pairs", moves && is_equal),
        ("an equal test that moves pairs and merges by congruence", moves && is_equal && merges > 1),
        ("a word emptied by an infeasible letter", old != 0 && infeasible),
        ("a new unequal test once infeasible", infeasible && is_new_test(before, letter)),
        ("a word left by an incoherent letter", new != 0 && before.running && !after.running),
        ("a new unequal test once stopped", !after.running && !infeasible && is_new_test(before, letter)),
    ];
    kinds.into_iter().filter(|kind| kind.1).for_each(|kind| *met.entry(kind.0).or_default() += 1);
}

/// Is this an unequal test of two classes that are not known unequal?
fn is_new_test(before: &Monitors, letter: &Letter) -> bool {
    let Letter::Unequal { first, second } = *letter else { return false };
    !before.fast.known_equal(first, second) && !before.fast.known_unequal(first, second)
}

/// Has the word a pair of registers, none of these letters being their unequal test?
fn has_other_names(word: u64, letters: &[Letter]) -> bool {
    let tested = |(a, b): (u8, u8)| letters.contains(&Letter::Unequal { first: a, second: b });
    !pairs(word).into_iter().all(|(a, b)| tested((a, b)) || tested((b, a)))
}

/// Compares the words of a trace letter by letter.
fn check_trace(trace: &Trace, met: &mut Met) {
    let words = words(trace);
    for ((letter, two), number) in trace.letters.iter().zip(beginnings(trace).windows(2)).zip(1..) {
        meet(met, &two[0], letter, &two[1]);
        let other = has_other_names(words[number], &trace.letters[..number]);
        *met.entry("a name that is no side of the test").or_default() += usize::from(other);
    }
}

#[test]
fn random_traces() {
    let mut met = Met::new();
    for seed in 0..cases(20_000) {
        let random = &mut Random::new(seed);
        check_trace(&any_trace(random, 40), &mut met);
        check_trace(&unequal_trace(random, 60), &mut met);
    }
    println!("{met:#?}");
    assert!(met.len() == 11 && met.values().all(|&count| count > 200) || cases(10) < 10, "{met:?}");
}

/// Long traces, which lose and merge classes many times.
#[test]
fn long_traces() {
    for seed in 0..cases(60) {
        words(&unequal_trace(&mut Random::new(seed), 300));
    }
}
