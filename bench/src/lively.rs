//! Traces in which every letter changes the window.

use fadzgime_tests::fast::monitor::FastMonitor;
use fadzgime_tests::generators::random::Random;
use fadzgime_tests::generators::traces::random_letter;
use fadzgime_tests::oracle::letter::{Header, Letter};
use fadzgime_tests::oracle::trace::Trace;

/// Letters of a kind that are tried before another kind is.
const TRIES: usize = 64;

/// Classes that are left by each letter.
const CLASSES: usize = 4;

/// The weights of applications alone.
const APPLICATION: [usize; 4] = [0, 1, 0, 0];

/// A coherent and feasible trace, each of whose letters changes the window. The kind of
/// a letter is chosen first, by these weights of copies, applications, equal and unequal
/// tests; where no letter of that kind is found, an application adds a class.
pub fn lively(header: Header, weights: [usize; 4], length: usize) -> Trace {
    let random = &mut Random::new(1);
    let mut monitor = FastMonitor::start(header);
    let mut letters = Vec::with_capacity(length);
    while letters.len() < length {
        let mut kind = [0; 4];
        kind[random.weighted(&weights)] = 1;
        let chosen = choose(random, &monitor, header, kind, |_| true);
        let classes = monitor.classes();
        let adding = |after: &FastMonitor| after.classes() > classes;
        if let Some((letter, after)) =
            chosen.or_else(|| choose(random, &monitor, header, APPLICATION, adding))
        {
            monitor = after;
            letters.push(letter);
        }
    }
    Trace { header, letters }
}

/// The first of some letters that keeps the trace lively and is wanted for what it
/// leaves, and what that is.
fn choose(
    random: &mut Random,
    before: &FastMonitor,
    header: Header,
    kind: [usize; 4],
    wanted: impl Fn(&FastMonitor) -> bool,
) -> Option<(Letter, FastMonitor)> {
    for _ in 0..TRIES {
        let letter = random_letter(random, &header, kind);
        if before.judge(&letter) {
            let mut after = before.clone();
            after.perform(&letter);
            if stays_lively(before, &after) && wanted(&after) {
                return Some((letter, after));
            }
        }
    }
    None
}

/// Did the window change, and is enough left for further letters? Without a new
/// application the values would stay those that the registers hold.
fn stays_lively(before: &FastMonitor, after: &FastMonitor) -> bool {
    !after.is_infeasible()
        && after.classes() >= CLASSES
        && after.has_new_application()
        && after.key() != before.key()
}

/// What the letters of a trace do.
#[derive(Default)]
struct Liveliness {
    changes: usize,
    equal_tests: usize,
    merging_tests: usize,
    deriving_tests: usize,
    merges: usize,
    derived_merges: usize,
    unequal_tests: usize,
    unequal_pairs: usize,
}

impl Liveliness {
    /// What the letters of this coherent trace do.
    fn of(trace: &Trace) -> Liveliness {
        let mut found = Liveliness::default();
        let mut monitor = FastMonitor::start(trace.header);
        let mut key = monitor.key();
        for letter in &trace.letters {
            let classes = monitor.classes();
            monitor.perform(letter);
            let new_key = monitor.key();
            found.changes += usize::from(new_key != key);
            key = new_key;
            found.unequal_pairs += monitor.unequal_word().count_ones() as usize / 2;
            found.unequal_tests += usize::from(matches!(letter, Letter::Unequal { .. }));
            if let Letter::Equal { .. } = letter {
                found.count_equal_test(classes - monitor.classes());
            }
        }
        found
    }

    /// Counts an equal test that makes so many merges, the first by itself.
    fn count_equal_test(&mut self, merges: usize) {
        self.equal_tests += 1;
        self.merging_tests += usize::from(merges > 0);
        self.deriving_tests += usize::from(merges > 1);
        self.merges += merges;
        self.derived_merges += merges.saturating_sub(1);
    }
}

/// A note of what the letters of a trace do.
pub fn liveliness(trace: &Trace) -> String {
    let found = Liveliness::of(trace);
    let letters = trace.letters.len();
    format!(
        "{:.2} % of the letters change the window; {:.2} % are equal tests, of which {:.2} % merge \
         and {:.2} % derive further merges; {} of {} merges are derived by congruence; {:.2} % are \
         unequal tests, and a letter leaves {:.2} unequal pairs on average",
        percent(found.changes, letters),
        percent(found.equal_tests, letters),
        percent(found.merging_tests, found.equal_tests),
        percent(found.deriving_tests, found.equal_tests),
        found.derived_merges,
        found.merges,
        percent(found.unequal_tests, letters),
        found.unequal_pairs as f64 / letters as f64
    )
}

/// How many of a hundred; 0 of nothing.
fn percent(part: usize, whole: usize) -> f64 {
    100.0 * part as f64 / whole.max(1) as f64
}
