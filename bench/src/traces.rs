//! Traces to measure on.

use fadzgime_tests::fast::monitor::FastMonitor;
use fadzgime_tests::generators::random::Random;
use fadzgime_tests::generators::traces::random_letter;
use fadzgime_tests::oracle::letter::{Header, Letter};
use fadzgime_tests::oracle::trace::Trace;

/// A coherent and feasible trace of random letters with these weights of copies,
/// applications, equal and unequal tests. Equal tests leave at least three classes,
/// so that the registers do not all become equal for good.
pub fn coherent(header: Header, weights: [usize; 4], length: usize) -> Trace {
    let random = &mut Random::new(1);
    let mut monitor = FastMonitor::start(header);
    let mut letters = Vec::with_capacity(length);
    while letters.len() < length {
        let letter = random_letter(random, &header, weights);
        if monitor.judge(&letter) && keeps_variety(&monitor, &letter) {
            monitor.perform(&letter);
            letters.push(letter);
        }
    }
    Trace { header, letters }
}

/// Does the letter keep the trace feasible, as far as is seen at once, and its
/// registers apart?
fn keeps_variety(monitor: &FastMonitor, letter: &Letter) -> bool {
    match *letter {
        Letter::Copy { .. } | Letter::Apply { .. } => true,
        Letter::Equal { first, second } => {
            let apart = monitor.classes() > 3 && !monitor.known_unequal(first, second);
            apart || monitor.known_equal(first, second)
        }
        Letter::Unequal { first, second } => !monitor.known_equal(first, second),
    }
}
