//! The monitor and the closure made for speed against the definitions.

use std::collections::BTreeSet;

use fadzgime_tests::fast::closure::fast_show_model;
use fadzgime_tests::fast::monitor::{FastMonitor, fast_monitor};
use fadzgime_tests::fast::search::fast_search;
use fadzgime_tests::generators::macros::random_macro;
use fadzgime_tests::generators::random::{Random, cases};
use fadzgime_tests::generators::traces::{Profile, any_trace, damage_trace, random_header, random_trace};
use fadzgime_tests::oracle::letter::Header;
use fadzgime_tests::oracle::model::show_model;
use fadzgime_tests::oracle::monitor::monitor;
use fadzgime_tests::oracle::state::State;
use fadzgime_tests::oracle::verdict::search;
use fadzgime_tests::oracle::window::Window;

#[test]
fn monitors_agree() {
    for seed in 0..cases(30_000) {
        let random = &mut Random::new(seed);
        let trace = any_trace(random, 60);
        let bytes = trace.pack();
        assert_eq!(fast_monitor(&bytes), monitor(&bytes), "{trace:?}");
        let damaged = damage_trace(random, &trace);
        assert_eq!(fast_monitor(&damaged), monitor(&damaged), "{damaged:02x?}");
    }
}

/// Long coherent traces with few functions and much merging.
#[test]
fn monitors_agree_on_long_traces() {
    for seed in 0..cases(60) {
        let random = &mut Random::new(seed);
        let header = random_header(random);
        let profile = Profile { weights: [3, 4, 3, 1], incoherent: 100_000, infeasible: 1000, repeats: 10 };
        let trace = random_trace(random, header, profile, 300);
        let bytes = trace.pack();
        assert_eq!(fast_monitor(&bytes), monitor(&bytes), "{trace:?}");
    }
}

/// Whether an application is new, by the window and by a count of all applications.
#[test]
fn new_applications_agree() {
    for seed in 0..cases(1_000) {
        let random = &mut Random::new(seed);
        let header =
            Header::new(1 + random.byte_below(3), &[[1, 2], [2, 1]][random.below(2)][..random.below(3)]);
        let profile = Profile { weights: [1, 4, 2, 1], incoherent: 100_000, infeasible: 1, repeats: 10 };
        let letters = random_trace(random, header, profile, 30).letters;
        let mut fast = FastMonitor::start(header);
        assert!(letters.iter().all(|letter| fast.perform(letter)), "{letters:?}");
        let window = Window::of(&State::after_all(header, &letters));
        let names: BTreeSet<u8> = window.names.iter().copied().collect();
        let of_function = |function: u8| names.len().pow(header.arity(function) as u32);
        let all: usize = (0..header.functions).map(of_function).sum();
        assert_eq!(fast.has_new_application(), window.computed.len() < all, "{letters:?}");
    }
}

#[test]
fn closures_agree() {
    for seed in 0..cases(20_000) {
        let random = &mut Random::new(seed);
        let header = random_header(random);
        let profile = Profile { weights: [1, 4, 2, 1], incoherent: 1, infeasible: 30, repeats: 20 };
        let length = random.below(60);
        let bytes = random_trace(random, header, profile, length).pack();
        let room = 50 + random.below(200);
        assert_eq!(fast_show_model(&bytes, room), show_model(&bytes, room), "{bytes:02x?}");
    }
}

/// The windows that are carried along tell the same pairs apart as those computed
/// from whole traces.
#[test]
fn searches_agree() {
    for seed in 0..cases(3_000) {
        let random = &mut Random::new(seed);
        let read = random_macro(random, 40);
        let most = *random.pick(&[4, 30, 341]);
        assert_eq!(fast_search(&read, most), search(&read, most), "{read:?}");
    }
}
