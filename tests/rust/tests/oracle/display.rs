//! What the display program prints, by the definitions.

use fadzgime_tests::answers::DISPLAYS;
use fadzgime_tests::fast::display::fast_display;
use fadzgime_tests::generators::merges::merging_trace;
use fadzgime_tests::generators::random::{Random, cases};
use fadzgime_tests::generators::traces::{any_trace, damage_trace, unequal_trace};
use fadzgime_tests::oracle::classes::class_numbers;
use fadzgime_tests::oracle::display::display;
use fadzgime_tests::oracle::monitor::monitor;
use fadzgime_tests::oracle::report::{PROGRAM_TRACE, display_lines, print_display};
use fadzgime_tests::oracle::trace::{Trace, read_trace};
use fadzgime_tests::oracle::unequal_word::unequal_words;

use crate::trace;

/// Displays that were settled, in their packed form.
#[test]
fn settled_displays() {
    for settled in &DISPLAYS {
        assert_eq!(trace(settled.text).pack(), settled.bytes(), "{}", settled.text);
        assert_eq!(print_display(&settled.bytes()), settled.lines, "{}", settled.text);
        assert_eq!(display_lines(fast_display(&settled.bytes())), settled.lines, "{}", settled.text);
    }
}

/// A header alone is one line.
#[test]
fn headers() {
    assert_eq!(print_display(&[0x10, 0x00]), "0 fresh 1 0000000000000000\n");
    assert_eq!(print_display(&[0x82, 0x00]), "0 fresh 8 0000000000000000\n");
}

/// A word of sixteen digits.
#[test]
fn all_digits() {
    let pairs = (0..8u16).flat_map(|first| (0..8).map(move |second| (first, second)));
    let tests = pairs.filter(|(a, b)| a < b).map(|(a, b)| 0xc000 | a << 6 | b << 3);
    let words: Vec<u16> = [0x8000].into_iter().chain(tests).collect();
    let bytes: Vec<u8> = words.into_iter().flat_map(u16::to_be_bytes).collect();
    let printed = print_display(&bytes);
    assert_eq!(printed.lines().last(), Some("28 coherent 8 7fbfdfeff7fbfdfe"));
}

/// A refusal is one line, whatever stands before the letter that is not well formed.
#[test]
fn refusals() {
    let cases: [(&[u8], &str); 6] = [
        (&[], "refused 1 at 0\n"),
        (&[0x32], "refused 1 at 0\n"),
        (&[0x32, 0x00, 0x44], "refused 2 at 0\n"),
        (&[0x32, 0x01, 0xff, 0xff], "refused 3 at 0\n"),
        (&[0x32, 0x00, 0x44, 0x00, 0xff, 0xff, 0x44, 0x00], "refused 4 at 2\n"),
        // Behind an incoherent letter too.
        (&[0x32, 0x00, 0x44, 0x00, 0x04, 0x00, 0x80, 0x08, 0xff, 0xff], "refused 4 at 4\n"),
    ];
    for (bytes, line) in cases {
        assert_eq!(print_display(bytes), line, "{bytes:02x?}");
    }
}

/// The longest trace is displayed, and of a longer one nothing is printed.
#[test]
fn longest_trace() {
    let letters = |count: usize| [&[0x10, 0x00], [0x00, 0x00].repeat(count).as_slice()].concat();
    let longest = letters(PROGRAM_TRACE / 2 - 1);
    let lines = display_lines(fast_display(&longest));
    assert_eq!(lines.lines().count(), PROGRAM_TRACE / 2);
    assert_eq!(lines.lines().last(), Some("32767 coherent 1 0000000000000000"));
    assert_eq!(print_display(&letters(PROGRAM_TRACE / 2)), "");
    assert_eq!(print_display(&[longest.as_slice(), &[0]].concat()), "");
    assert_eq!(print_display(&vec![0xff; PROGRAM_TRACE]), "refused 3 at 0\n");
    assert_eq!(print_display(&vec![0xff; PROGRAM_TRACE - 1]), "refused 2 at 0\n");
}

/// The lines of a display, word by word, against what the numbers, the words and the run say.
fn check_lines(trace: &Trace) {
    let bytes = trace.pack();
    let (numbers, words) = (class_numbers(trace), unequal_words(trace));
    let incoherent = monitor(&bytes).expect("well formed").incoherent.unwrap_or(usize::MAX);
    let printed = print_display(&bytes);
    assert!(printed.ends_with('\n'));
    assert_eq!(printed.lines().count(), trace.letters.len() + 1);
    for (number, line) in printed.lines().enumerate() {
        let said = if number >= incoherent { "incoherent" } else { "coherent" };
        let said = if number == 0 { "fresh" } else { said };
        let cells = [number.to_string(), said.to_string(), numbers[number].to_string()];
        let (front, digits) = line.rsplit_once(' ').expect("four words");
        assert_eq!(front, cells.join(" "), "{trace:?}");
        assert_eq!(digits.len(), 16);
        assert_eq!(u64::from_str_radix(digits, 16), Ok(words[number]), "{trace:?}");
        assert_eq!(digits, digits.to_lowercase());
    }
}

#[test]
fn random_traces() {
    for seed in 0..cases(4_000) {
        let random = &mut Random::new(seed);
        for trace in [any_trace(random, 40), unequal_trace(random, 40), merging_trace(random, 40)] {
            check_lines(&trace);
            assert_eq!(fast_display(&trace.pack()), display(&trace.pack()), "{trace:?}");
        }
    }
}

/// A damaged trace is refused as the run over it is, by one line, or displayed.
#[test]
fn damaged_traces() {
    for seed in 0..cases(20_000) {
        let random = &mut Random::new(seed);
        let trace = any_trace(random, 12);
        let bytes = damage_trace(random, &trace);
        assert_eq!(fast_display(&bytes), display(&bytes), "{bytes:02x?}");
        match read_trace(&bytes, None) {
            Ok(trace) => check_lines(&trace),
            Err(refusal) => assert_eq!(print_display(&bytes), format!("{refusal}\n")),
        }
    }
}
