//! Packing and its refusals (1 to 6).

use fadzgime_tests::generators::random::{Random, cases};
use fadzgime_tests::generators::traces::any_trace;
use fadzgime_tests::oracle::letter::{Header, Letter};
use fadzgime_tests::oracle::model::{Shown, show_model};
use fadzgime_tests::oracle::monitor::monitor;
use fadzgime_tests::oracle::refusal::Refusal;
use fadzgime_tests::oracle::trace::{read_trace, write_trace};

use crate::trace;

/// Every word is a header exactly if packing the header gives the word back.
#[test]
fn all_header_words() {
    let mut count = 0;
    for word in 0..=u16::MAX {
        if let Some(header) = Header::unpack(word) {
            assert!(header.is_well_formed());
            assert_eq!(header.pack(), word);
            count += 1;
        }
    }
    // 8 counts of registers, and 1 + 2 + 4 + 8 + 16 lists of arities.
    assert_eq!(count, 8 * 31);
}

/// Every word under every header, by the letters that there are.
#[test]
fn all_letter_words() {
    for header in (0..=u16::MAX).filter_map(Header::unpack) {
        let mut count = 0;
        for word in 0..=u16::MAX {
            if let Some(letter) = Letter::unpack(word, &header) {
                assert!(letter.is_well_formed(&header));
                assert_eq!(letter.pack(), word);
                count += 1;
            }
        }
        let registers = usize::from(header.registers);
        let power = |f: u8| registers.pow(1 + header.arity(f) as u32);
        let applications: usize = (0..header.functions).map(power).sum();
        assert_eq!(count, 3 * registers * registers + applications);
    }
}

#[test]
fn lengths_first() {
    assert_eq!(monitor(&[]), Err(Refusal::plain(1)));
    assert_eq!(monitor(&[0xff]), Err(Refusal::plain(1)));
    assert_eq!(monitor(&[0xff; 3]), Err(Refusal::plain(2)));
    assert_eq!(monitor(&[0xff; 4]), Err(Refusal::plain(3)));
}

#[test]
fn headers_refused() {
    // No registers, 9, 15; 5 and 7 functions; arity bits beyond the count; spare bits.
    for word in [0x0000u16, 0x9000, 0xf000, 0x1a00, 0x1e00, 0x1100, 0x3280, 0x3201, 0x3210, 0x3620] {
        assert_eq!(read_trace(&word.to_be_bytes(), None), Err(Refusal::plain(3)), "{word:04x}");
    }
    for word in [0x1000u16, 0x8000, 0x3200, 0x3300, 0x19e0] {
        assert!(read_trace(&word.to_be_bytes(), None).is_ok(), "{word:04x}");
    }
}

/// "Spare and unused fields are 0."
#[test]
fn letters_refused() {
    let with = |words: &[u16]| words.iter().flat_map(|word| word.to_be_bytes()).collect::<Vec<u8>>();
    // Three registers, one one-argument function.
    for good in [0x0040u16, 0x0000, 0x4400, 0x4440, 0x8008, 0xc010] {
        assert!(monitor(&with(&[0x3200, good])).is_ok(), "{good:04x}");
    }
    let bad = [
        0x0001u16, // spare
        0x0008,    // a copy's second
        0x1000,    // a copy's function
        0x0c00,    // a target beyond the count
        0x00c0,    // a source beyond the count
        0x4408,    // the second argument of a one-argument function
        0x5400,    // a function beyond the count
        0x9008,    // a test's function
        0x8408,    // a test's target
        0x8018,    // a side beyond the count
        0xc200, 0xd000,
    ];
    for word in bad {
        assert_eq!(monitor(&with(&[0x3200, 0x8008, word, 0xffff])), Err(Refusal::at(4, 2)), "{word:04x}");
    }
}

/// 5 comes before the letters; 4 also behind an incoherent letter.
#[test]
fn order_of_refusals() {
    let long = [vec![0x10, 0x00], vec![0xff; 2 * 1025]].concat();
    assert_eq!(show_model(&long, 0), Err(Refusal::plain(5)));
    assert_eq!(monitor(&long), Err(Refusal::at(4, 1)));
    let mut stopped = trace("vars x y z; funs f/1; z:=f(x); z:=f(z); assume x=y;").pack();
    stopped.extend([0xff, 0xff]);
    assert_eq!(monitor(&stopped), Err(Refusal::at(4, 4)));
}

/// A model that fills the output fits; an infeasible trace is never refused by 6.
#[test]
fn output_of_the_engine() {
    let bytes = trace("vars x y; funs f/1; y:=f(x);").pack();
    assert_eq!(show_model(&bytes, 12), Err(Refusal::plain(6)));
    assert!(matches!(show_model(&bytes, 13), Ok(Shown::Feasible(model)) if model.pack().len() == 13));
    let infeasible = trace("vars x; assume x!=x;").pack();
    assert_eq!(show_model(&infeasible, 0), Ok(Shown::Infeasible(1)));
}

#[test]
fn writer() {
    let mut header = Header::new(2, &[1]);
    let good = Letter::Equal { first: 0, second: 1 };
    let bad = Letter::Apply { target: 0, function: 0, first: 0, second: Some(0) };
    assert_eq!(write_trace(&header, &[good, bad, bad], 0), Err(Refusal::at(4, 2)));
    assert_eq!(write_trace(&header, &[good], 3), Err(Refusal::plain(6)));
    assert_eq!(write_trace(&header, &[good], 4), Ok(vec![0x22, 0x00, 0x80, 0x08]));
    header.binary[1] = true;
    assert_eq!(write_trace(&header, &[bad], 0), Err(Refusal::plain(3)));
}

#[test]
fn reading_inverts_writing() {
    for seed in 0..cases(2_000) {
        let trace = any_trace(&mut Random::new(seed), 24);
        assert_eq!(read_trace(&trace.pack(), None), Ok(trace.clone()));
        assert_eq!(write_trace(&trace.header, &trace.letters, usize::MAX), Ok(trace.pack()));
    }
}
