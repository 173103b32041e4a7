//! `fadzgime_read`.

use fadzgime_tests::answers::{CAPITALS, named_tests};
use fadzgime_tests::generators::damaged_macros::damaged_text;
use fadzgime_tests::generators::macros::{macro_text, random_macro};
use fadzgime_tests::generators::random::{Random, cases};
use fadzgime_tests::oracle::reader::read_macro;
use fadzgime_tests::proved::library::{self, READ_ANSWER};

use crate::lent::Lent;

/// The oracle's answer in numbers.
fn expected(text: &[u8]) -> [u64; READ_ANSWER] {
    match read_macro(text) {
        Err(refusal) => [u64::from(refusal.number), refusal.place as u64, 0, 0, 0],
        Ok(read) => {
            let (registers, functions) = (read.all_registers().count(), read.all_functions().count());
            [0, 0, registers as u64, functions as u64, read.points() as u64]
        }
    }
}

fn check(bytes: &[u8]) {
    let mut text = Lent::holding(bytes);
    let mut answer = Lent::new(READ_ANSWER + 2);
    library::read(text.lend(), answer.lend());
    text.assert_as_lent();
    let expected = expected(bytes);
    assert_eq!(answer.look()[..READ_ANSWER], expected, "{}", String::from_utf8_lossy(bytes));
    answer.assert_begins(&expected);
}

#[test]
fn well_formed() {
    for seed in 0..cases(10_000) {
        let random = &mut Random::new(seed);
        let read = random_macro(random, 60);
        check(&macro_text(random, &read));
    }
}

#[test]
fn damaged() {
    for seed in 0..cases(100_000) {
        check(&damaged_text(&mut Random::new(seed)));
    }
}

/// Every beginning of a macro, and every byte of it replaced by every byte: without capitals, with them, with tests.
#[test]
fn beginnings_and_bytes() {
    let plain =
        b"vars a b;funs f/1 g/2;if a=b{a:=f(b);}else{b:=g(a,b);}while a!=b{assume a=b;}assert b=a;skip;#e";
    let capitals =
        b"VARS Aa b;Funs F/1 gG/2;IF aA=B{AA:=f(b);}Else{b:=GG(aa,B);}whilE AA!=b{ASSUME aA=b;}asserT b=AA;sKIP;#E";
    let named =
        b"vars a b;funs f/1;Tests t/1 U/2;if t(a){assume!u(a,B);}else{b:=f(a);}while !T(b){assert u(b,a);}assert!t(A);";
    for text in [plain.as_slice(), capitals, named] {
        assert!(read_macro(text).is_ok());
        for length in 0..=text.len() {
            check(&text[..length]);
        }
        for place in 0..text.len() {
            for byte in 0..=u8::MAX {
                let mut changed = text.to_vec();
                changed[place] = byte;
                check(&changed);
            }
        }
    }
}

/// Texts with capitals and with tests whose answers are settled.
#[test]
fn settled_texts() {
    let capitals = CAPITALS.iter().map(|(text, _)| text.to_string());
    let named = named_tests().into_iter().map(|(text, _)| text);
    capitals.chain(named).for_each(|text| check(text.as_bytes()));
}

/// Where the answer is too short, nothing is done: every lent byte stays.
#[test]
fn short_answers() {
    for length in 0..READ_ANSWER {
        for bytes in [b"vars x;".as_slice(), b""] {
            let (mut text, mut answer) = (Lent::holding(bytes), Lent::new(length));
            library::read(text.lend(), answer.lend());
            text.assert_as_lent();
            answer.assert_as_lent();
        }
    }
}
