//! `fadzgime_layout`.

use fadzgime_tests::answers::layouts;
use fadzgime_tests::examples::example_macros;
use fadzgime_tests::generators::damaged_macros::damaged_text;
use fadzgime_tests::generators::layouts::{macro_of_print, text_to_lay_out};
use fadzgime_tests::generators::macros::dense_text;
use fadzgime_tests::generators::random::{Random, cases};
use fadzgime_tests::generators::spread::Spread;
use fadzgime_tests::oracle::layout::{layout, print_macro};
use fadzgime_tests::oracle::reader::read_macro;
use fadzgime_tests::oracle::refusal::Refusal;
use fadzgime_tests::proved::library::{self, LAYOUT_ANSWER};

use crate::lent::Lent;

/// What is expected: the numbers, and the bytes written.
fn expected(layout: Result<String, Refusal>) -> ([u64; LAYOUT_ANSWER], Vec<u8>) {
    match layout {
        Err(refusal) => ([u64::from(refusal.number), refusal.place as u64, 0], vec![]),
        Ok(print) => ([0, 0, print.len() as u64], print.into_bytes()),
    }
}

/// Asks the library with an answer of so many numbers, and compares them and every lent byte.
fn check_against(bytes: &[u8], lent: usize, numbers: usize, layout: Result<String, Refusal>) {
    let mut text = Lent::holding(bytes);
    let (mut out, mut answer) = (Lent::new(lent), Lent::new(numbers));
    library::layout(text.lend(), out.lend(), answer.lend());
    text.assert_as_lent();
    if numbers < LAYOUT_ANSWER {
        out.assert_as_lent();
        answer.assert_as_lent();
        return;
    }
    let (expected, print) = expected(layout);
    let shown = String::from_utf8_lossy(bytes);
    assert_eq!(answer.look()[..LAYOUT_ANSWER], expected, "{lent} bytes lent: {shown}");
    answer.assert_begins(&expected);
    out.assert_begins(&print);
}

/// Compares with the oracle; gives the number of the refusal, 0 for none.
fn check(bytes: &[u8], lent: usize) -> u8 {
    let layout = layout(bytes, lent);
    let number = layout.as_ref().map_or_else(|refusal| refusal.number, |_| 0);
    check_against(bytes, lent, LAYOUT_ANSWER + 2, layout);
    number
}

/// Bytes that the print of a text has, 0 if it is refused.
fn print_length(text: &[u8]) -> usize {
    read_macro(text).map_or(0, |read| print_macro(&read).len())
}

/// Compares with buffers that just suffice, that just do not, that are empty, and of any other size.
fn check_sizes(random: &mut Random, text: &[u8]) -> Vec<u8> {
    let length = print_length(text);
    let any = random.below(length + 100);
    let sizes = [0, length.saturating_sub(1), length, length + 1, any, 4_095, 4_096, 4_097, 5_000];
    sizes.into_iter().map(|lent| check(text, lent)).collect()
}

/// Texts whose layouts are settled.
#[test]
fn settled_answers() {
    for settled in layouts() {
        let text = settled.text.as_bytes();
        check_against(text, settled.lent, LAYOUT_ANSWER, settled.layout);
        check_sizes(&mut Random::new(0), text);
    }
}

#[test]
fn random_macros() {
    let mut spread = Spread::default();
    for seed in 0..cases(10_000) {
        let random = &mut Random::new(seed);
        let (_, text) = text_to_lay_out(random);
        for number in check_sizes(random, &text) {
            spread.add(&number.to_string(), &text);
        }
    }
    println!("random macros: {spread:?}");
    assert!(["0", "15"].iter().all(|number| spread.is_often(number, 10_000)) || cases(10) < 10, "{spread:?}");
}

#[test]
fn damaged_macros() {
    let mut spread = Spread::default();
    for seed in 0..cases(100_000) {
        let random = &mut Random::new(seed);
        let text = damaged_text(random);
        let length = print_length(&text);
        let lent = *random.pick(&[0, length.saturating_sub(1), length, length + 50, 4_096]);
        spread.add(&check(&text, lent).to_string(), &text);
    }
    println!("damaged macros: {spread:?}");
    let often = |number: u8| spread.is_often(&number.to_string(), 1_000);
    assert!((7..=13).chain([0, 15, 16]).all(often) || cases(10) < 10, "{spread:?}");
}

/// Parts of macros, which are put together at random.
const PARTS: [&str; 26] = [
    "skip;",
    "SKIP ;",
    "x:=Y;",
    "X:=F(y);",
    "y:=g(x,X);",
    "if x=y{",
    "If X!=Y {",
    "while y=x{",
    "}",
    "}",
    "}}",
    "else{",
    "}else{",
    "}Else{}",
    "else{}",
    "assume x=Y;",
    "assert X!=x;",
    "if !h(x){",
    "While T(x,Y){",
    "assume!H(y);",
    "assert t(Y,y);",
    "!",
    "tests",
    "#else{}\n",
    "\t",
    "\r\n",
];

/// Any bytes, and parts of macros in any order.
#[test]
fn random_bytes() {
    let mut spread = Spread::default();
    for seed in 0..cases(40_000) {
        let random = &mut Random::new(seed);
        let count = random.below(12);
        let text = if random.once_in(4) {
            (0..5 * count).map(|_| random.bits() as u8).collect()
        } else {
            let parts = (0..count).map(|_| *random.pick(&PARTS));
            let parts: String = std::iter::once("vars x Y;Funs f/1g/2;Tests h/1t/2;").chain(parts).collect();
            parts.into_bytes()
        };
        let lent = *random.pick(&[40, 200, 4_096]);
        spread.add(&check(&text, lent).to_string(), &text);
    }
    println!("random bytes: {spread:?}");
    assert!(["0", "8", "9", "15"].iter().all(|number| spread.all.contains_key(*number)), "{spread:?}");
}

/// Every beginning of a macro, and every byte of it replaced by every byte.
#[test]
fn beginnings_and_bytes() {
    let plain = b"VARS Aa b;Funs F/1gG/2;IF aA=B{AA:=f(b);}Else{}if b=b{}else{b:=GG(aa,B);}\
                 whilE AA!=b{ASSUME aA=b;}asserT b=AA;sKIP;#E"
        .as_slice();
    let named = b"vars A b;Tests T/1u/2;if ! t(a){}else{}while U(a,B){assume!T(b);}assert t(A);";
    for text in [plain, named] {
        assert!(read_macro(text).is_ok());
        for length in 0..=text.len() {
            check(&text[..length], 200);
        }
        for place in 0..text.len() {
            for byte in 0..=u8::MAX {
                let mut changed = text.to_vec();
                changed[place] = byte;
                check(&changed, 200);
            }
        }
    }
}

/// Every buffer up to one byte more than is needed.
#[test]
fn every_size() {
    let texts = [
        "vars x;",
        "vars x Y;funs f/1g/2;x:=F(y);if x=y{}else{}while y=X{if x=x{}else{skip;}}",
        "vars x;tests t/1u/2;if !T(x){}else{}while u(X,x){assume ! t(x);}",
        "vars x",
    ];
    for text in texts {
        for lent in 0..=print_length(text.as_bytes()) + 1 {
            check(text.as_bytes(), lent);
        }
    }
}

/// Prints of each length about 4,096 bytes, and buffers of each length about that.
#[test]
fn longest_prints() {
    for length in 4_090..4_103 {
        for seed in 0..cases(10) {
            let random = &mut Random::new(seed);
            let read = macro_of_print(random, length);
            let text = dense_text(random, &read);
            assert_eq!(print_length(&text), length);
            for lent in (4_088..4_104).chain([5_000, 10_000]) {
                check(&text, lent);
            }
        }
    }
}

/// The macros of `examples/`.
#[test]
fn examples() {
    for example in example_macros() {
        check_sizes(&mut Random::new(0), example.text.as_bytes());
    }
}

/// Where the answer is too short, nothing is done: every lent byte stays. In a longer one the numbers behind stay.
#[test]
fn answers_of_every_length() {
    for numbers in 0..=LAYOUT_ANSWER + 1 {
        for (text, lent) in [("vars x;", 20), ("vars x;", 8), ("vars x;", 7), ("vars", 20), ("", 0)] {
            check_against(text.as_bytes(), lent, numbers, layout(text.as_bytes(), lent));
        }
    }
}
