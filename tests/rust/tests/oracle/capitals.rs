//! Capitals in names (document 02): "Names and words are equal whatever the case of their letters."

use fadzgime_tests::answers::CAPITALS;
use fadzgime_tests::generators::capitals::Habit;
use fadzgime_tests::generators::damaged_macros::damaged_text;
use fadzgime_tests::generators::macros::{macro_text, random_macro};
use fadzgime_tests::generators::random::{Random, cases};
use fadzgime_tests::generators::spread::Spread;
use fadzgime_tests::oracle::reader::read_macro;
use fadzgime_tests::oracle::refusal::Refusal;
use fadzgime_tests::oracle::report::{PROGRAM_TABLE, print_verdict};
use fadzgime_tests::oracle::syntax::Macro;
use fadzgime_tests::oracle::verdict::verdict;

use crate::reader::{accepted, refused};

#[test]
fn settled_answers() {
    for (text, printed) in CAPITALS {
        assert_eq!(print_verdict(text.as_bytes()), printed, "{text}");
    }
}

#[test]
fn words() {
    accepted(
        "VARS x; FUNS f/1; SKIP; ASSUME x = x; ASSERT x = x; IF x = x { } ELSE { } WHILE x = x { } x := F(X);",
    );
    accepted("vArS x; iF x = x { } eLsE { wHiLe x != x { sKiP; } }");
    for word in
        ["VARS", "Funs", "sKIP", "AssumE", "aSSert", "iF", "Else", "whilE", "Tests", "RESULT", "trutH"]
    {
        refused(9, &format!("vars ^{word};"));
        refused(9, &format!("vars x; x := ^{word};"));
        refused(9, &format!("vars x; funs f/1; x := f(^{word});"));
    }
    refused(9, "vars x; ^VARS y;");
    refused(9, "vars x; ^Else { }");
    accepted("vars IFS If1 Vars_ sKips;");
}

#[test]
fn names() {
    refused(10, "vars x y ^X;");
    refused(10, "vars aB ^Ab;");
    refused(10, "vars x; funs f/1 ^F/2;");
    refused(10, "vars a b c d e f g h ^I;");
    refused(10, "vars A_1 ^a_1;");
    accepted("vars ab abC A a1 A_;");
    refused(11, "vars x; funs F/1; x := ^f;");
    refused(11, "vars X; funs f/1; X := ^x(x);");
    refused(11, "vars X; x := ^Y;");
    refused(11, "vars x; funs F/2; x := f(X^);");
    refused(9, "vars x; x := x ^A");
}

#[test]
fn runs() {
    accepted("vars aBcDeFgH ABCDEFG_ A1234567;");
    refused(8, "vars ^aBcDeFgHi;");
    refused(8, "vars ^ABCDEFGHI;");
    refused(8, "vars ^A________;");
    refused(8, "vars x; ^ASSERTION x = x;");
    refused(8, "vars x; x := ^abcdefghI;");
    // The look ahead finds no token, so the name is a register.
    refused(11, "vars x; funs F/1; x := ^f abcdefghI");
}

/// Every byte in front of a name and behind it: what begins a name, and what it goes on with.
#[test]
fn every_byte() {
    let letters = b"ABCDEFGHIJKLMNOPQRSTUVWXYZabcdefghijklmnopqrstuvwxyz";
    for byte in 0..=u8::MAX {
        let registers = |text: &[u8]| read_macro(text).map(|read| read.registers);
        let alone = registers(&[b"vars ".as_slice(), &[byte], b";"].concat());
        let behind = registers(&[b"vars x".as_slice(), &[byte], b";"].concat());
        match byte {
            _ if letters.contains(&byte) => {
                assert_eq!(alone, Ok(vec![char::from(byte).to_string()]));
                assert_eq!(behind, Ok(vec![format!("x{}", char::from(byte))]));
            }
            b'0'..=b'9' | b'_' => {
                let number = if b"12".contains(&byte) { 9 } else { 8 };
                assert_eq!(alone, Err(Refusal::at(number, 5)));
                assert_eq!(behind, Ok(vec![format!("x{}", char::from(byte))]));
            }
            b' ' | b'\t' | b'\r' | b'\n' => assert_eq!(behind, Ok(vec!["x".to_string()])),
            b'#' => assert_eq!(behind, Err(Refusal::at(9, 8))),
            _ => {
                let number = if b"=!;,(){}/".contains(&byte) { 9 } else { 8 };
                assert_eq!(alone, Err(Refusal::at(number, 5)), "{byte}");
                assert_eq!(behind, Err(Refusal::at(number, if byte == b';' { 7 } else { 6 })), "{byte}");
            }
        }
    }
}

/// The bytes that differ from those of a token by the bit which parts capitals from small letters.
#[test]
fn neighbours_by_one_bit() {
    refused(8, "vars x; if x = x ^[ }");
    refused(8, "vars x; if x = x { ^]");
    refused(8, "vars x; funs f/^\x11;");
    refused(8, "vars x; funs f/^\x12;");
    refused(8, "vars x; assume x ^\x1d x;");
    refused(9, "vars x; assume x ^!\x1d x;");
    refused(8, "vars x; assume x ^\x01= x;");
    refused(8, "vars x; x ^:\x1d x;");
    refused(8, "vars x; x ^\x1a= x;");
    refused(8, "vars x^\x1b");
    refused(8, "vars x; funs f^\x0f1;");
    refused(8, "vars x; funs f/2; x := f(x^\x0cx);");
    refused(8, "vars ^@;");
    refused(8, "vars ^`;");
    refused(8, "vars x^@;");
    refused(8, "vars x^`;");
    refused(8, "vars x^\\;");
    refused(8, "vars x^|;");
    refused(8, "vars x^~;");
    refused(8, "vars x^\x7f;");
    refused(8, "vars ^\x03 x;");
    // A tab is a blank, and no `)`.
    refused(9, "vars x; funs f/1; x := f(x\t^;");
}

/// Each printed name is the declared one, whatever its uses: in every kind of statement they are spelt otherwise.
#[test]
fn printed_names() {
    let text = b"vars Kind Sharp Power Base Sum; funs Cap/1 Add/2; ASSUME kind != SHARP; base := POWER; \
                 If KIND = sharp { Skip; } Else { sUM := ADD(power,KIND); pOWER := CAP(sum); } \
                 While power = BASE { BASE := sharp; } ASSERT POWER != base; assert kind = SHARP;";
    let printed = "verdict fail\npairs 22\nletters 8\nassume Kind != Sharp\nBase := Power\nassume Kind != Sharp\n\
                   Sum := Add(Power,Kind)\nPower := Cap(Sum)\nassume Power != Base\nassume Power != Base\n\
                   assume Kind != Sharp\nvalues 8\nstart Kind 1\nstart Sharp 2\nstart Power 3\nstart Base 4\n\
                   start Sum 5\nrow Add 3 1 6\nrow Cap 6 0 7\n";
    assert_eq!(print_verdict(text), printed);
}

/// Names that read as words of the lines: those words stay in lower case, the names as declared.
#[test]
fn names_like_lines() {
    let printed =
        print_verdict(b"vars Row START; funs Verdict/1; row := VERDICT(start); assert ROW = Start;");
    let expected = "verdict fail\npairs 2\nletters 2\nRow := Verdict(START)\nassume Row != START\nvalues 4\n\
                    start Row 1\nstart START 2\nrow Verdict 2 0 3\n";
    assert_eq!(printed, expected);
}

/// The names in a line of an answer.
fn names_in(line: &str) -> Vec<&str> {
    let runs = line.split(|sign: char| !sign.is_ascii_alphanumeric() && sign != '_');
    let words = runs.filter(|run| run.starts_with(|first: char| first.is_ascii_alphabetic()));
    match line {
        _ if line.contains(":=") => words.collect(),
        _ if line.starts_with("verdict ") || line.starts_with("refused ") => vec![],
        // Behind `assume`, `start` and `row`, or none behind another word.
        _ => words.skip(1).collect(),
    }
}

/// Every name in the lines of a macro is spelt as one that is declared, or is that of a hidden register.
fn check_declared(read: &Macro, printed: &str) {
    let functions = read.all_functions().map(|(name, _)| name.as_str());
    let declared: Vec<&str> = read.all_registers().chain(functions).collect();
    let undeclared = |name: &&str| !declared.contains(name);
    let wrong: Vec<&str> = printed.lines().flat_map(names_in).filter(undeclared).collect();
    assert!(wrong.is_empty(), "{wrong:?} of {declared:?}: {printed}");
}

/// A text and its lower-case text are refused alike, or have the same verdict, pairs and packed answer; their lines
/// are the same but for the case of names. Gives the outcome, with a table of so many bytes, in a word.
fn check_lowered(text: &[u8], table: usize) -> String {
    let shown = String::from_utf8_lossy(text);
    let lowered = text.to_ascii_lowercase();
    assert_eq!(print_verdict(text).to_ascii_lowercase(), print_verdict(&lowered), "{shown}");
    let answer = |text: &[u8]| verdict(text, table, usize::MAX);
    match (answer(text), answer(&lowered)) {
        (Ok(answer), Ok(plain)) => {
            assert_eq!((&answer.verdict, answer.pack()), (&plain.verdict, plain.pack()), "{shown}");
            check_declared(&answer.read, &print_verdict(text));
            answer.verdict.word().to_string()
        }
        (Err(refusal), Err(plain)) => {
            assert_eq!(refusal, plain, "{shown}");
            refusal.number.to_string()
        }
        (answer, plain) => panic!("{answer:?} against {plain:?}: {shown}"),
    }
}

#[test]
fn lower_case_texts() {
    let mut spread = Spread::default();
    for seed in 0..cases(10_000) {
        let random = &mut Random::new(seed);
        let read = random_macro(random, 24);
        let text = if random.once_in(2) { macro_text(random, &read) } else { damaged_text(random) };
        let table = *random.pick(&[1_000, PROGRAM_TABLE]);
        spread.add(&check_lowered(&text, table), &text);
    }
    println!("{spread:?}");
    let wanted = ["pass", "fail", "incoherent", "7", "8", "9", "10", "11", "12", "13", "14", "16"];
    assert!(wanted.iter().all(|outcome| spread.is_often(outcome, 60)) || cases(10) < 10, "{spread:?}");
}

/// The names that are printed are those of the macro that was spelt, whatever habit its uses are typed by.
#[test]
fn names_as_declared() {
    for seed in 0..cases(3_000) {
        let random = &mut Random::new(seed);
        let read = random_macro(random, 24);
        let text = macro_text(random, &read);
        check_declared(&read, &print_verdict(&text));
    }
}

/// Typed by any habit a text is refused as before, or has the points that it had.
#[test]
fn retyped_texts() {
    for seed in 0..cases(10_000) {
        let random = &mut Random::new(seed);
        let text = damaged_text(random);
        let mut retyped = text.clone();
        Habit::any(random).type_text(random, &mut retyped);
        let statements = |text: &[u8]| read_macro(text).map(|read| read.statements);
        assert_eq!(statements(&retyped), statements(&text), "{}", String::from_utf8_lossy(&text));
    }
}
