//! The house layout (document 02): "Reading the print yields the macro that was printed, an absent else counting as an
//! empty one, and printing that yields the same bytes."

use fadzgime_tests::answers::layouts;
use fadzgime_tests::examples::example_macros;
use fadzgime_tests::generators::damaged_macros::damaged_text;
use fadzgime_tests::generators::layouts::{macro_of_print, text_to_lay_out};
use fadzgime_tests::generators::macros::dense_text;
use fadzgime_tests::generators::random::{Random, cases};
use fadzgime_tests::oracle::layout::{MAX_PRINT, layout, print_macro};
use fadzgime_tests::oracle::reader::read_macro;
use fadzgime_tests::oracle::refusal::Refusal;
use fadzgime_tests::oracle::report::{PROGRAM_TABLE, print_layout, print_verdict};
use fadzgime_tests::oracle::syntax::Macro;
use fadzgime_tests::oracle::token::{Token, is_same_name, token_at};
use fadzgime_tests::oracle::verdict::verdict;

const TOO_LONG: Result<String, Refusal> = Err(Refusal { number: 15, place: 0 });

#[test]
fn settled_answers() {
    for settled in layouts() {
        assert_eq!(layout(settled.text.as_bytes(), settled.lent), settled.layout, "{}", settled.text);
    }
}

/// Every statement and sign, with blanks of all kinds and comments between any two tokens.
#[test]
fn every_statement() {
    let tokens = "VARS Aa b ; FUNS F / 1 gG / 2 ; SKIP ; aA := B ; AA := f ( b ) ; b := GG ( aa , B ) ; ASSUME aA = b ; \
                  Assert B != aa ; IF aA = B { } ELSE { skip ; } While b != b { if b = b { } else { } }";
    let print = "vars Aa b;\nfuns F/1 gG/2;\nskip;\nAa:=b;\nAa:=F(b);\nb:=gG(Aa,b);\nassume Aa=b;\n\
                 assert b!=Aa;\nif Aa=b{\n}\nelse{\nskip;\n}\nwhile b!=b{\nif b=b{\n}\n}\n";
    for between in [" ", "\t", "\r\n", "\n\n", "  ", "#\n", "# ;}\n\t#{\n"] {
        let text = tokens.replace(' ', between);
        assert_eq!(layout(text.as_bytes(), MAX_PRINT), Ok(print.to_string()), "{text}");
    }
    assert_eq!(layout(format!("#\n {tokens} # else{{").as_bytes(), MAX_PRINT), Ok(print.to_string()));
}

/// Names that are nearly words keep their capitals, words lose theirs.
#[test]
fn names_like_words() {
    let text = b"Vars IFS Else_ vAR; Funs Skips/1wHILE1/2; ifs:=SKIPS(else_); VAR:=While1(var,IFs); sKip;";
    let print =
        "vars IFS Else_ vAR;\nfuns Skips/1 wHILE1/2;\nIFS:=Skips(Else_);\nvAR:=wHILE1(vAR,IFS);\nskip;\n";
    assert_eq!(layout(text, MAX_PRINT), Ok(print.to_string()));
}

/// 15 is given last: a text that is refused is refused as it is read, whatever is lent.
#[test]
fn refusals_come_before_the_length() {
    for (text, refusal) in [
        ("vars x; ^", Refusal::at(8, 8)),
        ("vars x", Refusal::at(9, 6)),
        ("vars x x;", Refusal::at(10, 7)),
        ("vars x; y:=x;", Refusal::at(11, 8)),
    ] {
        for lent in [0, 4_096, 5_000] {
            assert_eq!(layout(text.as_bytes(), lent), Err(refusal), "{text}");
        }
    }
    assert_eq!(layout(&[b' '; 4_097], 0), Err(Refusal::plain(7)));
    let deep = format!("vars x;{}", "if x=x{".repeat(17));
    assert_eq!(layout(deep.as_bytes(), 0), Err(Refusal::at(12, 7 + 16 * 7 + 6)));
    assert_eq!(layout(b"", 0), Err(Refusal::at(9, 0)));
}

/// The tokens of a text as they are printed: words in lower case, names as declared.
fn printed_tokens(text: &[u8], read: &Macro) -> Vec<String> {
    let declared: Vec<&String> = read.declared().collect();
    let mut tokens = Vec::new();
    let mut at = 0;
    loop {
        let placed = token_at(text, at).expect("the text reads");
        let spelt = String::from_utf8_lossy(&text[placed.start..placed.end]);
        let declared = || declared.iter().find(|known| is_same_name(known, &spelt)).expect("declared");
        match placed.token {
            Token::End => return tokens,
            Token::Name(_) => tokens.push(declared().to_string()),
            _ => tokens.push(spelt.to_ascii_lowercase()),
        }
        at = placed.end;
    }
}

/// The print by a second definition, from the tokens of a text: an else that is followed by two braces is left out,
/// one blank stands between two words that are neighbours, and an LF behind `;`, `{` and `}`.
fn spaced(tokens: &[String]) -> String {
    let is_word = |token: &str| token.starts_with(|first: char| first.is_ascii_alphanumeric());
    let mut print = String::new();
    let mut rest = tokens;
    let mut before = "";
    while let [token, behind @ ..] = rest {
        if let [first, second, third, behind @ ..] = rest
            && (first.as_str(), second.as_str(), third.as_str()) == ("else", "{", "}")
        {
            rest = behind;
            continue;
        }
        print += if is_word(before) && is_word(token) { " " } else { "" };
        print += token;
        print += if [";", "{", "}"].contains(&token.as_str()) { "\n" } else { "" };
        (before, rest) = (token, behind);
    }
    print
}

/// The bytes of a print: each line is one that ends in `;`, `{` or `}`, and blanks part words alone.
fn check_bytes(print: &str) {
    assert!(print.ends_with('\n') && !print.starts_with('\n'), "{print}");
    let in_word = |byte: u8| byte.is_ascii_alphanumeric() || byte == b'_';
    let bytes = print.as_bytes();
    for (place, &byte) in bytes.iter().enumerate() {
        let (before, behind) =
            (place.checked_sub(1).map(|place| bytes[place]), bytes.get(place + 1).copied());
        match byte {
            b' ' => assert!(before.is_some_and(in_word) && behind.is_some_and(in_word), "{print}"),
            b';' | b'{' | b'}' => assert_eq!(behind, Some(b'\n'), "{print}"),
            b'\n' => assert!(before.is_some_and(|byte| b";{}".contains(&byte)), "{print}"),
            _ => assert!(in_word(byte) || b":=!,()/".contains(&byte), "{print}"),
        }
    }
    assert!(!print.contains("else{\n}"), "an empty else: {print}");
}

/// Buffers about as long as a print of so many bytes, and others.
fn check_lent(text: &[u8], print: &str) {
    let length = print.len();
    for lent in [0, length - 1, length, length + 1, 4_095, 4_096, 5_000, usize::MAX] {
        let fits = length <= lent && length <= 4_096;
        let expected = if fits { Ok(print.to_string()) } else { TOO_LONG };
        assert_eq!(layout(text, lent), expected, "{lent} bytes for {length}");
    }
}

/// The verdict on the print is the one on the text, in its lines and its packed answer.
fn check_verdict(text: &[u8], print: &str) {
    assert_eq!(print_verdict(text), print_verdict(print.as_bytes()), "{print}");
    let packed =
        |text: &[u8]| verdict(text, PROGRAM_TABLE, usize::MAX).map(|answer| (answer.pack(), answer.verdict));
    assert_eq!(packed(text), packed(print.as_bytes()), "{print}");
}

/// All that holds of the print of a text that is read as this macro. Gives whether the print has at most 4,096 bytes.
fn check(text: &[u8], read: &Macro) -> bool {
    let shown = String::from_utf8_lossy(text);
    assert_eq!(read_macro(text).as_ref(), Ok(read), "{shown}");
    let print = print_macro(read);
    assert_eq!(print, spaced(&printed_tokens(text, read)), "{shown}");
    assert!(print.len() <= 2 * text.len(), "{shown}");
    check_bytes(&print);
    check_lent(text, &print);
    let fits = print.len() <= MAX_PRINT;
    if fits {
        assert_eq!(read_macro(print.as_bytes()).as_ref(), Ok(read), "{print}");
        check_lent(print.as_bytes(), &print);
    } else {
        assert_eq!(read_macro(print.as_bytes()), Err(Refusal::plain(7)));
    }
    fits
}

#[test]
fn prints_are_read_back_and_printed_alike() {
    let mut long = 0;
    for seed in 0..cases(20_000) {
        let (read, text) = text_to_lay_out(&mut Random::new(seed));
        long += usize::from(!check(&text, &read));
    }
    println!("{long} prints of more than 4,096 bytes");
    assert!(long > 500 || cases(10) < 10);
}

#[test]
fn verdicts_of_prints() {
    for seed in 0..cases(3_000) {
        let (_, text) = text_to_lay_out(&mut Random::new(seed));
        if let Ok(print) = layout(&text, MAX_PRINT) {
            check_verdict(&text, &print);
        }
    }
}

/// Texts that are damaged and yet read have prints as others have; the others are refused as they are read.
#[test]
fn damaged_texts() {
    let mut accepted = 0;
    for seed in 0..cases(20_000) {
        let text = damaged_text(&mut Random::new(seed));
        match read_macro(&text) {
            Ok(read) => {
                accepted += 1;
                check(&text, &read);
            }
            Err(refusal) => assert_eq!(layout(&text, seed as usize % 5_000), Err(refusal)),
        }
    }
    println!("{accepted} read");
    assert!(accepted > 2_000 || cases(10) < 10);
}

/// Prints of each length about 4,096 bytes.
#[test]
fn lengths() {
    for length in 4_080..4_112 {
        for seed in 0..cases(20) {
            let random = &mut Random::new(seed);
            let read = macro_of_print(random, length);
            let text = dense_text(random, &read);
            assert_eq!(print_macro(&read).len(), length);
            assert_eq!(check(&text, &read), length <= 4_096);
        }
    }
}

/// A print of more than 4,096 bytes, though the text has fewer; of a text as long as may be, and of most points.
#[test]
fn longest_texts() {
    let skips = format!("vars x;{}", "skip;".repeat(817));
    let points = format!("vars x;{}", "if x=x{}else{}".repeat(256));
    for (text, length) in [(skips, 8 + 6 * 817), (points, 8 + 10 * 256)] {
        let read = read_macro(text.as_bytes()).expect("reads");
        assert_eq!(print_macro(&read).len(), length);
        assert_eq!(check(text.as_bytes(), &read), length <= 4_096);
    }
}

/// The macros of `examples/`: what the program prints for them.
#[test]
fn examples() {
    for example in example_macros() {
        let text = example.text.as_bytes();
        let print = print_layout(text);
        check(text, &read_macro(text).expect("reads"));
        assert_eq!(print_layout(print.as_bytes()), print, "{}", example.name);
        assert_eq!(print_verdict(print.as_bytes()), example.printed, "{}", example.name);
    }
}
