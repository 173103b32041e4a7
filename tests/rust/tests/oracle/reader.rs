//! The macro reader's refusals 7 to 13 and their places, by the settled readings.

use fadzgime_tests::generators::macros::{macro_text, random_macro};
use fadzgime_tests::generators::random::{Random, cases};
use fadzgime_tests::oracle::reader::read_macro;
use fadzgime_tests::oracle::refusal::Refusal;

/// Checks that a text is refused with a number at the place of a `^`, which stands
/// in the text before the refused token and is taken out.
pub fn refused(number: u8, marked: &str) {
    let place = marked.find('^').expect("a mark");
    let text = marked.replacen('^', "", 1);
    assert_eq!(read_macro(text.as_bytes()), Err(Refusal::at(number, place)), "{text}");
}

/// Checks that a text is read.
pub fn accepted(text: &str) {
    assert!(read_macro(text.as_bytes()).is_ok(), "{text}: {:?}", read_macro(text.as_bytes()));
}

#[test]
fn tokens() {
    refused(9, "vars x; funs cap/1^2;");
    refused(8, "vars x; funs cap/1^0;");
    refused(8, "vars x; funs cap/^3;");
    accepted("vars x; funs cap/1add/2;");
    refused(8, "vars ^abcdefghi;");
    accepted("vars abcdefgh;");
    refused(8, "vars x; ^assertion x = x;");
    accepted("vars ifs if1 vars_ skips;");
    refused(8, "vars x; x ^: = x;");
    refused(9, "vars x; assume x ^! = x;");
    refused(9, "vars x; assume x =^= x;");
    refused(8, "vars ^_x;");
    refused(8, "vars ^0;");
    refused(9, "vars ^1;");
    refused(8, "vars ab^?;");
    refused(10, "vars ab ^ab?;");
    refused(8, "vars x^\x00;");
    refused(8, "vars x^\x0c;");
    refused(8, "vars x^\x0b;");
    refused(8, "vars x^\x7f;");
    refused(8, "vars x^\u{e9};");
}

#[test]
fn comments() {
    accepted("#\x00\u{e9}A\r vars\nvars#\nx#;\n;#");
    accepted("vars a#b\nc;c:=a;");
    refused(9, "vars x# ;^");
    refused(9, "vars x; # comment\n ^;");
    assert!(read_macro(b"vars x;#\xff\x80\x00").is_ok());
    refused(9, "#\r vars x;^");
}

#[test]
fn bytes_behind_a_refusal() {
    refused(9, "vars x; ^; ?");
    refused(11, "vars x; ^y := ?");
}

#[test]
fn ends() {
    refused(9, "^");
    refused(9, "  ^");
    refused(9, "vars^");
    refused(9, "vars x #^");
    refused(9, "vars x; skip  ^");
    refused(9, "vars x; while x = x {  \n^");
    accepted("vars x;");
    accepted("vars x; # nothing");
}

#[test]
fn grammar() {
    refused(9, "vars ^if;");
    refused(9, "vars a^, b;");
    refused(9, "vars ^;");
    refused(9, "vars a; funs ^;");
    refused(9, "^funs f/1; vars x;");
    refused(9, "vars x; skip; ^funs f/1;");
    refused(9, "vars x; funs f/1; ^funs g/1;");
    accepted("vars x; funs f # ..\n / \t 1;");
    refused(9, "vars x; funs f^ 1;".replace("^ ", " ^").as_str());
    refused(9, "vars x; if x=x {} else {} ^else {}");
    refused(9, "vars x; while x=x {} ^else {}");
    refused(9, "vars x; ^else {}");
    refused(9, "vars x; if x=x {} skip; ^else {}");
    refused(9, "vars x; if x=x {} else ^if x=x {}");
    accepted("vars x; if x=x {} # so\n else {}");
    refused(9, "vars x; ^;");
    refused(9, "vars x; if x=x {}^;");
    refused(9, "vars x; skip ^skip;");
    refused(9, "vars x; ^{ }");
    refused(9, "vars x; funs f/2; x := f(x,x^,x);");
    refused(9, "vars x; funs f/2; x := f(^);");
    refused(9, "vars x; x ^= x;");
    refused(9, "vars x; ^}");
    refused(9, "vars x; if x=x { } ^}");
    refused(9, "vars x; x := ^vars;");
    refused(9, "vars x; assume x ^:= x;");
    refused(9, "vars x; assume x = x ^{");
    refused(9, "vars x; if x = x ^;");
    refused(9, "vars x; ^vars y;");
}

#[test]
fn declarations() {
    refused(10, "vars a b c d e f g h ^i;");
    refused(10, "vars x ^x;");
    refused(10, "vars x; funs ^x/1;");
    refused(10, "vars x; funs f/1 ^f/2;");
    refused(10, "vars x; funs a/1 b/1 c/1 d/2 ^e/3;");
    refused(10, "vars a b c d e f g h ^h");
    refused(10, "vars x y ^x ?");
}

#[test]
fn uses() {
    refused(11, "vars x; ^y := x;");
    refused(11, "vars x; x := ^y;");
    refused(11, "vars x; funs f/1; x := ^f;");
    refused(11, "vars x; funs f/1; x := ^x(x);");
    refused(11, "vars x; funs f/1; ^f(x);");
    refused(9, "vars x; x^(x);");
    refused(11, "vars x; funs f/1; ^f := x;");
    refused(11, "vars x; funs f/1; x := f(^f);");
    refused(11, "vars x; funs f/2; x := f(x,^f);");
    refused(11, "vars x; assume ^y = x;");
    refused(11, "vars x; if x = ^y {}");
    refused(11, "vars x; funs f/1; while ^f = x {}");
    // The look ahead skips blanks and comments.
    accepted("vars x; funs f/1; x := f # so\n (x);");
    refused(11, "vars x; x := ^x # so\n (x);");
    // At the end and before something that is no token the name is a register.
    refused(11, "vars x; funs f/1; x := ^f");
    refused(11, "vars x; funs f/1; x := ^f ?");
    refused(8, "vars x; x := x ^?");
    refused(9, "vars x; x := x ^");
    refused(11, "vars x; x := ^y abcdefghi");
}

#[test]
fn argument_counts() {
    refused(11, "vars x; funs f/1; x := f(x^,x);");
    refused(11, "vars x; funs f/2; x := f(x^);");
    refused(9, "vars x; funs f/2; x := f(x^;");
    refused(9, "vars x; funs f/1; x := f(x^(");
    refused(9, "vars x; funs f/1; x := f(x^;");
}

#[test]
fn depth() {
    let deep = "if x=x {".repeat(15);
    let ends = "}".repeat(15);
    accepted(&format!("vars x; {deep} if x=x {{ }} else {{ }} {ends}"));
    refused(12, &format!("vars x; {deep} if x=x {{ while x=x ^{{ }} }} {ends}"));
    refused(9, &format!("vars x; {deep} if x=x {{ while x=x ^; }} {ends}"));
    refused(11, &format!("vars x; {deep} if x=x {{ while x=^y {{ }} }} {ends}"));
}

#[test]
fn points() {
    let many = "x:=x;".repeat(256);
    accepted(&format!("vars x; skip; {many} skip;"));
    assert_eq!(read_macro(format!("vars x; {many} if x=x {{}}").as_bytes()), Err(Refusal::plain(13)));
    // Any refusal in the text comes first.
    refused(9, &format!("vars x; {many} x:=x; ^}}"));
    assert_eq!(read_macro(format!("vars x;{}", " ".repeat(4090)).as_bytes()), Err(Refusal::plain(7)));
    accepted(&format!("vars x;{}", " ".repeat(4089)));
    assert_eq!(read_macro(&[b'?'; 4097]), Err(Refusal::plain(7)));
}

/// A macro's text, however it is laid out, reads as the macro.
#[test]
fn layout_means_nothing() {
    for seed in 0..cases(3_000) {
        let random = &mut Random::new(seed);
        let read = random_macro(random, 24);
        let text = macro_text(random, &read);
        assert_eq!(read_macro(&text), Ok(read), "{}", String::from_utf8_lossy(&text));
    }
}
