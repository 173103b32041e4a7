//! Tests with names (document 02): "such a test applies a function into the hidden register `result` and compares that
//! with the hidden register `truth`".

use fadzgime_tests::answers::named_tests;
use fadzgime_tests::fast::search::fast_search;
use fadzgime_tests::oracle::letter::{Header, Letter};
use fadzgime_tests::oracle::listing::print_points;
use fadzgime_tests::oracle::reader::read_macro;
use fadzgime_tests::oracle::refusal::Refusal;
use fadzgime_tests::oracle::report::{hexadecimal, print_layout, print_read, print_verdict};
use fadzgime_tests::oracle::syntax::Macro;
use fadzgime_tests::oracle::verdict::{MAX_PAIRS, search, verdict};

use crate::reader::{accepted, refused};
use crate::trace;

#[test]
fn settled_answers() {
    for (text, lines) in named_tests() {
        assert_eq!(print_verdict(text.as_bytes()), lines, "{text}");
        if let Ok(read) = read_macro(text.as_bytes()) {
            assert_eq!(fast_search(&read, MAX_PAIRS), search(&read, MAX_PAIRS), "{text}");
        }
    }
}

/// "The three words leave the names", in every macro and in any case, wherever a name is due.
#[test]
fn words() {
    for word in ["tests", "Tests", "TESTS", "result", "resulT", "RESULT", "truth", "Truth", "TRUTH"] {
        refused(9, &format!("vars ^{word};"));
        refused(9, &format!("vars x; funs ^{word}/1;"));
        refused(9, &format!("vars x; tests ^{word}/1;"));
        refused(9, &format!("vars x; x := ^{word};"));
        refused(9, &format!("vars x; tests t/1; x := ^{word};"));
        refused(9, &format!("vars x; funs f/1; x := f(^{word});"));
        refused(9, &format!("vars x; assume x = ^{word};"));
        refused(9, &format!("vars x; assert ^{word} = x;"));
        refused(9, &format!("vars x; tests t/1; if t(^{word}) {{ }}"));
        refused(9, &format!("vars x; tests t/1; if !^{word}(x) {{ }}"));
        refused(9, &format!("vars x; skip; ^{word} := x;"));
    }
    for word in ["result", "Truth"] {
        refused(9, &format!("vars x; ^{word} := x;"));
        refused(9, &format!("vars x; tests t/1; ^{word} := x;"));
    }
    accepted("vars result1 test Truths tests_ t esult truth_;");
    accepted("vars x; funs test/1; tests Results/1 tru/2;");
    // A run that is longer is no token.
    refused(8, "vars ^testsuite;");
    accepted("vars testsuit resultat truthful;");
}

/// "A line `tests hot/1;` may follow the `vars` line, or the `funs` line where there is one."
#[test]
fn the_line() {
    accepted("vars x; tests hot/1;");
    accepted("vars x; funs f/1; tests hot/1 warm/2 cold/1;");
    accepted("VARS x;TESTS hot/1warm/2;");
    accepted("vars x; # so\n tests # so\n hot / # so\n 1 ;");
    refused(9, "^tests hot/1; vars x;");
    refused(9, "vars x; tests hot/1; ^funs f/1;");
    refused(9, "vars x; tests hot/1; ^tests warm/1;");
    refused(9, "vars x; funs f/1; tests hot/1; ^TESTS warm/1;");
    refused(9, "vars x; funs f/1; tests hot/1; ^funs g/1;");
    refused(9, "vars x; skip; ^tests hot/1;");
    refused(9, "vars x; if x = x { ^tests hot/1; }");
    refused(9, "vars x; tests ^;");
    refused(9, "vars x; tests hot^;");
    refused(9, "vars x; tests hot/1^,warm/1;");
    refused(9, "vars x; tests hot/1^2;");
    refused(8, "vars x; tests hot/^3;");
    refused(9, "vars x; tests hot/1^");
    refused(9, "vars x; tests ^!hot/1;");
}

/// "16, at the word `tests`, when more than six registers were declared, after 9 at that token."
#[test]
fn sixteen() {
    accepted("vars a b c d e f; tests t/1;");
    accepted("vars a b c d e f g h;");
    accepted("vars a b c d e f g h; funs t/1;");
    for registers in ["a b c d e f g", "a b c d e f g h"] {
        refused(16, &format!("vars {registers}; ^tests t/1;"));
        refused(16, &format!("vars {registers}; ^Tests"));
        refused(16, &format!("vars {registers}; funs k/1; ^tests ?"));
        // Before what is wrong behind the word.
        refused(16, &format!("vars {registers}; funs k/1 l/1 m/1 n/1; ^tests a/1;"));
        // Where the word does not fit, it is 9.
        refused(9, &format!("vars {registers}; skip; ^tests t/1;"));
        refused(9, &format!("vars {registers} ^tests t/1;"));
    }
    refused(10, "vars a b c d e f g h ^i; tests t/1;");
}

/// "Functions and tests together are at most four", and each name is declared once over all lists.
#[test]
fn declarations() {
    accepted("vars x; tests a/1 b/2 c/1 d/2;");
    accepted("vars x; funs a/1 b/2; tests c/1 d/2;");
    refused(10, "vars x; tests a/1 b/2 c/1 d/2 ^e/1;");
    refused(10, "vars x; funs a/1 b/2 c/1; tests d/1 ^e/1;");
    refused(10, "vars x; funs a/1 b/2 c/1 d/2; tests ^e/1;");
    refused(10, "vars x y; tests ^Y/1;");
    refused(10, "vars x; funs f/1; tests t/1 ^F/2;");
    refused(10, "vars x; tests t/1 ^T/1;");
    // At the name, before its arity.
    refused(10, "vars x; tests ^x");
    refused(10, "vars x; funs a/1 b/2 c/1 d/2; tests ^e?");
}

/// "In a condition the first name must be a test before `(` or after `!`", "11 refuses both at the name".
#[test]
fn conditions() {
    let front = "vars x y; funs f/1 g/2; tests hot/1 warm/2;";
    for (word, behind) in [("assume", ";"), ("assert", ";"), ("if", "{ }"), ("while", "{ }")] {
        let put = |condition: &str| format!("{front} {word} {condition} {behind}");
        for right in ["x = y", "x != y", "hot(x)", "warm(x,y)", "!hot(x)", "!warm(y,y)", "! HOT ( Y )"] {
            accepted(&put(right));
        }
        accepted(&put("!#\nhot#\n(#\nx)"));
        for wrong in ["^x(x)", "^x (x)", "^f(x)", "^z(x)", "^g(x,y)", "!^x(x)", "!^f(x)", "!^z(x)"] {
            refused(11, &put(wrong));
        }
        for wrong in ["^hot = x", "^warm", "x = ^hot", "hot(^hot)", "warm(x,^f)"] {
            refused(11, &put(wrong));
        }
        for wrong in ["hot(x^,y)", "warm(x^)", "!hot(x^,y)", "!warm(x^)"] {
            refused(11, &put(wrong));
        }
        for wrong in ["hot(x) ^= y", "!hot ^= x", "!hot ^!= x", "x ^! = y", "hot(^)", "warm(x,y^,x)"] {
            refused(9, &put(wrong));
        }
        for wrong in ["!^!hot(x)", "x = ^!hot(x)", "^(hot(x))", "hot(^!x)", "hot(x) ^hot(x)"] {
            refused(9, &put(wrong));
        }
    }
}

/// The look ahead is that behind `:=`: at the end, and before what is no token, the name is a register.
#[test]
fn look_ahead() {
    refused(11, "vars x; tests hot/1; if ^hot");
    refused(11, "vars x; tests hot/1; if ^hot ?");
    refused(11, "vars x; tests hot/1; if ^hot # (\n");
    refused(9, "vars x; tests hot/1; if x ^");
    refused(8, "vars x; tests hot/1; if x ^?");
    // Behind `!` there is none.
    refused(9, "vars x; tests hot/1; if !hot ^");
    refused(8, "vars x; tests hot/1; if !hot ^?");
    refused(11, "vars x; tests hot/1; if !^x");
    refused(9, "vars x; tests hot/1; if !^");
    refused(8, "vars x; tests hot/1; if !^?");
    // Without a line of tests, too.
    refused(11, "vars x; if ^x # so\n (x) { }");
    refused(11, "vars x; funs f/1; assume ^f(x);");
    refused(11, "vars x; while !^x(x) { }");
}

/// "After `:=` no test may stand", and nowhere else but in front of a condition.
#[test]
fn tests_elsewhere() {
    let front = "vars x; funs f/1 g/2; tests hot/1 warm/2;";
    for wrong in ["x := ^hot;", "x := ^hot(x);", "x := ^warm(x,x);", "^hot := x;", "^hot(x);"] {
        refused(11, &format!("{front} {wrong}"));
    }
    for wrong in ["x := f(^hot);", "x := g(x,^hot);", "x := f(^hot(x));", "assume x = ^hot(x);"] {
        refused(11, &format!("{front} {wrong}"));
    }
    refused(9, &format!("{front} x := ^!hot(x);"));
    refused(9, &format!("{front} ^!hot(x);"));
}

/// `!` is a token where no `=` touches it.
#[test]
fn bang() {
    accepted("vars x; assume x!=x;");
    refused(9, "vars x; assume x!=^=x;");
    refused(9, "vars x; assume x^! =x;");
    refused(9, "vars x; assume x ^!#\n= x;");
    refused(9, "vars x; assume ^!= x;");
    refused(9, "vars x; tests t/1; assume ^!=t(x);");
    refused(9, "vars x^!;");
    refused(9, "^!");
    accepted("vars x; tests t/1; assume!t(x);assert!t(x);if!t(x){}while!t(x){}");
}

fn read(text: &str) -> Macro {
    read_macro(text.as_bytes()).expect("it reads")
}

/// "With that line the hidden registers follow the declared ones, `result` first, and tests follow the functions": used
/// or not.
#[test]
fn headers() {
    assert_eq!(read("vars x y; tests hot/2;").header(), Header::new(4, &[2]));
    assert_eq!(read("vars x; funs f/1 g/2; tests a/2 b/1;").header(), Header::new(3, &[1, 2, 2, 1]));
    assert_eq!(read("vars x; funs f/1 g/2;").header(), Header::new(1, &[1, 2]));
    assert_eq!(
        print_read(b"vars a b c d e f; funs f_/1; tests hot/2;"),
        "registers 8 functions 2 points 0\n"
    );
    assert_eq!(hexadecimal(&trace("vars x; tests hot/1;").pack()), "3200");
}

/// The letters of each test, in this order of operands.
#[test]
fn letters() {
    let trace = trace("vars x y; funs f/1; tests hot/1 warm/2; assume hot(y); assume !warm(y,x); x := f(y);");
    let hot = Letter::Apply { target: 2, function: 1, first: 1, second: None };
    let warm = Letter::Apply { target: 2, function: 2, first: 1, second: Some(0) };
    let cap = Letter::Apply { target: 0, function: 0, first: 1, second: None };
    let (equal, unequal) = (Letter::Equal { first: 2, second: 3 }, Letter::Unequal { first: 2, second: 3 });
    assert_eq!(trace.letters, [hot, equal, warm, unequal, cap]);
}

/// "Each named test is two points, a while returning to the first."
#[test]
fn points() {
    let listed = |text: &str| print_points(text.as_bytes());
    assert_eq!(
        listed("vars x; tests hot/1; while hot(x) { }"),
        "read 3 1 0 2 | 0 apply 1 0 0 0 1 0 | 2 equal 1 2 0 2\n"
    );
    assert_eq!(
        listed("vars x; funs f/1; tests hot/2; while !hot(x,x) { x := f(x); } assert hot(x,x);"),
        "read 3 2 2 5 | 0 apply 1 1 0 0 1 0 | 2 unequal 1 2 2 3 | 0 apply 0 0 0 0 0 0 | 0 apply 1 1 0 0 4 0 | \
         1 equal 1 2 5 0\n"
    );
    assert_eq!(
        listed("vars x; tests hot/1; if hot(x) { assume !hot(x); } else { if !hot(x) { } }"),
        "read 3 1 0 6 | 0 apply 1 0 0 0 1 0 | 2 equal 1 2 2 4 | 0 apply 1 0 0 0 3 0 | 0 unequal 1 2 6 0 | \
         0 apply 1 0 0 0 5 0 | 2 unequal 1 2 6 6\n"
    );
    let many = |tests: usize, copies: usize| {
        let text = format!("vars x;tests h/1;{}{}", "if h(x){}".repeat(tests), "x:=x;".repeat(copies));
        read_macro(text.as_bytes()).map(|read| read.points())
    };
    assert_eq!([many(128, 0), many(127, 2), many(100, 56)], [256; 3].map(Ok));
    assert_eq!([many(128, 1), many(127, 3), many(129, 0)], [Refusal::plain(13); 3].map(Err));
}

/// The lines of a verdict, line by line.
fn lines(text: &str) -> Vec<String> {
    print_verdict(text.as_bytes()).lines().map(str::to_string).collect()
}

/// "The condition as written comes first; at an assert, the failing letter": with `!` the unequal letter is as written.
#[test]
fn branches() {
    // Of two failures the first is behind the condition as written.
    let front = "vars x y; tests hot/1;";
    let both = "{ assert x = y; } else { assert x != y; }";
    assert_eq!(lines(&format!("{front} if hot(x) {both}"))[4], "assume result = truth");
    assert_eq!(lines(&format!("{front} if !hot(x) {both}"))[4], "assume result != truth");
    assert_eq!(lines(&format!("{front} assert !hot(x); assert x = y;"))[4], "assume result = truth");
    assert_eq!(lines(&format!("{front} assert hot(x); assert x = y;"))[4], "assume result != truth");
}

/// "A verdict covers every meaning that a test could have": only what was asked of the same value is known.
#[test]
fn meanings() {
    let word = |text: &str| lines(text)[0].clone();
    let front = "vars x y; funs f/1; tests hot/1 near/2;";
    for (text, expected) in [
        ("if hot(x) { assert hot(x); }", "verdict pass"),
        ("if hot(x) { assert !hot(x); }", "verdict fail"),
        ("if hot(x) { y := x; assert hot(y); } else { assert !hot(x); }", "verdict pass"),
        ("if hot(x) { assert hot(y); }", "verdict fail"),
        ("assume hot(x); assume x = y; assert hot(y);", "verdict pass"),
        ("assume hot(x); x := f(x); assert hot(x);", "verdict fail"),
        ("while hot(x) { x := f(x); } assert !hot(x);", "verdict pass"),
        ("while !hot(x) { x := f(x); } assert !hot(x);", "verdict fail"),
        ("assume near(x,y); assert near(y,x);", "verdict fail"),
        ("assume near(x,y); y := x; assert near(x,y);", "verdict fail"),
        ("assume hot(x); assume near(x,x); assert hot(x);", "verdict pass"),
        // That x is not hot is lost when another test is asked.
        ("assume !hot(x); assume near(x,x); assert !hot(x);", "verdict incoherent"),
        // An unequal result says no more than that.
        ("assume !hot(x); assume !near(x,x); assert x = y;", "verdict fail"),
    ] {
        assert_eq!(word(&format!("{front} {text}")), expected, "{text}");
    }
}

/// The execution and its model under the header with the hidden registers.
#[test]
fn packed_answers() {
    let answer = verdict(b"vars x; tests hot/1; assert hot(x);", 2 * 192, 100).expect("fits");
    assert_eq!(hexadecimal(&answer.pack()), "32004200c050000500010001000200030008000080");
    let short = verdict(b"vars x; tests hot/1; assert hot(x);", 2 * 192, 20);
    assert_eq!((answer.pack().len(), short), (21, Err(Refusal::plain(6))));
    assert_eq!(verdict(b"vars x; tests hot/1; assert hot(x);", 2 * 192 - 1, 100), Err(Refusal::plain(14)));
}

/// The layout of each kind of line and condition, however the text is laid out and spelt.
#[test]
fn layouts() {
    let tokens = "VARS Aa b ; FUNS F / 1 ; TESTS Hot / 1 nEAR / 2 ; ASSUME HOT ( aa ) ; assume ! hot ( B ) ; \
                  Assert Near ( b , AA ) ; assert ! NEAR ( aa , aa ) ; IF hot ( b ) { } ELSE { } \
                  if ! Hot ( b ) { skip ; } else { b := f ( B ) ; } While hot ( aA ) { } while ! near ( B , b ) { }";
    let print = "vars Aa b;\nfuns F/1;\ntests Hot/1 nEAR/2;\nassume Hot(Aa);\nassume!Hot(b);\nassert nEAR(b,Aa);\n\
                 assert!nEAR(Aa,Aa);\nif Hot(b){\n}\nif!Hot(b){\nskip;\n}\nelse{\nb:=F(b);\n}\nwhile Hot(Aa){\n}\n\
                 while!nEAR(b,b){\n}\n";
    for between in [" ", "\t", "\r\n", "#\n", "# !=\n"] {
        let text = tokens.replace(' ', between);
        assert_eq!(print_layout(text.as_bytes()), print, "{text}");
    }
    assert_eq!(print_layout(print.as_bytes()), print);
    assert_eq!(print_layout(b"vars x;tests a/1b/2;"), "vars x;\ntests a/1 b/2;\n");
}
