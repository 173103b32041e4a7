//! Document 01's bench examples and worked examples, and the macros of `examples/`.

use fadzgime_tests::examples::example_macros;
use fadzgime_tests::oracle::model::{Shown, show_model};
use fadzgime_tests::oracle::monitor::{Judgement, first_infeasible, judge};
use fadzgime_tests::oracle::reader::read_macro;
use fadzgime_tests::oracle::refusal::Refusal;
use fadzgime_tests::oracle::report::{hexadecimal, print_model, print_monitor, print_read, print_verdict};
use fadzgime_tests::oracle::verdict::verdict;

use crate::trace;

fn found(text: &str) -> Judgement {
    judge(&trace(text))
}

fn incoherent(letter: usize) -> Judgement {
    Judgement { incoherent: Some(letter), infeasible: None }
}

fn infeasible(letter: usize) -> Judgement {
    Judgement { incoherent: None, infeasible: Some(letter) }
}

#[test]
fn starred_examples() {
    let good = Judgement::default();
    assert_eq!(found("vars x y z;"), good);
    assert_eq!(found("vars x y z; funs f/1; z:=f(x); z:=f(z); assume x=y;"), incoherent(3));
    assert_eq!(found("vars x y; funs n/1; y:=n(x); y:=n(y); x:=n(x);"), incoherent(3));
    assert_eq!(found("vars x y z; funs f/1; y:=x; x:=f(x); z:=f(y); assume x!=z;"), infeasible(4));
    assert_eq!(found("vars a b w z; funs f/2; z:=f(a,w); w:=a; z:=a; assume a=b;"), incoherent(4));
    assert_eq!(found("vars u v w x y; funs f/2; u:=f(x,w); v:=f(y,w); w:=x; assume x=y;"), incoherent(4));
    assert_eq!(found("vars u v w x y; funs f/2; u:=f(x,w); v:=f(y,w); assume x=y;"), good);
    assert_eq!(
        found("vars u v w x y; funs f/2; u:=f(x,w); v:=f(y,w); assume x=y; assume u!=v;"),
        infeasible(4)
    );
    assert_eq!(found("vars x y; funs f/1; y:=f(x); assume x=y; x:=f(x); assume x!=y;"), infeasible(4));
    assert_eq!(found("vars x y z; funs f/1; z:=f(x); z:=x; assume x=x;"), good);
    assert_eq!(found("vars x; assume x!=x;"), infeasible(1));
}

#[test]
fn chain_of_eight() {
    let mut text = "vars v0 v1 v2 v3 v4 v5 v6 v7; funs f/1;".to_string();
    for next in 1..8 {
        text += &format!("v{next}:=f(v{});", next - 1);
    }
    assert_eq!(found(&(text.clone() + "assume v0=v1; assume v0!=v7;")), infeasible(9));
    assert_eq!(found(&(text + "assume v0=v1;")), Judgement::default());
}

#[test]
fn packing_sample() {
    let sample = trace("vars r0 r1 r2; funs f/1; r2:=f(r0); assume r0=r1;");
    assert_eq!(hexadecimal(&sample.pack()), "320044008008");
    assert_eq!(print_monitor(&sample.pack()), "coherent\nfeasible\n");
}

#[test]
fn worked_example() {
    let text = "vars raster corner sum duty; funs cap/1 add/2; sum := add(raster,corner); \
                duty := cap(raster); duty := add(duty,corner); sum := cap(sum); assert duty = sum;";
    let printed = "verdict fail\npairs 5\nletters 5\nsum := add(raster,corner)\nduty := cap(raster)\n\
                   duty := add(duty,corner)\nsum := cap(sum)\nassume duty != sum\nvalues 9\n\
                   start raster 1\nstart corner 2\nstart sum 3\nstart duty 4\nrow add 1 2 5\n\
                   row cap 1 0 6\nrow add 6 2 7\nrow cap 5 0 8\n";
    assert_eq!(print_verdict(text.as_bytes()), printed);
    assert_eq!(print_read(text.as_bytes()), "registers 4 functions 2 points 5\n");
}

#[test]
fn worked_macros() {
    let list = b"vars x y; funs n/1; while x != y { x := n(x); } assert x = y;";
    assert_eq!(print_verdict(list), "verdict pass\npairs 3\n");
    assert_eq!(print_verdict(b"vars x; skip;"), "verdict pass\npairs 0\n");
    assert_eq!(verdict(b"vars x; skip;", 0, 0).expect("no pair").verdict.pairs, 0);
}

/// The lines stored beside the macros of `examples/`.
#[test]
fn stored_lines() {
    let examples = example_macros();
    assert!(examples.len() > 10);
    for example in examples {
        assert_eq!(print_verdict(example.text.as_bytes()), example.printed, "{}", example.name);
    }
}

#[test]
fn limits() {
    let registers = |count: usize| (0..count).map(|n| format!(" v{n}")).collect::<String>();
    assert!(read_macro(format!("vars{};", registers(8)).as_bytes()).is_ok());
    assert_eq!(read_macro(format!("vars{};", registers(9)).as_bytes()), Err(Refusal::at(10, 4 + 8 * 3 + 1)));

    let letters = |count: usize| [vec![0x10, 0x00], [0x00, 0x00].repeat(count)].concat();
    assert!(show_model(&letters(1024), 6).is_ok());
    assert_eq!(show_model(&letters(1025), 6), Err(Refusal::plain(5)));

    let points = |count: usize| format!("vars x;{}", "x:=x;".repeat(count));
    assert_eq!(read_macro(points(256).as_bytes()).expect("reads").points(), 256);
    assert_eq!(read_macro(points(257).as_bytes()), Err(Refusal::plain(13)));

    let nested = |depth: usize| format!("vars x;{}{}", "if x=x{".repeat(depth), "}".repeat(depth));
    assert!(read_macro(nested(16).as_bytes()).is_ok());
    assert_eq!(read_macro(nested(17).as_bytes()), Err(Refusal::at(12, 7 + 16 * 7 + 6)));
}

/// The engine knows no coherence; the run names no infeasible letter at or behind
/// the incoherent one.
#[test]
fn incoherent_and_infeasible_at_one_letter() {
    let both = trace("vars u v x y; funs f/1; u:=f(x); v:=f(y); assume u!=v; u:=x; assume x=y;");
    assert_eq!(judge(&both), incoherent(5));
    assert_eq!(first_infeasible(&both), Some(5));
    assert_eq!(show_model(&both.pack(), 0), Ok(Shown::Infeasible(5)));
    assert_eq!(print_model(&both.pack()), "infeasible 5\n");
}

/// "Coherence is judged on infeasible traces too."
#[test]
fn coherence_after_infeasibility() {
    let text = "vars x y z; funs f/1; assume x!=x; z:=f(x); z:=f(z); assume x=y;";
    assert_eq!(found(text), Judgement { incoherent: Some(4), infeasible: Some(1) });
}

#[test]
fn target_counts_as_holder() {
    assert_eq!(found("vars x y; funs f/1; x:=f(y); x:=f(y);"), Judgement::default());
}

/// The early rule asks by the closure before the test: f(x) is lost, f(y) is held.
#[test]
fn early_before_the_test() {
    let text = "vars x y u v; funs f/1; u:=f(x); v:=f(y); u:=v; assume x=y;";
    assert_eq!(found(text), incoherent(4));
}

/// An equal test of sides that are equal before it is coherent whatever lies above them, and changes nothing.
#[test]
fn tests_of_what_is_equal() {
    let good = Judgement::default();
    assert_eq!(found("vars x z; funs f/1; z:=f(x); z:=x; assume x=z;"), good);
    assert_eq!(found("vars x y z; funs f/1; z:=f(x); z:=x; assume x=x; assume x=y;"), incoherent(4));
    assert_eq!(found("vars x y z; funs f/1; z:=f(x); z:=x; assume y=x;"), incoherent(3));
    assert_eq!(found("vars x z; funs f/1; z:=f(x); z:=x; assume x=x; z:=f(x);"), incoherent(4));
    let lost_argument = "vars a b w z; funs f/2; z:=f(a,w); assume a=b; w:=a; z:=a;";
    assert_eq!(found(&format!("{lost_argument} assume a=b;")), good);
    assert_eq!(found(&format!("{lost_argument} assume b=w; assume a!=z;")), infeasible(6));
    // The two f are equal by congruence, and g of one of them has lost an argument.
    let congruent = "vars x y u v w t; funs f/1 g/2; u:=f(x); v:=f(y); assume x=y; t:=g(u,w); w:=x;";
    assert_eq!(found(&format!("{congruent} assume u=v;")), good);
    assert_eq!(found(&format!("{congruent} assume u=v; assume v=t;")), incoherent(7));
}

#[test]
fn models_shown() {
    let header_alone = trace("vars x y;");
    assert_eq!(print_model(&header_alone.pack()), "model 0003000000010002\n");
    // One class of x, f(x) and f(f(x)): f(1) = 1 in one row.
    let fixed = trace("vars x y; funs f/1; y:=f(x); assume x=y; y:=f(y);");
    assert_eq!(print_model(&fixed.pack()), "model 00030001000100020008000020\n");
}
