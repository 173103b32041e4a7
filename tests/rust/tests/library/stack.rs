//! The stack that the library's functions need, at the longest and deepest inputs. Each function is called on a
//! thread with a small stack, in a process of its own, because one that needs more ends its process.

use std::process::Command;

use fadzgime_tests::fast::display::fast_display;
use fadzgime_tests::generators::random::Random;
use fadzgime_tests::generators::traces::random_letter;
use fadzgime_tests::oracle::letter::{Header, Letter};
use fadzgime_tests::oracle::reader::read_macro;
use fadzgime_tests::oracle::trace::Trace;
use fadzgime_tests::oracle::verdict::{MAX_PAIRS, PAIR_BYTES};
use fadzgime_tests::proved::library::{
    self, CLASSES_ANSWER, LAYOUT_ANSWER, LAYOUT_OUTPUT, MODEL_ANSWER, MODEL_OUTPUT, MONITOR_ANSWER,
    MONITOR_STATE, PUSH_ANSWER, READ_ANSWER, READ_TRACE_ANSWER, STEP_ANSWER, STREAM_STATE, UNEQUAL_ANSWER,
    UNPACKED_BYTES, VERDICT_ANSWER, VERDICT_OUTPUT, WRITE_ANSWER,
};

/// The stack of the thread, of which the thread itself takes some.
const STACK: usize = 128 * 1024;

/// The longest text.
const TEXT: usize = 4_096;

/// Runs one of the calls below in a process of its own.
fn in_a_process(call: &str) {
    let tests = std::env::current_exe().expect("this program");
    let output = Command::new(tests).args([&format!("stack::{call}"), "--exact", "--ignored"]).output();
    let output = output.expect("it runs");
    let printed = String::from_utf8_lossy(&output.stdout);
    assert!(output.status.success() && printed.contains("1 passed"), "{}\n{printed}", output.status);
}

/// Runs on a small stack. What is lent lies elsewhere.
fn on_a_small_stack<T: Send + 'static>(work: impl FnOnce() -> T + Send + 'static) -> T {
    let thread = std::thread::Builder::new().stack_size(STACK).spawn(work).expect("a thread");
    thread.join().expect("it ends")
}

/// The names of eight registers and four functions.
const NAMES: &str = "vars a b c d e f g h;funs i/1 j/2 k/1 l/2;";

/// A text of 4,096 bytes with 256 points, the last of them given.
fn long_macro(blocks: &str, last: &str) -> Vec<u8> {
    let front = format!("{NAMES}{blocks}");
    let steps = ["a:=i(a);", "b:=j(b,c);", "c:=k(c);", "d:=l(d,e);"];
    let points = 255 - read_macro(front.as_bytes()).expect("it reads").points();
    padded(front + &steps.iter().copied().cycle().take(points).collect::<String>() + last)
}

/// A text of 4,096 bytes with 256 points and the deepest blocks, on tests with names.
fn named_macro() -> Vec<u8> {
    let blocks = "if k(a){while!l(b,c){".repeat(8) + &"}}".repeat(8);
    let front = format!("vars a b c d e f;funs i/1 j/2;tests k/1 l/2;{blocks}");
    let points = 254 - read_macro(front.as_bytes()).expect("it reads").points();
    padded(front + &"a:=i(a);".repeat(points) + "assert!k(a);")
}

/// A text of 256 points with blanks up to 4,096 bytes.
fn padded(text: String) -> Vec<u8> {
    let padding = " ".repeat(TEXT - text.len());
    let text = (text + &padding).into_bytes();
    assert_eq!(read_macro(&text).expect("it reads").points(), 256);
    text
}

/// Texts with the deepest blocks, with the longest execution to an event, and refused ones: not ended, too deep, too long.
fn texts() -> Vec<Vec<u8>> {
    let blocks = "if a=b{while c!=d{".repeat(8) + "a:=i(a);" + &"}}".repeat(8);
    let open = |depth: usize| ("vars a b;".to_string() + &"if a=b{".repeat(depth)).into_bytes();
    let deep = long_macro(&blocks, "assert a=b;");
    let too_long = [deep.as_slice(), b" "].concat();
    let (longest, passing) = (long_macro("", "assert a=b;"), long_macro(&blocks, "a:=a;"));
    vec![longest, deep, passing, named_macro(), open(16), open(17), too_long]
}

/// A trace of 1,024 letters under the largest header.
fn long_trace() -> Vec<u8> {
    let header = Header::new(8, &[1, 2, 1, 2]);
    let random = &mut Random::new(1);
    let letters = (0..1_024).map(|_| random_letter(random, &header, [1, 6, 1, 0])).collect();
    Trace { header, letters }.pack()
}

#[test]
#[ignore = "called in a process of its own"]
fn call_read() {
    for text in texts() {
        on_a_small_stack(move || library::read(&text, &mut [0; READ_ANSWER]));
    }
}

#[test]
#[ignore = "called in a process of its own"]
fn call_verdict() {
    let answers = texts().into_iter().map(|text| {
        let (mut table, mut out) = (vec![0; MAX_PAIRS * PAIR_BYTES], vec![0; VERDICT_OUTPUT]);
        on_a_small_stack(move || {
            let mut answer = [0; VERDICT_ANSWER];
            library::verdict(&text, &mut table, &mut out, &mut answer);
            answer
        })
    });
    let answers: Vec<[u64; VERDICT_ANSWER]> = answers.collect();
    println!("{answers:?}");
    // A fail after 256 letters, with its model.
    assert_eq!(answers[0], [0, 0, 1, 256, 256]);
}

#[test]
#[ignore = "called in a process of its own"]
fn call_layout() {
    for text in texts() {
        let mut out = vec![0; LAYOUT_OUTPUT];
        on_a_small_stack(move || library::layout(&text, &mut out, &mut [0; LAYOUT_ANSWER]));
    }
}

#[test]
#[ignore = "called in a process of its own"]
fn call_model() {
    let trace = long_trace();
    let (mut out, mut answer) = (vec![0; MODEL_OUTPUT], vec![0; MODEL_ANSWER]);
    on_a_small_stack(move || library::model(&trace, &mut out, &mut answer));
}

#[test]
#[ignore = "called in a process of its own"]
fn call_monitor() {
    let trace = long_trace();
    let mut answer = vec![0; MONITOR_ANSWER];
    on_a_small_stack(move || library::monitor(&trace, &mut answer));
}

/// The letters of the long trace, read and written again.
#[test]
#[ignore = "called in a process of its own"]
fn call_traces() {
    let trace = long_trace();
    let bytes = trace.clone();
    let (mut out, mut answer) = (vec![0; 1_024 * UNPACKED_BYTES], vec![0; READ_TRACE_ANSWER]);
    let (letters, read) = on_a_small_stack(move || {
        library::read_trace(&bytes, &mut out, &mut answer);
        (out, answer)
    });
    assert_eq!(read, [0, 0, 8, 4, 0b1010, 1_024]);
    let (mut out, mut answer) = (vec![0; trace.len()], vec![0; WRITE_ANSWER]);
    let written = on_a_small_stack(move || {
        library::write([8, 4, 0b1010], &letters, &mut out, &mut answer);
        out
    });
    assert_eq!(written, trace);
}

#[test]
#[ignore = "called in a process of its own"]
fn call_steps() {
    let words: Vec<u16> = long_trace().chunks(2).map(|pair| u16::from_be_bytes([pair[0], pair[1]])).collect();
    let (mut state, mut answer) = (vec![0; MONITOR_STATE], vec![0; STEP_ANSWER]);
    let refused = on_a_small_stack(move || {
        library::monitor_start(words[0], &mut state, &mut answer);
        let mut refused = answer[0] != 0;
        for &word in &words[1..] {
            library::monitor_step(word, &mut state, &mut answer);
            refused |= answer[0] != 0;
        }
        refused
    });
    assert!(!refused);
}

/// The unequal pairs after each letter of the long trace, and those of eight registers that are all unequal.
#[test]
#[ignore = "called in a process of its own"]
fn call_unequal() {
    let parted = (0..8).flat_map(|second| (0..second).map(move |first| Letter::Unequal { first, second }));
    let parted = Trace { header: Header::new(8, &[]), letters: parted.collect() }.pack();
    let last = [long_trace(), parted].map(|trace| {
        let words: Vec<u16> = trace.chunks(2).map(|pair| u16::from_be_bytes([pair[0], pair[1]])).collect();
        let (mut state, mut answer) = (vec![0; MONITOR_STATE], vec![0; STEP_ANSWER]);
        on_a_small_stack(move || {
            let mut pairs = [u64::MAX; UNEQUAL_ANSWER];
            library::monitor_start(words[0], &mut state, &mut answer);
            for &word in &words[1..] {
                library::monitor_step(word, &mut state, &mut answer);
                library::monitor_unequal(&state, &mut pairs);
            }
            pairs
        })
    });
    // No unequal test is in the long trace.
    assert_eq!(last, [[0, 0], [0, 0x7fbf_dfef_f7fb_fdfe]]);
}

/// The number of classes after each letter of the long trace.
#[test]
#[ignore = "called in a process of its own"]
fn call_classes() {
    let trace = long_trace();
    let expected: Vec<[u64; CLASSES_ANSWER]> =
        fast_display(&trace).expect("well formed").iter().map(|shown| [0, shown.classes as u64]).collect();
    let words: Vec<u16> = trace.chunks(2).map(|pair| u16::from_be_bytes([pair[0], pair[1]])).collect();
    let (mut state, mut answer) = (vec![0; MONITOR_STATE], vec![0; STEP_ANSWER]);
    let mut numbers = vec![[u64::MAX; CLASSES_ANSWER]; words.len()];
    let numbers = on_a_small_stack(move || {
        library::monitor_start(words[0], &mut state, &mut answer);
        library::monitor_classes(&state, &mut numbers[0]);
        for (&word, number) in words[1..].iter().zip(&mut numbers[1..]) {
            library::monitor_step(word, &mut state, &mut answer);
            library::monitor_classes(&state, number);
        }
        numbers
    });
    assert_eq!(numbers, expected);
}

/// The long trace in two parts, the first of which ends inside a letter.
#[test]
#[ignore = "called in a process of its own"]
fn call_stream() {
    let trace = long_trace();
    let mut whole = [0; MONITOR_ANSWER];
    library::monitor(&trace, &mut whole);
    let (mut state, mut answer) = (vec![0; STREAM_STATE], vec![0; MONITOR_ANSWER]);
    let answer = on_a_small_stack(move || {
        library::stream_start(&mut state, &mut answer[..PUSH_ANSWER]);
        for part in [&trace[..1_001], &trace[1_001..]] {
            library::stream_push(part, &mut state, &mut answer[..PUSH_ANSWER]);
        }
        library::stream_finish(&state, &mut answer);
        answer
    });
    assert_eq!(answer, whole);
}

#[test]
fn read() {
    in_a_process("call_read");
}

#[test]
fn verdict() {
    in_a_process("call_verdict");
}

#[test]
fn layout() {
    in_a_process("call_layout");
}

#[test]
fn model() {
    in_a_process("call_model");
}

#[test]
fn monitor() {
    in_a_process("call_monitor");
}

#[test]
fn traces() {
    in_a_process("call_traces");
}

#[test]
fn steps() {
    in_a_process("call_steps");
}

#[test]
fn unequal() {
    in_a_process("call_unequal");
}

#[test]
fn classes() {
    in_a_process("call_classes");
}

#[test]
fn stream() {
    in_a_process("call_stream");
}
