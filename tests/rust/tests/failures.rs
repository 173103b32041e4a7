//! The proved programs where their input cannot be read to its end, or their output cannot be written: they
//! judge nothing, and say on standard error what failed.

use std::fs::{File, OpenOptions};
use std::io::Write;
use std::os::fd::OwnedFd;
use std::os::unix::net::UnixStream;
use std::path::Path;
use std::process::{Command, Output, Stdio};
use std::time::Duration;

use fadzgime_tests::oracle::report::PROGRAM_TRACE;
use fadzgime_tests::proved::programs::program;

/// Each program, and the first bytes of an input, which are an input by themselves that is judged well.
const BEGINNINGS: [(&str, &[u8]); 5] = [
    ("verdict", b"vars x y; x := y;"),
    ("monitor", &[0x32, 0x00, 0x44, 0x00]),
    ("model", &[0x32, 0x00, 0x44, 0x00]),
    ("layout", b"vars x y; x := y;"),
    ("display", &[0x32, 0x00, 0x44, 0x00]),
];

/// The words by which a line of an answer begins.
const ANSWERS: [&str; 8] =
    ["verdict", "refused", "coherent", "incoherent", "infeasible", "model", "vars", "0 fresh"];

fn run(command: &mut Command, input: Stdio) -> Output {
    let child = command.stdin(input).stdout(Stdio::piped()).stderr(Stdio::piped()).spawn();
    child.expect("the program starts").wait_with_output().expect("the program ends")
}

fn text(bytes: &[u8]) -> String {
    String::from_utf8_lossy(bytes).to_string()
}

/// Fails unless nothing was judged and one line says what failed.
fn assert_told(output: &Output, what: &str) {
    assert_eq!(text(&output.stdout), "");
    let told = text(&output.stderr);
    assert!(
        told.starts_with(&format!("{what}: ")) && told.ends_with('\n') && told.lines().count() == 1,
        "{told:?}"
    );
}

/// Fails unless an answer was printed, and nothing else.
fn assert_answered(output: &Output) {
    let line = text(&output.stdout);
    assert!(ANSWERS.iter().any(|word| line.starts_with(word)), "{line:?}");
    assert_eq!(text(&output.stderr), "");
}

/// A shell's command line on a program, `$0`.
fn shell(script: &str, path: &Path) -> Command {
    let mut command = Command::new("sh");
    command.arg("-c").arg(script).arg(path);
    command
}

/// The end of a stream to read from, and the end to write to, in which the first bytes stand.
fn stream(bytes: &[u8]) -> (UnixStream, UnixStream) {
    let (reader, mut writer) = UnixStream::pair().expect("a stream");
    writer.write_all(bytes).expect("there is room");
    (reader, writer)
}

/// An input that ends behind these bytes.
fn ended(bytes: &[u8]) -> Stdio {
    let (reader, writer) = stream(bytes);
    drop(writer);
    OwnedFd::from(reader).into()
}

/// Runs on these bytes, with another output.
fn run_into(command: &mut Command, bytes: &[u8], output: Stdio) -> Output {
    let child = command.stdin(ended(bytes)).stdout(output).stderr(Stdio::piped()).spawn();
    child.expect("the program starts").wait_with_output().expect("the program ends")
}

/// The beginnings are judged where the input ends behind them.
#[test]
fn beginnings() {
    for (name, beginning) in BEGINNINGS {
        assert_answered(&run(&mut Command::new(program(name)), ended(beginning)));
    }
}

/// An input that comes byte by byte is judged as a whole.
#[test]
fn slow_input() {
    for (name, beginning) in BEGINNINGS {
        let (reader, mut writer) = stream(&beginning[..1]);
        let rest = &beginning[1..];
        let feed = std::thread::spawn(move || {
            for byte in rest {
                std::thread::sleep(Duration::from_millis(3));
                writer.write_all(&[*byte]).expect("the program reads");
            }
        });
        let slow = run(&mut Command::new(program(name)), OwnedFd::from(reader).into());
        feed.join().expect("all is written");
        let at_once = run(&mut Command::new(program(name)), ended(beginning));
        assert_answered(&slow);
        assert_eq!(slow.stdout, at_once.stdout);
    }
}

/// No bytes at all are an input, which is refused.
#[test]
fn empty_input() {
    for (name, line) in [
        ("verdict", "refused 9 at 0\n"),
        ("monitor", "refused 1 at 0\n"),
        ("model", "refused 1 at 0\n"),
        ("layout", "refused 9 at 0\n"),
        ("display", "refused 1 at 0\n"),
    ] {
        let output = run(&mut Command::new(program(name)), Stdio::null());
        assert_eq!(text(&output.stdout), line);
        assert_eq!(text(&output.stderr), "");
    }
}

/// The stream has no more bytes for now, and reading does not wait for them.
#[test]
fn stalled_input() {
    for (name, beginning) in BEGINNINGS {
        for bytes in [beginning, &[]] {
            let (reader, writer) = stream(bytes);
            reader.set_nonblocking(true).expect("a stream");
            assert_told(&run(&mut Command::new(program(name)), OwnedFd::from(reader).into()), "read");
            drop(writer);
        }
    }
}

/// The stream breaks behind the first bytes.
#[test]
fn broken_input() {
    for (name, beginning) in BEGINNINGS {
        let (mut reader, writer) = stream(beginning);
        // The other end is closed before it has read this.
        reader.write_all(b"x").expect("there is room");
        drop(writer);
        assert_told(&run(&mut Command::new(program(name)), OwnedFd::from(reader).into()), "read");
    }
}

/// The bytes behind which a program reads no more.
fn most(name: &str) -> usize {
    match name {
        "verdict" | "layout" => 4_096,
        "display" => PROGRAM_TRACE,
        _ => usize::MAX,
    }
}

/// More bytes than a program takes at a time, or than a macro or a trace for the model may have, and then no more for now.
#[test]
fn stalled_long_input() {
    for (name, _) in BEGINNINGS {
        for length in [2_052, 4_000, 4_096, PROGRAM_TRACE, 70_000] {
            if length > most(name) {
                continue;
            }
            let (reader, mut writer) = UnixStream::pair().expect("a stream");
            reader.set_nonblocking(true).expect("a stream");
            writer.write_all(&[0x32, 0x00].repeat(length / 2)).expect("there is room");
            assert_told(&run(&mut Command::new(program(name)), OwnedFd::from(reader).into()), "read");
        }
    }
}

#[test]
fn folder_as_input() {
    for (name, _) in BEGINNINGS {
        let folder = File::open("/").expect("there is a root");
        assert_told(&run(&mut Command::new(program(name)), folder.into()), "read");
    }
}

#[test]
fn closed_input() {
    for (name, _) in BEGINNINGS {
        assert_told(&run(&mut shell("exec \"$0\" <&-", &program(name)), Stdio::null()), "read");
    }
}

/// A device without room, a closed output, and a pipe that nobody reads: for an answer, and for a refusal.
#[test]
fn full_output() {
    for (name, beginning) in BEGINNINGS {
        for bytes in [beginning, &[]] {
            let full = OpenOptions::new().write(true).open("/dev/full").expect("there is such a device");
            assert_told(&run_into(&mut Command::new(program(name)), bytes, full.into()), "write");
            assert_told(&run(&mut shell("exec \"$0\" >&-", &program(name)), ended(bytes)), "write");
            let (ours, theirs) = UnixStream::pair().expect("a stream");
            drop(ours);
            let mut command = shell("trap '' PIPE; exec \"$0\"", &program(name));
            assert_told(&run_into(&mut command, bytes, OwnedFd::from(theirs).into()), "write");
        }
    }
}

/// The programs that take files by name judge those that they can read, and name the others.
#[test]
fn unreadable_files() {
    for (name, beginning) in [
        ("verdict_runs", BEGINNINGS[0].1),
        ("layout_runs", BEGINNINGS[0].1),
        ("reader_runs", BEGINNINGS[0].1),
        ("monitor_runs", BEGINNINGS[1].1),
        ("model_runs", BEGINNINGS[2].1),
        ("display_runs", BEGINNINGS[4].1),
    ] {
        let good = Path::new(env!("CARGO_TARGET_TMPDIR")).join(format!("{name}.input"));
        std::fs::write(&good, beginning).expect("a file");
        let mut command = Command::new(program(name));
        let output = run(command.args(["/nowhere/x", "/"]).arg(&good).arg("x".repeat(5_000)), Stdio::null());
        let printed = text(&output.stdout);
        assert!(printed.starts_with(good.to_str().expect("a name")), "{printed:?}");
        let told = text(&output.stderr);
        let names: Vec<&str> = told.lines().map(|line| line.split(':').next().unwrap_or("")).collect();
        assert_eq!(names, ["/nowhere/x", "/", "argument"]);
    }
}
