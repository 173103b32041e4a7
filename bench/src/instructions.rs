//! Instructions of a call, counted by callgrind over a run of this program.

use std::env;
use std::io::{Read as _, Write as _, stdin};
use std::process::{Child, Command, Stdio};

use crate::measure::{Both, Side, Sides};

/// The argument after which this program makes one call, for callgrind to count.
pub const COUNT: &str = "count";

/// A call by its name, what it is given, and the bytes of its table if it has one.
pub struct Call<'a> {
    /// Its name after [`COUNT`].
    pub name: &'a str,
    /// The bytes it reads.
    pub input: &'a [u8],
    /// The bytes of the table that it is lent.
    pub table: usize,
}

impl Call<'_> {
    /// The instructions of both sides; none if valgrind is not installed.
    pub fn instructions(&self) -> Option<Both<u64>> {
        let (proved, rust) = (self.start(Side::Proved)?, self.start(Side::Rust)?);
        Some(Both { proved, rust }.map(collected_by))
    }

    /// Starts this program under callgrind and gives it the input.
    fn start(&self, side: Side) -> Option<Child> {
        let mut child = Command::new("valgrind")
            .args(["--tool=callgrind", "--callgrind-out-file=/dev/null"])
            .arg("--toggle-collect=*instructions::collected*")
            .arg(env::current_exe().expect("the program has a path"))
            .args([COUNT, self.name, side.name(), &self.table.to_string()])
            .stdin(Stdio::piped())
            .stdout(Stdio::null())
            .stderr(Stdio::piped())
            .spawn()
            .ok()?;
        let mut pipe = child.stdin.take().expect("piped");
        pipe.write_all(self.input).expect("the call reads its input");
        Some(child)
    }
}

/// The number in callgrind's line `==1== Collected : 1234`.
fn collected_by(child: Child) -> u64 {
    let output = child.wait_with_output().expect("valgrind ends");
    let messages = String::from_utf8_lossy(&output.stderr);
    let total = messages.lines().find_map(|line| line.split_once("Collected : "));
    let (_, number) = total.unwrap_or_else(|| panic!("callgrind collected nothing: {messages}"));
    number.trim().parse().expect("a number")
}

impl Side {
    fn name(self) -> &'static str {
        match self {
            Side::Proved => "proved",
            Side::Rust => "rust",
        }
    }

    /// The side of that name.
    pub fn named(name: &str) -> Option<Side> {
        [Side::Proved, Side::Rust].into_iter().find(|side| side.name() == name)
    }
}

/// All bytes of the standard input.
pub fn input() -> Vec<u8> {
    let mut bytes = vec![];
    stdin().read_to_end(&mut bytes).expect("the input can be read");
    bytes
}

/// Makes the call. Callgrind counts what happens in this function.
#[inline(never)]
pub fn collected(sides: &mut dyn Sides, side: Side) {
    match side {
        Side::Proved => sides.proved(),
        Side::Rust => sides.rust(),
    }
}
