//! The house layout (document 02): a macro printed back, line by line from its tree.

use super::letter::Letter;
use super::reader::read_macro;
use super::refusal::Refusal;
use super::syntax::{Condition, Macro, Statement};

/// "4,096 bytes": no print is longer.
pub const MAX_PRINT: usize = 4096;

/// The layout of a text: the print, or the first refusal. "15, given last, when the print passes the lent buffer or
/// 4,096 bytes."
pub fn layout(text: &[u8], lent: usize) -> Result<String, Refusal> {
    let print = print_macro(&read_macro(text)?);
    if print.len() > lent.min(MAX_PRINT) { Err(Refusal::plain(15)) } else { Ok(print) }
}

/// The print of a macro, however long it is.
pub fn print_macro(read: &Macro) -> String {
    let mut printer = Printer { read, out: String::new() };
    printer.declarations();
    printer.statements(&read.statements);
    printer.out
}

/// Prints a macro: "names as declared, keywords in lower case".
struct Printer<'a> {
    read: &'a Macro,
    out: String,
}

impl<'a> Printer<'a> {
    /// A register's name as it was declared.
    fn register(&self, register: u8) -> &'a str {
        &self.read.registers[usize::from(register)]
    }

    fn put(&mut self, parts: &[&str]) {
        parts.iter().for_each(|part| self.out.push_str(part));
    }

    /// The lines `vars a b;`, `funs f/1 g/2;` and `tests hot/1;`; no functions and no tests have no line.
    fn declarations(&mut self) {
        let read = self.read;
        self.put(&["vars"]);
        for name in &read.registers {
            self.put(&[" ", name]);
        }
        self.put(&[";\n"]);
        for (word, entries) in [("funs", &read.functions), ("tests", &read.tests)] {
            if entries.is_empty() {
                continue;
            }
            self.put(&[word]);
            for (name, binary) in entries {
                self.put(&[" ", name, if *binary { "/2" } else { "/1" }]);
            }
            self.put(&[";\n"]);
        }
    }

    fn statements(&mut self, statements: &[Statement]) {
        for statement in statements {
            match statement {
                Statement::Skip => self.put(&["skip;\n"]),
                Statement::Assign(letter) => self.assignment(letter),
                Statement::Assume(condition) => self.condition("assume", condition, ";\n"),
                Statement::Assert(condition) => self.condition("assert", condition, ";\n"),
                Statement::If(condition, yes, no) => {
                    self.condition("if", condition, "{\n");
                    self.statements(yes);
                    // "An empty else dropped."
                    if !no.is_empty() {
                        self.put(&["}\nelse{\n"]);
                        self.statements(no);
                    }
                    self.put(&["}\n"]);
                }
                Statement::While(condition, body) => {
                    self.condition("while", condition, "{\n");
                    self.statements(body);
                    self.put(&["}\n"]);
                }
            }
        }
    }

    /// A condition, with the word in front of it and what stands behind it. `!` is no word, so no blank stands before it.
    fn condition(&mut self, word: &str, condition: &Condition, behind: &str) {
        if let Some(Letter::Apply { function, first, second, .. }) = condition.applied {
            self.put(&[word, if condition.equal { " " } else { "!" }]);
            self.application(function, first, second);
            self.put(&[behind]);
            return;
        }
        let sign = if condition.equal { "=" } else { "!=" };
        let (first, second) = (self.register(condition.first), self.register(condition.second));
        self.put(&[word, " ", first, sign, second, behind]);
    }

    /// `cap(a)` or `add(a,b)`, of a function or a test.
    fn application(&mut self, function: u8, first: u8, second: Option<u8>) {
        let read = self.read;
        let (name, _) = read.all_functions().nth(usize::from(function)).expect("a function or a test");
        self.put(&[name, "(", self.register(first)]);
        if let Some(second) = second {
            self.put(&[",", self.register(second)]);
        }
        self.put(&[")"]);
    }

    fn assignment(&mut self, letter: &Letter) {
        match *letter {
            Letter::Copy { target, source } => {
                self.put(&[self.register(target), ":=", self.register(source), ";\n"]);
            }
            Letter::Apply { target, function, first, second } => {
                self.put(&[self.register(target), ":="]);
                self.application(function, first, second);
                self.put(&[";\n"]);
            }
            Letter::Equal { .. } | Letter::Unequal { .. } => unreachable!("no assignment"),
        }
    }
}
