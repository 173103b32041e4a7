//! Random macros that are well formed, and their text in a random layout and spelling.

use super::capitals::Habit;
use super::random::Random;
use super::repeats::random_repeat;
use crate::oracle::letter::{Header, Letter, MAX_FUNCTIONS, MAX_REGISTERS};
use crate::oracle::syntax::{Condition, MAX_REGISTERS_BESIDE_TESTS, Macro, Statement};

/// Names that are easily confused with words.
const ODD_NAMES: [&str; 16] = [
    "ifs", "if1", "vars_", "whil", "while_", "elseif", "asserts", "skip2", "funs1", "v", "a_______", "i",
    "test", "tests1", "results", "truth_",
];

/// How macros are chosen.
#[derive(Clone, Copy, Debug)]
struct Choices {
    /// Weights of skip, copy, application, assume, assert, if and while.
    weights: [usize; 7],
    /// The deepest nesting.
    depth: usize,
    /// Whether each block begins with a branch or a loop, down to the deepest nesting.
    steep: bool,
    /// An assert takes a condition that was met on the way, but once in so many times.
    fresh_assert: usize,
    /// Statements that lead to a test of what is already equal are begun once in so many times.
    repeats: usize,
    /// A condition is a test with a name once in so many times, if there are tests.
    named: usize,
}

const WEIGHTS: [[usize; 7]; 7] = [
    [1, 2, 4, 2, 2, 2, 2],
    [0, 2, 4, 2, 3, 3, 1],
    [1, 4, 2, 1, 2, 2, 3],
    [0, 1, 6, 1, 2, 1, 1],
    [1, 3, 0, 3, 3, 3, 2],
    // Branches and loops without end, few assumptions: many pairs.
    [0, 4, 2, 0, 1, 5, 4],
    [0, 3, 3, 0, 0, 5, 2],
];

/// A macro being made: its declarations and the points that may still be added.
struct Maker<'a> {
    random: &'a mut Random,
    choices: Choices,
    registers: u8,
    arities: Vec<bool>,
    tests: Vec<bool>,
    points: usize,
}

/// A name of one to eight bytes, without capitals.
pub fn random_name(random: &mut Random) -> String {
    if random.once_in(6) {
        return random.pick(&ODD_NAMES).to_string();
    }
    let length = 1 + random.mostly_below(3, 8);
    let rest = b"abcdefghijklmnopqrstuvwxyz0123456789_";
    (0..length)
        .map(|place| char::from(rest[random.below(if place == 0 { 26 } else { rest.len() })]))
        .collect()
}

/// So many different names, none of them a word, typed by some habit.
fn distinct_names(random: &mut Random, count: usize) -> Vec<String> {
    let mut names: Vec<String> = Vec::new();
    while names.len() < count {
        let name = random_name(random);
        if !is_word(&name) && !names.contains(&name) {
            names.push(name);
        }
    }
    let habit = Habit::some(random);
    names.iter().map(|name| habit.typed(random, name)).collect()
}

fn is_word(name: &str) -> bool {
    ["vars", "funs", "skip", "assume", "assert", "if", "else", "while", "tests", "result", "truth"]
        .contains(&name)
}

/// The deepest nesting that is taken.
pub const DEEPEST: usize = 16;

/// A random macro with at most about this many points. One in eight may be nested as deep as is taken.
pub fn random_macro(random: &mut Random, points: usize) -> Macro {
    let depth = if random.once_in(8) { 1 + random.below(DEEPEST) } else { 1 + random.below(3) };
    nested_macro(random, points, depth, depth > 3)
}

/// A random macro with at most about this many points, nested at most so deep; where it is `steep`, just so deep if
/// it has the points. In one of three the only assert is the last statement, so that failures are long.
pub fn nested_macro(random: &mut Random, points: usize, depth: usize, steep: bool) -> Macro {
    let declared = random_declarations(random);
    let choices = Choices {
        weights: *random.pick(&WEIGHTS),
        depth,
        steep,
        fresh_assert: *random.pick(&[2, 6, 40]),
        repeats: *random.pick(&[5, 12, 1000]),
        named: *random.pick(&[1, 2, 4, 1000]),
    };
    let points = random.below(points + 1);
    let late = random.once_in(3);
    let arities = |entries: &[(String, bool)]| entries.iter().map(|(_, binary)| *binary).collect();
    let (functions, tests) = (arities(&declared.functions), arities(&declared.tests));
    let registers = declared.registers.len() as u8;
    let mut maker = Maker { random, choices, registers, arities: functions, tests, points };
    if late {
        maker.choices.weights[4] = 0;
    }
    let mut statements = maker.block(0, &mut Vec::new(), true);
    if late {
        statements.push(Statement::Assert(maker.condition()));
    }
    Macro { statements, ..declared }
}

/// A random macro with a line of tests.
pub fn macro_with_tests(random: &mut Random, points: usize) -> Macro {
    loop {
        let read = random_macro(random, points);
        if !read.tests.is_empty() {
            return read;
        }
    }
}

/// A macro without statements. One in three has tests, and then two registers fewer, and with its functions at most four.
fn random_declarations(random: &mut Random) -> Macro {
    let most = usize::from(MAX_FUNCTIONS);
    let tests = if random.once_in(3) { 1 + random.mostly_below(2, most) } else { 0 };
    let room = if tests > 0 { MAX_REGISTERS_BESIDE_TESTS } else { usize::from(MAX_REGISTERS) };
    let registers = 1 + random.mostly_below(4, room);
    let functions = random.mostly_below(3, most + 1).min(most - tests);
    let mut names = distinct_names(random, registers + functions + tests);
    let mut entries = names.split_off(registers).into_iter().map(|name| (name, random.once_in(2)));
    let functions = entries.by_ref().take(functions).collect();
    let tests = entries.collect();
    Macro { registers: names, functions, tests, statements: vec![] }
}

impl Maker<'_> {
    fn register(&mut self) -> u8 {
        self.random.byte_below(self.registers)
    }

    fn condition(&mut self) -> Condition {
        if !self.tests.is_empty() && self.random.once_in(self.choices.named) {
            return self.named();
        }
        Condition::compare(self.random.once_in(2), self.register(), self.register())
    }

    /// A test with a name.
    fn named(&mut self) -> Condition {
        let test = self.random.below(self.tests.len());
        let first = self.register();
        let second = if self.tests[test] { Some(self.register()) } else { None };
        let function = (self.arities.len() + test) as u8;
        Condition::named(usize::from(self.registers), self.random.once_in(2), function, (first, second))
    }

    /// Takes off the second point of a test with a name.
    fn spend(&mut self, condition: &Condition) {
        self.points = self.points.saturating_sub(condition.points() - 1);
    }

    /// Statements; `known` are conditions that probably hold before them.
    fn block(&mut self, depth: usize, known: &mut Vec<Condition>, whole: bool) -> Vec<Statement> {
        let mut statements = Vec::new();
        if self.choices.steep && depth < self.choices.depth && self.points > 0 {
            self.points -= 1;
            let branches = self.random.once_in(2);
            let condition = self.condition();
            statements.push(match branches {
                true => self.branch(condition, depth, known),
                false => self.repeat(condition, depth, known),
            });
        }
        while self.points > 0 && (whole || !self.random.once_in(3)) {
            if self.random.once_in(self.choices.repeats) {
                statements.extend(self.repeated_test(depth, known));
            } else {
                let statement = self.statement(depth, known);
                statements.push(statement);
            }
        }
        statements
    }

    /// Statements that lead to a test of what is already equal, the test and what follows it.
    fn repeated_test(&mut self, depth: usize, known: &mut Vec<Condition>) -> Vec<Statement> {
        let arities: Vec<u8> = self.arities.iter().map(|&binary| 1 + u8::from(binary)).collect();
        let repeat = random_repeat(self.random, &Header::new(self.registers, &arities));
        let mut statements: Vec<Statement> =
            repeat.before.iter().map(|letter| performed(letter, known)).collect();
        let [first, second] = repeat.sides;
        statements.push(self.test(Condition::compare(true, first, second), depth, known));
        statements.extend(repeat.behind.iter().map(|letter| performed(letter, known)));
        self.points = self.points.saturating_sub(statements.len());
        statements
    }

    /// A statement that has this condition's letter among its letters.
    fn test(&mut self, condition: Condition, depth: usize, known: &mut Vec<Condition>) -> Statement {
        let asserts = self.choices.weights[4] > 0;
        match self.random.below(if depth < self.choices.depth { 8 } else { 4 }) {
            0 if asserts => Statement::Assert(condition.opposite()),
            1 | 2 if asserts => Statement::Assert(condition),
            0..=3 => Statement::Assume(condition),
            4 => self.branch(condition, depth, known),
            5 => self.branch(condition.opposite(), depth, known),
            6 => self.repeat(condition, depth, known),
            _ => self.repeat(condition.opposite(), depth, known),
        }
    }

    fn statement(&mut self, depth: usize, known: &mut Vec<Condition>) -> Statement {
        let [skip, copy, mut application, assume, assert, mut branch, mut repeat] = self.choices.weights;
        if self.arities.is_empty() {
            application = 0;
        }
        if depth == self.choices.depth {
            (branch, repeat) = (0, 0);
        }
        let kind = self.random.weighted(&[skip, copy, application, assume, assert, branch, repeat]);
        self.points -= usize::from(kind != 0);
        match kind {
            0 => Statement::Skip,
            1 => self.copy(known),
            2 => self.application(known),
            3 => self.assume(known),
            4 => self.assert(known),
            5 => {
                let condition = self.condition();
                self.branch(condition, depth, known)
            }
            _ => {
                let condition = self.condition();
                self.repeat(condition, depth, known)
            }
        }
    }

    fn copy(&mut self, known: &mut Vec<Condition>) -> Statement {
        let (target, source) = (self.register(), self.register());
        performed(&Letter::Copy { target, source }, known)
    }

    fn application(&mut self, known: &mut Vec<Condition>) -> Statement {
        let target = self.register();
        let function = self.random.below(self.arities.len());
        let first = self.register();
        let second = if self.arities[function] { Some(self.register()) } else { None };
        performed(&Letter::Apply { target, function: function as u8, first, second }, known)
    }

    fn assume(&mut self, known: &mut Vec<Condition>) -> Statement {
        let condition = self.condition();
        self.spend(&condition);
        known.push(condition);
        Statement::Assume(condition)
    }

    fn assert(&mut self, known: &mut Vec<Condition>) -> Statement {
        let fresh = known.is_empty() || self.random.once_in(self.choices.fresh_assert);
        let condition = if fresh { self.condition() } else { *self.random.pick(known) };
        self.spend(&condition);
        known.push(condition);
        Statement::Assert(condition)
    }

    fn branch(&mut self, condition: Condition, depth: usize, known: &mut Vec<Condition>) -> Statement {
        self.spend(&condition);
        let yes = self.block(depth + 1, &mut with(known, condition), false);
        let no = match self.random.once_in(2) {
            true => self.block(depth + 1, &mut with(known, condition.opposite()), false),
            false => vec![],
        };
        known.clear();
        Statement::If(condition, yes, no)
    }

    fn repeat(&mut self, condition: Condition, depth: usize, known: &mut Vec<Condition>) -> Statement {
        self.spend(&condition);
        let body = self.block(depth + 1, &mut vec![condition], false);
        known.clear();
        known.push(condition.opposite());
        Statement::While(condition, body)
    }
}

/// The statement that performs a letter; what is known before it becomes what is known behind it.
fn performed(letter: &Letter, known: &mut Vec<Condition>) -> Statement {
    let (condition, statement) = match *letter {
        Letter::Copy { target, source } => {
            forget(known, target);
            (Some(Condition::compare(true, target, source)), Statement::Assign(*letter))
        }
        Letter::Apply { target, .. } => {
            forget(known, target);
            (None, Statement::Assign(*letter))
        }
        Letter::Equal { first, second } | Letter::Unequal { first, second } => {
            let condition = Condition::compare(matches!(letter, Letter::Equal { .. }), first, second);
            (Some(condition), Statement::Assume(condition))
        }
    };
    known.extend(condition);
    statement
}

fn forget(known: &mut Vec<Condition>, register: u8) {
    let is_argument = |condition: &Condition| match condition.applied {
        Some(Letter::Apply { first, second, .. }) => first == register || second == Some(register),
        _ => condition.first == register || condition.second == register,
    };
    known.retain(|condition| !is_argument(condition));
}

fn with(known: &[Condition], condition: Condition) -> Vec<Condition> {
    let mut more = known.to_vec();
    more.push(condition);
    more
}

/// The tokens of a macro: its names as declared in their lists, words and uses of names by some habit each. An empty
/// else is written now and then.
pub fn tokens(random: &mut Random, read: &Macro) -> Vec<String> {
    let as_declared = random.once_in(2);
    let mut habit = || if as_declared { Habit::AsIs } else { Habit::any(random) };
    let (words, uses) = (habit(), habit());
    let mut speller = Speller { random, read, words, uses, out: vec![] };
    speller.declarations();
    speller.statements(&read.statements);
    speller.out
}

/// Spells a macro.
struct Speller<'a> {
    random: &'a mut Random,
    read: &'a Macro,
    words: Habit,
    uses: Habit,
    out: Vec<String>,
}

impl Speller<'_> {
    fn word(&mut self, word: &str) {
        let typed = self.words.typed(self.random, word);
        self.out.push(typed);
    }

    fn sign(&mut self, sign: &str) {
        self.out.push(sign.to_string());
    }

    /// A use of a name.
    fn name(&mut self, name: &str) {
        let typed = self.uses.typed(self.random, name);
        self.out.push(typed);
    }

    fn register(&mut self, register: u8) {
        self.name(&self.read.registers[usize::from(register)]);
    }

    fn declarations(&mut self) {
        self.word("vars");
        self.out.extend(self.read.registers.iter().cloned());
        self.sign(";");
        self.entries("funs", &self.read.functions);
        self.entries("tests", &self.read.tests);
    }

    /// A line of functions or tests; none without entries.
    fn entries(&mut self, word: &str, entries: &[(String, bool)]) {
        if entries.is_empty() {
            return;
        }
        self.word(word);
        for (name, binary) in entries {
            let arity = if *binary { "2" } else { "1" };
            self.out.extend([name, "/", arity].map(ToString::to_string));
        }
        self.sign(";");
    }

    fn condition(&mut self, word: &str, condition: &Condition) {
        self.word(word);
        if let Some(Letter::Apply { function, first, second, .. }) = condition.applied {
            if !condition.equal {
                self.sign("!");
            }
            self.application(function, first, second);
            return;
        }
        self.register(condition.first);
        self.sign(if condition.equal { "=" } else { "!=" });
        self.register(condition.second);
    }

    fn block(&mut self, statements: &[Statement]) {
        self.sign("{");
        self.statements(statements);
        self.sign("}");
    }

    /// A function or a test with its arguments.
    fn application(&mut self, function: u8, first: u8, second: Option<u8>) {
        let (name, _) = self.read.all_functions().nth(usize::from(function)).expect("a function or a test");
        self.name(name);
        self.sign("(");
        self.register(first);
        if let Some(second) = second {
            self.sign(",");
            self.register(second);
        }
        self.sign(")");
    }

    fn assignment(&mut self, letter: &Letter) {
        match *letter {
            Letter::Copy { target, source } => {
                self.register(target);
                self.sign(":=");
                self.register(source);
            }
            Letter::Apply { target, function, first, second } => {
                self.register(target);
                self.sign(":=");
                self.application(function, first, second);
            }
            Letter::Equal { .. } | Letter::Unequal { .. } => unreachable!("no assignment"),
        }
        self.sign(";");
    }

    fn statements(&mut self, statements: &[Statement]) {
        for statement in statements {
            match statement {
                Statement::Skip => {
                    self.word("skip");
                    self.sign(";");
                }
                Statement::Assign(letter) => self.assignment(letter),
                Statement::Assume(condition) => {
                    self.condition("assume", condition);
                    self.sign(";");
                }
                Statement::Assert(condition) => {
                    self.condition("assert", condition);
                    self.sign(";");
                }
                Statement::If(condition, yes, no) => {
                    self.condition("if", condition);
                    self.block(yes);
                    if !no.is_empty() || self.random.once_in(4) {
                        self.word("else");
                        self.block(no);
                    }
                }
                Statement::While(condition, body) => {
                    self.condition("while", condition);
                    self.block(body);
                }
            }
        }
    }
}

/// Joins tokens by blanks and comments, which are left out now and then where no
/// two tokens would run together.
pub fn lay_out(random: &mut Random, tokens: &[String]) -> Vec<u8> {
    join(random, tokens, 3)
}

/// Joins tokens by blanks and comments, once in so many times where they need not be parted.
fn join(random: &mut Random, tokens: &[String], rarity: usize) -> Vec<u8> {
    let mut text: Vec<u8> = Vec::new();
    let mut before = "";
    for token in tokens {
        if run_together(before, token) || random.once_in(rarity) {
            text.extend(random_blank(random));
        }
        text.extend(token.bytes());
        before = token;
    }
    if random.once_in(3) {
        text.extend(random_blank(random));
    }
    text
}

/// Would these be other tokens without a blank between them? `1` and `2` end where they are; `!` takes a `=`.
fn run_together(before: &str, token: &str) -> bool {
    let runs_on = |byte: u8| byte.is_ascii_alphanumeric() || byte == b'_';
    let open = before.bytes().last().is_some_and(runs_on) && !["1", "2"].contains(&before);
    open && token.bytes().next().is_some_and(runs_on) || before == "!" && token.starts_with('=')
}

/// One separator.
fn random_blank(random: &mut Random) -> Vec<u8> {
    match random.below(10) {
        0 => b"\t".to_vec(),
        1 => b"\r\n".to_vec(),
        2 => b"\n".to_vec(),
        3 => b"  ".to_vec(),
        4 => random_comment(random),
        _ => b" ".to_vec(),
    }
}

/// A comment of any bytes, up to its LF.
fn random_comment(random: &mut Random) -> Vec<u8> {
    let mut comment = vec![b'#'];
    for _ in 0..random.below(8) {
        let byte = random.bits() as u8;
        comment.push(if byte == b'\n' { b'\r' } else { byte });
    }
    comment.push(b'\n');
    comment
}

/// The text of a macro in a random layout and spelling.
pub fn macro_text(random: &mut Random, read: &Macro) -> Vec<u8> {
    let tokens = tokens(random, read);
    lay_out(random, &tokens)
}

/// The text of a macro in a random spelling, with few blanks and comments.
pub fn dense_text(random: &mut Random, read: &Macro) -> Vec<u8> {
    let tokens = tokens(random, read);
    join(random, &tokens, 60)
}
