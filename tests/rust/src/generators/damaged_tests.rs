//! Macro texts in which something is wrong with their tests: with the line that declares them, or with a use.

use std::ops::Range;

use super::capitals::Habit;
use super::macros::{lay_out, macro_with_tests, random_name, tokens};
use super::random::Random;
use crate::oracle::syntax::{MAX_REGISTERS_BESIDE_TESTS, Macro};
use crate::oracle::token::is_same_name;

/// The words that tests took from the names.
const WORDS: [&str; 3] = ["tests", "result", "truth"];

/// A macro with tests, and its tokens.
struct Text<'a> {
    random: &'a mut Random,
    read: Macro,
    tokens: Vec<String>,
}

/// A text of a macro with tests and few points that is refused for the most part, most often because of its tests.
pub fn damaged_tests(random: &mut Random) -> Vec<u8> {
    let mut read = macro_with_tests(random, 12);
    while !asks_tests(&read) && !random.once_in(4) {
        read = macro_with_tests(random, 12);
    }
    let tokens = tokens(random, &read);
    let mut text = Text { random, read, tokens };
    match text.random.below(12) {
        0 => text.move_line(),
        1 => text.repeat_line(),
        2 => text.add_registers(),
        3 => text.add_entries(),
        4 => text.move_bang(),
        5 | 6 => text.change_arguments(),
        7 => text.put_word(),
        8 => text.split_unequal(),
        9 => text.replace_test(),
        _ => text.replace_use(),
    }
    lay_out(text.random, &text.tokens)
}

/// Does a statement outside all braces ask a test?
fn asks_tests(read: &Macro) -> bool {
    read.statements.iter().any(|statement| statement.applied().is_some())
}

impl Text<'_> {
    /// The places of the line of tests, its word and its `;` included. It is the last one of the declarations.
    fn line(&self) -> Range<usize> {
        let is_word = |token: &String| token.eq_ignore_ascii_case("tests");
        let start = self.tokens.iter().position(is_word).expect("a line of tests");
        let length = self.tokens[start..].iter().position(|token| token == ";").expect("its end");
        start..start + length + 1
    }

    /// The places of the statements' tokens that are of some kind.
    fn places(&self, is_kind: fn(&str) -> bool) -> Vec<usize> {
        (self.line().end..self.tokens.len()).filter(|&place| is_kind(&self.tokens[place])).collect()
    }

    /// One of these places, if there is one.
    fn pick(&mut self, places: &[usize]) -> Option<usize> {
        (!places.is_empty()).then(|| *self.random.pick(places))
    }

    /// A declared name, that of a test most often, or an unknown one, in some spelling.
    fn some_name(&mut self) -> String {
        let (registers, functions, tests) = (&self.read.registers, &self.read.functions, &self.read.tests);
        let entry = |entries: &[(String, bool)], random: &mut Random| random.pick(entries).0.clone();
        let name = match self.random.below(8) {
            0..=3 => entry(tests, self.random),
            4 | 5 if !functions.is_empty() => entry(functions, self.random),
            7 => random_name(self.random),
            _ => self.random.pick(registers).clone(),
        };
        Habit::some(self.random).typed(self.random, &name)
    }

    /// The line of tests goes in front of all, behind the registers, or behind a statement or a brace.
    fn move_line(&mut self) {
        let line: Vec<String> = self.tokens.drain(self.line()).collect();
        let ends =
            (0..self.tokens.len()).filter(|&place| [";", "{", "}"].contains(&self.tokens[place].as_str()));
        let mut places: Vec<usize> = ends.map(|place| place + 1).collect();
        if self.random.once_in(4) {
            places = vec![0];
        } else if self.random.once_in(3) {
            places.truncate(1);
        }
        let place = *self.random.pick(&places);
        self.tokens.splice(place..place, line);
    }

    /// The line of tests stands twice, or as a line of functions behind itself.
    fn repeat_line(&mut self) {
        let mut line = self.tokens[self.line()].to_vec();
        if self.random.once_in(3) {
            line[0] = "funs".to_string();
        }
        let ends = self.places(|token| [";", "{", "}"].contains(&token));
        let place = match self.pick(&ends) {
            Some(place) if self.random.once_in(2) => place + 1,
            _ => self.line().end,
        };
        self.tokens.splice(place..place, line);
    }

    /// About as many registers as there may be beside tests, or a few more.
    fn add_registers(&mut self) {
        let count = MAX_REGISTERS_BESIDE_TESTS + self.random.below(4);
        let more = (self.read.registers.len()..count).map(|number| format!("r{number}_"));
        let names: Vec<String> =
            more.map(|name| Habit::some(self.random).typed(self.random, &name)).collect();
        self.tokens.splice(1..1, names);
    }

    /// One to four tests more, named as something that is declared or not.
    fn add_entries(&mut self) {
        for _ in 0..1 + self.random.below(4) {
            let end = self.line().end - 1;
            let arity = if self.random.once_in(2) { "1" } else { "2" };
            let name = if self.random.once_in(2) { random_name(self.random) } else { self.some_name() };
            self.tokens.splice(end..end, [name, "/".to_string(), arity.to_string()]);
        }
    }

    /// The places in the statements where one of these names stands.
    fn uses<'n>(&self, names: impl Iterator<Item = &'n String>) -> Vec<usize> {
        let names: Vec<&String> = names.collect();
        let is_name = |token: &String| names.iter().any(|name| is_same_name(name, token));
        (self.line().end..self.tokens.len()).filter(|&place| is_name(&self.tokens[place])).collect()
    }

    /// A name in the statements becomes another one, of any sort.
    fn replace_use(&mut self) {
        let uses = self.uses(self.read.declared());
        if let Some(place) = self.pick(&uses) {
            self.tokens[place] = self.some_name();
        }
    }

    /// A test that is asked becomes a register, a function or an unknown name.
    fn replace_test(&mut self) {
        let uses = self.uses(self.read.tests.iter().map(|(name, _)| name));
        let Some(place) = self.pick(&uses) else { return };
        let functions = &self.read.functions;
        self.tokens[place] = match self.random.below(3) {
            0 if !functions.is_empty() => self.random.pick(functions).0.clone(),
            1 => random_name(self.random),
            _ => self.random.pick(&self.read.registers).clone(),
        };
    }

    /// A `!` more or less somewhere in the statements.
    fn move_bang(&mut self) {
        let bangs = self.places(|token| token == "!");
        match self.pick(&bangs) {
            Some(place) if self.random.once_in(3) => drop(self.tokens.remove(place)),
            Some(place) if self.random.once_in(2) => self.tokens.insert(place, "!".to_string()),
            _ => {
                let places = self.places(|_| true);
                if let Some(place) = self.pick(&places) {
                    self.tokens.insert(place, "!".to_string());
                }
            }
        }
    }

    /// An argument more or less, no arguments at all, or a comparison behind them.
    fn change_arguments(&mut self) {
        let ends = self.places(|token| token == ")");
        let Some(end) = self.pick(&ends) else { return };
        let open = self.tokens[..end].iter().rposition(|token| token == "(").expect("its beginning");
        let name = self.random.pick(&self.read.registers).clone();
        match self.random.below(5) {
            0 => drop(self.tokens.drain(open..=end)),
            1 => drop(self.tokens.splice(end + 1..=end, ["=".to_string(), name])),
            2 | 3 if end - open > 2 => drop(self.tokens.drain(end - 2..end)),
            _ => drop(self.tokens.splice(end..end, [",".to_string(), name])),
        }
    }

    /// A name, declared or used, becomes one of the three words.
    fn put_word(&mut self) {
        let is_name = |token: &String| self.read.declared().any(|name| is_same_name(name, token));
        let names: Vec<usize> =
            (0..self.tokens.len()).filter(|&place| is_name(&self.tokens[place])).collect();
        let place = *self.random.pick(&names);
        let word = *self.random.pick(&WORDS);
        self.tokens[place] = Habit::some(self.random).typed(self.random, word);
    }

    /// A `!=` becomes a `!` and a `=`.
    fn split_unequal(&mut self) {
        let signs = self.places(|token| token == "!=");
        if let Some(place) = self.pick(&signs) {
            self.tokens.splice(place..=place, ["!", "="].map(ToString::to_string));
        }
    }
}
