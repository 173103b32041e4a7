//! The macro reader: from text to a tree, or the first refusal
//! (document 01, "The questions", Macro; document 02, "Tests with names").

use super::letter::{Letter, MAX_FUNCTIONS, MAX_REGISTERS};
use super::refusal::Refusal;
use super::syntax::{Condition, MAX_REGISTERS_BESIDE_TESTS, Macro, Statement};
use super::token::{Placed, Token, Word, is_same_name, token_at};

/// "A macro has at most 4,096 bytes and 256 points."
pub const MAX_TEXT: usize = 4096;
/// The largest number of points.
pub const MAX_POINTS: usize = 256;
/// "Braces nest at most 16 deep."
pub const MAX_DEPTH: usize = 16;

/// The text, how far it is read, and the names declared so far, as they were declared.
struct Reader<'a> {
    text: &'a [u8],
    at: usize,
    registers: Vec<String>,
    functions: Vec<(String, bool)>,
    tests: Vec<(String, bool)>,
}

type Read<T> = Result<T, Refusal>;

/// Reads a macro, or gives the first question that is answered with no.
pub fn read_macro(text: &[u8]) -> Read<Macro> {
    if text.len() > MAX_TEXT {
        return Err(Refusal::plain(7));
    }
    let mut reader = Reader { text, at: 0, registers: vec![], functions: vec![], tests: vec![] };
    reader.declarations()?;
    let statements = reader.statements(0)?;
    reader.expect(Token::End)?;
    let Reader { registers, functions, tests, .. } = reader;
    let read = Macro { registers, functions, tests, statements };
    if read.points() > MAX_POINTS { Err(Refusal::plain(13)) } else { Ok(read) }
}

impl Reader<'_> {
    /// The next token, which stays unread; 8 if there is none.
    fn peek(&self) -> Read<Placed> {
        token_at(self.text, self.at)
    }

    /// The next token, which is read.
    fn take(&mut self) -> Read<Placed> {
        let placed = self.peek()?;
        self.at = placed.end;
        Ok(placed)
    }

    /// Reads a token that has to be this one; 9 if it is not.
    fn expect(&mut self, token: Token) -> Read<usize> {
        let placed = self.take()?;
        if placed.token == token { Ok(placed.start) } else { Err(Refusal::at(9, placed.start)) }
    }

    fn word(&mut self, word: Word) -> Read<usize> {
        self.expect(Token::Word(word))
    }

    /// Reads a name, with its place; 9 if it is another token.
    fn name(&mut self) -> Read<(String, usize)> {
        let placed = self.take()?;
        match placed.token {
            Token::Name(name) => Ok((name, placed.start)),
            _ => Err(Refusal::at(9, placed.start)),
        }
    }

    fn is_declared(&self, name: &str) -> bool {
        self.find_register(name).or(self.find_function(name)).or(self.find_test(name)).is_some()
    }

    /// Reads this word if it is next; gives its place.
    fn perhaps(&mut self, word: Word) -> Read<Option<usize>> {
        let placed = self.peek()?;
        if placed.token != Token::Word(word) {
            return Ok(None);
        }
        self.at = placed.end;
        Ok(Some(placed.start))
    }

    /// The registers, and perhaps functions and tests; "16, at the word `tests`, when more than six registers were
    /// declared, after 9 at that token".
    fn declarations(&mut self) -> Read<()> {
        self.word(Word::Vars)?;
        self.register_list()?;
        if self.perhaps(Word::Funs)?.is_some() {
            self.functions = self.entries()?;
        }
        if let Some(place) = self.perhaps(Word::Tests)? {
            if self.registers.len() > MAX_REGISTERS_BESIDE_TESTS {
                return Err(Refusal::at(16, place));
            }
            self.tests = self.entries()?;
        }
        Ok(())
    }

    /// Names of registers, at least one, up to the `;`.
    fn register_list(&mut self) -> Read<()> {
        loop {
            let (name, place) = self.name()?;
            if self.registers.len() == usize::from(MAX_REGISTERS) || self.is_declared(&name) {
                return Err(Refusal::at(10, place));
            }
            self.registers.push(name);
            if self.list_ends()? {
                return Ok(());
            }
        }
    }

    /// Entries such as `cap/1`, at least one, up to the `;`. "Functions and tests together are at most four."
    fn entries(&mut self) -> Read<Vec<(String, bool)>> {
        let mut entries: Vec<(String, bool)> = Vec::new();
        loop {
            let (name, place) = self.name()?;
            let count = self.functions.len() + entries.len();
            let repeated = entries.iter().any(|(known, _)| is_same_name(known, &name));
            if count == usize::from(MAX_FUNCTIONS) || repeated || self.is_declared(&name) {
                return Err(Refusal::at(10, place));
            }
            self.expect(Token::Slash)?;
            let arity = self.take()?;
            match arity.token {
                Token::One => entries.push((name, false)),
                Token::Two => entries.push((name, true)),
                _ => return Err(Refusal::at(9, arity.start)),
            }
            if self.list_ends()? {
                return Ok(entries);
            }
        }
    }

    /// Reads the `;` that ends a list, if it is next.
    fn list_ends(&mut self) -> Read<bool> {
        let ends = self.peek()?.token == Token::Semicolon;
        if ends {
            self.take()?;
        }
        Ok(ends)
    }

    /// Statements up to the end of the text, or inside braces up to the `}`.
    fn statements(&mut self, depth: usize) -> Read<Vec<Statement>> {
        let mut statements = Vec::new();
        loop {
            match self.peek()?.token {
                Token::End | Token::CloseBrace => return Ok(statements),
                _ => statements.push(self.statement(depth)?),
            }
        }
    }

    /// A block in braces, inside this many others.
    fn block(&mut self, depth: usize) -> Read<Vec<Statement>> {
        let place = self.expect(Token::OpenBrace)?;
        if depth == MAX_DEPTH {
            return Err(Refusal::at(12, place));
        }
        let statements = self.statements(depth + 1)?;
        self.expect(Token::CloseBrace)?;
        Ok(statements)
    }

    fn statement(&mut self, depth: usize) -> Read<Statement> {
        let Token::Word(word) = self.peek()?.token else {
            return self.assignment();
        };
        let place = self.take()?.start;
        let statement = match word {
            Word::Skip => Statement::Skip,
            Word::Assume => Statement::Assume(self.condition()?),
            Word::Assert => Statement::Assert(self.condition()?),
            Word::If => return self.conditional(depth),
            Word::While => {
                let condition = self.condition()?;
                return Ok(Statement::While(condition, self.block(depth)?));
            }
            Word::Vars | Word::Funs | Word::Tests | Word::Else | Word::Result | Word::Truth => {
                return Err(Refusal::at(9, place));
            }
        };
        self.expect(Token::Semicolon)?;
        Ok(statement)
    }

    /// An if behind its word, with the else that may follow.
    fn conditional(&mut self, depth: usize) -> Read<Statement> {
        let condition = self.condition()?;
        let yes = self.block(depth)?;
        let mut no = Vec::new();
        if self.perhaps(Word::Else)?.is_some() {
            no = self.block(depth)?;
        }
        Ok(Statement::If(condition, yes, no))
    }

    /// A comparison or a test with a name: "In a condition the first name must be a test before `(` or after `!`".
    fn condition(&mut self) -> Read<Condition> {
        let denied = self.peek()?.token == Token::Not;
        if denied {
            self.take()?;
        }
        let (name, place) = self.name()?;
        if denied || self.is_applied() {
            let test = self.find_test(&name).ok_or(Refusal::at(11, place))?;
            let binary = self.tests[usize::from(test)].1;
            let arguments = self.arguments(binary)?;
            let function = self.functions.len() as u8 + test;
            return Ok(Condition::named(self.registers.len(), !denied, function, arguments));
        }
        let first = self.find_register(&name).ok_or(Refusal::at(11, place))?;
        self.comparison(first)
    }

    /// A comparison behind its first register.
    fn comparison(&mut self, first: u8) -> Read<Condition> {
        let test = self.take()?;
        let equal = match test.token {
            Token::Equal => true,
            Token::Unequal => false,
            _ => return Err(Refusal::at(9, test.start)),
        };
        let second = self.register()?;
        Ok(Condition::compare(equal, first, second))
    }

    /// A register's name; 9 for another token, 11 for another name.
    fn register(&mut self) -> Read<u8> {
        let (name, place) = self.name()?;
        self.find_register(&name).ok_or(Refusal::at(11, place))
    }

    fn find_register(&self, name: &str) -> Option<u8> {
        self.registers.iter().position(|known| is_same_name(known, name)).map(|index| index as u8)
    }

    fn find_function(&self, name: &str) -> Option<u8> {
        find_entry(&self.functions, name)
    }

    fn find_test(&self, name: &str) -> Option<u8> {
        find_entry(&self.tests, name)
    }

    /// Is the next token a `(`?
    fn is_applied(&self) -> bool {
        self.peek().is_ok_and(|next| next.token == Token::Open)
    }

    /// A copy or an application: "after `:=` a name is a function if the next
    /// token is `(`, else a register".
    fn assignment(&mut self) -> Read<Statement> {
        let target = self.register()?;
        self.expect(Token::Becomes)?;
        let (name, place) = self.name()?;
        let letter = if self.is_applied() {
            let function = self.find_function(&name).ok_or(Refusal::at(11, place))?;
            let (first, second) = self.arguments(self.functions[usize::from(function)].1)?;
            Letter::Apply { target, function, first, second }
        } else {
            let source = self.find_register(&name).ok_or(Refusal::at(11, place))?;
            Letter::Copy { target, source }
        };
        self.expect(Token::Semicolon)?;
        Ok(Statement::Assign(letter))
    }

    /// The arguments of a function or test in parentheses; "a wrong argument count stands
    /// at the `,` or `)`".
    fn arguments(&mut self, binary: bool) -> Read<(u8, Option<u8>)> {
        self.expect(Token::Open)?;
        let first = self.register()?;
        let behind = self.take()?;
        match behind.token {
            Token::Comma if binary => {
                let second = self.register()?;
                self.expect(Token::Close)?;
                Ok((first, Some(second)))
            }
            Token::Close if !binary => Ok((first, None)),
            Token::Comma | Token::Close => Err(Refusal::at(11, behind.start)),
            _ => Err(Refusal::at(9, behind.start)),
        }
    }
}

/// The number of a name in a list of functions or tests.
fn find_entry(entries: &[(String, bool)], name: &str) -> Option<u8> {
    entries.iter().position(|(known, _)| is_same_name(known, name)).map(|index| index as u8)
}
