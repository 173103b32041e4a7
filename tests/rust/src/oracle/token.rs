//! The tokens of macro text (document 01, "Macro text", and question 8; document 02,
//! "Capitals in names" and "Tests with names").

use super::refusal::Refusal;

/// A name has at most this many bytes.
pub const MAX_NAME: usize = 8;

/// The hidden register that holds what a test with a name has applied.
pub const RESULT: &str = "result";
/// The hidden register with which it is compared.
pub const TRUTH: &str = "truth";

/// Words that are not names.
#[derive(Clone, Copy, Debug, PartialEq, Eq, Hash)]
pub enum Word {
    /// `vars`
    Vars,
    /// `funs`
    Funs,
    /// `skip`
    Skip,
    /// `assume`
    Assume,
    /// `assert`
    Assert,
    /// `if`
    If,
    /// `else`
    Else,
    /// `while`
    While,
    /// `tests`
    Tests,
    /// `result`, the hidden register
    Result,
    /// `truth`, the hidden register
    Truth,
}

/// A token, or the end of the text.
#[derive(Clone, Debug, PartialEq, Eq, Hash)]
pub enum Token {
    /// A letter and up to seven more letters, digits or `_`, as it is spelt.
    Name(String),
    /// A word that is not a name.
    Word(Word),
    /// `1`
    One,
    /// `2`
    Two,
    /// `:=`
    Becomes,
    /// `=`
    Equal,
    /// `!=`
    Unequal,
    /// `!`, where no `=` follows directly
    Not,
    /// `;`
    Semicolon,
    /// `,`
    Comma,
    /// `(`
    Open,
    /// `)`
    Close,
    /// `{`
    OpenBrace,
    /// `}`
    CloseBrace,
    /// `/`
    Slash,
    /// The end of the text.
    End,
}

/// A token with its first byte and the byte behind it.
#[derive(Clone, Debug, PartialEq, Eq)]
pub struct Placed {
    /// The token.
    pub token: Token,
    /// The token's first byte, from 0; the text's length at the end.
    pub start: usize,
    /// The byte behind the token.
    pub end: usize,
}

const WORDS: [(&str, Word); 11] = [
    ("vars", Word::Vars),
    ("funs", Word::Funs),
    ("skip", Word::Skip),
    ("assume", Word::Assume),
    ("assert", Word::Assert),
    ("if", Word::If),
    ("else", Word::Else),
    ("while", Word::While),
    ("tests", Word::Tests),
    (RESULT, Word::Result),
    (TRUTH, Word::Truth),
];

/// "Names and words are equal whatever the case of their letters."
pub fn is_same_name(left: &str, right: &str) -> bool {
    left.eq_ignore_ascii_case(right)
}

/// The first byte at or behind `from` that is neither blank nor in a comment.
fn skip_blanks(text: &[u8], from: usize) -> usize {
    let mut at = from;
    loop {
        match text.get(at) {
            Some(b' ' | b'\t' | b'\r' | b'\n') => at += 1,
            Some(b'#') => {
                let line = text[at..].iter().position(|&byte| byte == b'\n');
                at = line.map_or(text.len(), |length| at + length);
            }
            _ => return at,
        }
    }
}

/// The token that begins at or behind `from`, blanks and comments aside; 8 at its
/// first byte if there is none.
pub fn token_at(text: &[u8], from: usize) -> Result<Placed, Refusal> {
    let start = skip_blanks(text, from);
    let Some(&byte) = text.get(start) else {
        return Ok(Placed { token: Token::End, start, end: start });
    };
    let followed = text.get(start + 1) == Some(&b'=');
    let (token, length) = match byte {
        b'A'..=b'Z' | b'a'..=b'z' => word_or_name(&text[start..]).ok_or(Refusal::at(8, start))?,
        b'1' => (Token::One, 1),
        b'2' => (Token::Two, 1),
        b':' if followed => (Token::Becomes, 2),
        b'!' if followed => (Token::Unequal, 2),
        b'!' => (Token::Not, 1),
        b'=' => (Token::Equal, 1),
        b';' => (Token::Semicolon, 1),
        b',' => (Token::Comma, 1),
        b'(' => (Token::Open, 1),
        b')' => (Token::Close, 1),
        b'{' => (Token::OpenBrace, 1),
        b'}' => (Token::CloseBrace, 1),
        b'/' => (Token::Slash, 1),
        _ => return Err(Refusal::at(8, start)),
    };
    Ok(Placed { token, start, end: start + length })
}

/// The word or name that the text begins with, and its length; none if the run
/// of letters, digits and `_` is longer than a name.
fn word_or_name(text: &[u8]) -> Option<(Token, usize)> {
    let in_name = |byte: &&u8| byte.is_ascii_alphanumeric() || **byte == b'_';
    let run: String = text.iter().take_while(in_name).map(|&byte| char::from(byte)).collect();
    let length = run.len();
    if length > MAX_NAME {
        return None;
    }
    let word = WORDS.iter().find(|(spelling, _)| is_same_name(spelling, &run));
    Some((word.map_or(Token::Name(run), |(_, word)| Token::Word(*word)), length))
}
