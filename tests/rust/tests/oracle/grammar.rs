//! The reader's refusals against a second grammar, with tokens of its own.

use fadzgime_tests::generators::damaged_macros::damaged_text;
use fadzgime_tests::generators::random::{Random, cases};
use fadzgime_tests::oracle::reader::read_macro;
use fadzgime_tests::oracle::refusal::Refusal;

/// The letters one by one, capitals first, so that no range and no fold is the oracle's.
const LETTERS: &[u8; 52] = b"ABCDEFGHIJKLMNOPQRSTUVWXYZabcdefghijklmnopqrstuvwxyz";

/// What else a name may hold behind its first byte.
const INNER: &[u8; 11] = b"0123456789_";

const WORDS: [&str; 11] =
    ["vars", "funs", "tests", "skip", "assume", "assert", "if", "else", "while", "result", "truth"];

/// Tokens that are neither names nor words; `!=` is looked for before `!`.
const SIGNS: [&str; 13] = ["1", "2", ":=", "=", "!=", "!", ";", ",", "(", ")", "{", "}", "/"];

/// A token in one spelling, `name` for a name and `end` for the end of the text, with its
/// first byte and the byte behind it.
type Spelt = (&'static str, usize, usize);

/// The first byte that is neither blank nor in a comment.
fn behind_blanks(text: &[u8], from: usize) -> usize {
    let mut comment = false;
    let begins = |byte: &u8| {
        comment = (comment || *byte == b'#') && *byte != b'\n';
        !comment && !b" \t\r\n".contains(byte)
    };
    text[from..].iter().position(begins).map_or(text.len(), |length| from + length)
}

/// The next token; 8 if there is none.
fn next_token(text: &[u8], from: usize) -> Result<Spelt, Refusal> {
    let start = behind_blanks(text, from);
    let rest = &text[start..];
    let Some(first) = rest.first() else { return Ok(("end", start, start)) };
    let none = Refusal::at(8, start);
    if LETTERS.contains(first) {
        let length = rest.iter().take_while(|byte| LETTERS.contains(byte) || INNER.contains(byte)).count();
        return if length > 8 {
            Err(none)
        } else {
            Ok((word_or_name(&rest[..length]), start, start + length))
        };
    }
    let sign = SIGNS.into_iter().find(|sign| rest.starts_with(sign.as_bytes())).ok_or(none)?;
    Ok((sign, start, start + sign.len()))
}

/// The word that is spelt so, whatever the case of its letters; else it is a name.
fn word_or_name(run: &[u8]) -> &'static str {
    let small = |byte: &u8| match LETTERS[..26].iter().position(|capital| capital == byte) {
        Some(place) => LETTERS[26 + place],
        None => *byte,
    };
    let lowered: Vec<u8> = run.iter().map(small).collect();
    WORDS.into_iter().find(|word| word.as_bytes() == lowered).unwrap_or("name")
}

/// The kinds of tokens that may come next by the grammar alone, kept as a stack of
/// what is still due: a second way to find 8 and 9.
#[derive(Clone, Copy, Debug, PartialEq)]
enum Due {
    Exactly(&'static str),
    Name,
    MoreNames,
    MoreEntries,
    Arity,
    Perhaps(&'static str),
    Statements { inner: bool },
    Value,
    AfterValue,
    MoreArguments,
    Condition,
    AfterName,
    PerhapsElse,
    End,
}

/// What is due in place of the top of the stack if this token comes, and whether
/// the token is used up; none if it does not fit.
fn fits(due: Due, token: &str) -> Option<(Vec<Due>, bool)> {
    use Due::{AfterName, AfterValue, Condition, Statements, Value};
    use Due::{Arity, End, Exactly, MoreArguments, MoreEntries, MoreNames, Name, Perhaps, PerhapsElse};
    let used = |dues: Vec<Due>| Some((dues, true));
    match (due, token) {
        (Exactly(spelt), _) if spelt == token => used(vec![]),
        (Name, "name") => used(vec![]),
        (MoreNames, "name") => used(vec![MoreNames]),
        (MoreNames | MoreEntries, ";") => used(vec![]),
        (MoreEntries, "name") => used(vec![Exactly("/"), Arity, MoreEntries]),
        (Arity, "1" | "2") => used(vec![]),
        (Perhaps(word), _) if word == token => used(vec![Name, Exactly("/"), Arity, MoreEntries]),
        (PerhapsElse, "else") => used(vec![Exactly("{"), Statements { inner: true }, Exactly("}")]),
        (Perhaps(_) | PerhapsElse, _) => Some((vec![], false)),
        (Statements { inner: true }, "}") | (Statements { inner: false }, "end") => Some((vec![], false)),
        (Statements { .. }, "skip") => used(vec![Exactly(";"), due]),
        (Statements { .. }, "name") => used(vec![Exactly(":="), Value, due]),
        (Statements { .. }, "assume" | "assert") => used(vec![Condition, Exactly(";"), due]),
        (Statements { .. }, "if" | "while") => {
            let mut dues = vec![Condition, Exactly("{"), Statements { inner: true }, Exactly("}")];
            dues.extend((token == "if").then_some(PerhapsElse));
            dues.push(due);
            used(dues)
        }
        (Value, "name") => used(vec![AfterValue]),
        (AfterValue, ";") => used(vec![]),
        (AfterValue, "(") => used(vec![Name, MoreArguments, Exactly(";")]),
        (MoreArguments, ")") => used(vec![]),
        (MoreArguments, ",") => used(vec![Name, Exactly(")")]),
        (Condition, "name") => used(vec![AfterName]),
        (Condition, "!") => used(vec![Name, Exactly("("), Name, MoreArguments]),
        (AfterName, "=" | "!=") => used(vec![Name]),
        (AfterName, "(") => used(vec![Name, MoreArguments]),
        (End, "end") => used(vec![]),
        _ => None,
    }
}

/// The first 8 or 9 of a text, by the stack.
fn first_misfit(text: &[u8]) -> Option<Refusal> {
    use Due::{End, Exactly, MoreNames, Name, Perhaps, Statements};
    let (functions, tests) = (Perhaps("funs"), Perhaps("tests"));
    let mut stack =
        vec![End, Statements { inner: false }, tests, functions, MoreNames, Name, Exactly("vars")];
    let mut at = 0;
    while !stack.is_empty() {
        let (token, start, end) = match next_token(text, at) {
            Ok(spelt) => spelt,
            Err(refusal) => return Some(refusal),
        };
        let mut used = false;
        while !used {
            let Some((dues, consumed)) = stack.pop().and_then(|due| fits(due, token)) else {
                return Some(Refusal::at(9, start));
            };
            stack.extend(dues.into_iter().rev());
            used = consumed;
        }
        at = end;
    }
    None
}

/// The reader's 8 or 9 is the first misfit of the grammar; 10 to 12 and 16 stand no later
/// than it, and never at one place with it; 13 needs that there is none.
#[test]
fn refusals_against_the_grammar() {
    for seed in 0..cases(30_000) {
        let text = damaged_text(&mut Random::new(seed));
        let shown = String::from_utf8_lossy(&text).to_string();
        match (read_macro(&text), first_misfit(&text)) {
            (Ok(_), misfit) => assert_eq!(misfit, None, "{shown}"),
            (Err(Refusal { number: 7, .. }), _) => assert!(text.len() > 4096),
            (Err(Refusal { number: 13, .. }), misfit) => assert_eq!(misfit, None, "{shown}"),
            (Err(refusal), Some(misfit)) if refusal.number > 9 => {
                assert!(refusal.place < misfit.place, "{shown}")
            }
            (Err(refusal), None) => assert!(refusal.number > 9, "{shown}"),
            (Err(refusal), Some(misfit)) => assert_eq!(refusal, misfit, "{shown}"),
        }
    }
}
