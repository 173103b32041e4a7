//! Macro texts with one thing wrong, for every refusal of the reader.

use super::capitals::Habit;
use super::damaged_tests::damaged_tests;
use super::macros::{DEEPEST, lay_out, macro_text, nested_macro, random_macro, random_name, tokens};
use super::random::Random;

/// Tokens to put where they do not belong, and some that are none.
const STRAY: [&str; 54] = [
    "vars",
    "funs",
    "skip",
    "assume",
    "assert",
    "if",
    "else",
    "while",
    "1",
    "2",
    ":=",
    "=",
    "!=",
    ";",
    ",",
    "(",
    ")",
    "{",
    "}",
    "/",
    "zz",
    "a",
    "x",
    "3",
    "0",
    ":",
    "!",
    "==",
    "A",
    "_",
    "abcdefghi",
    "assertion",
    "<",
    "\u{e9}",
    "VARS",
    "If",
    "eLSE",
    "WHILE",
    "Zz",
    "abcdefgHi",
    "ASSERTION",
    "[",
    "]",
    "@",
    "`",
    "\x11",
    "\x12",
    "\x1d",
    "tests",
    "result",
    "truth",
    "TESTS",
    "Result",
    "tRUTH",
];

/// Bytes to put where they do not belong.
const BYTES: &[u8] =
    b"abz019_ABZ:=!;,(){}/# \t\r\n\x00\x0b\x0c\x11\x12\x1d\x7f\x80\xc1\xff+-*<>\"'&|.[]@`\\^";

/// The bit that parts capitals from small letters, and `[` from `{`, byte 17 from `1`.
const CASE_BIT: u8 = 0x20;

/// A text that is refused for the most part, of a macro with few points.
pub fn damaged_text(random: &mut Random) -> Vec<u8> {
    match random.below(15) {
        0..=4 => damaged_tokens(random),
        5..=7 => damaged_bytes(random),
        8..=10 => damaged_tests(random),
        11 => many_names(random),
        12 => deep(random),
        13 => many_points(random),
        _ => long_text(random),
    }
}

/// One or two tokens taken away, put in, doubled, replaced, swapped or lengthened.
fn damaged_tokens(random: &mut Random) -> Vec<u8> {
    let read = random_macro(random, 8);
    let mut tokens = tokens(random, &read);
    for _ in 0..1 + random.below(2) {
        let place = random.below(tokens.len());
        match random.below(7) {
            0 => drop(tokens.remove(place)),
            1 => tokens.insert(place, random.pick(&STRAY).to_string()),
            2 => {
                let twice = Habit::some(random).typed(random, &tokens[place]);
                tokens.insert(place, twice);
            }
            3 => tokens[place] = random.pick(&STRAY).to_string(),
            4 => {
                let other = random.below(tokens.len());
                tokens.swap(place, other);
            }
            5 => lengthen_name(random, &mut tokens),
            _ => replace_name(random, &mut tokens),
        }
        if tokens.is_empty() {
            tokens.push("vars".to_string());
        }
    }
    lay_out(random, &tokens)
}

/// The places of names and words.
fn places_of_names(tokens: &[String]) -> Vec<usize> {
    let is_name = |token: &String| token.bytes().next().is_some_and(|byte| byte.is_ascii_alphabetic());
    (0..tokens.len()).filter(|&place| is_name(&tokens[place])).collect()
}

/// A name replaced by another one of the text, perhaps in another spelling, or by a new one.
fn replace_name(random: &mut Random, tokens: &mut [String]) {
    let names = places_of_names(tokens);
    if names.is_empty() {
        return;
    }
    let place = *random.pick(&names);
    let other = *random.pick(&names);
    let name = if random.once_in(3) { random_name(random) } else { tokens[other].clone() };
    tokens[place] = Habit::some(random).typed(random, &name);
}

/// A name that goes on to eight bytes or more.
fn lengthen_name(random: &mut Random, tokens: &mut [String]) {
    let names = places_of_names(tokens);
    if names.is_empty() {
        return;
    }
    let place = *random.pick(&names);
    let length = 8 + random.below(4);
    while tokens[place].len() < length {
        tokens[place].push(char::from(*random.pick(b"azAZ09_")));
    }
}

/// A few bytes changed, put in or taken away, or the end cut off.
fn damaged_bytes(random: &mut Random) -> Vec<u8> {
    let read = random_macro(random, 8);
    let mut text = macro_text(random, &read);
    for _ in 0..1 + random.below(2) {
        if text.is_empty() {
            break;
        }
        let place = random.below(text.len());
        match random.below(6) {
            0 => text[place] = *random.pick(BYTES),
            1 => text.insert(place, *random.pick(BYTES)),
            2 => drop(text.remove(place)),
            3 => text[place] = random.bits() as u8,
            4 => flip_bit(random, &mut text),
            _ => text.truncate(place),
        }
    }
    text
}

/// A byte becomes its neighbour by one bit, a sign most often, since the case of a letter means nothing.
fn flip_bit(random: &mut Random, text: &mut [u8]) {
    let is_sign = |byte: u8| byte.is_ascii_graphic() && !byte.is_ascii_alphabetic();
    let signs: Vec<usize> = (0..text.len()).filter(|&place| is_sign(text[place])).collect();
    let any = signs.is_empty() || random.once_in(4);
    let place = if any { random.below(text.len()) } else { *random.pick(&signs) };
    text[place] ^= if random.once_in(4) { 1 << random.below(8) } else { CASE_BIT };
}

/// Nearly too many registers, functions or tests, or a name declared twice, perhaps in two spellings.
fn many_names(random: &mut Random) -> Vec<u8> {
    let registers = 6 + random.below(4);
    let functions = 2 + random.below(4);
    let habit = Habit::some(random);
    let mut name = |kind: &str, number: usize| match random.once_in(12) {
        true => Habit::some(random).typed(random, "v1"),
        false => habit.typed(random, &format!("{kind}{number}")),
    };
    let registers: Vec<String> = (0..registers).map(|number| name("v", number)).collect();
    let functions: Vec<String> = (0..functions).map(|number| name("f", number)).collect();
    let mut text = format!("vars {};", registers.join(" "));
    let entries: Vec<String> = functions.iter().map(|f| format!("{f}/{}", 1 + random.below(2))).collect();
    let (functions, tests) = entries.split_at(random.below(entries.len() + 1));
    for (word, entries) in [("funs", functions), ("tests", tests)] {
        if !entries.is_empty() && random.once_in(2) {
            text += &format!("{word} {};", entries.join(" "));
        }
    }
    text += &Habit::some(random).typed(random, "v0 := f0(v1); assert v0 = v1;");
    text.into_bytes()
}

/// Blocks in blocks, about as deep as they may be.
fn deep(random: &mut Random) -> Vec<u8> {
    let depth = DEEPEST - 2 + random.below(5);
    if random.once_in(3) {
        let read = nested_macro(random, 60, depth, true);
        return macro_text(random, &read);
    }
    let named = random.once_in(2);
    let mut text = b"vars x y;".to_vec();
    if named {
        text.extend(b"tests hot/2;");
    }
    let mut close = Vec::new();
    for _ in 0..depth {
        let (open, end): (&[u8], &[u8]) = match random.below(if named { 5 } else { 3 }) {
            0 => (b"while x = y {", b"}"),
            1 => (b"if x != y { x := y; ", b"} else { skip; }"),
            2 => (b"if x = y {} else {", b"}"),
            3 => (b"while !hot(x,y) {", b"}"),
            _ => (b"if hot(y,y) {", b"} else { }"),
        };
        text.extend(open);
        close.push(end);
    }
    if random.once_in(4) {
        text.push(*random.pick(BYTES));
    }
    for end in close.iter().rev() {
        text.extend(*end);
    }
    Habit::some(random).type_text(random, &mut text);
    text
}

/// About as many points as there may be.
fn many_points(random: &mut Random) -> Vec<u8> {
    let mut points = 250 + random.below(14);
    let named = random.once_in(2);
    let mut text = if named { b"vars x y;tests t/1;".to_vec() } else { b"vars x y;".to_vec() };
    while points > 0 {
        let (statement, count): (&[u8], usize) = match (random.below(24), points % 2) {
            (0, _) => (b"skip;x:=y;", 1),
            (1, _) => (b"if x=y{}", 1),
            (2, _) => (b"while x=y{}", 1),
            (3, _) if named => (b"if t(x){}", 2),
            (4, _) if named => (b"while!t(y){}", 2),
            (_, 0) => (b"x:=y;", 1),
            _ => (b"assume x=x;", 1),
        };
        text.extend(statement);
        points = points.saturating_sub(count);
    }
    if random.once_in(4) {
        text.push(*random.pick(BYTES));
    }
    Habit::some(random).type_text(random, &mut text);
    text
}

/// A text of about as many bytes as there may be, blanks and a comment in front.
fn long_text(random: &mut Random) -> Vec<u8> {
    let read = random_macro(random, 4);
    let text = macro_text(random, &read);
    let length = 4094 + random.below(5);
    let mut long = vec![b' '; length.saturating_sub(text.len())];
    if long.len() > 2 && random.once_in(2) {
        long[0] = b'#';
        let last = long.len() - 1;
        long[last] = b'\n';
    }
    long.extend(text);
    long
}
