//! Capitals in macro texts: how a writer types the letters of names and words.

use super::random::Random;

/// How a writer types letters.
#[derive(Clone, Copy, Debug, PartialEq, Eq)]
pub enum Habit {
    /// As they stand.
    AsIs,
    /// `cap`
    Lower,
    /// `Cap`
    First,
    /// `CAP`
    Upper,
    /// Each letter either way: `cAP`.
    Mixed,
}

const HABITS: [Habit; 5] = [Habit::AsIs, Habit::Lower, Habit::First, Habit::Upper, Habit::Mixed];

impl Habit {
    /// One of the five.
    pub fn any(random: &mut Random) -> Habit {
        *random.pick(&HABITS)
    }

    /// One of the five, but every second writer changes nothing.
    pub fn some(random: &mut Random) -> Habit {
        if random.once_in(2) { Habit::AsIs } else { Habit::any(random) }
    }

    /// Types the letters of a text so.
    pub fn type_text(self, random: &mut Random, text: &mut [u8]) {
        let mut inside = false;
        for byte in text {
            let capital = match self {
                Habit::AsIs => byte.is_ascii_uppercase(),
                Habit::Lower => false,
                Habit::First => !inside,
                Habit::Upper => true,
                Habit::Mixed => random.once_in(2),
            };
            inside = byte.is_ascii_alphanumeric() || *byte == b'_';
            *byte = if capital { byte.to_ascii_uppercase() } else { byte.to_ascii_lowercase() };
        }
    }

    /// A name or a word, typed so.
    pub fn typed(self, random: &mut Random, word: &str) -> String {
        let mut bytes = word.as_bytes().to_vec();
        self.type_text(random, &mut bytes);
        String::from_utf8(bytes).expect("the case of letters alone was changed")
    }
}

/// Is there a capital outside the comments?
pub fn has_capitals(text: &[u8]) -> bool {
    let code = |line: &[u8]| line.iter().take_while(|&&byte| byte != b'#').any(u8::is_ascii_uppercase);
    text.split(|&byte| byte == b'\n').any(code)
}
