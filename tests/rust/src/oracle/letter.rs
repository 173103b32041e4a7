//! Headers and letters, and the sixteen bits that hold each of them
//! (document 01, "Letters and their packing").

/// "Registers: 1 to 8."
pub const MAX_REGISTERS: u8 = 8;
/// "Functions: 0 to 4."
pub const MAX_FUNCTIONS: u8 = 4;

/// Bits of the header's fields: registers, functions, four arity bits, spare.
const HEADER_WIDTHS: [u32; 7] = [4, 3, 1, 1, 1, 1, 5];
/// Bits of a letter's fields: kind, function, target, first, second, spare.
const LETTER_WIDTHS: [u32; 6] = [2, 2, 3, 3, 3, 3];

const COPY: u8 = 0;
const APPLICATION: u8 = 1;
const EQUAL: u8 = 2;
const UNEQUAL: u8 = 3;

/// The counts and arities under which letters are read.
#[derive(Clone, Copy, Debug, PartialEq, Eq, Hash)]
pub struct Header {
    /// The number of registers.
    pub registers: u8,
    /// The number of functions.
    pub functions: u8,
    /// Whether a function takes two arguments; false beyond the count.
    pub binary: [bool; 4],
}

/// One step of an execution (the paper's Definition 1).
#[derive(Clone, Copy, Debug, PartialEq, Eq, Hash)]
pub enum Letter {
    /// `target := source`
    Copy {
        /// The register that is set.
        target: u8,
        /// The register that is read.
        source: u8,
    },
    /// `target := function(first)` or `target := function(first,second)`
    Apply {
        /// The register that is set.
        target: u8,
        /// The function that is applied.
        function: u8,
        /// The first argument's register.
        first: u8,
        /// The second argument's register, if the function takes two.
        second: Option<u8>,
    },
    /// `assume first = second`
    Equal {
        /// The left side.
        first: u8,
        /// The right side.
        second: u8,
    },
    /// `assume first != second`
    Unequal {
        /// The left side.
        first: u8,
        /// The right side.
        second: u8,
    },
}

/// Cuts a word into fields of these widths, most significant bit first.
fn cut<const N: usize>(word: u16, widths: [u32; N]) -> [u8; N] {
    let mut left = 16;
    widths.map(|width| {
        left -= width;
        ((word >> left) & ((1 << width) - 1)) as u8
    })
}

/// Joins fields of these widths to a word, most significant bit first.
fn join<const N: usize>(fields: [u8; N], widths: [u32; N]) -> u16 {
    let mut word = 0u16;
    for (field, width) in fields.into_iter().zip(widths) {
        word = (word << width) | u16::from(field);
    }
    word
}

impl Header {
    /// A header with these counts, its functions of one argument unless listed.
    pub fn new(registers: u8, arities: &[u8]) -> Header {
        let mut binary = [false; 4];
        for (bit, arity) in binary.iter_mut().zip(arities) {
            *bit = *arity == 2;
        }
        Header { registers, functions: arities.len() as u8, binary }
    }

    /// Question 3: counts in range, no arity beyond the count of functions.
    pub fn is_well_formed(&self) -> bool {
        (1..=MAX_REGISTERS).contains(&self.registers)
            && self.functions <= MAX_FUNCTIONS
            && (self.functions..MAX_FUNCTIONS).all(|f| !self.binary[usize::from(f)])
    }

    /// The header in a word, unless question 3 is answered with no.
    pub fn unpack(word: u16) -> Option<Header> {
        let [registers, functions, b0, b1, b2, b3, spare] = cut(word, HEADER_WIDTHS);
        let binary = [b0, b1, b2, b3].map(|bit| bit == 1);
        let header = Header { registers, functions, binary };
        (spare == 0 && header.is_well_formed()).then_some(header)
    }

    /// The word of a well-formed header.
    pub fn pack(&self) -> u16 {
        let [b0, b1, b2, b3] = self.binary.map(u8::from);
        join([self.registers, self.functions, b0, b1, b2, b3, 0], HEADER_WIDTHS)
    }

    /// The number of arguments of a function.
    pub fn arity(&self, function: u8) -> usize {
        1 + usize::from(self.binary[usize::from(function)])
    }
}

impl Letter {
    /// Question 4 for a letter outside its packing: registers and functions lie
    /// below the header's counts, and an application has its function's arity.
    pub fn is_well_formed(&self, header: &Header) -> bool {
        let known = |register: u8| register < header.registers;
        match *self {
            Letter::Copy { target, source } => known(target) && known(source),
            Letter::Apply { target, function, first, second } => {
                function < header.functions
                    && known(target)
                    && known(first)
                    && second.is_none_or(known)
                    && second.is_some() == (header.arity(function) == 2)
            }
            Letter::Equal { first, second } | Letter::Unequal { first, second } => {
                known(first) && known(second)
            }
        }
    }

    /// The letter in a word, unless question 4 is answered with no.
    pub fn unpack(word: u16, header: &Header) -> Option<Letter> {
        let [kind, function, target, first, second, spare] = cut(word, LETTER_WIDTHS);
        let (letter, unused) = match kind {
            COPY => (Letter::Copy { target, source: first }, [function, second]),
            APPLICATION if function >= header.functions => return None,
            APPLICATION if header.arity(function) == 1 => {
                (Letter::Apply { target, function, first, second: None }, [second, 0])
            }
            APPLICATION => (Letter::Apply { target, function, first, second: Some(second) }, [0; 2]),
            EQUAL => (Letter::Equal { first, second }, [function, target]),
            _ => (Letter::Unequal { first, second }, [function, target]),
        };
        (spare == 0 && unused == [0, 0] && letter.is_well_formed(header)).then_some(letter)
    }

    /// The word of a well-formed letter.
    pub fn pack(&self) -> u16 {
        let fields = match *self {
            Letter::Copy { target, source } => [COPY, 0, target, source, 0, 0],
            Letter::Apply { target, function, first, second } => {
                [APPLICATION, function, target, first, second.unwrap_or(0), 0]
            }
            Letter::Equal { first, second } => [EQUAL, 0, 0, first, second, 0],
            Letter::Unequal { first, second } => [UNEQUAL, 0, 0, first, second, 0],
        };
        join(fields, LETTER_WIDTHS)
    }
}
