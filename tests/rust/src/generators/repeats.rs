//! Letters that test what is already equal when something above it was lost, for traces and macros.

use super::random::Random;
use crate::oracle::letter::{Header, Letter};
use crate::oracle::state::State;

/// How two sides come to be equal.
#[derive(Clone, Copy, Debug, PartialEq, Eq)]
pub enum Way {
    /// They are one register.
    Register,
    /// They hold one term, as a copy leaves it.
    Copy,
    /// By equal tests alone.
    Test,
    /// Because equal arguments give equal results.
    Congruence,
}

const WAYS: [Way; 4] = [Way::Register, Way::Copy, Way::Test, Way::Congruence];

impl Way {
    /// How these registers, whose values are equal, come to be so: the first way that suffices.
    pub fn of(state: &State, first: u8, second: u8) -> Way {
        let (a, b) = (state.value(first), state.value(second));
        if first == second {
            Way::Register
        } else if a == b {
            Way::Copy
        } else if joined(&state.equalities, a, b) {
            Way::Test
        } else {
            Way::Congruence
        }
    }

    /// The way in words.
    pub fn name(self) -> &'static str {
        match self {
            Way::Register => "one register",
            Way::Copy => "by a copy",
            Way::Test => "by tests",
            Way::Congruence => "by congruence",
        }
    }
}

/// Do these pairs alone lead from one place to the other?
fn joined(pairs: &[(usize, usize)], from: usize, to: usize) -> bool {
    let mut reached = vec![from];
    let mut next = 0;
    while next < reached.len() {
        for &(a, b) in pairs {
            for (near, far) in [(a, b), (b, a)] {
                if near == reached[next] && !reached.contains(&far) {
                    reached.push(far);
                }
            }
        }
        next += 1;
    }
    reached.contains(&to)
}

/// A test of what is already equal, with what leads to it and what follows it.
pub struct Repeat {
    /// The letters before the test: they make its sides equal, and lose something above them.
    pub before: Vec<Letter>,
    /// The sides.
    pub sides: [u8; 2],
    /// A letter behind it, which the window forbids or allows as if the test were not there.
    pub behind: Option<Letter>,
}

/// A random one. Where there are few registers they stand for each other, and it may come to something else.
pub fn random_repeat(random: &mut Random, header: &Header) -> Repeat {
    let mut maker = Maker::new(random, header);
    let [x, y, u, v] = [0, 1, 2, 3].map(|place| maker.register(place));
    let way = *maker.random.pick(&WAYS);
    let (mut before, sides) = match way {
        Way::Register => (vec![], [x, x]),
        Way::Copy => (vec![], [x, y]),
        Way::Test => (vec![Letter::Equal { first: x, second: y }], [x, y]),
        Way::Congruence => (maker.congruence([u, v], [x, y]), [u, v]),
    };
    let lost = maker.random.below(2);
    let target = maker.register(match way {
        Way::Register | Way::Copy => 1,
        Way::Test => 2,
        Way::Congruence => 4,
    });
    let lossy = maker.lose(target, if way == Way::Copy { x } else { sides[lost] });
    before.extend(&lossy);
    if way == Way::Copy {
        before.push(Letter::Copy { target: y, source: x });
    }
    let behind = maker.follow(sides, lossy.first());
    Repeat { before, sides, behind }
}

/// Makes letters of registers in a random order.
struct Maker<'a> {
    random: &'a mut Random,
    header: &'a Header,
    order: Vec<u8>,
}

impl<'a> Maker<'a> {
    fn new(random: &'a mut Random, header: &'a Header) -> Maker<'a> {
        let mut order: Vec<u8> = (0..header.registers).collect();
        for place in (1..order.len()).rev() {
            order.swap(place, random.below(place + 1));
        }
        Maker { random, header, order }
    }

    fn register(&self, place: usize) -> u8 {
        self.order[place % self.order.len()]
    }

    fn any(&mut self) -> u8 {
        self.random.byte_below(self.header.registers)
    }

    /// An application of some function, the register among its arguments; none without functions.
    fn application(&mut self, target: u8, argument: u8) -> Option<Letter> {
        let function = self.random.below(usize::from(self.header.functions).max(1)) as u8;
        let (other, behind) = (self.any(), self.random.once_in(2));
        let (first, second) = match (self.header.arity(function) == 2, behind) {
            (false, _) => (argument, None),
            (true, false) => (argument, Some(other)),
            (true, true) => (other, Some(argument)),
        };
        (self.header.functions > 0).then_some(Letter::Apply { target, function, first, second })
    }

    /// One application to each of two registers, the other argument alike, then the test of these registers.
    fn congruence(&mut self, [u, v]: [u8; 2], [x, y]: [u8; 2]) -> Vec<Letter> {
        let test = Letter::Equal { first: x, second: y };
        let Some(Letter::Apply { function, first, second, .. }) = self.application(u, x) else {
            return vec![test];
        };
        let swap = |register: u8| if register == x { y } else { register };
        let twin = Letter::Apply { target: v, function, first: swap(first), second: second.map(swap) };
        vec![Letter::Apply { target: u, function, first, second }, twin, test]
    }

    /// An application to a register, perhaps one to its result, and a copy that overwrites the result or an argument.
    fn lose(&mut self, target: u8, argument: u8) -> Vec<Letter> {
        let mut letters: Vec<Letter> = self.application(target, argument).into_iter().collect();
        if self.random.once_in(4) {
            letters.extend(self.application(target, target));
        }
        let mut overwritten = target;
        if let Some(&Letter::Apply { first, second: Some(second), .. }) = letters.first()
            && self.random.once_in(2)
        {
            overwritten = if first == argument { second } else { first };
        }
        letters.push(Letter::Copy { target: overwritten, source: self.any() });
        letters
    }

    /// What may follow the test: a test of the class against another, what was lost computed again, an unequal test.
    fn follow(&mut self, sides: [u8; 2], lost: Option<&Letter>) -> Option<Letter> {
        let (side, other) = (*self.random.pick(&sides), self.any());
        match self.random.below(6) {
            0 | 1 => Some(Letter::Equal { first: side, second: other }),
            2 => lost.copied(),
            3 => Some(Letter::Unequal { first: sides[0], second: sides[1] }),
            4 => Some(Letter::Unequal { first: other, second: side }),
            _ => None,
        }
    }
}
