//! A congruence closure made for speed: classes by union and find with lists of
//! uses, signatures in a hash table, unequal tests kept with the classes. The
//! benchmarks set it beside the proved engine, and the tests hold it to the
//! definitions.

use std::collections::HashMap;
use std::hash::{BuildHasherDefault, Hasher};

use crate::oracle::letter::Letter;
use crate::oracle::model::{Model, Row, Shown};
use crate::oracle::monitor::read_for_engine;
use crate::oracle::refusal::Refusal;
use crate::oracle::trace::Trace;

/// No term.
const NONE: u32 = u32::MAX;

/// A hash of one 64-bit word by one multiplication.
#[derive(Default)]
struct WordHasher(u64);

impl Hasher for WordHasher {
    fn finish(&self) -> u64 {
        self.0
    }

    fn write(&mut self, bytes: &[u8]) {
        bytes.iter().for_each(|&byte| self.write_u64(u64::from(byte)));
    }

    fn write_u64(&mut self, word: u64) {
        let product = (self.0 ^ word).wrapping_mul(0x9e37_79b9_7f4a_7c15);
        self.0 = product ^ (product >> 32);
    }
}

type Table = HashMap<u64, u32, BuildHasherDefault<WordHasher>>;

/// A function and two terms or classes in one word; `NONE` for no second one.
fn key(function: u8, first: u32, second: u32) -> u64 {
    u64::from(function) << 62 | u64::from(first) << 31 | u64::from(second & 0x7fff_ffff)
}

/// Terms, classes and tests of a trace so far.
struct FastClosure {
    /// Function, first and second argument of each term; `NONE` for a constant.
    term: Vec<(u8, u32, u32)>,
    /// The term of each application to terms.
    known: Table,
    /// The representative of each term's class.
    class: Vec<u32>,
    /// The terms of each representative's class.
    members: Vec<Vec<u32>>,
    /// The applications that each representative's class is an argument of.
    uses: Vec<Vec<u32>>,
    /// The other sides of unequal tests on each representative's class.
    unequal: Vec<Vec<u32>>,
    /// A term of each signature.
    signatures: Table,
    clash: bool,
}

impl FastClosure {
    fn start(registers: u8) -> FastClosure {
        let mut closure = FastClosure {
            term: vec![],
            known: Table::default(),
            class: vec![],
            members: vec![],
            uses: vec![],
            unequal: vec![],
            signatures: Table::default(),
            clash: false,
        };
        for _ in 0..registers {
            closure.push((0, NONE, NONE));
        }
        closure
    }

    fn push(&mut self, term: (u8, u32, u32)) -> u32 {
        let id = self.term.len() as u32;
        self.term.push(term);
        self.class.push(id);
        self.members.push(vec![id]);
        self.uses.push(vec![]);
        self.unequal.push(vec![]);
        id
    }

    fn class_of(&self, term: u32) -> u32 {
        if term == NONE { NONE } else { self.class[term as usize] }
    }

    fn signature(&self, term: u32) -> u64 {
        let (function, first, second) = self.term[term as usize];
        key(function, self.class_of(first), self.class_of(second))
    }

    /// The term of an application, computed now if it was not before.
    fn apply(&mut self, function: u8, first: u32, second: u32) -> u32 {
        if let Some(&known) = self.known.get(&key(function, first, second)) {
            return known;
        }
        let id = self.push((function, first, second));
        self.known.insert(key(function, first, second), id);
        let signature = self.signature(id);
        match self.signatures.get(&signature) {
            Some(&other) => self.equate(id, other),
            None => drop(self.signatures.insert(signature, id)),
        }
        for argument in [first, second] {
            if argument != NONE {
                let class = self.class_of(argument) as usize;
                self.uses[class].push(id);
            }
        }
        id
    }

    /// Merges the classes of two terms and all that become congruent.
    fn equate(&mut self, a: u32, b: u32) {
        let mut todo = vec![(a, b)];
        while let Some((a, b)) = todo.pop() {
            let (a, b) = (self.class_of(a) as usize, self.class_of(b) as usize);
            if a != b {
                let larger =
                    self.members[a].len() + self.uses[a].len() >= self.members[b].len() + self.uses[b].len();
                let (to, from) = if larger { (a, b) } else { (b, a) };
                self.merge(to, from, &mut todo);
            }
        }
    }

    fn merge(&mut self, to: usize, from: usize, todo: &mut Vec<(u32, u32)>) {
        let members = std::mem::take(&mut self.members[from]);
        for &member in &members {
            self.class[member as usize] = to as u32;
        }
        self.members[to].extend(members);
        let unequal = std::mem::take(&mut self.unequal[from]);
        self.clash |= unequal.iter().any(|&other| self.class_of(other) as usize == to);
        self.unequal[to].extend(unequal);
        let uses = std::mem::take(&mut self.uses[from]);
        for &application in &uses {
            let signature = self.signature(application);
            match self.signatures.get(&signature) {
                Some(&other) => todo.push((application, other)),
                None => drop(self.signatures.insert(signature, application)),
            }
        }
        self.uses[to].extend(uses);
    }

    fn part(&mut self, a: u32, b: u32) {
        let (a_class, b_class) = (self.class_of(a), self.class_of(b));
        self.clash |= a_class == b_class;
        self.unequal[a_class as usize].push(b);
        self.unequal[b_class as usize].push(a);
    }

    /// The shown model of what was performed.
    fn model(&self, registers: u8) -> Model {
        let mut values = vec![0u16; self.term.len()];
        let mut number = vec![0u16; self.term.len()];
        let mut count = 0;
        for (term, value) in values.iter_mut().enumerate() {
            let class = self.class[term] as usize;
            if number[class] == 0 {
                count += 1;
                number[class] = count;
            }
            *value = number[class];
        }
        let mut listed = Table::default();
        let mut rows = Vec::new();
        for (id, &(function, first, second)) in self.term.iter().enumerate() {
            if first != NONE && listed.insert(self.signature(id as u32), 0).is_none() {
                let second = (second != NONE).then(|| values[second as usize]);
                rows.push(Row { function, first: values[first as usize], second, result: values[id] });
            }
        }
        Model { values: count + 1, starts: values[..usize::from(registers)].to_vec(), rows }
    }
}

/// The first infeasible letter of a trace, or its shown model.
pub fn fast_shown(trace: &Trace) -> Shown {
    let registers = trace.header.registers;
    let mut closure = FastClosure::start(registers);
    let mut values: Vec<u32> = (0..u32::from(registers)).collect();
    for (index, letter) in trace.letters.iter().enumerate() {
        let value = |register: u8| values[usize::from(register)];
        match *letter {
            Letter::Copy { target, source } => values[usize::from(target)] = value(source),
            Letter::Apply { target, function, first, second } => {
                let term = closure.apply(function, value(first), second.map_or(NONE, value));
                values[usize::from(target)] = term;
            }
            Letter::Equal { first, second } => closure.equate(value(first), value(second)),
            Letter::Unequal { first, second } => closure.part(value(first), value(second)),
        }
        if closure.clash {
            return Shown::Infeasible(index + 1);
        }
    }
    Shown::Feasible(closure.model(registers))
}

/// The whole-trace engine over a packed trace and an output of this many bytes.
pub fn fast_show_model(bytes: &[u8], room: usize) -> Result<Shown, Refusal> {
    let shown = fast_shown(&read_for_engine(bytes)?);
    match &shown {
        Shown::Feasible(model) if model.pack().len() > room => Err(Refusal::plain(6)),
        _ => Ok(shown),
    }
}
