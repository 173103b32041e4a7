//! A monitor made for speed: the window of document 01 kept in masks and carried
//! from letter to letter. The benchmarks set it beside the proved monitor, and the
//! tests hold it to the definitions.

use crate::oracle::letter::{Header, Letter};
use crate::oracle::monitor::Judgement;
use crate::oracle::refusal::Refusal;

/// Eight held classes, and one that an application has just made.
const SLOTS: usize = 9;
/// The slots rounded up, so that places are found by shifts.
const STRIDE: usize = 16;
/// The result of a computed application that no register holds.
const LOST: u8 = 15;

/// A window's six parts by the names of classes, in bytes: equal exactly if the
/// windows are.
pub type Key = [u8; 8 + 8 + 256 + 2];

/// The held classes in slots, and what is known of them.
#[derive(Clone)]
pub struct FastMonitor {
    header: Header,
    /// The slot of each register's class.
    slot: [u8; 8],
    /// The number of registers in each slot's class.
    size: [u8; STRIDE],
    /// The number of slots with registers.
    classes: u8,
    /// By function and first argument the second arguments, as a mask, for which
    /// the application was computed. One argument is taken twice.
    computed: [[u16; STRIDE]; 4],
    /// The result's slot, or `LOST`, where the application was computed.
    result: [[[u8; STRIDE]; STRIDE]; 4],
    /// For each slot the arguments of held applications whose result it is.
    below: [u16; STRIDE],
    /// For each slot the other arguments of applications that it is an argument of.
    beside: [u16; STRIDE],
    /// For each slot those that an unequal test has joined with it.
    unequal: [u16; STRIDE],
    /// Slots that have above them an application with something not held.
    marked: u16,
    infeasible: bool,
}

impl FastMonitor {
    /// The monitor before the first letter.
    pub fn start(header: Header) -> FastMonitor {
        let mut size = [0; STRIDE];
        size[..usize::from(header.registers)].fill(1);
        FastMonitor {
            header,
            slot: [0, 1, 2, 3, 4, 5, 6, 7],
            size,
            classes: header.registers,
            computed: [[0; STRIDE]; 4],
            result: [[[LOST; STRIDE]; STRIDE]; 4],
            below: [0; STRIDE],
            beside: [0; STRIDE],
            unequal: [0; STRIDE],
            marked: 0,
            infeasible: false,
        }
    }

    /// Is the trace so far infeasible?
    pub fn is_infeasible(&self) -> bool {
        self.infeasible
    }

    /// Are the values of these registers known to be equal?
    pub fn known_equal(&self, first: u8, second: u8) -> bool {
        self.slot_of(first) == self.slot_of(second)
    }

    /// Are the values of these registers known to be unequal?
    pub fn known_unequal(&self, first: u8, second: u8) -> bool {
        self.unequal[self.slot_of(first)] & (1 << self.slot_of(second)) != 0
    }

    /// The number of held classes, which is kept from letter to letter.
    pub fn classes(&self) -> usize {
        usize::from(self.classes)
    }

    /// The number of held classes, counted anew.
    pub fn counted_classes(&self) -> usize {
        self.size.iter().filter(|&&size| size > 0).count()
    }

    /// Is there an application to held classes that was never computed?
    pub fn has_new_application(&self) -> bool {
        let held =
            self.slot[..usize::from(self.header.registers)].iter().fold(0, |held, slot| held | 1 << slot);
        let new = |f: usize, a: usize| {
            let arguments: u16 = if self.header.binary[f] { held } else { 1 << a };
            arguments & !self.computed[f][a] != 0
        };
        bits(held).any(|a| (0..usize::from(self.header.functions)).any(|f| new(f, a)))
    }

    /// The window by the names of classes, their lowest-numbered registers.
    pub fn key(&self) -> Key {
        let registers = usize::from(self.header.registers);
        let name = self.names();
        let mut key = [0; 8 + 8 + 256 + 2];
        for register in 0..registers {
            key[register] = name[usize::from(self.slot[register])];
        }
        for a in (0..SLOTS).filter(|&a| name[a] != LOST) {
            for b in bits(self.unequal[a]) {
                key[8 + usize::from(name[a])] |= 1 << name[b];
            }
            for f in 0..4 {
                for b in bits(self.computed[f][a]) {
                    let result = usize::from(self.result[f][a][b]);
                    key[16 + 64 * f + 8 * usize::from(name[a]) + usize::from(name[b])] = 1 + name[result];
                }
            }
            key[272] |= ((self.marked >> a & 1) as u8) << name[a];
        }
        key[273] = u8::from(self.infeasible);
        key
    }

    /// For each slot with registers the lowest-numbered one, which names its class; else `LOST`.
    fn names(&self) -> [u8; STRIDE] {
        let mut name = [LOST; STRIDE];
        for register in (0..self.header.registers).rev() {
            name[self.slot_of(register)] = register;
        }
        name
    }

    /// The unequal pairs as one word: bit 8a + b is set if a and b name classes that are unequal.
    pub fn unequal_word(&self) -> u64 {
        let name = self.names();
        let mut word = 0;
        for a in 0..SLOTS {
            let mut others = self.unequal[a];
            while others != 0 {
                let b = others.trailing_zeros() as usize & 15;
                others &= others - 1;
                word |= 1 << (8 * name[a] + name[b]);
            }
        }
        word
    }

    /// Would this letter be coherent?
    pub fn judge(&self, letter: &Letter) -> bool {
        match *letter {
            Letter::Copy { .. } | Letter::Unequal { .. } => true,
            Letter::Apply { function, first, second, .. } => {
                let (a, b) = (self.slot_of(first), self.slot_of(second.unwrap_or(first)));
                let f = usize::from(function & 3);
                self.computed[f][a] & (1 << b) == 0 || self.result[f][a][b] != LOST
            }
            Letter::Equal { first, second } => self.may_equate(self.slot_of(first), self.slot_of(second)),
        }
    }

    /// Performs a letter; false if it is incoherent.
    pub fn perform(&mut self, letter: &Letter) -> bool {
        match *letter {
            Letter::Copy { target, source } => {
                self.move_register(target, self.slot_of(source));
                true
            }
            Letter::Apply { target, function, first, second } => {
                self.apply(target, function, first, second.unwrap_or(first))
            }
            Letter::Equal { first, second } => self.equate(first, second),
            Letter::Unequal { first, second } => {
                self.part(self.slot_of(first), self.slot_of(second));
                true
            }
        }
    }

    fn slot_of(&self, register: u8) -> usize {
        usize::from(self.slot[usize::from(register & 7)] & 15)
    }

    /// Puts a register into a class; its old class is dropped if it was the last.
    fn move_register(&mut self, register: u8, to: usize) {
        let from = self.slot_of(register);
        if from == to {
            return;
        }
        self.slot[usize::from(register & 7)] = to as u8;
        self.classes += u8::from(self.size[to] == 0);
        self.size[to] += 1;
        self.size[from] -= 1;
        if self.size[from] == 0 {
            self.classes -= 1;
            self.drop_class(from);
        }
    }

    fn apply(&mut self, target: u8, function: u8, first: u8, second: u8) -> bool {
        let (f, a, b) = (usize::from(function & 3), self.slot_of(first), self.slot_of(second));
        if self.computed[f][a] & (1 << b) != 0 {
            let result = self.result[f][a][b];
            if result == LOST {
                return false;
            }
            self.move_register(target, usize::from(result));
            return true;
        }
        let new = self.free_slot();
        self.record(f, a, b, new);
        self.move_register(target, new);
        true
    }

    /// A slot with no register. There is one more slot than registers.
    fn free_slot(&self) -> usize {
        self.size[..SLOTS].iter().position(|&size| size == 0).unwrap_or(0)
    }

    /// Enters an application to held classes with a held result.
    fn record(&mut self, f: usize, a: usize, b: usize, result: usize) {
        self.computed[f][a] |= 1 << b;
        self.result[f][a][b] = result as u8;
        self.below[result] |= 1 << a | 1 << b;
        self.beside[a] |= 1 << b;
        self.beside[b] |= 1 << a;
    }

    /// Forgets a class that no register holds any more. What it was a result of or
    /// an argument with is marked, and all that lies below.
    fn drop_class(&mut self, class: usize) {
        let keep = !(1u16 << class);
        self.mark((self.below[class] | self.beside[class]) & keep);
        if self.below[class] != 0 {
            self.lose_results(class);
        }
        self.below[class] = 0;
        self.beside[class] = 0;
        self.unequal[class] = 0;
        for f in 0..4 {
            self.computed[f][class] = 0;
            self.computed[f].iter_mut().for_each(|mask| *mask &= keep);
        }
        self.below.iter_mut().for_each(|mask| *mask &= keep);
        self.beside.iter_mut().for_each(|mask| *mask &= keep);
        self.unequal.iter_mut().for_each(|mask| *mask &= keep);
        self.marked &= keep;
    }

    /// Marks these classes and all below them.
    fn mark(&mut self, classes: u16) {
        let mut new = classes & !self.marked;
        while new != 0 {
            let class = new.trailing_zeros() as usize;
            self.marked |= 1 << class;
            new = (new | self.below[class & 15]) & !self.marked;
        }
    }

    /// Makes the results that this class held lost ones.
    fn lose_results(&mut self, class: usize) {
        let functions = usize::from(self.header.functions);
        let mut arguments = self.below[class];
        while arguments != 0 {
            let a = arguments.trailing_zeros() as usize & 15;
            arguments &= arguments - 1;
            for f in 0..functions {
                for result in &mut self.result[f][a] {
                    *result = if *result == class as u8 { LOST } else { *result };
                }
            }
        }
    }

    /// Notes that two classes are unequal.
    fn part(&mut self, a: usize, b: usize) {
        if a == b {
            self.make_infeasible();
        } else if !self.infeasible {
            self.unequal[a] |= 1 << b;
            self.unequal[b] |= 1 << a;
        }
    }

    fn make_infeasible(&mut self) {
        self.infeasible = true;
        self.unequal = [0; STRIDE];
    }

    /// Is an equal test of these classes coherent? One class may be tested against itself whatever lies above it.
    fn may_equate(&self, a: usize, b: usize) -> bool {
        a == b || self.marked & (1 << a | 1 << b) == 0
    }

    /// Performs an equal test; false if it is incoherent.
    fn equate(&mut self, first: u8, second: u8) -> bool {
        let (a, b) = (self.slot_of(first), self.slot_of(second));
        if !self.may_equate(a, b) {
            return false;
        }
        if a != b {
            self.merge_all(a, b);
        }
        true
    }

    /// Merges two classes and all that become congruent.
    fn merge_all(&mut self, a: usize, b: usize) {
        let mut name: [u8; STRIDE] = std::array::from_fn(|slot| slot as u8);
        let mut todo = Todo([0; STRIDE]);
        todo.add(a as u8, b as u8);
        while let Some((a, b)) = todo.take() {
            let (a, b) = (find(&name, a), find(&name, b));
            if a != b {
                name[b] = a as u8;
                self.merge(a, b, &mut todo);
            }
        }
    }

    /// Renames one class to the other everywhere; results that collide are still to
    /// be merged.
    fn merge(&mut self, to: usize, from: usize, todo: &mut Todo) {
        for slot in &mut self.slot {
            *slot = if *slot == from as u8 { to as u8 } else { *slot };
        }
        self.size[to] += self.size[from];
        self.size[from] = 0;
        self.classes -= 1;
        for mask in [&mut self.below, &mut self.beside, &mut self.unequal] {
            mask[to] |= mask[from];
            mask[from] = 0;
            mask.iter_mut().for_each(|m| *m = renamed(*m, to, from));
        }
        self.marked = renamed(self.marked, to, from);
        if self.unequal[to] & (1 << to) != 0 {
            self.make_infeasible();
        }
        for f in 0..usize::from(self.header.functions) {
            self.merge_function(f, to, from, todo);
        }
    }

    fn merge_function(&mut self, f: usize, to: usize, from: usize, todo: &mut Todo) {
        for result in self.result[f].as_flattened_mut() {
            *result = if *result == from as u8 { to as u8 } else { *result };
        }
        let bit = 1u16 << from;
        for a in 0..SLOTS {
            let mut moved = self.computed[f][a] & if a == from { u16::MAX } else { bit };
            self.computed[f][a] &= !moved;
            while moved != 0 {
                let b = moved.trailing_zeros() as usize & 15;
                moved &= moved - 1;
                let (new_a, new_b) = (if a == from { to } else { a }, if b == from { to } else { b });
                let result = self.result[f][a][b];
                if self.computed[f][new_a] & (1 << new_b) == 0 {
                    self.computed[f][new_a] |= 1 << new_b;
                    self.result[f][new_a][new_b] = result;
                } else if self.result[f][new_a][new_b] != result {
                    todo.add(self.result[f][new_a][new_b], result);
                }
            }
        }
    }
}

/// The places of the bits that are set.
fn bits(mask: u16) -> impl Iterator<Item = usize> {
    (0..STRIDE).filter(move |&place| mask >> place & 1 == 1)
}

/// Pairs of slots that are still to be merged: for each slot a mask of others.
struct Todo([u16; STRIDE]);

impl Todo {
    fn add(&mut self, a: u8, b: u8) {
        self.0[usize::from(a & 15)] |= 1 << (b & 15);
    }

    fn take(&mut self) -> Option<(u8, u8)> {
        let a = self.0.iter().position(|&mask| mask != 0)?;
        let b = self.0[a].trailing_zeros();
        self.0[a] &= self.0[a] - 1;
        Some((a as u8, b as u8))
    }
}

/// The slot that a merged one is called by now.
fn find(name: &[u8; STRIDE], slot: u8) -> usize {
    let mut at = usize::from(slot & 15);
    while usize::from(name[at]) != at {
        at = usize::from(name[at] & 15);
    }
    at
}

/// A mask in which one slot's bit stands for the other's too.
fn renamed(mask: u16, to: usize, from: usize) -> u16 {
    let bit = (mask >> from) & 1;
    (mask & !(1 << from)) | (bit << to)
}

/// The monitor's run over a packed trace, with its refusals.
pub fn fast_monitor(bytes: &[u8]) -> Result<Judgement, Refusal> {
    let (words, rest) = bytes.as_chunks::<2>();
    let Some((first, letters)) = words.split_first() else { return Err(Refusal::plain(1)) };
    if !rest.is_empty() {
        return Err(Refusal::plain(2));
    }
    let header = Header::unpack(u16::from_be_bytes(*first)).ok_or(Refusal::plain(3))?;
    let mut monitor = FastMonitor::start(header);
    let mut judgement = Judgement::default();
    for (index, word) in letters.iter().enumerate() {
        let letter = Letter::unpack(u16::from_be_bytes(*word), &header).ok_or(Refusal::at(4, index + 1))?;
        if judgement.incoherent.is_some() {
            continue;
        }
        if !monitor.perform(&letter) {
            judgement.incoherent = Some(index + 1);
        } else if monitor.is_infeasible() && judgement.infeasible.is_none() {
            judgement.infeasible = Some(index + 1);
        }
    }
    Ok(judgement)
}
