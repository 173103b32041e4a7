//! Data models, and the one that the whole-trace engine shows
//! (document 01, "The shown model").

use super::closure::Term;
use super::letter::{Header, Letter};
use super::monitor::{first_infeasible, read_for_engine};
use super::refusal::Refusal;
use super::state::State;
use super::trace::Trace;

/// One listed entry of a function's table.
#[derive(Clone, Copy, Debug, PartialEq, Eq)]
pub struct Row {
    /// The function.
    pub function: u8,
    /// The first argument's value.
    pub first: u16,
    /// The second argument's value, if there is one.
    pub second: Option<u16>,
    /// The result's value.
    pub result: u16,
}

/// A finite data model: value 0 is the result for every argument not listed.
#[derive(Clone, Debug, PartialEq, Eq)]
pub struct Model {
    /// The number of values, which are 0, 1, .. below it.
    pub values: u16,
    /// The initial value of each register.
    pub starts: Vec<u16>,
    /// The listed entries.
    pub rows: Vec<Row>,
}

/// What the whole-trace engine answers.
#[derive(Clone, Debug, PartialEq, Eq)]
pub enum Shown {
    /// The first letter at which the trace is infeasible.
    Infeasible(usize),
    /// The model of a feasible trace.
    Feasible(Model),
}

impl Model {
    /// The shown model of a trace: classes of computed terms get values 1, 2, ..
    /// by first computed term; one row for each distinct application.
    pub fn of(trace: &Trace) -> Model {
        let state = State::after_all(trace.header, &trace.letters);
        let value = numbering(&state);
        let mut rows: Vec<Row> = Vec::new();
        for (id, term) in state.terms.iter().enumerate() {
            let Term::Application { function, first, second } = *term else { continue };
            let (first, second) = (value[first], second.map(|s| value[s]));
            let listed =
                rows.iter().any(|row| (row.function, row.first, row.second) == (function, first, second));
            if !listed {
                rows.push(Row { function, first, second, result: value[id] });
            }
        }
        let starts = value[..usize::from(trace.header.registers)].to_vec();
        let values = value.iter().max().map_or(1, |most| most + 1);
        Model { values, starts, rows }
    }

    /// A function's result in this model.
    pub fn apply(&self, function: u8, first: u16, second: Option<u16>) -> u16 {
        let row = |row: &&Row| (row.function, row.first, row.second) == (function, first, second);
        self.rows.iter().find(row).map_or(0, |row| row.result)
    }

    /// The number of the first letter whose test is false when the trace is
    /// performed in this model, if there is one.
    pub fn first_false_test(&self, letters: &[Letter]) -> Option<usize> {
        let mut values = self.starts.clone();
        for (index, letter) in letters.iter().enumerate() {
            let value = |register: u8| values[usize::from(register)];
            match *letter {
                Letter::Copy { target, source } => values[usize::from(target)] = value(source),
                Letter::Apply { target, function, first, second } => {
                    let result = self.apply(function, value(first), second.map(value));
                    values[usize::from(target)] = result;
                }
                Letter::Equal { first, second } if value(first) != value(second) => return Some(index + 1),
                Letter::Unequal { first, second } if value(first) == value(second) => return Some(index + 1),
                Letter::Equal { .. } | Letter::Unequal { .. } => {}
            }
        }
        None
    }

    /// Is this a model for the header: a value below the count everywhere, rows
    /// of the functions' arities, no row twice?
    pub fn is_well_formed(&self, header: &Header) -> bool {
        let known = |value: u16| value < self.values;
        let key = |row: &Row| (row.function, row.first, row.second);
        let fits = |row: &Row| {
            row.function < header.functions
                && row.second.is_some() == (header.arity(row.function) == 2)
                && known(row.first)
                && row.second.is_none_or(known)
                && known(row.result)
        };
        self.starts.len() == usize::from(header.registers)
            && self.starts.iter().all(|&start| known(start))
            && self.rows.iter().all(fits)
            && (1..self.rows.len()).all(|i| self.rows[..i].iter().all(|row| key(row) != key(&self.rows[i])))
    }

    /// "Packed: count of values 16 bits, count of rows 16, each initial value 16,
    /// then rows of 40 bits: function 2, argument 11, argument 11 (0 for one
    /// argument), result 11, spare 5."
    pub fn pack(&self) -> Vec<u8> {
        let mut bytes = Vec::new();
        bytes.extend(self.values.to_be_bytes());
        bytes.extend((self.rows.len() as u16).to_be_bytes());
        for start in &self.starts {
            bytes.extend(start.to_be_bytes());
        }
        for row in &self.rows {
            let mut word = u64::from(row.function);
            for field in [row.first, row.second.unwrap_or(0), row.result] {
                word = (word << 11) | u64::from(field);
            }
            bytes.extend(&(word << 5).to_be_bytes()[3..]);
        }
        bytes
    }
}

/// The value of each computed term under the closure of the whole trace.
fn numbering(state: &State) -> Vec<u16> {
    let mut values: Vec<u16> = Vec::new();
    let mut next = 1;
    for term in 0..state.terms.len() {
        let class = state.closure.class(term);
        if class == term {
            values.push(next);
            next += 1;
        } else {
            values.push(values[class]);
        }
    }
    values
}

/// The whole-trace engine over a packed trace and an output of this many bytes.
pub fn show_model(bytes: &[u8], room: usize) -> Result<Shown, Refusal> {
    let trace = read_for_engine(bytes)?;
    if let Some(number) = first_infeasible(&trace) {
        return Ok(Shown::Infeasible(number));
    }
    let model = Model::of(&trace);
    if model.pack().len() > room { Err(Refusal::plain(6)) } else { Ok(Shown::Feasible(model)) }
}
