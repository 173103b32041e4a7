//! The search for a verdict over pairs (document 01, "The search for a verdict").

use std::collections::{HashSet, VecDeque};

use super::execution::{Onward, Points};
use super::letter::Letter;
use super::model::Model;
use super::monitor::{Rule, is_coherent};
use super::reader::read_macro;
use super::refusal::Refusal;
use super::state::State;
use super::syntax::Macro;
use super::trace::Trace;
use super::window::Window;

/// "The lesser of 1,024 and the lent bytes divided by 192, rounded down."
pub const MAX_PAIRS: usize = 1024;
/// The bytes of one pair in the table.
pub const PAIR_BYTES: usize = 192;

/// What the first event is.
#[derive(Clone, Debug, PartialEq, Eq)]
pub enum Event {
    /// A feasible execution that ends at a failure.
    Fail(Vec<Letter>),
    /// A partial execution whose last letter is the first incoherent one.
    Incoherent(Vec<Letter>),
}

impl Event {
    /// The execution that is the event.
    pub fn letters(&self) -> &[Letter] {
        match self {
            Event::Fail(letters) | Event::Incoherent(letters) => letters,
        }
    }
}

/// The first event, or none, and the count of pairs.
#[derive(Clone, Debug, PartialEq, Eq)]
pub struct Verdict {
    /// The first event; pass if there is none.
    pub event: Option<Event>,
    /// The number of pairs whose first execution comes before the event.
    pub pairs: usize,
}

impl Verdict {
    /// The verdict's word: pass, fail or incoherent.
    pub fn word(&self) -> &'static str {
        match self.event {
            None => "pass",
            Some(Event::Fail(_)) => "fail",
            Some(Event::Incoherent(_)) => "incoherent",
        }
    }
}

/// The verdict with what the answer holds besides.
#[derive(Clone, Debug, PartialEq, Eq)]
pub struct Answer {
    /// The macro.
    pub read: Macro,
    /// Its verdict.
    pub verdict: Verdict,
    /// The shown model on fail.
    pub model: Option<Model>,
}

/// The number of pairs for which a table of this many bytes has room.
pub fn room_for_pairs(bytes: usize) -> usize {
    MAX_PAIRS.min(bytes / PAIR_BYTES)
}

/// A partial execution that leaves a pair.
struct Partial {
    point: usize,
    letters: Vec<Letter>,
    state: State,
}

/// Is the last of these letters an event by this rule, given the states around it and where it leads?
pub fn event_at<T>(
    rule: Rule,
    [before, after]: [&State; 2],
    letters: &[Letter],
    onward: &Onward<T>,
) -> Option<Event> {
    let last = letters.last()?;
    if !rule(before, last, after) {
        return Some(Event::Incoherent(letters.to_vec()));
    }
    let failed = matches!(onward, Onward::Failure) && after.is_feasible();
    failed.then(|| Event::Fail(letters.to_vec()))
}

/// The pairs found so far, and those whose executions are still to be extended.
struct Search {
    seen: HashSet<(usize, Window)>,
    queue: VecDeque<Partial>,
    most: usize,
}

impl Search {
    /// Lists the pair that a partial execution leaves, unless it is known.
    fn leave(&mut self, partial: Partial) -> Result<(), Refusal> {
        if self.seen.insert((partial.point, Window::of(&partial.state))) {
            self.queue.push_back(partial);
        }
        if self.seen.len() > self.most { Err(Refusal::plain(14)) } else { Ok(()) }
    }
}

/// Searches breadth first, extending the first execution of each pair; refuses by
/// 14 when there are more than this many pairs before the first event.
pub fn search(read: &Macro, most: usize) -> Result<Verdict, Refusal> {
    search_by(is_coherent, read, most)
}

/// The search where letters are judged by this rule.
pub fn search_by(rule: Rule, read: &Macro, most: usize) -> Result<Verdict, Refusal> {
    let points = Points::of(&read.statements);
    let mut search = Search { seen: HashSet::new(), queue: VecDeque::new(), most };
    if let Some(point) = points.first {
        search.leave(Partial { point, letters: vec![], state: State::start(read.header()) })?;
    }
    while let Some(partial) = search.queue.pop_front() {
        for (letter, onward) in points.branches(partial.point) {
            let state = partial.state.after(&letter);
            let mut letters = partial.letters.clone();
            letters.push(letter);
            if let Some(event) = event_at(rule, [&partial.state, &state], &letters, &onward) {
                return Ok(Verdict { event: Some(event), pairs: search.seen.len() });
            }
            if let Onward::To(Some(point)) = onward {
                search.leave(Partial { point, letters, state })?;
            }
        }
    }
    Ok(Verdict { event: None, pairs: search.seen.len() })
}

impl Answer {
    /// The answer that goes with a verdict: on fail its model too.
    pub fn of(read: Macro, verdict: Verdict) -> Answer {
        let model = match &verdict.event {
            Some(Event::Fail(letters)) => {
                Some(Model::of(&Trace { header: read.header(), letters: letters.clone() }))
            }
            _ => None,
        };
        Answer { read, verdict, model }
    }

    /// The answer's bytes: nothing on pass, else "the execution as a packed
    /// trace, on fail its model after it".
    pub fn pack(&self) -> Vec<u8> {
        let Some(event) = &self.verdict.event else { return vec![] };
        let trace = Trace { header: self.read.header(), letters: event.letters().to_vec() };
        let mut bytes = trace.pack();
        bytes.extend(self.model.iter().flat_map(Model::pack));
        bytes
    }
}

/// The verdict on a macro text with a table and an output of so many bytes.
pub fn verdict(text: &[u8], table: usize, room: usize) -> Result<Answer, Refusal> {
    let read = read_macro(text)?;
    let verdict = search(&read, room_for_pairs(table))?;
    let answer = Answer::of(read, verdict);
    if answer.pack().len() > room { Err(Refusal::plain(6)) } else { Ok(answer) }
}
