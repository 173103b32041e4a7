//! The search for a verdict made for speed: windows carried along by the fast
//! monitor, executions kept as links to the pair before. The benchmarks set it
//! beside the proved search, and the tests hold it to the definitions.

use std::collections::HashSet;

use super::monitor::{FastMonitor, Key};
use crate::oracle::execution::{Onward, Points};
use crate::oracle::letter::Letter;
use crate::oracle::refusal::Refusal;
use crate::oracle::syntax::Macro;
use crate::oracle::verdict::{Event, Verdict};

/// A pair, and the pair and letter from which it was first reached.
struct Pair {
    point: usize,
    window: FastMonitor,
    from: Option<(usize, Letter)>,
}

/// The pairs in order of their first executions.
struct Pairs {
    list: Vec<Pair>,
    seen: HashSet<(usize, Key)>,
    most: usize,
}

impl Pairs {
    /// Lists a pair unless it is known; 14 if there are too many.
    fn add(&mut self, pair: Pair) -> Result<(), Refusal> {
        if self.seen.insert((pair.point, pair.window.key())) {
            self.list.push(pair);
        }
        if self.list.len() > self.most { Err(Refusal::plain(14)) } else { Ok(()) }
    }

    /// The first execution of a pair and one more letter.
    fn execution(&self, pair: usize, last: Letter) -> Vec<Letter> {
        let mut letters = vec![last];
        let mut at = pair;
        while let Some((before, letter)) = self.list[at].from {
            letters.push(letter);
            at = before;
        }
        letters.reverse();
        letters
    }
}

/// The verdict with at most so many pairs before the first event.
pub fn fast_search(read: &Macro, most: usize) -> Result<Verdict, Refusal> {
    let points = Points::of(&read.statements);
    let mut pairs = Pairs { list: vec![], seen: HashSet::new(), most };
    if let Some(point) = points.first {
        pairs.add(Pair { point, window: FastMonitor::start(read.header()), from: None })?;
    }
    let mut at = 0;
    while at < pairs.list.len() {
        for (letter, onward) in points.branches(pairs.list[at].point) {
            let mut window = pairs.list[at].window.clone();
            let coherent = window.perform(&letter);
            let event: Option<fn(Vec<Letter>) -> Event> = match &onward {
                _ if !coherent => Some(Event::Incoherent),
                Onward::Failure if !window.is_infeasible() => Some(Event::Fail),
                _ => None,
            };
            if let Some(event) = event {
                let event = Some(event(pairs.execution(at, letter)));
                return Ok(Verdict { event, pairs: pairs.list.len() });
            }
            if let Onward::To(Some(point)) = onward {
                pairs.add(Pair { point, window, from: Some((at, letter)) })?;
            }
        }
        at += 1;
    }
    Ok(Verdict { event: None, pairs: pairs.list.len() })
}
