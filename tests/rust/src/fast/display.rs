//! What a display shows, by the monitor made for speed, for long traces.

use super::monitor::FastMonitor;
use crate::oracle::display::{Reading, Said};
use crate::oracle::refusal::Refusal;
use crate::oracle::trace::read_trace;

/// What is shown of a packed trace, the header alone first.
pub fn fast_display(bytes: &[u8]) -> Result<Vec<Reading>, Refusal> {
    let trace = read_trace(bytes, None)?;
    let mut monitor = FastMonitor::start(trace.header);
    let mut readings = vec![reading(&monitor, Said::Fresh)];
    let mut said = Said::Coherent;
    for letter in &trace.letters {
        if said == Said::Coherent && !monitor.perform(letter) {
            said = Said::Incoherent;
        }
        readings.push(reading(&monitor, said));
    }
    Ok(readings)
}

fn reading(monitor: &FastMonitor, said: Said) -> Reading {
    Reading { said, classes: monitor.classes(), unequal: monitor.unequal_word() }
}
