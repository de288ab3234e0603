//! The certificates that calls are timed on.

use super::rival::Rival;
use crate::samples;
use crate::sides::state_bytes;
use second::certificate::Entry;
use second::conditions::read_sound;
use second::{Certificate, State};

/// An accepted certificate, and a state that holds it, in mode 0.
pub struct Sample {
    pub name: &'static str,
    pub bytes: Vec<u8>,
    pub state: Vec<u8>,
    certificate: Certificate,
}

/// Which of the listed cells a query or a poll asks for.
#[derive(Clone, Copy, Debug, PartialEq, Eq)]
pub enum Asked {
    First,
    Last,
}

/// The scale of the queues: the middle of an interval is a whole number over it.
pub const SCALE: u32 = 2;

impl Sample {
    pub fn named(name: &str) -> Result<Sample, String> {
        let (name, bytes) = match name {
            "L" => ("L", samples::listed()),
            "typical" => ("typical", samples::typical()),
            "largest" => ("largest", samples::largest()),
            "worst" => ("worst", samples::worst()),
            "typical H2" => ("typical H2", samples::h2::typical()),
            "largest H2" => ("largest H2", samples::h2::largest()),
            "typical H3" => ("typical H3", samples::h3::typical()),
            "largest H3" => ("largest H3", samples::h3::largest()),
            _ => return Err(format!("{name}: no such certificate")),
        };
        let certificate = read_sound(&bytes).map_err(|refusal| format!("{name}: {refusal:?}"))?;
        Ok(Sample {
            name,
            state: state_bytes(&Sample::held(&bytes)),
            bytes,
            certificate,
        })
    }

    fn held(bytes: &[u8]) -> State {
        State::by_hand(bytes, bytes.len(), 0)
    }

    /// The second checker's state.
    pub fn second_state(&self) -> State {
        Sample::held(&self.bytes)
    }

    /// The certificate that it is compared with.
    pub fn rival(&self) -> Result<Rival, String> {
        let none = || format!("{}: no certificate to compare it with", self.name);
        Rival::of(&self.certificate).ok_or_else(none)
    }

    /// Queues over `SCALE` in the middle of the first or last cell that is listed for mode 0.
    pub fn queues(&self, asked: Asked) -> Vec<u32> {
        let mut listed = self.certificate.entries.iter();
        let is_held = |entry: &&Entry| entry.mode == 0;
        let entry = match asked {
            Asked::First => listed.find(is_held),
            Asked::Last => listed.rfind(is_held),
        };
        let mut cell = entry.map_or(0, |entry| usize::from(entry.cell));
        let links = self.certificate.links.iter().zip(&self.certificate.cuts);
        let mut queues = Vec::new();
        for (link, cuts) in links.rev() {
            let interval = cell % (cuts.len() + 1);
            cell /= cuts.len() + 1;
            let lower = match interval {
                0 => 0,
                _ => cuts[interval - 1],
            };
            let upper = *cuts.get(interval).unwrap_or(&link.cap);
            queues.push(u32::from(lower) + u32::from(upper));
        }
        queues.reverse();
        queues
    }

    /// The same queues as a poll: one detector of a link gives its queue, the other half of it.
    pub fn poll(&self, asked: Asked) -> Vec<u8> {
        let mut poll = Vec::new();
        for queue in self.queues(asked) {
            let queue = f64::from(queue) / f64::from(SCALE);
            for reading in [queue, queue / 2.0] {
                poll.push(0);
                poll.extend(reading.to_be_bytes());
            }
        }
        poll
    }
}
