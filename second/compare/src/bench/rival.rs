//! What a certificate is compared with: one that does not differ from it before the end of the table.

use crate::fast;
use crate::generate::bytes::bytes_of;
use second::{Certificate, Comparison};

/// So many of the last entries are tried.
const LATE: usize = 16;

/// An accepted certificate, and what is said of the one that it is made from and it.
pub struct Rival {
    pub bytes: Vec<u8>,
    pub due: Comparison,
}

impl Rival {
    /// The same with a rank raised by one: that of the last entry, or of a late one where that is not accepted. A rank
    /// of 0 stands exactly in the goal and cannot be raised. Where every late rank is 0 the last entry has another
    /// signal, and the two are equal.
    pub fn of(certificate: &Certificate) -> Option<Rival> {
        let entries = certificate.entries.iter().enumerate();
        let late = entries.rev().take(LATE);
        let ranked: Vec<usize> = late
            .filter(|(_, entry)| entry.rank > 0)
            .map(|(place, _)| place)
            .collect();
        if ranked.is_empty() {
            return Some(Rival {
                bytes: with_other_signal(certificate)?,
                due: Comparison::Equal,
            });
        }
        let mut places = ranked.into_iter();
        Some(Rival {
            bytes: places.find_map(|place| with_higher_rank(certificate, place))?,
            due: Comparison::First,
        })
    }
}

/// The bytes, if they are accepted.
fn accepted(certificate: &Certificate) -> Option<Vec<u8>> {
    let bytes = bytes_of(certificate);
    fast::judge(&bytes).is_accepted().then_some(bytes)
}

/// The rank at a place raised by one.
fn with_higher_rank(certificate: &Certificate, place: usize) -> Option<Vec<u8>> {
    let mut copy = certificate.clone();
    copy.entries[place].rank = copy.entries[place].rank.checked_add(1)?;
    accepted(&copy)
}

/// Another signal in the last entry, with any next mode that may follow it.
fn with_other_signal(certificate: &Certificate) -> Option<Vec<u8>> {
    let mut copy = certificate.clone();
    let own = copy.entries.last()?.signal;
    let signals = 0..copy.signals.len() as u8;
    for signal in signals.filter(|&signal| signal != own) {
        for next in 0..copy.modes {
            let last = copy.entries.last_mut()?;
            (last.signal, last.next) = (signal, next);
            if let Some(bytes) = accepted(&copy) {
                return Some(bytes);
            }
        }
    }
    None
}
