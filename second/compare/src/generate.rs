//! Random certificates and calls.

mod arrivals;
pub mod bytes;
mod calls;
mod damage;
mod entries;
mod game;
mod goals;
mod grid;
mod network;
mod policy;
mod polls;
mod solve;
mod starts;

pub use calls::{any_query, any_state, any_write, Query};
pub use damage::damaged;
pub use entries::{spoilt, Beside, Name, Order, Way};
pub use goals::{to_h3, without_goals};
pub use policy::find_policy;
pub use polls::any_poll;
pub use starts::{to_h2, to_hd};

use crate::numbers::Numbers;
use second::certificate::{Certificate, Kind};

/// Networks that are tried until a policy is found; goals in turn are met by fewer of them.
const TRIES: usize = 6;
const TRIES_IN_TURN: usize = 16;

/// How large a certificate may become.
#[derive(Clone, Copy, Debug, PartialEq, Eq)]
pub enum Size {
    /// Tens to hundreds of entries.
    Small,
    /// Up to 4,096 entries on few links.
    Large,
}

/// A certificate that is to be accepted; most have ranks above 0.
pub fn certificate(numbers: &mut Numbers, size: Size, kind: Kind) -> Certificate {
    let tries = if kind.has_goals() {
        TRIES_IN_TURN
    } else {
        TRIES
    };
    for _ in 0..tries {
        let mut drawn = roads(numbers, size, kind);
        match policy::add_policy(&mut drawn, numbers) {
            Some(0) if numbers.chance(80) => (),
            Some(_) => return drawn,
            None => (),
        }
    }
    let mut drawn = roads(numbers, size, kind);
    for link in &mut drawn.links {
        link.safe = link.cap;
        link.goal = link.cap;
    }
    drawn.kind = match kind {
        // Its goals are those of the links in every mode.
        Kind::H3 => Kind::H2,
        kind => kind,
    };
    policy::add_policy(&mut drawn, numbers);
    if kind == Kind::H3 {
        goals::to_h3(&mut drawn, numbers);
    }
    drawn
}

/// All but modes and entries.
fn roads(numbers: &mut Numbers, size: Size, kind: Kind) -> Certificate {
    let mut drawn = network::network(numbers, size);
    drawn.kind = kind;
    if kind.has_starts() {
        starts::add_signals(&mut drawn, numbers);
        starts::add_starts(&mut drawn, numbers);
    }
    grid::add_grid(&mut drawn, numbers, size);
    arrivals::add_arrivals(&mut drawn, numbers);
    drawn
}
