//! The ways in which entries are spoilt, and the refusal that each is due.

use crate::generate::goals::greatest;
use second::Certificate;

/// A name in an entry.
#[derive(Clone, Copy, Debug, PartialEq, Eq)]
pub enum Name {
    Cell,
    Mode,
    Signal,
    Next,
}

/// How the pair of an entry comes not to be above the one before.
#[derive(Clone, Copy, Debug, PartialEq, Eq)]
pub enum Order {
    /// The two entries are swapped.
    Swapped,
    /// The pairs are equal.
    Repeated,
    /// The cell is the same and the mode lower.
    LowerMode,
    /// The cell is lower and the mode higher; equal pairs where there is no such cell or mode.
    LowerCell,
}

/// How entries are spoilt.
#[derive(Clone, Copy, Debug, PartialEq, Eq)]
pub enum Way {
    /// A name has its least missing value.
    Missing(Name),
    OutOfOrder(Order),
    /// Out of order, with a missing name in the same entry.
    Both(Order),
    /// Out of order, with a missing name in a later entry.
    Then(Order),
    /// But in HD certificates: the next mode of an entry remembers another signal.
    Forgotten(Beside),
    /// Where there is more than one goal number: the next mode of an entry has another one than its rank asks for.
    OutOfTurn(Beside),
    /// Both in the same entry.
    ForgottenOutOfTurn,
    /// The first in an entry, and the second in a later one.
    ForgottenThen,
    /// The second in an entry, and the first in a later one.
    OutOfTurnThen,
}

/// What else is wrong where a next mode remembers another signal or has another goal number.
#[derive(Clone, Copy, Debug, PartialEq, Eq)]
pub enum Beside {
    Nothing,
    /// The same entry has a missing cell or mode.
    Missing(Name),
    /// The same entry is out of order.
    Same(Order),
    /// A later entry is out of order.
    Later(Order),
    /// An earlier entry is out of order.
    Earlier(Order),
}

impl Order {
    const ALL: [Order; 4] = [
        Order::Swapped,
        Order::Repeated,
        Order::LowerMode,
        Order::LowerCell,
    ];
}

impl Way {
    /// The ways that there are in a certificate.
    pub fn all(certificate: &Certificate) -> Vec<Way> {
        let names = [Name::Cell, Name::Mode, Name::Signal, Name::Next];
        let mut ways: Vec<Way> = names.map(Way::Missing).to_vec();
        for with in [Way::OutOfOrder, Way::Both, Way::Then] {
            ways.extend(Order::ALL.map(with));
        }
        if certificate.kind.has_starts() {
            ways.extend(Beside::all().into_iter().map(Way::Forgotten));
        }
        if greatest(certificate) > 0 {
            ways.extend(Beside::all().into_iter().map(Way::OutOfTurn));
            ways.extend([
                Way::ForgottenOutOfTurn,
                Way::ForgottenThen,
                Way::OutOfTurnThen,
            ]);
        }
        ways
    }

    /// The refusal that is due.
    pub fn number(self) -> u32 {
        match self {
            Way::Missing(_) | Way::Both(_) => 9,
            Way::OutOfOrder(_) | Way::Then(_) => 22,
            Way::Forgotten(beside) => beside.number(23),
            Way::OutOfTurn(beside) => beside.number(24),
            Way::ForgottenOutOfTurn | Way::ForgottenThen => 23,
            Way::OutOfTurnThen => 24,
        }
    }
}

impl Beside {
    /// The refusal that is due, where it would be this one with nothing beside it.
    fn number(self, alone: u32) -> u32 {
        match self {
            Beside::Missing(_) => 9,
            Beside::Same(_) | Beside::Earlier(_) => 22,
            Beside::Nothing | Beside::Later(_) => alone,
        }
    }

    pub fn all() -> Vec<Beside> {
        let mut all = vec![Beside::Nothing];
        all.extend([Name::Cell, Name::Mode].map(Beside::Missing));
        for with in [Beside::Same, Beside::Later, Beside::Earlier] {
            all.extend(Order::ALL.map(with));
        }
        all
    }
}
