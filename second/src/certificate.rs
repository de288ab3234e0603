//! What a certificate holds once it has been read.

/// Most links of a certificate.
pub const MOST_LINKS: usize = 8;
/// Most cells of a grid.
pub const MOST_CELLS: usize = 4_096;
/// Greatest cap, pull and arrival.
pub const MOST_AMOUNT: u16 = 10_000;

/// How a certificate opens, and with it which records it has and by which rule its links send.
#[derive(Clone, Copy, Debug, PartialEq, Eq)]
pub enum Kind {
    /// A green link sends up to its flow.
    Hd,
    /// A green link that was red before sends up to its start flow.
    H2,
    /// As H2, and the modes have goals that are to be met in turn.
    H3,
}

impl Kind {
    pub const ALL: [Kind; 3] = [Kind::Hd, Kind::H2, Kind::H3];

    /// The mark of the first record.
    pub fn mark(self) -> &'static [u8; 2] {
        match self {
            Kind::Hd => b"HD",
            Kind::H2 => b"H2",
            Kind::H3 => b"H3",
        }
    }

    /// The mark as text.
    pub fn name(self) -> &'static str {
        match self {
            Kind::Hd => "HD",
            Kind::H2 => "H2",
            Kind::H3 => "H3",
        }
    }

    /// The kind whose mark this is.
    pub fn named(name: &str) -> Option<Kind> {
        Kind::ALL.into_iter().find(|kind| kind.name() == name)
    }

    /// Do links have start flows, and modes the signal shown before?
    pub fn has_starts(self) -> bool {
        self != Kind::Hd
    }

    /// Do modes have goals of their own?
    pub fn has_goals(self) -> bool {
        self == Kind::H3
    }
}

/// A road link. Queues are in vehicles.
#[derive(Clone, Debug, PartialEq, Eq)]
pub struct Link {
    /// Junction at its start; 0 means that the link is an entry of the network.
    pub tail: u8,
    /// Junction at its end.
    pub head: u8,
    pub cap: u16,
    /// The most that leaves in a step.
    pub flow: u16,
    pub safe: u16,
    /// Not used in an H3 certificate, whose modes have goals.
    pub goal: u16,
    /// Start flow: the most that leaves in a green step after a red one. None in an HD certificate.
    pub start: Option<u16>,
}

impl Link {
    /// The most that it sends when it is green.
    pub fn limit(&self, green_before: bool) -> u16 {
        match self.start {
            Some(start) if !green_before => start,
            _ => self.flow,
        }
    }
}

/// A turn from one link into another; share and pull are in hundredths.
#[derive(Clone, Debug, PartialEq, Eq)]
pub struct Turn {
    pub from: usize,
    pub to: usize,
    pub share: u8,
    pub pull: u16,
}

/// The goal of a mode: its number in turn, and one amount a link.
#[derive(Clone, Debug, PartialEq, Eq)]
pub struct Goal {
    pub number: u8,
    pub amounts: Vec<u16>,
}

/// Arrivals of one link in one arrival box.
#[derive(Clone, Debug, PartialEq, Eq)]
pub struct Arrival {
    pub low: u16,
    pub high: u16,
}

/// What the policy does in a cell and mode, and the rank there. The cabinet sees no rank: `cabinet::CabinetEntry`.
#[derive(Clone, Debug, PartialEq, Eq)]
pub struct Entry {
    pub cell: u16,
    pub mode: u8,
    pub signal: u8,
    pub next: u8,
    pub rank: u16,
}

#[derive(Clone, Debug, PartialEq, Eq)]
pub struct Certificate {
    pub kind: Kind,
    pub links: Vec<Link>,
    pub turns: Vec<Turn>,
    /// The green byte of each signal: bit i is link i.
    pub signals: Vec<u8>,
    pub modes: u8,
    /// For each mode the signal shown before; empty in an HD certificate.
    pub memory: Vec<u8>,
    /// The goal of each mode; empty but in an H3 certificate.
    pub goals: Vec<Goal>,
    /// The cuts of each link.
    pub cuts: Vec<Vec<u16>>,
    /// Arrival boxes, each with one pair a link.
    pub arrivals: Vec<Vec<Arrival>>,
    pub entries: Vec<Entry>,
}

impl Certificate {
    /// The green bytes by which an entry is judged. An HD certificate remembers no signal, and none matters there: the
    /// entry's own stands for it.
    pub fn greens(&self, entry: &Entry) -> Greens {
        let green = |signal: u8| self.signals[usize::from(signal)];
        match self.memory.get(usize::from(entry.mode)) {
            None => Greens::same(green(entry.signal)),
            Some(&before) => Greens {
                now: green(entry.signal),
                before: green(before),
            },
        }
    }

    /// The amount that the queue of a link is not to exceed where a mode's goal is met.
    pub fn goal(&self, mode: usize, link: usize) -> u16 {
        match self.goals.get(mode) {
            None => self.links[link].goal,
            Some(goal) => goal.amounts[link],
        }
    }

    /// Do an entry's mode and next mode have the goal numbers that its rank asks for: the same above 0, and with 0 the
    /// next one, 0 after the greatest? Without goals of their own, modes always do.
    pub fn keeps_turn(&self, entry: &Entry) -> bool {
        let Some(greatest) = self.goals.iter().map(|goal| goal.number).max() else {
            return true;
        };
        let number = |mode: u8| self.goals[usize::from(mode)].number;
        let held = number(entry.mode);
        let due = match entry.rank {
            0 if held == greatest => 0,
            0 => held + 1,
            _ => held,
        };
        number(entry.next) == due
    }
}

/// The green bytes of the signal shown in a step, and of the one shown before it.
#[derive(Clone, Copy, Debug, PartialEq, Eq)]
pub struct Greens {
    pub now: u8,
    pub before: u8,
}

impl Greens {
    /// The same signal was shown before.
    pub fn same(green: u8) -> Greens {
        Greens {
            now: green,
            before: green,
        }
    }
}

/// Is this link green in this green byte?
pub fn is_green(green: u8, link: usize) -> bool {
    (green >> link) & 1 == 1
}
