//! The cabinet's view of a certificate: queries and polls are answered from it, and nothing in it is a rank.

use crate::certificate::Link;
use crate::conditions::read_sound;
use crate::reading::cabinet_entries;

/// What an EN record tells the cabinet. It tells the bench the rank as well: `certificate::Entry`.
#[derive(Clone, Debug, PartialEq, Eq)]
pub struct CabinetEntry {
    pub cell: u16,
    pub mode: u8,
    pub signal: u8,
    pub next: u8,
}

/// What the cabinet needs: links and cuts to find a cell, entries and signals to show one.
#[derive(Clone, Debug, PartialEq, Eq)]
pub struct Cabinet {
    pub links: Vec<Link>,
    /// The green byte of each signal.
    pub signals: Vec<u8>,
    /// The cuts of each link.
    pub cuts: Vec<Vec<u16>>,
    pub entries: Vec<CabinetEntry>,
}

impl Cabinet {
    /// None unless the bytes pass every test before 12. That test reads ranks, as 24 needs them; the entries here are
    /// read once more without.
    pub fn of(bytes: &[u8]) -> Option<Cabinet> {
        let tested = read_sound(bytes).ok()?;
        Some(Cabinet {
            entries: cabinet_entries(bytes, tested.entries.len())?,
            links: tested.links,
            signals: tested.signals,
            cuts: tested.cuts,
        })
    }

    /// The entry of a cell in a mode.
    pub fn entry(&self, cell: usize, mode: u8) -> Option<&CabinetEntry> {
        let mut entries = self.entries.iter();
        entries.find(|entry| usize::from(entry.cell) == cell && entry.mode == mode)
    }
}
