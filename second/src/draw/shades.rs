//! Shades of ranks.

use super::slice::Slice;
use crate::certificate::{Certificate, Entry};

/// Rank 0, and the ends of the shades of the others.
const GOAL: [u32; 3] = [0xEE, 0xF6, 0xEC];
const LIGHT: [u32; 3] = [0xDD, 0xE9, 0xF3];
const DARK: [u32; 3] = [0x7F, 0xA6, 0xC8];

/// The ranks that are drawn, each once and ascending.
pub struct Shades {
    pub ranks: Vec<u16>,
}

impl Shades {
    pub fn of(certificate: &Certificate, slice: &Slice) -> Shades {
        let drawn = |entry: &&Entry| slice.place(entry.cell.into()).is_some();
        let entries = certificate.entries.iter().filter(drawn);
        let mut ranks: Vec<u16> = entries.map(|entry| entry.rank).collect();
        ranks.sort_unstable();
        ranks.dedup();
        Shades { ranks }
    }

    /// The fill of a rank: the higher, the darker, by its place among the ranks drawn.
    pub fn fill(&self, rank: u16) -> String {
        if rank == 0 {
            return hexadecimal(GOAL);
        }
        let others = self.ranks.iter().filter(|&&other| other > 0);
        let last = (others.clone().count() as u32).saturating_sub(1).max(1);
        let lower = others.filter(|&&other| other < rank).count() as u32;
        let place = lower.min(last);
        let mut colour = [0; 3];
        for (i, part) in colour.iter_mut().enumerate() {
            *part = (LIGHT[i] * (last - place) + DARK[i] * place) / last;
        }
        hexadecimal(colour)
    }
}

fn hexadecimal([red, green, blue]: [u32; 3]) -> String {
    format!("#{red:02x}{green:02x}{blue:02x}")
}
