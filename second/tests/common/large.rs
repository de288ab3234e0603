//! Large certificates.

use super::{bytes, header_of};
use second::certificate::Kind;

/// How many intervals each link has, and what comes of it.
pub struct Large {
    pub counts: [u16; 8],
    pub modes: usize,
    /// The rank of a cell in a mode; none if it is not listed.
    pub rank: fn(usize, usize) -> Option<u16>,
}

impl Large {
    /// Eight links between two junctions, 32 turns, 16 signals and 8 arrival boxes, with amounts as great as they may
    /// be; at most 4,096 entries.
    pub fn bytes(&self) -> Vec<u8> {
        let signal = |cell: usize, mode: usize| (cell * 5 + mode) % 16;
        bytes(&(network() + &self.policy(signal)))
    }

    /// The same as H2. Mode m remembers signal 2 × m + 1; an entry has the signal that its next mode remembers.
    pub fn start_bytes(&self) -> Vec<u8> {
        self.remembering(Kind::H2, |_| String::new())
    }

    /// The same as H3. Mode m has goal m, whose amounts are those of LK; ranks above 0 ask for a single mode.
    pub fn goal_bytes(&self) -> Vec<u8> {
        let goals = " 10000".repeat(8);
        self.remembering(Kind::H3, |mode| format!(" goal {mode} goals{goals}"))
    }

    /// As a kind that has start flows; `goal` tells what follows in the line of a mode.
    fn remembering(&self, kind: Kind, goal: impl Fn(usize) -> String) -> Vec<u8> {
        let remembered = |mode: usize| 2 * mode + 1;
        let mut text = header_of(kind);
        text += &network().replace("goal 10000\n", "goal 10000 start 500\n");
        for mode in 0..self.modes {
            text += &format!("mode signal {}{}\n", remembered(mode), goal(mode));
        }
        let signal = |_, mode: usize| remembered((mode + 1) % self.modes);
        bytes(&(text + &self.policy(signal)))
    }

    /// Grid, arrival boxes, entries and end; `signal` tells an entry's by cell and mode.
    fn policy(&self, signal: impl Fn(usize, usize) -> usize) -> String {
        let mut text = String::new();
        for count in self.counts {
            let cuts: Vec<String> = (1..count)
                .map(|i| (u32::from(i) * 10_000 / u32::from(count)).to_string())
                .collect();
            text += &format!("grid {}\n", cuts.join(" "));
        }
        text += &format!("arrivals{}\n", " 0-10000".repeat(8)).repeat(8);
        let cells = self
            .counts
            .iter()
            .map(|&count| usize::from(count))
            .product();
        let pairs = (0..cells).flat_map(|cell| (0..self.modes).map(move |mode| (cell, mode)));
        let listed = pairs.filter_map(|(cell, mode)| Some((cell, mode, (self.rank)(cell, mode)?)));
        for (cell, mode, rank) in listed.take(4_096) {
            let (signal, next) = (signal(cell, mode), (mode + 1) % self.modes);
            text +=
                &format!("entry cell {cell} mode {mode} signal {signal} next {next} rank {rank}\n");
        }
        text + "end\n"
    }
}

fn network() -> String {
    let mut text = String::new();
    for link in 0..8 {
        let (tail, head) = (1 + link % 2, 2 - link % 2);
        text +=
            &format!("link tail {tail} head {head} cap 10000 flow 1000 safe 10000 goal 10000\n");
    }
    for from in 0..8 {
        for to in (0..8).filter(|to| (from + to) % 2 == 1) {
            text += &format!("turn from {from} to {to} share 25 pull 100\n");
        }
    }
    for signal in 0..16 {
        text += &format!("signal byte {:02X}\n", (signal * 37 + 219) % 256);
    }
    text
}
