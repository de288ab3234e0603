//! The game of a network: choices and successors.

use super::solve::{ByCell, Choice, Game};
use crate::fast::image::Flows;
use crate::fast::network::{Network, MOST};
use crate::fast::ranges::{Range, Steps as Ranges};
use crate::numbers::Numbers;

/// The game with so many of the modes.
pub fn game(network: &Network, numbers: &mut Numbers, modes: usize) -> Game {
    let cells = 0..network.cells;
    let safe = |cell| is_within(network, cell, |link| network.link[link].safe);
    let goal = |pair: usize| {
        let (cell, mode) = (pair / modes, pair % modes);
        is_within(network, cell, |link| network.goal(mode, link))
    };
    let choices: Vec<Vec<Choice>> = (0..modes)
        .map(|_| mode_choices(network, numbers, modes))
        .collect();
    let mut before = network.before[..modes].to_vec();
    before.sort();
    before.dedup();
    let place = |green: &u8| before.binary_search(green).unwrap_or(0);
    Game {
        cells: network.cells,
        modes,
        memory: network.before[..modes].iter().map(place).collect(),
        successors: before
            .iter()
            .map(|&green| successors(network, green, &choices))
            .collect(),
        choices,
        safe: cells.map(safe).collect(),
        goal: (0..network.cells * modes).map(goal).collect(),
        follow: [1, 0].map(|rank| (0..modes).map(|mode| follow(network, mode, rank)).collect()),
    }
}

/// The modes that may follow a mode with a rank; bit n is mode n.
fn follow(network: &Network, mode: usize, rank: u16) -> u8 {
    let modes = (0..MOST as u8).filter(|&next| network.keeps_turn(mode as u8, next, rank));
    modes.fold(0, |all, next| all | 1 << next)
}

/// Do all upper edges of a cell keep to a limit, which is told by link?
fn is_within(network: &Network, cell: usize, limit: impl Fn(usize) -> u16) -> bool {
    let intervals = network.intervals(cell);
    (0..network.links).all(|link| network.edges[link][intervals[link] + 1] <= limit(link))
}

/// All signals in a single mode; a few choices in each of several ones.
fn mode_choices(network: &Network, numbers: &mut Numbers, modes: usize) -> Vec<Choice> {
    if network.has_starts {
        return remembered_choices(network, numbers, modes);
    }
    if modes == 1 {
        return (0..network.signals as u8)
            .map(|signal| (signal, 0))
            .collect();
    }
    let count = numbers.between(1, 5);
    let choice = |_| {
        (
            numbers.below(network.signals) as u8,
            numbers.below(modes) as u8,
        )
    };
    (0..count).map(choice).collect()
}

/// Every next mode with the signal that it remembers; sometimes a few of them.
fn remembered_choices(network: &Network, numbers: &mut Numbers, modes: usize) -> Vec<Choice> {
    let choice = |next: usize| (network.memory[next], next as u8);
    let all = if network.has_goals { 95 } else { 80 };
    if numbers.chance(all) {
        return (0..modes).map(choice).collect();
    }
    let count = numbers.between(1, 3);
    (0..count).map(|_| choice(numbers.below(modes))).collect()
}

/// Successor cells after a signal of this green byte, by cell, then signal; only for signals among the choices.
fn successors(network: &Network, before: u8, choices: &[Vec<Choice>]) -> ByCell {
    let (flows, ranges) = (Flows::of(network), Ranges::of(network, &network.strides()));
    let is_chosen = |signal: usize| {
        let mut chosen = choices.iter().flatten();
        chosen.any(|&(own, _)| usize::from(own) == signal)
    };
    let chosen: Vec<bool> = (0..network.signals).map(is_chosen).collect();
    let of_signal = |cell: usize, signal: usize| {
        if !chosen[signal] {
            return Vec::new();
        }
        let ends = flows.ends(network.green[signal], before, &network.intervals(cell));
        let ranges = &ranges.ranges(&ends)[..network.boxes];
        let mut cells: Vec<u16> = ranges
            .iter()
            .flat_map(|range| range_cells(network, range))
            .collect();
        cells.sort();
        cells.dedup();
        cells
    };
    (0..network.cells)
        .map(|cell| (0..network.signals).map(|s| of_signal(cell, s)).collect())
        .collect()
}

/// The cells of a range.
fn range_cells(network: &Network, range: &Range) -> Vec<u16> {
    let strides = network.strides();
    let mut cells = vec![range.first as u16];
    for (link, &stride) in strides.iter().enumerate().take(network.links) {
        let more = (range.shape >> (4 * link) & 15) as usize;
        let ahead = |cell: u16, step: usize| cell + (step * stride) as u16;
        cells = cells
            .iter()
            .flat_map(|&cell| (0..=more).map(move |step| ahead(cell, step)))
            .collect();
    }
    cells
}
