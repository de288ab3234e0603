//! A policy for a network, a grid and arrival boxes.

use super::bytes::bytes_of;
use super::game::game;
use super::goals::add_goals;
use super::solve::{Choice, Game, Steps};
use super::starts::add_memory;
use crate::fast::network::Network;
use crate::fast::reading::read;
use crate::numbers::Numbers;
use second::certificate::{Certificate, Entry, Kind};

/// Most pairs of cell and mode that are searched.
const MOST_PAIRS: usize = 4_096;

/// Adds some modes, and entries for all pairs that can be listed or for a few; tells the greatest rank.
pub fn add_policy(certificate: &mut Certificate, numbers: &mut Numbers) -> Option<u16> {
    let modes = 1 + match certificate.kind {
        Kind::Hd => numbers.weighed(&[40, 30, 15, 5, 3, 3, 2, 2]),
        Kind::H2 => numbers.weighed(&[10, 30, 25, 14, 8, 6, 4, 3]),
        Kind::H3 => numbers.weighed(&[4, 12, 18, 20, 12, 12, 8, 14]),
    };
    let cells = certificate.cuts.iter().map(|cuts| cuts.len() + 1).product();
    let modes = modes.min(most_modes(cells));
    match certificate.kind {
        Kind::Hd => (),
        Kind::H2 => add_memory(certificate, modes, numbers),
        Kind::H3 => add_goals(certificate, modes, numbers),
    }
    let whole = numbers.chance(60);
    find_policy(certificate, numbers, modes, whole)
}

/// So many modes can be searched on a grid of so many cells.
fn most_modes(cells: usize) -> usize {
    (MOST_PAIRS / cells).clamp(1, 8)
}

/// Adds modes and entries; tells the greatest rank, or none if no pair of cell and mode can be listed.
/// A network that breaks a condition, or has no policy, gets a single entry. But in an HD certificate, modes have their
/// memories and goals already; there are no more than can be searched.
pub fn find_policy(
    certificate: &mut Certificate,
    numbers: &mut Numbers,
    modes: usize,
    whole: bool,
) -> Option<u16> {
    certificate.modes = certificate.memory.len().max(1) as u8;
    certificate.entries = vec![Entry {
        cell: 0,
        mode: 0,
        signal: certificate.memory.first().copied().unwrap_or(0),
        next: 0,
        // Above 0 the mode keeps its goal number.
        rank: certificate.kind.has_goals().into(),
    }];
    let bytes = bytes_of(certificate);
    let mut network = Network::default();
    let (read, ()) = read(&bytes, &mut network, |_| (), |_, _| ()).ok()?;
    let game = game(read.network, numbers, modes);
    let steps = game.solve();
    if steps.iter().all(Option::is_none) {
        return None;
    }
    certificate.modes = modes as u8;
    let is_late = certificate.kind.has_goals() && numbers.chance(60);
    let choices = choose(&game, &steps, is_late, numbers);
    let kept = if whole {
        steps.iter().map(Option::is_some).collect()
    } else {
        reached_pairs(&game, &steps, &choices, numbers)
    };
    let values = rank_values(&steps, numbers);
    let rank = |steps: &Option<u16>| steps.map(|steps| values[usize::from(steps)]);
    let ranks: Vec<Option<u16>> = steps.iter().map(rank).collect();
    certificate.entries = entries(&game, &choices, &kept, &ranks);
    certificate.entries.iter().map(|entry| entry.rank).max()
}

/// A choice for each listed pair, at random among those that do, or among those that may take the most steps to the goal
/// that comes next: else goals in turn are mostly met all at once.
fn choose(game: &Game, steps: &Steps, is_late: bool, numbers: &mut Numbers) -> Vec<Choice> {
    let mut choices = vec![(0, 0); steps.len()];
    for pair in 0..steps.len() {
        let Some(own) = steps[pair] else { continue };
        let limit = (own > 0).then_some(own);
        let mut open: Vec<Choice> = game
            .choices_of(pair)
            .filter(|&choice| game.leads(pair, choice, steps, limit))
            .collect();
        if is_late {
            let most = |choice: &Choice| game.most_steps(pair, *choice, steps);
            let latest = open.iter().map(most).max();
            open.retain(|choice| Some(most(choice)) == latest);
        }
        choices[pair] = numbers.pick(&open);
    }
    choices
}

/// A few pairs and all that they lead to.
fn reached_pairs(
    game: &Game,
    steps: &Steps,
    choices: &[Choice],
    numbers: &mut Numbers,
) -> Vec<bool> {
    let listed: Vec<usize> = (0..steps.len())
        .filter(|&pair| steps[pair].is_some())
        .collect();
    let mut open: Vec<usize> = (0..numbers.between(1, 4))
        .map(|_| numbers.pick(&listed))
        .collect();
    let mut kept = vec![false; steps.len()];
    while let Some(pair) = open.pop() {
        if kept[pair] {
            continue;
        }
        kept[pair] = true;
        let (signal, next) = choices[pair];
        for &cell in game.successors(pair, signal) {
            open.push(usize::from(cell) * game.modes + usize::from(next));
        }
    }
    kept
}

/// The rank for each number of steps: strictly ascending from 0.
fn rank_values(steps: &Steps, numbers: &mut Numbers) -> Vec<u16> {
    let most = steps.iter().flatten().max().copied().unwrap_or(0);
    let gap = numbers.pick(&[1, 1, 1, 20, 700]);
    let mut ranks = vec![0u16];
    for left in (0..most).rev() {
        let last = ranks[ranks.len() - 1];
        let room = (u16::MAX - last) - left;
        ranks.push(last + numbers.wide(1, gap.min(room)));
    }
    if most > 0 && numbers.chance(5) {
        ranks[usize::from(most)] = u16::MAX;
    }
    ranks
}

fn entries(game: &Game, choices: &[Choice], kept: &[bool], ranks: &[Option<u16>]) -> Vec<Entry> {
    let mut entries = Vec::new();
    for (pair, rank) in ranks.iter().enumerate() {
        if let (true, &Some(rank)) = (kept[pair], rank) {
            entries.push(Entry {
                cell: (pair / game.modes) as u16,
                mode: (pair % game.modes) as u8,
                signal: choices[pair].0,
                next: choices[pair].1,
                rank,
            });
        }
    }
    entries
}
