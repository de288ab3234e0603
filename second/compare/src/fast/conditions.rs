//! Refusals 10 and 11.

use super::network::Network;
use second::Report;

/// 10: the sum of share × pull over turns into a link from green links.
pub fn pull_sums(network: &Network) -> Result<(), Report> {
    let turns = &network.turn[..network.turns];
    for (signal, &green) in network.green[..network.signals].iter().enumerate() {
        let mut sums = [0u32; 8];
        for turn in turns {
            let counts = u32::from(green >> turn.from & 1);
            sums[usize::from(turn.to)] += counts * u32::from(turn.share) * u32::from(turn.pull);
        }
        if let Some(link) = sums.iter().position(|&sum| sum > 10_000) {
            return Err(Report::at(10, signal).and(link));
        }
    }
    Ok(())
}

/// 11: 100 × flow of from against pull × (cap − flow) of to.
pub fn flows(network: &Network) -> Result<(), Report> {
    for (number, turn) in network.turn[..network.turns].iter().enumerate() {
        let from = &network.link[usize::from(turn.from)];
        let to = &network.link[usize::from(turn.to)];
        if 100 * u32::from(from.flow) > u32::from(turn.pull) * u32::from(to.cap - to.flow) {
            return Err(Report::at(11, number));
        }
    }
    Ok(())
}
