//! The MD records: refusals 1, 2 and 6.

use super::{must, record, record_of, wide};
use crate::fast::network::Network;
use second::Report;

/// The MD records of H2 certificates: the signal that each mode remembers.
pub fn modes(bytes: &[u8], at: &mut usize, network: &mut Network) -> Result<(), Report> {
    for mode in 0..network.modes {
        let signal = record::<3>(bytes, *at, b"MD")?[2];
        must(6, *at, usize::from(signal) < network.signals)?;
        remember(network, mode, signal);
        *at += 3;
    }
    Ok(())
}

fn remember(network: &mut Network, mode: usize, signal: u8) {
    network.memory[mode] = signal;
    network.before[mode] = network.green[usize::from(signal)];
}

/// Those of H3 certificates, which have goals too. Bit n of `used` is set when a mode has number n.
#[inline(never)]
pub fn goal_modes(bytes: &[u8], at: &mut usize, network: &mut Network) -> Result<(), Report> {
    let size = 4 + 2 * network.links;
    let mut used = 0u32;
    for mode in 0..network.modes {
        let record = record_of(bytes, *at, size, b"MD")?;
        let (signal, number) = (record[2], record[3]);
        must(6, *at, usize::from(signal) < network.signals && number < 8)?;
        let mut holds = true;
        for (link, goal) in record[4..].chunks_exact(2).enumerate() {
            network.goals[mode][link] = wide(goal, 0);
            holds &= wide(goal, 0) <= network.link[link].safe;
        }
        let is_alike = |other: usize| {
            network.number[other] != number || network.goals[other] == network.goals[mode]
        };
        holds &= (0..mode).all(is_alike);
        used |= 1 << number;
        // One more than bits without a gap from the lowest one on is a power of two.
        holds &= mode + 1 < network.modes || (used + 1).is_power_of_two();
        must(6, *at, holds)?;
        remember(network, mode, signal);
        network.number[mode] = number;
        *at += size;
    }
    for mode in 0..network.modes {
        let next = network.number[mode] + 1;
        network.after[mode] = if used >> next & 1 == 1 { next } else { 0 };
    }
    Ok(())
}
