//! The ends of an image before arrivals, over 10,000.

use super::network::{Network, MOST};

/// Least and greatest next queue of each link before arrivals and cap.
#[derive(Clone, Copy, Default)]
pub struct Ends {
    pub low: [i32; MOST],
    pub high: [i32; MOST],
}

/// What each link can send and take at each of its edges. No number exceeds 10^9.
pub struct Flows {
    links: usize,
    /// The turns of each link start here.
    first: [usize; MOST + 1],
    to: [u8; 32],
    share: [i32; 32],
    /// 10,000 × edge, by link.
    queue: [[i32; 16]; MOST],
    /// 100 × the least of edge and flow, by link.
    demand: [[i32; 16]; MOST],
    /// 100 × start flow, by link.
    most: [i32; MOST],
    /// pull × (cap − edge) of the link it turns into, by turn.
    supply: [[i32; 16]; 32],
}

impl Flows {
    pub fn of(network: &Network) -> Flows {
        let mut flows = Flows {
            links: network.links,
            first: [0; MOST + 1],
            to: [0; 32],
            share: [0; 32],
            queue: [[0; 16]; MOST],
            demand: [[0; 16]; MOST],
            most: [0; MOST],
            supply: [[0; 16]; 32],
        };
        for link in 0..network.links {
            let flow = i32::from(network.link[link].flow);
            flows.most[link] = 100 * i32::from(network.link[link].start);
            for edge in 0..=network.counts[link] {
                let queue = i32::from(network.edges[link][edge]);
                flows.queue[link][edge] = 10_000 * queue;
                flows.demand[link][edge] = 100 * queue.min(flow);
            }
        }
        for (number, turn) in network.turn[..network.turns].iter().enumerate() {
            let to = usize::from(turn.to);
            flows.to[number] = turn.to;
            flows.share[number] = turn.share.into();
            for from in usize::from(turn.from) + 1..=MOST {
                flows.first[from] = number + 1;
            }
            let cap = i32::from(network.link[to].cap);
            for edge in 0..=network.counts[to] {
                let queue = i32::from(network.edges[to][edge]);
                flows.supply[number][edge] = i32::from(turn.pull) * (cap - queue);
            }
        }
        flows
    }

    /// The ends from a closed cell, given by the interval of each link, under a green byte shown after another one.
    ///
    /// A link's greatest next queue comes from high ends of it, of the links that turn into it and of those it turns
    /// into, and from low ends of the links beside it (same tail); its least one from the opposite ends.
    pub fn ends(&self, green: u8, before: u8, cell: &[usize; MOST]) -> Ends {
        let mut ends = Ends::default();
        for (link, &interval) in cell.iter().enumerate().take(self.links) {
            (ends.low[link], ends.high[link]) = ends_at(&self.queue[link], interval);
        }
        let mut left = green & before;
        while left != 0 {
            let from = left.trailing_zeros() as usize;
            left &= left - 1;
            let demand = ends_at(&self.demand[from & 7], cell[from & 7]);
            self.send(from, demand, cell, &mut ends);
        }
        if green & !before != 0 {
            self.start(green & !before, cell, &mut ends);
        }
        ends
    }

    /// The same for green links that were red before.
    #[inline(never)]
    fn start(&self, green: u8, cell: &[usize; MOST], ends: &mut Ends) {
        let mut left = green;
        while left != 0 {
            let from = left.trailing_zeros() as usize;
            left &= left - 1;
            let (low, high) = ends_at(&self.demand[from & 7], cell[from & 7]);
            let most = self.most[from & 7];
            self.send(from, (low.min(most), high.min(most)), cell, ends);
        }
    }

    /// What one green link takes from its own ends and adds to those of the links that it turns into. The demand is what
    /// it would send at its low and at its high end if there were room for it.
    #[inline]
    fn send(&self, from: usize, demand: (i32, i32), cell: &[usize; MOST], ends: &mut Ends) {
        // Least supply at low ends, and the two least at high ends, where a supply is smaller.
        let (mut at_low, mut at_high, mut then) = (i32::MAX, i32::MAX, i32::MAX);
        let turns = self.first[from]..self.first[from + 1];
        for turn in turns.clone() {
            let to = usize::from(self.to[turn & 31]) & 7;
            let supply = ends_at(&self.supply[turn & 31], cell[to]);
            at_low = at_low.min(supply.0);
            then = then.min(at_high.max(supply.1));
            at_high = at_high.min(supply.1);
        }
        ends.low[from & 7] -= 100 * demand.0.min(at_low);
        ends.high[from & 7] -= 100 * demand.1.min(at_high);
        for turn in turns {
            let to = usize::from(self.to[turn & 31]) & 7;
            let supply = ends_at(&self.supply[turn & 31], cell[to]);
            let others = if supply.1 == at_high { then } else { at_high };
            let share = self.share[turn & 31];
            ends.low[to] += share * demand.0.min(supply.0).min(others);
            ends.high[to] += share * demand.1.min(supply.1).min(at_low);
        }
    }
}

/// The values at the low and the high edge of an interval.
#[inline]
fn ends_at(values: &[i32; 16], interval: usize) -> (i32, i32) {
    (values[interval & 15], values[(interval + 1) & 15])
}
