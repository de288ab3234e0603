//! The cell of the entry that is judged.

use super::network::{Network, MOST};

/// A cell, its intervals, and how many intervals of each link keep to safe and to each goal.
pub struct Place {
    cell: usize,
    pub intervals: [usize; MOST],
    safe: [usize; MOST],
    /// By the goals of the links.
    goal: [usize; MOST],
    /// By the goals of the modes, in H3 certificates alone.
    goals: Vec<[usize; MOST]>,
}

impl Place {
    /// Cell 0.
    pub fn first(network: &Network) -> Place {
        let mut place = Place {
            cell: 0,
            intervals: [0; MOST],
            safe: [1; MOST],
            goal: [1; MOST],
            goals: Vec::new(),
        };
        if network.has_goals {
            place.goals = vec![[1; MOST]; network.modes];
        }
        for (number, link) in network.link[..network.links].iter().enumerate() {
            let upper = &network.edges[number][1..=network.counts[number]];
            let within = |limit| upper.iter().filter(|&&edge| edge <= limit).count();
            place.safe[number] = within(link.safe);
            place.goal[number] = within(link.goal);
            for (mode, goal) in place.goals.iter_mut().enumerate() {
                goal[number] = within(network.goal(mode, number));
            }
        }
        place
    }

    /// Takes another cell; the next one is taken without a division.
    #[inline]
    pub fn pass_to(&mut self, cell: usize, network: &Network) {
        if cell == self.cell + 1 {
            let mut link = network.links - 1;
            while self.intervals[link] + 1 == network.counts[link] && link > 0 {
                self.intervals[link] = 0;
                link -= 1;
            }
            self.intervals[link] += 1;
        } else if cell != self.cell {
            self.intervals = network.intervals(cell);
        }
        self.cell = cell;
    }

    /// Are all upper edges at most safe?
    #[inline]
    pub fn is_safe(&self) -> bool {
        self.within(&self.safe)
    }

    /// Are all upper edges at most the goal of a mode?
    #[inline]
    pub fn is_goal(&self, mode: u8) -> bool {
        match self.goals.get(usize::from(mode)) {
            None => self.within(&self.goal),
            Some(goal) => self.within(goal),
        }
    }

    #[inline]
    fn within(&self, counts: &[usize; MOST]) -> bool {
        let links = self.intervals.iter().zip(counts);
        links.fold(true, |all, (interval, count)| all & (interval < count))
    }
}
