//! The game of a policy: from which cells and modes the goal can be met again and again, and in how many steps.

/// A signal and the mode that follows.
pub type Choice = (u8, u8);

/// Successor cells by cell, then signal; all arrival boxes together.
pub type ByCell = Vec<Vec<Vec<u16>>>;

/// Pairs of cell and mode are numbered cell × modes + mode.
pub struct Game {
    pub cells: usize,
    pub modes: usize,
    /// The choices of each mode.
    pub choices: Vec<Vec<Choice>>,
    /// Which of the successors are those of a mode: those after the signal that it remembers.
    pub memory: Vec<usize>,
    pub successors: Vec<ByCell>,
    /// Is a cell safe?
    pub safe: Vec<bool>,
    /// Is a pair in the goal of its mode?
    pub goal: Vec<bool>,
    /// Which modes may follow each mode outside of its goal, and in it: bit n is mode n.
    pub follow: [Vec<u8>; 2],
}

/// Steps to the goal of each pair; none for a pair that is not listed.
pub type Steps = Vec<Option<u16>>;

impl Game {
    /// The greatest set of pairs whose goal pairs can stay in it and whose other pairs come closer to the goal.
    pub fn solve(&self) -> Steps {
        let pairs = self.cells * self.modes;
        let mut listed: Steps = (0..pairs)
            .map(|pair| self.safe[pair / self.modes].then_some(0))
            .collect();
        loop {
            let closer = self.steps_within(&listed);
            let count = |steps: &Steps| steps.iter().flatten().count();
            if count(&closer) == count(&listed) {
                return closer;
            }
            listed = closer;
        }
    }

    /// Steps to goal pairs that can stay among the listed ones.
    fn steps_within(&self, listed: &Steps) -> Steps {
        let mut steps: Steps = vec![None; listed.len()];
        for pair in 0..steps.len() {
            let stays = |pair| {
                self.choices_of(pair)
                    .any(|choice| self.leads(pair, choice, listed, None))
            };
            if listed[pair].is_some() && self.goal[pair] && stays(pair) {
                steps[pair] = Some(0);
            }
        }
        for step in 1.. {
            let mut found = Vec::new();
            for pair in 0..steps.len() {
                let open = listed[pair].is_some() && steps[pair].is_none();
                let nearer = |pair| {
                    self.choices_of(pair)
                        .any(|choice| self.leads(pair, choice, &steps, None))
                };
                if open && !self.goal[pair] && nearer(pair) {
                    found.push(pair);
                }
            }
            if found.is_empty() {
                break;
            }
            for pair in found {
                steps[pair] = Some(step);
            }
        }
        steps
    }

    /// The choices of a pair, whose next modes may follow.
    pub fn choices_of(&self, pair: usize) -> impl Iterator<Item = Choice> + '_ {
        let mode = pair % self.modes;
        let follow = self.follow[usize::from(self.goal[pair])][mode];
        let choices = self.choices[mode].iter().copied();
        choices.filter(move |&(_, next)| follow >> next & 1 == 1)
    }

    /// The successor cells of a pair under a signal.
    pub fn successors(&self, pair: usize, signal: u8) -> &[u16] {
        let after = &self.successors[self.memory[pair % self.modes]];
        &after[pair / self.modes][usize::from(signal)]
    }

    /// The most steps of the pairs that a choice leads to.
    pub fn most_steps(&self, pair: usize, choice: Choice, steps: &Steps) -> Option<u16> {
        let successors = self.successors(pair, choice.0).iter();
        let next = |&cell: &u16| steps[usize::from(cell) * self.modes + usize::from(choice.1)];
        successors.filter_map(next).max()
    }

    /// Does a choice lead to listed pairs only, all of them fewer steps away than `limit`?
    pub fn leads(&self, pair: usize, choice: Choice, listed: &Steps, limit: Option<u16>) -> bool {
        let mut successors = self.successors(pair, choice.0).iter();
        successors.all(|&cell| {
            let next = usize::from(cell) * self.modes + usize::from(choice.1);
            match (listed[next], limit) {
                (None, _) => false,
                (Some(steps), Some(limit)) => steps < limit,
                (Some(_), None) => true,
            }
        })
    }
}
