//! Random numbers that a seed determines.

/// Splitmix64.
#[derive(Clone)]
pub struct Numbers(u64);

impl Numbers {
    /// The numbers of one part of a seeded whole.
    pub fn of(seed: u64, part: u64) -> Numbers {
        let mut numbers = Numbers(seed);
        let start = numbers.any();
        Numbers(start ^ part.wrapping_mul(0xD134_2543_DE82_EF95))
    }

    pub fn any(&mut self) -> u64 {
        self.0 = self.0.wrapping_add(0x9E37_79B9_7F4A_7C15);
        let mut mixed = self.0;
        mixed = (mixed ^ (mixed >> 30)).wrapping_mul(0xBF58_476D_1CE4_E5B9);
        mixed = (mixed ^ (mixed >> 27)).wrapping_mul(0x94D0_49BB_1331_11EB);
        mixed ^ (mixed >> 31)
    }

    /// A number from `least` to `most`, both included; `least` if `most` is below it.
    pub fn between(&mut self, least: u64, most: u64) -> u64 {
        if most <= least {
            return least;
        }
        match (most - least).checked_add(1) {
            Some(count) => least + self.any() % count,
            None => self.any(),
        }
    }

    /// A number below `count`, which is above 0.
    pub fn below(&mut self, count: usize) -> usize {
        self.between(0, count as u64 - 1) as usize
    }

    pub fn wide(&mut self, least: u16, most: u16) -> u16 {
        self.between(least.into(), most.into()) as u16
    }

    /// True in so many of a hundred cases.
    pub fn chance(&mut self, percent: u64) -> bool {
        self.between(1, 100) <= percent
    }

    /// One of these, which are not none.
    pub fn pick<T: Clone>(&mut self, from: &[T]) -> T {
        from[self.below(from.len())].clone()
    }

    /// A place by weights.
    pub fn weighed(&mut self, weights: &[u64]) -> usize {
        let mut left = self.between(1, weights.iter().sum());
        for (place, &weight) in weights.iter().enumerate() {
            if left <= weight {
                return place;
            }
            left -= weight;
        }
        0
    }
}
