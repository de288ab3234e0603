//! How often each result number came, and entries that may overflow.

use std::fmt;

/// Counts of one kind of call by result number.
#[derive(Clone, Debug, Default)]
pub struct Numbered([u64; NUMBERS]);

/// Result numbers: 0 to 24.
pub const NUMBERS: usize = 25;

impl Numbered {
    pub fn add(&mut self, number: u32) {
        self.0[number as usize % NUMBERS] += 1;
    }

    pub fn of(&self, number: usize) -> u64 {
        self.0[number]
    }

    pub fn all(&self) -> u64 {
        self.0.iter().sum()
    }
}

impl fmt::Display for Numbered {
    fn fmt(&self, out: &mut fmt::Formatter<'_>) -> fmt::Result {
        write!(out, "{} with 0", self.0[0])?;
        for (number, count) in self.0.iter().enumerate().skip(1) {
            if *count > 0 {
                write!(out, ", {count} with {number}")?;
            }
        }
        Ok(())
    }
}

/// The refusals of a load, in the order of their tests.
pub const LOAD_REFUSALS: [usize; 18] = [
    1, 2, 3, 4, 5, 6, 7, 8, 9, 22, 23, 24, 10, 11, 12, 13, 14, 15,
];

/// Loads of bytes that open with the mark of one kind.
#[derive(Clone, Debug, Default)]
pub struct KindLoads {
    pub results: Numbered,
    /// Refused ones that are a damaged copy of an accepted certificate.
    pub damaged: u64,
}

impl KindLoads {
    /// Takes a load by its result and by whether it is a damaged copy of an accepted certificate.
    pub fn add(&mut self, number: u32, is_damaged: bool) {
        self.results.add(number);
        self.damaged += u64::from(number != 0 && is_damaged);
    }
}

impl fmt::Display for KindLoads {
    fn fmt(&self, out: &mut fmt::Formatter<'_>) -> fmt::Result {
        writeln!(out, "  {}", shown_share(&self.results))?;
        writeln!(
            out,
            "  refused, damaged from an accepted one: {}",
            self.damaged
        )?;
        write_refusals(out, &self.results)
    }
}

/// How many were accepted.
fn shown_share(loads: &Numbered) -> String {
    let share = 100.0 * loads.of(0) as f64 / loads.all().max(1) as f64;
    format!("{} accepted ({share:.1} %)", loads.of(0))
}

fn write_refusals(out: &mut fmt::Formatter<'_>, loads: &Numbered) -> fmt::Result {
    for number in LOAD_REFUSALS {
        writeln!(out, "  refused {number}: {}", loads.of(number))?;
    }
    Ok(())
}

/// Entries that may overflow, of accepted loads.
#[derive(Clone, Debug, Default)]
pub struct Overflows {
    /// Loads that have none, some but not all, and all entries of this kind.
    pub none: u64,
    pub some: u64,
    pub all: u64,
    /// Such entries of all loads.
    pub sum: u64,
}

impl Overflows {
    /// Takes an accepted load by its number and how many entries it has.
    pub fn add(&mut self, overflows: u64, entries: u64) {
        match overflows {
            0 => self.none += 1,
            all if all == entries => self.all += 1,
            _ => self.some += 1,
        }
        self.sum += overflows;
    }

    /// Loads whose number is above 0.
    pub fn loads(&self) -> u64 {
        self.some + self.all
    }
}

impl fmt::Display for Overflows {
    fn fmt(&self, out: &mut fmt::Formatter<'_>) -> fmt::Result {
        write!(
            out,
            "{} loads with a number above 0 ({} of some entries, {} of all), {} entries together; {} loads with 0",
            self.loads(),
            self.some,
            self.all,
            self.sum,
            self.none
        )
    }
}

/// All calls of a comparison.
#[derive(Clone, Debug, Default)]
pub struct Tally {
    pub loads: Numbered,
    pub h2: KindLoads,
    pub h3: KindLoads,
    pub overflows: Overflows,
    pub queries: Numbered,
    pub polls: Numbered,
    pub writes: Numbered,
    pub listings: Numbered,
}

impl fmt::Display for Tally {
    fn fmt(&self, out: &mut fmt::Formatter<'_>) -> fmt::Result {
        writeln!(out, "loads: {}", shown_share(&self.loads))?;
        writeln!(out, "  overflows: {}", self.overflows)?;
        write_refusals(out, &self.loads)?;
        for (kind, loads) in [("H2", &self.h2), ("H3", &self.h3)] {
            write!(out, "{kind} loads: {}\n{loads}", loads.results.all())?;
        }
        writeln!(out, "queries: {}", self.queries)?;
        writeln!(out, "polls: {}", self.polls)?;
        writeln!(out, "writes: {}", self.writes)?;
        writeln!(out, "listings: {}", self.listings)?;
        write!(
            out,
            "{} loads, {} queries, {} polls, {} writes, {} listings",
            self.loads.all(),
            self.queries.all(),
            self.polls.all(),
            self.writes.all(),
            self.listings.all()
        )
    }
}
