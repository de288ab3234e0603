//! Random calls on both sides.

pub mod roadside;
pub mod slices;

use crate::generate::{
    any_poll, any_query, any_state, any_write, bytes::bytes_of, certificate, damaged, Size,
};
use crate::numbers::Numbers;
use crate::sides::{judge, list, listed, screen, Agreed, Difference, Sides};
use crate::tally::Tally;
use second::certificate::{Certificate, Kind};
use second::reading::read;
use second::text::decode;
use second::{State, Verdict};

/// Which kinds of certificates are drawn. A damaged copy may be of another kind.
#[derive(Clone, Copy, Debug, PartialEq, Eq)]
pub enum Kinds {
    Only(Kind),
    /// HD and H2.
    Both,
    All,
}

impl Kinds {
    pub fn draw(self, numbers: &mut Numbers) -> Kind {
        match self {
            Kinds::Only(kind) => kind,
            Kinds::Both => numbers.pick(&[Kind::Hd, Kind::H2]),
            Kinds::All => numbers.pick(&Kind::ALL),
        }
    }
}

/// How much is compared, and from which seed.
#[derive(Clone, Debug)]
pub struct Plan {
    pub seed: u64,
    pub loads: u64,
    pub queries: u64,
    pub polls: u64,
    pub kinds: Kinds,
}

impl Plan {
    /// How many queries and polls have been made once this load is done.
    fn due_after(&self, load: u64) -> Due {
        let part = |of: u64| u128::from(of) * u128::from(load + 1) / u128::from(self.loads);
        Due {
            queries: part(self.queries) as u64,
            polls: part(self.polls) as u64,
        }
    }
}

/// How many queries and polls are due in all.
struct Due {
    queries: u64,
    polls: u64,
}

/// The first difference, with all that is needed to see it again.
pub struct Found {
    pub load: u64,
    pub difference: Difference,
    /// The bytes of the last load, and those stored on the second checker's side.
    pub bytes: Vec<u8>,
    pub stored: Vec<u8>,
}

/// Compares until the plan is done or a difference is found.
pub fn differential(plan: &Plan) -> Result<Tally, Box<Found>> {
    let mut first = Numbers::of(plan.seed, u64::MAX);
    let kind = plan.kinds.draw(&mut first);
    let base = certificate(&mut first, Size::Small, kind);
    let mut run = Run {
        sides: Sides::of(State::fresh()),
        is_accepted: second::judge(&bytes_of(&base)).is_accepted(),
        base,
        kinds: plan.kinds,
        held: None,
        bytes: Vec::new(),
        tally: Tally::default(),
    };
    for load in 0..plan.loads {
        let mut numbers = Numbers::of(plan.seed, load);
        if let Err(difference) = run.step(&mut numbers, plan.due_after(load)) {
            return Err(run.found(load, *difference));
        }
    }
    Ok(run.tally)
}

struct Run {
    sides: Sides,
    kinds: Kinds,
    /// The certificate that damaged copies are made of, and whether it is accepted.
    base: Certificate,
    is_accepted: bool,
    /// What the state was last given, if it can be read.
    held: Option<Certificate>,
    bytes: Vec<u8>,
    tally: Tally,
}

impl Run {
    /// One load and the calls after it.
    fn step(&mut self, numbers: &mut Numbers, due: Due) -> Agreed<()> {
        let is_damaged = self.draw(numbers);
        screen(&self.bytes)?;
        let verdict = self.sides.load(&self.bytes)?;
        self.count(verdict, is_damaged);
        judge(&self.bytes, verdict)?;
        if verdict.is_accepted() {
            self.held = read(&self.bytes).ok();
            let entries = self.held.as_ref().map_or(0, |held| held.entries.len());
            self.tally.overflows.add(verdict.overflows, entries as u64);
        }
        if numbers.chance(10) {
            self.hand(numbers);
        }
        self.look_up(numbers, due)?;
        self.write(numbers)?;
        if numbers.chance(30) {
            self.list(numbers)?;
        }
        if numbers.chance(5) {
            slices::compare(&self.bytes, &self.sides, numbers)?;
            let held = self.held.as_ref().unwrap_or(&self.base);
            roadside::compare(&self.bytes, held, &self.sides, numbers)?;
        }
        if numbers.chance(5) {
            self.sides.fresh()?;
        }
        Ok(())
    }

    /// The next bytes: a new certificate, or a damaged copy of the last; tells which.
    fn draw(&mut self, numbers: &mut Numbers) -> bool {
        if numbers.chance(60) {
            self.bytes = damaged(&self.base, numbers);
            return true;
        }
        let size = match numbers.below(400) {
            0 => Size::Large,
            _ => Size::Small,
        };
        let kind = self.kinds.draw(numbers);
        self.base = certificate(numbers, size, kind);
        self.bytes = bytes_of(&self.base);
        false
    }

    /// Counts a load.
    fn count(&mut self, verdict: Verdict, is_damaged: bool) {
        let number = verdict.report.number;
        self.tally.loads.add(number);
        if !is_damaged {
            self.is_accepted = verdict.is_accepted();
        }
        for (kind, loads) in [
            (Kind::H2, &mut self.tally.h2),
            (Kind::H3, &mut self.tally.h3),
        ] {
            if self.bytes.starts_with(kind.mark()) {
                loads.add(number, is_damaged && self.is_accepted);
            }
        }
    }

    /// Both sides take a state made by hand.
    fn hand(&mut self, numbers: &mut Numbers) {
        self.sides = Sides::of(any_state(&self.bytes, numbers));
        if let Ok(certificate) = read(&self.bytes) {
            self.held = Some(certificate);
        }
    }

    /// Queries and polls in any order, until as many as are due have been made in all.
    fn look_up(&mut self, numbers: &mut Numbers, due: Due) -> Agreed<()> {
        let held = self.held.as_ref().unwrap_or(&self.base);
        loop {
            let queries = due.queries.saturating_sub(self.tally.queries.all());
            let polls = due.polls.saturating_sub(self.tally.polls.all());
            if queries + polls == 0 {
                return Ok(());
            }
            if numbers.between(1, queries + polls) <= queries {
                let report = self.sides.query(&any_query(held, numbers))?;
                self.tally.queries.add(report.number);
            } else {
                let report = self
                    .sides
                    .poll(&any_poll(held, self.sides.own.mode, numbers))?;
                self.tally.polls.add(report.number);
            }
        }
    }

    fn write(&mut self, numbers: &mut Numbers) -> Agreed<()> {
        let length = self.sides.own.length.min(40_000);
        let (size, start) = any_write(length, numbers);
        let report = self.sides.write(size, start)?;
        self.tally.writes.add(report.number);
        Ok(())
    }

    fn list(&mut self, numbers: &mut Numbers) -> Agreed<()> {
        let text = listed(&self.bytes);
        let room = match numbers.below(8) {
            0 => numbers.below(text.len()),
            1 => text.len() - 1,
            2 => text.len(),
            _ => text.len() + numbers.below(200),
        };
        let report = list(&self.bytes, &text, room)?;
        self.tally.listings.add(report.number);
        Ok(())
    }

    fn found(self, load: u64, difference: Difference) -> Box<Found> {
        let stored = self.sides.own.stored;
        let stored = stored.get(..self.sides.own.length).unwrap_or(&[]);
        Box::new(Found {
            load,
            difference,
            stored: stored.to_vec(),
            bytes: self.bytes,
        })
    }
}

/// A difference, for a reader.
pub fn shown(seed: u64, found: &Found) -> String {
    let Difference {
        call,
        second,
        library,
    } = &found.difference;
    let mut text = format!(
        "difference at load {} of seed {seed}\n{call}\n  second checker: {second}\n  library: {library}\n",
        found.load
    );
    text += &format!("the load's certificate:\n{}", shown_bytes(&found.bytes));
    if found.stored != found.bytes {
        text += &format!("the stored bytes:\n{}", shown_bytes(&found.stored));
    }
    text
}

/// The text of a certificate, or its refusal and bytes.
pub fn shown_bytes(bytes: &[u8]) -> String {
    match decode(bytes) {
        Ok(text) => text,
        Err(refusal) => {
            let bytes: Vec<String> = bytes.iter().map(|byte| format!("{byte:02X}")).collect();
            format!("refused {refusal}\nbytes {}\n", bytes.join(" "))
        }
    }
}
