//! Pairs of accepted certificates that differ in ranks alone. The cabinet skips ranks: the same queries and polls on
//! both, from their loads on, must have equal answers and leave equal modes.

pub mod draw;
pub(crate) mod ranks;
mod run;
mod tally;
mod told;

pub use draw::Pair;
pub use tally::Tally;

use crate::differential::{shown_bytes, Kinds};
use crate::numbers::Numbers;
use run::Run;

/// How much is compared, and from which seed.
#[derive(Clone, Debug)]
pub struct Plan {
    pub seed: u64,
    pub pairs: u64,
    /// Queries and polls on a pair; on some there are fewer or none.
    pub calls: usize,
    pub kinds: Kinds,
}

/// The first difference, with all that is needed to see it again.
pub struct Found {
    pub pair: u64,
    /// Calls on the pair so far, this one too; 0 at the loads.
    pub call: usize,
    pub differs: Differs,
    pub bytes: [Vec<u8>; 2],
}

/// A call, in words, and two lines that should tell the same.
#[derive(Clone, Debug)]
pub struct Differs {
    pub call: String,
    pub lines: [String; 2],
}

type Same<T> = Result<T, Box<Differs>>;

/// Compares until the plan is done or a difference is found.
pub fn pairs(plan: &Plan) -> Result<Tally, Box<Found>> {
    let mut tally = Tally::default();
    for number in 0..plan.pairs {
        let mut numbers = Numbers::of(plan.seed, number);
        let pair = Pair::draw(plan.kinds.draw(&mut numbers), &mut numbers);
        let calls = match numbers.below(20) {
            0 => 0,
            1 => numbers.below(plan.calls + 1),
            _ => plan.calls,
        };
        if let Err((call, differs)) = compare(&pair, calls, &mut numbers, &mut tally) {
            return Err(Box::new(Found {
                pair: number,
                call,
                differs: *differs,
                bytes: pair.bytes,
            }));
        }
    }
    Ok(tally)
}

/// Compares one pair by so many calls; tells at which of them it differs.
pub fn compare(
    pair: &Pair,
    calls: usize,
    numbers: &mut Numbers,
    tally: &mut Tally,
) -> Result<(), (usize, Box<Differs>)> {
    tally.add(pair, calls);
    let mut run = Run::begin(pair, numbers).map_err(|differs| (0, differs))?;
    for number in 1..=calls {
        let call = run.any_call(numbers);
        let made = run.make(&call, tally);
        made.map_err(|differs| (number, differs))?;
    }
    Ok(())
}

/// A difference, for a reader.
pub fn shown(seed: u64, found: &Found) -> String {
    let Differs { call, lines } = &found.differs;
    let mut text = format!(
        "difference at call {} of pair {} of seed {seed}\n{call}\n  {}\n",
        found.call,
        found.pair,
        lines.join("\n  ")
    );
    for (name, bytes) in run::NAMES.iter().zip(&found.bytes) {
        text += &format!("the {name}:\n{}", shown_bytes(bytes));
    }
    text
}
