//! Which of two certificates is better: the library and the second checker on pairs of certificates, mostly for one
//! network.

mod base;
mod calls;
mod draw;
mod entries;
mod fronts;
mod tally;

pub use calls::{answer_numbers, Exported};
pub use draw::{Pair, Way};
pub use tally::Tally;

use crate::differential::{shown_bytes, Kinds};
use crate::library::{self, COMPARISON_SIZE};
use crate::numbers::Numbers;
use crate::sides::{Agreed, Difference};
use calls::Call;
use second::comparing::{compare_tables, Table};

/// Of a hundred pairs so many are also compared with themselves, and with answers of other lengths.
const SELF: u64 = 20;
const LENGTHS: u64 = 10;

/// How much is compared, and from which seed.
#[derive(Clone, Debug)]
pub struct Plan {
    pub seed: u64,
    pub pairs: u64,
    pub kinds: Kinds,
}

/// The first difference, with all that is needed to see it again.
pub struct Found {
    pub pair: u64,
    pub difference: Difference,
    pub drawn: Pair,
}

/// Compares until the plan is done or a difference is found.
pub fn comparisons(plan: &Plan) -> Result<Tally, Box<Found>> {
    let mut tally = Tally::default();
    for number in 0..plan.pairs {
        let mut numbers = Numbers::of(plan.seed, number);
        let drawn = Pair::draw(plan.kinds.draw(&mut numbers), &mut numbers);
        if let Err(difference) = compare(library::compare, &drawn, &mut numbers, &mut tally) {
            return Err(Box::new(Found {
                pair: number,
                difference: *difference,
                drawn,
            }));
        }
    }
    Ok(tally)
}

/// Compares one pair in both orders, and now and then each with itself, and by answers of every length.
pub fn compare(
    exported: Exported,
    pair: &Pair,
    numbers: &mut Numbers,
    tally: &mut Tally,
) -> Agreed<()> {
    let tables = pair.bytes.each_ref().map(|bytes| Table::of(bytes));
    let call = |order, first: usize, second: usize| Call {
        order,
        both: [&pair.bytes[first], &pair.bytes[second]],
        answer: compare_tables(&tables[first], &tables[second]),
    };
    let mut calls = vec![call("first, second", 0, 1), call("second, first", 1, 0)];
    if numbers.chance(SELF) {
        calls.extend([call("first, first", 0, 0), call("second, second", 1, 1)]);
        tally.selves += 1;
    }
    for call in &calls {
        let more = numbers.pick(&[0, 0, 1, 3]);
        call.make(exported, COMPARISON_SIZE + more)?;
        tally.calls += 1;
    }
    if numbers.chance(LENGTHS) {
        tally.calls += calls[0].make_every(exported)?;
        tally.lengths += 1;
    }
    tally.add(pair, &tables, calls[0].answer);
    Ok(())
}

/// A difference, for a reader.
pub fn shown(seed: u64, found: &Found) -> String {
    let Difference {
        call,
        second,
        library,
    } = &found.difference;
    let mut text = format!(
        "difference at pair {} of seed {seed}, {}\n{call}\n  second checker: {second}\n  library: {library}\n",
        found.pair,
        found.drawn.way.name()
    );
    for (name, bytes) in ["first", "second"].iter().zip(&found.drawn.bytes) {
        text += &format!("the {name} certificate:\n{}", shown_bytes(bytes));
    }
    text
}
