//! The calls on one pair.

use super::draw::{state_before, Pair};
use super::told::{Call, Told};
use super::{Differs, Same, Tally};
use crate::generate::{any_poll, any_query};
use crate::library::STATE_SIZE;
use crate::numbers::Numbers;
use crate::sides::{state_bytes, Agreed, Sides};
use second::{Report, State};
use std::fmt::Display;

/// The certificates of a pair.
pub const NAMES: [&str; 2] = ["first certificate", "other certificate"];

fn differs(call: String, lines: [String; 2]) -> Box<Differs> {
    Box::new(Differs { call, lines })
}

/// Equal on both certificates.
fn same<T: PartialEq + Display>(call: impl FnOnce() -> String, [one, other]: [T; 2]) -> Same<()> {
    if one == other {
        return Ok(());
    }
    let [first, second] = NAMES;
    let lines = [format!("{first}: {one}"), format!("{second}: {other}")];
    Err(differs(call(), lines))
}

/// Equal in the library and in the second checker, on the certificate of this place.
fn agreed<T>(place: usize, result: Agreed<T>) -> Same<T> {
    result.map_err(|difference| {
        let call = format!("{}: {}", NAMES[place], difference.call);
        let second = format!("second checker: {}", difference.second);
        differs(call, [second, format!("library: {}", difference.library)])
    })
}

/// As it is due, on the certificate of this place.
fn due(place: usize, call: impl FnOnce() -> String, due: &str, found: &str) -> Same<()> {
    if due == found {
        return Ok(());
    }
    let call = format!("{}: {}", NAMES[place], call());
    Err(differs(
        call,
        [format!("due: {due}"), format!("found: {found}")],
    ))
}

/// Both certificates of a pair, each loaded by the library and by the second checker.
pub struct Run<'a> {
    pair: &'a Pair,
    sides: [Sides; 2],
    /// The bytes that the states are to have after the loads.
    loaded: [Vec<u8>; 2],
}

impl Run<'_> {
    /// Loads each certificate into a state of its own.
    pub fn begin<'a>(pair: &'a Pair, numbers: &mut Numbers) -> Same<Run<'a>> {
        let sides = [0, 1].map(|_| Sides::of(state_before(pair, numbers)));
        let state = |bytes: &Vec<u8>| state_bytes(&State::by_hand(bytes, bytes.len(), 0));
        let loaded = pair.bytes.each_ref().map(state);
        let mut run = Run {
            pair,
            sides,
            loaded,
        };
        for (place, bytes) in pair.bytes.iter().enumerate() {
            let verdict = agreed(place, run.sides[place].load(bytes))?;
            let number = verdict.report.number.to_string();
            due(place, || "load".to_string(), "0", &number)?;
        }
        run.keep_bytes(|| "load".to_string())?;
        Ok(run)
    }

    /// A call for the first certificate in its mode: mostly one that it answers.
    pub fn any_call(&self, numbers: &mut Numbers) -> Call {
        let certificate = &self.pair.certificate;
        match numbers.chance(50) {
            true => Call::Query(any_query(certificate, numbers)),
            false => Call::Poll(any_poll(certificate, self.sides[0].own.mode, numbers)),
        }
    }

    /// Makes a call on both states: the library's answers against each other, then each against the second checker's.
    pub fn make(&mut self, call: &Call, tally: &mut Tally) -> Same<()> {
        let before = self.sides[0].own.mode;
        let shown = || format!("{call} in mode {before}");
        let told = |side: &Sides| Told::of(&side.library, call);
        same(shown, self.sides.each_ref().map(told))?;
        let reports = [self.beside(0, call)?, self.beside(1, call)?];
        same(shown, reports)?;
        let modes = self.sides.each_ref().map(|side| side.own.mode);
        same(|| format!("mode after {}", shown()), modes)?;
        self.keep_bytes(shown)?;
        let results = match call {
            Call::Query(_) => &mut tally.queries,
            Call::Poll(_) => &mut tally.polls,
        };
        results.add(reports[0].number);
        tally.moved += u64::from(modes[0] != before);
        Ok(())
    }

    /// A call on one state, by the library and by the second checker.
    fn beside(&mut self, place: usize, call: &Call) -> Same<Report> {
        let side = &mut self.sides[place];
        let report = match call {
            Call::Query(query) => side.query(query),
            Call::Poll(poll) => side.poll(poll),
        };
        agreed(place, report)
    }

    /// Each state holds its own certificate: all its bytes but the mode are those of the load.
    fn keep_bytes(&self, call: impl Fn() -> String) -> Same<()> {
        let own = "the bytes of the load";
        for (place, loaded) in self.loaded.iter().enumerate() {
            let kept = self.sides[place].library[..STATE_SIZE - 1] == loaded[..STATE_SIZE - 1];
            let found = if kept { own } else { "other bytes" };
            due(place, || format!("state after {}", call()), own, found)?;
        }
        Ok(())
    }
}
