//! The tally for a reader.

use super::{Better, Equal, Neither, Refused, Tally, MOST_ENTRIES};
use crate::comparisons::Way;
use std::fmt;

impl fmt::Display for Tally {
    fn fmt(&self, out: &mut fmt::Formatter<'_>) -> fmt::Result {
        let [hd, h2, h3] = self.kinds;
        writeln!(out, "pairs: {hd} HD, {h2} H2, {h3} H3")?;
        for ((way, _), count) in Way::ALL.iter().zip(self.ways) {
            writeln!(out, "  {}: {count}", way.name())?;
        }
        writeln!(
            out,
            "  entry counts that differ with the same front: {} in the low byte, {} in the high byte",
            self.low, self.high
        )?;
        writeln!(
            out,
            "  entries of the largest: {}; pairs with {MOST_ENTRIES}: {}",
            self.largest, self.full
        )?;
        writeln!(out, "equal: {}", self.equal)?;
        writeln!(out, "first: {}", self.first)?;
        writeln!(out, "second: {}", self.second)?;
        writeln!(out, "neither: {}", self.neither)?;
        writeln!(out, "refused: {}", self.refused)?;
        let [equal, first, second, neither, refused] = self.answers();
        write!(
            out,
            "{} pairs: {equal} equal, {first} first, {second} second, {neither} neither, {refused} refused; \
             {} with themselves, {} with answers of every length, {} calls",
            self.pairs(),
            self.selves,
            self.lengths,
            self.calls
        )
    }
}

impl fmt::Display for Equal {
    fn fmt(&self, out: &mut fmt::Formatter<'_>) -> fmt::Result {
        write!(
            out,
            "{}, {} of them with other bytes: {} with other signals, {} with other next modes",
            self.all, self.other_bytes, self.signals, self.next_modes
        )
    }
}

impl fmt::Display for Better {
    fn fmt(&self, out: &mut fmt::Formatter<'_>) -> fmt::Result {
        write!(
            out,
            "{}: {} by ranks, {} by pairs, {} by both",
            self.all, self.ranks, self.pairs, self.both
        )
    }
}

impl fmt::Display for Neither {
    fn fmt(&self, out: &mut fmt::Formatter<'_>) -> fmt::Result {
        write!(
            out,
            "{}: {} with other fronts ({} in one byte, {} in the mark, {} whose entries alone are equal or better), \
             {} with the same: {} with lower ranks on both sides, {} with pairs missing on both sides, \
             {} with one of each",
            self.all,
            self.fronts,
            self.one_byte,
            self.marks,
            self.alone,
            self.same_fronts(),
            self.ranks,
            self.pairs,
            self.mixed
        )
    }
}

impl fmt::Display for Refused {
    fn fmt(&self, out: &mut fmt::Formatter<'_>) -> fmt::Result {
        write!(
            out,
            "{}: {} the first alone, {} the second alone, {} both; {}",
            self.all(),
            self.first,
            self.second,
            self.both,
            self.numbers
        )
    }
}
