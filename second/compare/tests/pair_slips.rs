//! Drawn pairs tell likely slips of a lookup that should skip the rank: each would answer the two certificates of some
//! pair differently.

use compare::numbers::Numbers;
use compare::pairs::Pair;
use second::certificate::Kind;
use second::grid::{cells, Cell};
use second::State;

/// The EN records of a certificate and what stands behind them, as bytes.
struct Table<'a> {
    bytes: &'a [u8],
    entries: usize,
}

/// A signal and a next mode.
type Shown = (u8, u8);

/// The answer for a cell in a mode.
type Lookup = fn(&Table, u16, u8) -> Option<Shown>;

fn cell_of(record: &[u8]) -> u16 {
    u16::from_be_bytes([record[2], record[3]])
}

fn rank_of(record: &[u8]) -> u16 {
    u16::from_be_bytes([record[7], record[8]])
}

impl<'a> Table<'a> {
    fn of(bytes: &'a [u8]) -> Table<'a> {
        let entries = usize::from(u16::from_be_bytes([bytes[7], bytes[8]]));
        let first = bytes.len() - 2 - 9 * entries;
        Table {
            bytes: &bytes[first..],
            entries,
        }
    }

    /// The records, one every so many bytes.
    fn records(&self, apart: usize) -> impl Iterator<Item = &'a [u8]> {
        let bytes = self.bytes;
        (0..self.entries).map(move |entry| &bytes[apart * entry..][..9])
    }

    fn find(&self, cell: u16, mode: u8) -> Option<&'a [u8]> {
        self.records(9)
            .find(|record| cell_of(record) == cell && record[4] == mode)
    }
}

fn right(table: &Table, cell: u16, mode: u8) -> Option<Shown> {
    let record = table.find(cell, mode)?;
    Some((record[5], record[6]))
}

const SLIPS: [(&str, Lookup); 8] = [
    ("the next mode one byte late", |table, cell, mode| {
        let record = table.find(cell, mode)?;
        Some((record[5], record[7]))
    }),
    (
        "the next mode from the rank's low byte",
        |table, cell, mode| {
            let record = table.find(cell, mode)?;
            Some((record[5], record[8]))
        },
    ),
    (
        "the signal from the rank's high byte",
        |table, cell, mode| {
            let record = table.find(cell, mode)?;
            Some((record[7], record[6]))
        },
    ),
    (
        "the signal from the rank's low byte",
        |table, cell, mode| {
            let record = table.find(cell, mode)?;
            Some((record[8], record[6]))
        },
    ),
    ("the cell's entry of the lowest rank", |table, cell, _| {
        let own = table.records(9).filter(|record| cell_of(record) == cell);
        let record = own.min_by_key(|record| rank_of(record))?;
        Some((record[5], record[6]))
    }),
    ("the mode's first entry of the rank", |table, cell, mode| {
        let rank = rank_of(table.find(cell, mode)?);
        let mut own = table.records(9).filter(|record| record[4] == mode);
        let record = own.find(|record| rank_of(record) == rank)?;
        Some((record[5], record[6]))
    }),
    (
        "the mode is kept at rank 1 and below",
        |table, cell, mode| {
            let record = table.find(cell, mode)?;
            match rank_of(record) {
                0 | 1 => Some((record[5], mode)),
                _ => Some((record[5], record[6])),
            }
        },
    ),
    ("records two bytes short", |table, cell, mode| {
        let record = table
            .records(7)
            .find(|record| cell_of(record) == cell && record[4] == mode)?;
        Some((record[5], record[6]))
    }),
];

/// Rank 0 stands in the same entries of both certificates, by 13: no pair tells this slip by itself. The right answers,
/// which the second checker gives, do.
fn kept_at_0(table: &Table, cell: u16, mode: u8) -> Option<Shown> {
    let record = table.find(cell, mode)?;
    match rank_of(record) {
        0 => Some((record[5], mode)),
        _ => Some((record[5], record[6])),
    }
}

/// The signals that the cells get one after the other from mode 0 on, and the mode after each.
fn answers(bytes: &[u8], asked: &[u16], lookup: Lookup) -> Vec<(Option<u8>, u8)> {
    let table = Table::of(bytes);
    let mut mode = 0;
    let mut answers = Vec::new();
    for &cell in asked {
        let shown = lookup(&table, cell, mode);
        mode = shown.map_or(mode, |(_, next)| next);
        answers.push((shown.map(|(signal, _)| signal), mode));
    }
    answers
}

/// The second checker's answers for queues at the lower edges of the cells.
fn due_answers(bytes: &[u8], asked: &[u16], cells: &[Cell]) -> Vec<(Option<u8>, u8)> {
    let mut state = State::fresh();
    assert!(state.load(bytes).is_accepted());
    let answer = |&cell: &u16| {
        let intervals = cells[usize::from(cell)].iter();
        let queues: Vec<u32> = intervals.map(|interval| interval.low.into()).collect();
        let answer = state.query(&queues, 1);
        let signal = (answer.report.number == 0).then_some(answer.signal);
        (signal, state.mode)
    };
    asked.iter().map(answer).collect()
}

/// A pair and cells to ask for: mostly listed ones.
fn drawn(part: u64) -> (Pair, Vec<u16>) {
    let mut numbers = Numbers::of(8, part);
    let pair = Pair::draw(Kind::ALL[part as usize % 3], &mut numbers);
    let cuts = pair.certificate.cuts.iter();
    let cells: usize = cuts.map(|cuts| cuts.len() + 1).product();
    let cell = |_| match numbers.chance(80) {
        true => numbers.pick(&pair.certificate.entries).cell,
        false => numbers.below(cells) as u16,
    };
    let asked = (0..8).map(cell).collect();
    (pair, asked)
}

#[test]
fn pairs_tell_slips() {
    let mut told = [0; SLIPS.len()];
    let (mut kept, mut answered) = (0, 0);
    for part in 0..400 {
        let (pair, asked) = drawn(part);
        let both = |lookup: Lookup| pair.bytes.each_ref().map(|b| answers(b, &asked, lookup));
        let differ = |lookup: Lookup| {
            let [one, other] = both(lookup);
            one != other
        };
        let due = due_answers(&pair.bytes[0], &asked, &cells(&pair.certificate));
        assert_eq!(both(right), [due.clone(), due.clone()]);
        answered += due.iter().filter(|(signal, _)| signal.is_some()).count();
        for (told, (_, lookup)) in told.iter_mut().zip(SLIPS) {
            *told += usize::from(differ(lookup));
        }
        assert!(!differ(kept_at_0));
        kept += usize::from(both(kept_at_0)[0] != due);
    }
    for (told, (name, _)) in told.iter().zip(SLIPS) {
        println!("{name}: told by {told}");
    }
    println!("the mode is kept at rank 0: {kept} by the right answers; {answered} answered");
    for (told, (name, _)) in told.iter().zip(SLIPS) {
        assert!(*told >= 10, "{name}: told by {told}");
    }
    assert!(kept >= 50 && answered > 1_000, "{kept} {answered}");
}
