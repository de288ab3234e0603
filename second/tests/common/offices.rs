//! Two certificates compared, and tables of several offices for one network, in each kind.
//!
//! The link of the network is green under both signals and empties in a step, so every pair of cell and mode leads to
//! cell 0 of its next mode, and the rank of the other cells may be any above 0.

use super::bytes;
use second::certificate::Kind;
use second::compare;
use second::comparing::{compare_tables, Table};
use second::Comparison::{self, First, Second};

/// Cell, mode, next mode and rank of an entry; its signal has the number of the next mode.
pub type Row = (u16, u8, u8, u16);

/// The text of a certificate of this kind with these rows alone: three cells of which the first is goal, two modes.
pub fn office_text(kind: Kind, rows: &[Row]) -> String {
    let mut text = match kind {
        Kind::Hd => "header modes 2\n".to_string(),
        kind => format!("header kind {}\n", kind.name()),
    };
    text += "link tail 0 head 1 cap 10 flow 10 safe 10 goal 5";
    if kind.has_starts() {
        text += " start 10";
    }
    text += "\nsignal green 0\nsignal green 0\n";
    for signal in 0..2 {
        text += &match kind {
            Kind::Hd => String::new(),
            Kind::H2 => format!("mode signal {signal}\n"),
            Kind::H3 => format!("mode signal {signal} goal 0 goals 5\n"),
        };
    }
    text += "grid 5 8\narrivals 0-0\n";
    for (cell, mode, next, rank) in rows {
        text += &format!("entry cell {cell} mode {mode} signal {next} next {next} rank {rank}\n");
    }
    text + "end\n"
}

/// The same as bytes.
pub fn office(kind: Kind, rows: &[Row]) -> Vec<u8> {
    bytes(&office_text(kind, rows))
}

/// Cell 0 in mode 0, to which the others lead, and these entries by cell, mode and rank.
pub fn with_ranks(kind: Kind, ranks: &[(u16, u8, u16)]) -> Vec<u8> {
    let others = ranks
        .iter()
        .map(|&(cell, mode, rank)| (cell, mode, 0, rank));
    let rows: Vec<Row> = [(0, 0, 0, 0)].into_iter().chain(others).collect();
    office(kind, &rows)
}

/// The answer with the two exchanged.
fn exchanged(answer: Comparison) -> Comparison {
    match answer {
        First => Second,
        Second => First,
        other => other,
    }
}

/// Two certificates, one of which at least is accepted, get this answer, and in the other order the exchanged one.
pub fn says(first: &[u8], second: &[u8], due: Comparison) {
    assert_eq!(compare(first, second), due);
    assert_eq!(compare(second, first), exchanged(due));
    let [first, second] = [first, second].map(Table::of);
    assert_eq!(compare_tables(&first, &second), due);
}
