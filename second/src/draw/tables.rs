//! Turns, signals, arrival boxes and goals as small tables.

use super::style::{Style, LEFT, RIGHT};
use super::svg::{Anchor, Svg};
use crate::certificate::{Certificate, Goal};
use crate::report::Report;
use crate::text::green_links;

/// Most rows below one head; more rows go beside.
const MOST_ROWS: usize = 8;
const ROW: i32 = 15;
/// Between columns, and between tables.
const COLUMN_GAP: i32 = 12;
const TABLE_GAP: i32 = 30;

struct Table {
    title: &'static str,
    heads: Vec<String>,
    rows: Vec<Vec<String>>,
    /// The row that a refusal names.
    marked: Option<usize>,
}

/// Draws all tables from `top` on and tells where they end.
pub fn tables(svg: &mut Svg, certificate: &Certificate, report: Report, top: i32) -> i32 {
    let mut all = vec![
        turns(certificate, report),
        signals(certificate, report),
        arrivals(certificate),
    ];
    if certificate.kind.has_goals() {
        all.push(goals(certificate));
    }
    let (mut x, mut y, mut bottom) = (LEFT, top, top);
    for table in all {
        if x > LEFT && x + table.width() > RIGHT {
            (x, y) = (LEFT, bottom + 14);
        }
        table.draw(svg, (x, y));
        x += table.width() + TABLE_GAP;
        bottom = bottom.max(y + table.height());
    }
    bottom
}

fn words<const N: usize>(words: [&str; N]) -> Vec<String> {
    words.iter().map(|word| word.to_string()).collect()
}

/// These heads, and then one a link.
fn heads_by_link<const N: usize>(first: [&str; N], certificate: &Certificate) -> Vec<String> {
    let mut heads = words(first);
    heads.extend((0..certificate.links.len()).map(|link| format!("link {link}")));
    heads
}

/// The place that a refusal with this number names.
fn marked(report: Report, number: u32) -> Option<usize> {
    (report.number == number).then_some(report.a as usize)
}

fn turns(certificate: &Certificate, report: Report) -> Table {
    let rows = certificate.turns.iter().enumerate().map(|(number, turn)| {
        let share = usize::from(turn.share);
        let pull = usize::from(turn.pull);
        let fields = [number, turn.from, turn.to, share, pull];
        fields.iter().map(usize::to_string).collect()
    });
    Table {
        title: "Turns (share and pull in hundredths)",
        heads: words(["turn", "from", "to", "share", "pull"]),
        rows: rows.collect(),
        marked: marked(report, 11),
    }
}

fn signals(certificate: &Certificate, report: Report) -> Table {
    let signals = certificate.signals.iter().enumerate();
    let rows = signals.map(|(number, &green)| vec![number.to_string(), green_links(green)]);
    Table {
        title: "Signals",
        heads: words(["signal", "green links"]),
        rows: rows.collect(),
        marked: marked(report, 10),
    }
}

fn arrivals(certificate: &Certificate) -> Table {
    let rows = certificate
        .arrivals
        .iter()
        .enumerate()
        .map(|(number, all)| {
            let mut row = vec![number.to_string()];
            row.extend(all.iter().map(|one| format!("{}–{}", one.low, one.high)));
            row
        });
    Table {
        title: "Arrivals in a step",
        heads: heads_by_link(["box"], certificate),
        rows: rows.collect(),
        marked: None,
    }
}

/// The goals by number, each with the modes that have it.
fn goals(certificate: &Certificate) -> Table {
    let goals = &certificate.goals;
    let mut used: Vec<&Goal> = goals.iter().collect();
    used.sort_by_key(|goal| goal.number);
    used.dedup();
    let rows = used.into_iter().map(|goal| {
        let modes = (0..goals.len()).filter(|&mode| goals[mode] == *goal);
        let modes: Vec<String> = modes.map(|mode| mode.to_string()).collect();
        let mut row = vec![goal.number.to_string(), modes.join(" ")];
        row.extend(goal.amounts.iter().map(u16::to_string));
        row
    });
    Table {
        title: "Goals in turn",
        heads: heads_by_link(["goal", "modes"], certificate),
        rows: rows.collect(),
        marked: None,
    }
}

impl Table {
    fn blocks(&self) -> i32 {
        self.rows.len().div_ceil(MOST_ROWS).max(1) as i32
    }

    fn column_width(&self, column: usize) -> i32 {
        let texts = self.rows.iter().map(|row| &row[column]);
        let all = texts.chain([&self.heads[column]]);
        let widest = all.map(|text| Style::Small.width(text)).max();
        widest.unwrap_or(0) + COLUMN_GAP
    }

    /// Width of a head with the rows below it.
    fn block_width(&self) -> i32 {
        let columns = 0..self.heads.len();
        columns.map(|column| self.column_width(column)).sum::<i32>() + COLUMN_GAP
    }

    fn width(&self) -> i32 {
        let blocks = self.blocks() * self.block_width() - 2 * COLUMN_GAP;
        blocks.max(Style::Strong.width(self.title))
    }

    fn height(&self) -> i32 {
        let rows = self.rows.len().clamp(1, MOST_ROWS) as i32;
        36 + rows * ROW
    }

    fn draw(&self, svg: &mut Svg, place: (i32, i32)) {
        let (x, y) = place;
        svg.text(Style::Strong, (x, y + 12), Anchor::Start, self.title);
        if self.rows.is_empty() {
            svg.text(Style::Small, (x, y + 31), Anchor::Start, "none");
        }
        for (block, rows) in self.rows.chunks(MOST_ROWS).enumerate() {
            let first = block * MOST_ROWS;
            let x = x + block as i32 * self.block_width();
            self.draw_block(svg, (x, y + 31), first, rows);
        }
    }

    fn draw_block(&self, svg: &mut Svg, place: (i32, i32), first: usize, rows: &[Vec<String>]) {
        let (mut x, y) = place;
        let width = self.block_width() - 2 * COLUMN_GAP;
        svg.line("rule", (x, y + 4), (x + width, y + 4));
        for (column, head) in self.heads.iter().enumerate() {
            svg.text(Style::Head, (x, y), Anchor::Start, head);
            for (i, row) in rows.iter().enumerate() {
                let place = (x, y + 2 + ROW * (i as i32 + 1));
                let alarm = self.marked == Some(first + i);
                svg.text_or_alarm(Style::Small, alarm, place, Anchor::Start, &row[column]);
            }
            x += self.column_width(column);
        }
    }
}
