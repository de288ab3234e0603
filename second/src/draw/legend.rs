//! What the marks of the grids mean.

use super::panel::CellText;
use super::shades::Shades;
use super::step::arrow;
use super::style::{Style, LEFT};
use super::svg::{Anchor, Area, Heading, Svg, HATCH};
use crate::report::Report;

const ROW: i32 = 25;
const COLUMNS: [i32; 3] = [LEFT + 280, LEFT + 570, LEFT + 735];
/// Width of a mark, and of one shade.
const MARK: i32 = 30;
const SHADE: i32 = 16;

/// What the lines of a cell say, and how far below its top they stand.
const SAMPLE_LINES: [(&str, i32); 3] = [
    ("rank: most steps to the goal, as claimed", 16),
    ("links that get green", 27),
    ("mode that follows", 38),
];

/// A mark as the grids have it. Lines and outlines are named by their class.
enum Mark {
    Shades(Vec<String>),
    Hatching,
    Line(&'static str),
    Outline(&'static str),
    Arrow,
}

/// Draws the legend from `top` on and tells where it ends.
pub fn legend(svg: &mut Svg, shades: &Shades, report: Report, top: i32) -> i32 {
    let mut bottom = sample(svg, top);
    for (x, items) in COLUMNS.into_iter().zip(items(shades, report)) {
        for (row, (mark, text)) in items.iter().enumerate() {
            let y = top + row as i32 * ROW;
            let end = mark.draw(svg, (x, y + 1));
            svg.text(Style::Small, (end + 6, y + 14), Anchor::Start, text);
            bottom = bottom.max(y + ROW);
        }
    }
    bottom
}

/// A cell with the meaning of its lines.
fn sample(svg: &mut Svg, top: i32) -> i32 {
    let area = Area {
        x: LEFT,
        y: top,
        width: 58,
        height: 46,
    };
    svg.filled("cell", area, "#ffffff");
    let text = CellText {
        rank: 3,
        green: 0b101,
        next: 1,
    };
    text.draw(svg, area);
    for (line, drop) in SAMPLE_LINES {
        let place = (area.right() + 6, top + drop);
        svg.text(Style::Small, place, Anchor::Start, line);
    }
    area.bottom()
}

/// Columns of marks with their meanings: cells, limits, and what a refusal names.
fn items(shades: &Shades, report: Report) -> [Vec<(Mark, String)>; 3] {
    let cells = vec![
        rank_shades(shades),
        (Mark::Hatching, "not listed: nothing is claimed".into()),
    ];
    let limits = vec![
        (Mark::Line("goal"), "goal: to fall to".into()),
        (Mark::Line("safe"), "safe: not to exceed".into()),
    ];
    let mut named = Vec::new();
    if (12..=15).contains(&report.number) {
        named.push((Mark::Outline("entry"), "entry that is refused".into()));
    }
    if (14..=15).contains(&report.number) {
        let successor = Mark::Outline("successor");
        named.push((successor, "successor that it fails at".into()));
        named.push((Mark::Arrow, "from entry to successor".into()));
    }
    [cells, limits, named]
}

/// Up to five of the ranks drawn, from the least to the greatest.
fn rank_shades(shades: &Shades) -> (Mark, String) {
    let ranks = &shades.ranks;
    let count = ranks.len().min(5);
    let chosen = (0..count).map(|i| ranks[i * (ranks.len() - 1) / (count - 1).max(1)]);
    let fills = chosen.map(|rank| shades.fill(rank)).collect();
    let text = match (ranks.first(), ranks.last()) {
        (Some(least), Some(greatest)) if least < greatest => {
            format!("rank {least} to {greatest}, darker is higher")
        }
        (Some(rank), _) => format!("rank {rank}"),
        _ => "no cell of this slice is listed".to_string(),
    };
    (Mark::Shades(fills), text)
}

impl Mark {
    /// Draws the mark and tells where it ends.
    fn draw(&self, svg: &mut Svg, (x, y): (i32, i32)) -> i32 {
        let area = Area {
            x,
            y,
            width: MARK,
            height: 18,
        };
        let middle = area.middle().1;
        match self {
            Mark::Shades(fills) => {
                let mut shade = Area {
                    width: SHADE,
                    ..area
                };
                for fill in fills {
                    svg.filled("cell", shade, fill);
                    shade.x += SHADE;
                }
                return shade.x;
            }
            Mark::Hatching => svg.filled("cell", area, HATCH),
            Mark::Line(class) => svg.line(class, (x, middle), (area.right(), middle)),
            Mark::Outline(class) => svg.rect(class, area),
            Mark::Arrow => {
                let points = [(x + 4, middle), (area.right(), middle)];
                arrow(svg, &points, Heading::Right);
            }
        }
        area.right()
    }
}
