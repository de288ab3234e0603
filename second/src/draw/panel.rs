//! The grid of one mode: cells, edges and limits.

use super::limits::{limits_of, Limit};
use super::panels::Panels;
use super::shades::Shades;
use super::slice::{Axis, Slice};
use super::style::Style;
use super::svg::{Anchor, Area, Svg, HATCH};
use crate::certificate::{is_green, Certificate, Entry};

pub struct Panel<'a> {
    pub certificate: &'a Certificate,
    pub slice: &'a Slice,
    pub panels: &'a Panels,
    pub shades: &'a Shades,
    pub mode: usize,
}

impl Panel<'_> {
    pub fn draw(&self, svg: &mut Svg) {
        let grid = self.panels.grid(self.mode);
        let place = (grid.x, grid.y - 37);
        svg.text(Style::Strong, place, Anchor::Start, &self.title());
        self.fills(svg);
        self.edges(svg, grid);
        for limit in self.limits() {
            limit.draw(svg, grid);
        }
        self.cell_texts(svg);
    }

    /// The mode, the signal that it remembers, and the number of its goal.
    fn title(&self) -> String {
        let mode = self.mode;
        let mut title = format!("Mode {mode}");
        if let Some(signal) = self.certificate.memory.get(mode) {
            title += &format!(", after signal {signal}");
        }
        if let Some(goal) = self.certificate.goals.get(mode) {
            title += &format!(", goal {}", goal.number);
        }
        title
    }

    /// The entry of a cell in this mode.
    fn entry(&self, place: (usize, usize)) -> Option<&Entry> {
        let cell = self.slice.cell(place.0, place.1);
        let entries = &self.certificate.entries;
        entries
            .iter()
            .find(|entry| usize::from(entry.cell) == cell && usize::from(entry.mode) == self.mode)
    }

    /// Column and row of every cell drawn.
    fn places(&self) -> Vec<(usize, usize)> {
        let rows = self.slice.rows();
        let columns = 0..self.slice.columns();
        columns
            .flat_map(|column| (0..rows).map(move |row| (column, row)))
            .collect()
    }

    fn fills(&self, svg: &mut Svg) {
        for place in self.places() {
            let area = self.panels.cell(self.mode, place);
            match self.entry(place) {
                Some(entry) => svg.filled("cell", area, &self.shades.fill(entry.rank)),
                None => svg.filled("cell", area, HATCH),
            }
        }
    }

    fn cell_texts(&self, svg: &mut Svg) {
        let limits = self.limits();
        for place in self.places() {
            let Some(entry) = self.entry(place) else {
                continue;
            };
            let area = self.panels.cell(self.mode, place);
            let text = CellText {
                rank: entry.rank,
                green: self.certificate.signals[usize::from(entry.signal)],
                next: entry.next,
            };
            if limits.iter().any(|limit| limit.crosses(area)) {
                svg.on_line(&self.shades.fill(entry.rank), |svg| text.draw(svg, area));
            } else {
                text.draw(svg, area);
            }
        }
    }

    /// The edges of all intervals, and whose they are.
    fn edges(&self, svg: &mut Svg, grid: Area) {
        let (middle_x, middle_y) = grid.middle();
        let across = &self.slice.across;
        for (edge, offset) in edges_of(across, grid.width) {
            let place = (grid.x + offset, grid.bottom() + 16);
            svg.text(Style::Small, place, Anchor::Middle, &edge);
        }
        let name = format!("queue of link {}", across.link);
        let place = (middle_x, grid.bottom() + 32);
        svg.text(Style::Head, place, Anchor::Middle, &name);
        if let Some(up) = &self.slice.up {
            for (edge, offset) in edges_of(up, grid.height) {
                let place = (grid.x - 5, grid.bottom() - offset + 4);
                svg.text(Style::Small, place, Anchor::End, &edge);
            }
            let what = if grid.height < 90 { "" } else { "queue of " };
            let name = format!("{what}link {}", up.link);
            svg.upward_text(Style::Head, (grid.x - 40, middle_y), &name);
        }
    }

    /// Safe and the mode's goal for the links on the axes.
    fn limits(&self) -> Vec<Limit> {
        let grid = self.panels.grid(self.mode);
        let of = |axis: &Axis, level: bool| {
            let goal = self.certificate.goal(self.mode, axis.link);
            let safe = self.certificate.links[axis.link].safe;
            limits_of(axis, [goal, safe], level, grid)
        };
        let mut limits = of(&self.slice.across, false).to_vec();
        if let Some(up) = &self.slice.up {
            limits.extend(of(up, true));
        }
        limits
    }
}

/// What a listed cell says.
pub struct CellText {
    pub rank: u16,
    pub green: u8,
    pub next: u8,
}

impl CellText {
    pub fn draw(&self, svg: &mut Svg, area: Area) {
        let (x, y) = area.middle();
        let lines = [
            (Style::Rank, -7, self.rank.to_string()),
            (Style::Tiny, 4, short_green(self.green)),
            (Style::Tiny, 14, format!("→ {}", self.next)),
        ];
        for (style, drop, text) in lines {
            svg.text(style, (x, y + drop), Anchor::Middle, &text);
        }
    }
}

/// The green links; three or more in a row as a range.
fn short_green(green: u8) -> String {
    if green == 0 {
        return "all red".to_string();
    }
    let mut words: Vec<String> = Vec::new();
    let mut link = 0;
    while link < 8 {
        let run = (link..8).take_while(|&i| is_green(green, i)).count();
        if run >= 3 {
            words.push(format!("{link}–{}", link + run - 1));
        } else {
            words.extend((link..link + run).map(|i| i.to_string()));
        }
        link += run + 1;
    }
    words.join(" ")
}

/// Every edge of an axis and where it lies.
fn edges_of(axis: &Axis, length: i32) -> Vec<(String, i32)> {
    let intervals = &axis.intervals;
    let size = length / intervals.len() as i32;
    let mut edges = vec![("0".to_string(), 0)];
    for (i, interval) in intervals.iter().enumerate() {
        edges.push((interval.high.to_string(), size * (i as i32 + 1)));
    }
    edges
}
