//! The network: junctions as circles, links as arrows with their labels.

use super::lanes::Lane;
use super::layout::{Label, Layout, RADIUS};
use super::style::{Style, LEFT, RIGHT};
use super::svg::{Anchor, Area, Heading, Svg};
use crate::certificate::Certificate;

/// Rounding of bends.
const BEND: i32 = 8;

/// Draws the network from `top` on and tells where it ends. The marked link is the one that a refusal names.
pub fn network(svg: &mut Svg, drawn: &Certificate, marked: Option<usize>, top: i32) -> i32 {
    let layout = Layout::of(drawn);
    let line = top + 10 + layout.reach(true);
    let bottom = line + layout.reach(false) + 10;
    svg.rect(
        "frame",
        Area {
            x: LEFT,
            y: top,
            width: RIGHT - LEFT,
            height: bottom - top,
        },
    );
    if drawn.links.iter().any(|link| link.tail == 0) {
        svg.line("edge", (LEFT, top), (LEFT, bottom));
        svg.upward_text(Style::Head, (LEFT - 6, (top + bottom) / 2), "outside");
    }
    let picture = Picture {
        layout,
        marked,
        line,
    };
    picture.arrows(svg);
    picture.junctions(svg);
    picture.labels(svg);
    bottom
}

struct Picture {
    layout: Layout,
    marked: Option<usize>,
    /// Height of the line of junctions.
    line: i32,
}

impl Picture {
    /// Classes of a link's line and tip.
    fn classes(&self, link: usize) -> [&'static str; 2] {
        if self.marked == Some(link) {
            ["link-alarm", "tip-alarm"]
        } else {
            ["link", "tip"]
        }
    }

    fn lane_height(&self, lane: &Lane) -> i32 {
        let distance = self.layout.lane_distance(lane);
        if lane.above {
            self.line - distance
        } else {
            self.line + distance
        }
    }

    fn arrows(&self, svg: &mut Svg) {
        for lane in &self.layout.lanes {
            self.lane(svg, lane);
        }
        for straight in &self.layout.straight {
            let [line, tip] = self.classes(straight.link);
            let level = self.line;
            svg.line(line, (straight.from, level), (straight.to - 6, level));
            svg.tip(tip, (straight.to - 1, level), Heading::Right);
        }
    }

    fn lane(&self, svg: &mut Svg, lane: &Lane) {
        let [line, tip] = self.classes(lane.link);
        let level = self.lane_height(lane);
        // What leads from the lane towards the line of junctions.
        let inward = if lane.above { 1 } else { -1 };
        let end = self.line - inward * self.rim(lane.head);
        let start = lane.tail.unwrap_or(LEFT);
        let along = if start < lane.head { 1 } else { -1 };
        let begin = match lane.tail {
            Some(tail) => format!(
                "M{tail},{} V{} Q{tail},{level} {},{level}",
                self.line - inward * self.rim(tail),
                level + inward * BEND,
                tail + along * BEND
            ),
            None => format!("M{LEFT},{level}"),
        };
        let head = lane.head;
        let bend = format!(
            "H{} Q{head},{level} {head},{}",
            head - along * BEND,
            level + inward * BEND
        );
        svg.path(line, &format!("{begin} {bend} V{}", end - inward * 6));
        let heading = if lane.above {
            Heading::Down
        } else {
            Heading::Up
        };
        svg.tip(tip, (head, end - inward), heading);
    }

    /// Height of a junction's rim over its middle, at this place.
    fn rim(&self, place: i32) -> i32 {
        let distances = self.layout.junctions.iter().map(|(_, x)| (x - place).abs());
        let aside = distances.min().unwrap_or(0);
        (0..=RADIUS)
            .rev()
            .find(|height| height * height + aside * aside <= RADIUS * RADIUS)
            .unwrap_or(0)
    }

    fn junctions(&self, svg: &mut Svg) {
        for (number, x) in &self.layout.junctions {
            svg.circle("junction", (*x, self.line), RADIUS);
            let place = (*x, self.line + 4);
            svg.text(Style::Body, place, Anchor::Middle, &number.to_string());
        }
    }

    fn labels(&self, svg: &mut Svg) {
        for straight in &self.layout.straight {
            let label = self.layout.straight_label(straight);
            let middle = (straight.from + straight.to) / 2;
            self.label(svg, straight.link, &label, (middle, self.line));
        }
        for lane in &self.layout.lanes {
            let label = self.layout.lane_label(lane);
            let place = (lane.label, self.lane_height(lane));
            self.label(svg, lane.link, &label, place);
        }
    }

    /// The number on the line, the amounts above and below it.
    fn label(&self, svg: &mut Svg, link: usize, label: &Label, place: (i32, i32)) {
        let (x, y) = place;
        let [_, class] = self.classes(link);
        let badge = Area {
            x: x - 11,
            y: y - 8,
            width: 22,
            height: 16,
        };
        svg.pill(class, badge);
        svg.text(Style::Badge, (x, y + 4), Anchor::Middle, &link.to_string());
        for (i, line) in label.above.iter().rev().enumerate() {
            let place = (x, y - 13 - 12 * i as i32);
            svg.text(Style::Label, place, Anchor::Middle, line);
        }
        for (i, line) in label.below.iter().enumerate() {
            let place = (x, y + 20 + 12 * i as i32);
            svg.text(Style::Label, place, Anchor::Middle, line);
        }
    }
}
