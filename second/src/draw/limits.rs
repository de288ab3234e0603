//! Safe and goal of the links on the axes, as lines over a grid.

use super::slice::Axis;
use super::style::Style;
use super::svg::{Anchor, Area, Svg};

#[derive(Clone)]
pub struct Limit {
    is_safe: bool,
    /// A limit of the link whose queue grows upwards lies level, the other upright.
    level: bool,
    value: u16,
    /// Its height where it is level, else its place from left to right.
    at: i32,
}

/// Goal and safe of a link over a grid, set apart where they are the same.
pub fn limits_of(axis: &Axis, [goal, safe]: [u16; 2], level: bool, grid: Area) -> [Limit; 2] {
    let length = if level { grid.height } else { grid.width };
    let [goal_at, safe_at] = [goal, safe].map(|queue| offset_of(axis, queue, length));
    let apart = if goal_at == safe_at { 2 } else { 0 };
    let limit = |is_safe: bool, value: u16, offset: i32| Limit {
        is_safe,
        level,
        value,
        at: if level {
            grid.bottom() - offset
        } else {
            grid.x + offset
        },
    };
    [
        limit(true, safe, safe_at + apart),
        limit(false, goal, goal_at - apart),
    ]
}

/// Where a queue lies on an axis whose intervals are drawn equally wide.
fn offset_of(axis: &Axis, queue: u16, length: i32) -> i32 {
    let size = length / axis.intervals.len() as i32;
    for (i, interval) in axis.intervals.iter().enumerate() {
        if queue <= interval.high {
            let part = i32::from(queue - interval.low) * size;
            return size * i as i32 + part / i32::from(interval.high - interval.low);
        }
    }
    length
}

impl Limit {
    /// Does the line run through the inside of a cell?
    pub fn crosses(&self, cell: Area) -> bool {
        let inside = cell.inset(4);
        if self.level {
            inside.y < self.at && self.at < inside.bottom()
        } else {
            inside.x < self.at && self.at < inside.right()
        }
    }

    /// The line and its name. Names of safe and goal have rows of their own above the grid; behind it safe stands
    /// over its line and goal under it. As goal is at most safe, no two names meet.
    pub fn draw(&self, svg: &mut Svg, grid: Area) {
        let (style, name) = if self.is_safe {
            (Style::Safe, "safe")
        } else {
            (Style::Goal, "goal")
        };
        let text = format!("{name} {}", self.value);
        if self.level {
            let drop = if self.is_safe { -3 } else { 11 };
            svg.line(name, (grid.x, self.at), (grid.right() + 12, self.at));
            let place = (grid.right() + 7, self.at + drop);
            svg.text(style, place, Anchor::Start, &text);
        } else {
            let lift = if self.is_safe { 20 } else { 7 };
            svg.line(name, (self.at, grid.bottom()), (self.at, grid.y - lift - 9));
            let place = (self.at - 4, grid.y - lift);
            svg.text(style, place, Anchor::End, &text);
        }
    }
}
