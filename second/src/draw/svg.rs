//! SVG elements, placed in whole pixels.

use super::style::{Style, RULES, WIDTH};

/// A rectangle.
#[derive(Clone, Copy, Debug, PartialEq, Eq)]
pub struct Area {
    pub x: i32,
    pub y: i32,
    pub width: i32,
    pub height: i32,
}

impl Area {
    pub fn right(&self) -> i32 {
        self.x + self.width
    }

    pub fn bottom(&self) -> i32 {
        self.y + self.height
    }

    pub fn middle(&self) -> (i32, i32) {
        (self.x + self.width / 2, self.y + self.height / 2)
    }

    /// The rectangle inside it with this much off each side.
    pub fn inset(&self, by: i32) -> Area {
        Area {
            x: self.x + by,
            y: self.y + by,
            width: self.width - 2 * by,
            height: self.height - 2 * by,
        }
    }
}

/// Which point of a text its place names.
#[derive(Clone, Copy, Debug, PartialEq, Eq)]
pub enum Anchor {
    Start,
    Middle,
    End,
}

/// Where an arrow tip points.
#[derive(Clone, Copy, Debug, PartialEq, Eq)]
pub enum Heading {
    Left,
    Right,
    Up,
    Down,
}

/// Elements in the order in which they are painted.
#[derive(Default)]
pub struct Svg {
    body: String,
}

impl Svg {
    pub fn line(&mut self, class: &str, from: (i32, i32), to: (i32, i32)) {
        let ((x1, y1), (x2, y2)) = (from, to);
        self.element(&format!(
            "<line class=\"{class}\" x1=\"{x1}\" y1=\"{y1}\" x2=\"{x2}\" y2=\"{y2}\"/>"
        ));
    }

    /// A rectangle that its class fills.
    pub fn rect(&mut self, class: &str, area: Area) {
        let Area { x, y, .. } = area;
        let (width, height) = (area.width, area.height);
        self.element(&format!(
            "<rect class=\"{class}\" x=\"{x}\" y=\"{y}\" width=\"{width}\" height=\"{height}\"/>"
        ));
    }

    /// A rectangle with a fill of its own.
    pub fn filled(&mut self, class: &str, area: Area, fill: &str) {
        let Area { x, y, .. } = area;
        let (width, height) = (area.width, area.height);
        self.element(&format!(
            "<rect class=\"{class}\" x=\"{x}\" y=\"{y}\" width=\"{width}\" height=\"{height}\" fill=\"{fill}\"/>"
        ));
    }

    /// A rectangle with round ends.
    pub fn pill(&mut self, class: &str, area: Area) {
        let Area { x, y, .. } = area;
        let (width, height) = (area.width, area.height);
        let round = height / 2;
        self.element(&format!(
            "<rect class=\"{class}\" x=\"{x}\" y=\"{y}\" width=\"{width}\" height=\"{height}\" rx=\"{round}\"/>"
        ));
    }

    pub fn circle(&mut self, class: &str, middle: (i32, i32), radius: i32) {
        let (x, y) = middle;
        self.element(&format!(
            "<circle class=\"{class}\" cx=\"{x}\" cy=\"{y}\" r=\"{radius}\"/>"
        ));
    }

    /// A line through these points.
    pub fn polyline(&mut self, class: &str, points: &[(i32, i32)]) {
        let points: Vec<String> = points.iter().map(|(x, y)| format!("{x},{y}")).collect();
        let points = points.join(" ");
        self.element(&format!(
            "<polyline class=\"{class}\" points=\"{points}\"/>"
        ));
    }

    pub fn path(&mut self, class: &str, steps: &str) {
        self.element(&format!("<path class=\"{class}\" d=\"{steps}\"/>"));
    }

    /// The tip of an arrow, with its point here.
    pub fn tip(&mut self, class: &str, point: (i32, i32), heading: Heading) {
        let (x, y) = point;
        let (length, half) = (9, 5);
        let (back, side) = match heading {
            Heading::Left => ((x + length, y - half), (0, 2 * half)),
            Heading::Right => ((x - length, y - half), (0, 2 * half)),
            Heading::Up => ((x - half, y + length), (2 * half, 0)),
            Heading::Down => ((x - half, y - length), (2 * half, 0)),
        };
        let ((bx, by), (sx, sy)) = (back, side);
        self.path(class, &format!("M{x},{y}L{bx},{by}l{sx},{sy}z"));
    }

    pub fn text(&mut self, style: Style, place: (i32, i32), anchor: Anchor, text: &str) {
        self.text_of_class(style.class(), place, anchor, text);
    }

    /// A text in the colour of refusals where `alarm` says so.
    pub fn text_or_alarm(
        &mut self,
        style: Style,
        alarm: bool,
        place: (i32, i32),
        anchor: Anchor,
        text: &str,
    ) {
        let more = if alarm { " alarm" } else { "" };
        self.text_of_class(&format!("{}{more}", style.class()), place, anchor, text);
    }

    fn text_of_class(&mut self, class: &str, place: (i32, i32), anchor: Anchor, text: &str) {
        let (x, y) = place;
        let anchor = match anchor {
            Anchor::Start => "",
            Anchor::Middle => " text-anchor=\"middle\"",
            Anchor::End => " text-anchor=\"end\"",
        };
        let text = escaped(text);
        self.element(&format!(
            "<text class=\"{class}\" x=\"{x}\" y=\"{y}\"{anchor}>{text}</text>"
        ));
    }

    /// A text in the middle of its place that reads upwards.
    pub fn upward_text(&mut self, style: Style, place: (i32, i32), text: &str) {
        let (x, y) = place;
        let (class, text) = (style.class(), escaped(text));
        self.element(&format!(
            "<text class=\"{class}\" text-anchor=\"middle\" transform=\"translate({x} {y}) rotate(-90)\">{text}</text>"
        ));
    }

    /// Texts that lie on a line, which is hidden around them by the fill below.
    pub fn on_line(&mut self, fill: &str, texts: impl FnOnce(&mut Svg)) {
        self.element(&format!("<g class=\"on-line\" stroke=\"{fill}\">"));
        texts(self);
        self.element("</g>");
    }

    fn element(&mut self, element: &str) {
        self.body += element;
        self.body.push('\n');
    }

    /// The whole file: a white page of this height.
    pub fn finish(self, title: &str, height: i32) -> String {
        let (title, body) = (escaped(title), self.body);
        format!(
            "<svg xmlns=\"http://www.w3.org/2000/svg\" width=\"{WIDTH}\" height=\"{height}\" \
             viewBox=\"0 0 {WIDTH} {height}\" role=\"img\">\n\
             <title>{title}</title>\n\
             <style>\n{RULES}</style>\n\
             <defs><pattern id=\"hatch\" width=\"7\" height=\"7\" patternUnits=\"userSpaceOnUse\" \
             patternTransform=\"rotate(45)\"><rect width=\"7\" height=\"7\" fill=\"#ffffff\"/>\
             <line x1=\"0\" y1=\"0\" x2=\"0\" y2=\"7\" stroke=\"#c9d1d8\" stroke-width=\"2\"/></pattern></defs>\n\
             <rect width=\"{WIDTH}\" height=\"{height}\" fill=\"#ffffff\"/>\n\
             {body}</svg>\n"
        )
    }
}

/// The fill of cells that are not listed.
pub const HATCH: &str = "url(#hatch)";

fn escaped(text: &str) -> String {
    text.replace('&', "&amp;")
        .replace('<', "&lt;")
        .replace('>', "&gt;")
}
