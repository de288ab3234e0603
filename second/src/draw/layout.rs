//! Where the junctions and links of a network are drawn.
//!
//! Junctions stand on one line. A link to the next junction on the right runs along the line; every other link has
//! a lane above or below it. Lanes and gaps have room for their labels, so no two labels meet.

use super::lanes::{lanes, Lane};
use super::order::junction_order;
use super::style::{Style, LEFT, RIGHT};
use crate::certificate::{Certificate, Link};

/// Radius of a junction.
pub const RADIUS: i32 = 16;
/// From lane to lane, and where a lane is short.
const LANE: i32 = 50;
const SHORT_LANE: i32 = 62;

/// The label of a link: its lines above and below the arrow.
#[derive(Clone)]
pub struct Label {
    pub above: Vec<String>,
    pub below: Vec<String>,
}

impl Label {
    /// One amount a line; a start flow stands behind the flow. A goal that is not used is left out.
    fn of(link: &Link, uses_goal: bool) -> Label {
        let mut above = vec![format!("cap {}", link.cap), format!("flow {}", link.flow)];
        above.extend(link.start.map(|start| format!("start {start}")));
        let mut below = vec![format!("safe {}", link.safe)];
        below.extend(uses_goal.then(|| format!("goal {}", link.goal)));
        Label { above, below }
    }

    /// One line above and one below.
    pub fn wide(&self) -> Label {
        Label {
            above: vec![self.above.join(" · ")],
            below: vec![self.below.join(" · ")],
        }
    }

    /// All lines on one side.
    fn on_one_side(mut self, above: bool) -> Label {
        self.above.append(&mut self.below);
        if !above {
            std::mem::swap(&mut self.above, &mut self.below);
        }
        self
    }

    /// Lines on the side that has more of them.
    fn height(&self) -> usize {
        self.above.len().max(self.below.len())
    }

    pub fn width(&self) -> i32 {
        let lines = self.above.iter().chain(&self.below);
        lines
            .map(|line| Style::Label.width(line))
            .max()
            .unwrap_or(0)
    }
}

/// A link along the line of junctions, from one rim to the other.
pub struct Straight {
    pub link: usize,
    pub from: i32,
    pub to: i32,
}

pub struct Layout {
    /// Number and place of each junction.
    pub junctions: Vec<(u8, i32)>,
    pub straight: Vec<Straight>,
    /// The label of each link, with one amount a line.
    labels: Vec<Label>,
    /// Labels along the line have one amount a line.
    narrow: bool,
    /// The most lines that such a label has on one side; 0 where no link runs along the line.
    lines: usize,
    pub lanes: Vec<Lane>,
}

impl Layout {
    pub fn of(certificate: &Certificate) -> Layout {
        let links = &certificate.links;
        let uses_goals = !certificate.kind.has_goals();
        let labels: Vec<Label> = links.iter().map(|l| Label::of(l, uses_goals)).collect();
        let wide: Vec<Label> = labels.iter().map(Label::wide).collect();
        let order = junction_order(links);
        let mut along = links_along(links, &order);
        let mut places = junction_places(&along);
        let narrow = !labels_fit(&wide, &along, &places);
        if narrow && !labels_fit(&labels, &along, &places) {
            along = vec![None; order.len()];
            places = junction_places(&along);
        }
        let straight = straight_links(&along, &places);
        let taken: Vec<usize> = straight.iter().map(|one| one.link).collect();
        let shown = if narrow { &labels } else { &wide };
        let lines = taken.iter().map(|&link| shown[link].height());
        Layout {
            lines: lines.max().unwrap_or(0),
            lanes: lanes(links, &wide, &order, &places, &taken),
            junctions: order.into_iter().zip(places).collect(),
            straight,
            labels,
            narrow,
        }
    }

    /// The label of a link along the line.
    pub fn straight_label(&self, straight: &Straight) -> Label {
        let label = &self.labels[straight.link];
        match self.narrow {
            true => label.clone(),
            false => label.wide(),
        }
    }

    /// The label of a lane.
    pub fn lane_label(&self, lane: &Lane) -> Label {
        let label = self.labels[lane.link].wide();
        match lane.is_short() {
            true => label.on_one_side(lane.above),
            false => label,
        }
    }

    /// What the line of junctions needs above it and below it.
    pub fn half(&self) -> i32 {
        match self.lines {
            0 => RADIUS + 2,
            lines => 14 + 12 * lines as i32,
        }
    }

    /// Distance of a lane from the line of junctions.
    pub fn lane_distance(&self, lane: &Lane) -> i32 {
        let short = self.lanes.iter().any(Lane::is_short);
        let pitch = if short { SHORT_LANE } else { LANE };
        self.half() + 28 + lane.row as i32 * pitch
    }

    /// What is needed on one side of the line of junctions.
    pub fn reach(&self, above: bool) -> i32 {
        let lanes = self.lanes.iter().filter(|lane| lane.above == above);
        let farthest = lanes
            .map(|lane| self.lane_distance(lane) + if lane.is_short() { 38 } else { 26 })
            .max();
        farthest.unwrap_or(self.half())
    }
}

/// For each junction the link that comes straight from the one before it, or from outside for the first.
fn links_along(links: &[Link], order: &[u8]) -> Vec<Option<usize>> {
    let mut along = Vec::new();
    let mut before = 0;
    for &junction in order {
        let straight = |link: &Link| link.tail == before && link.head == junction;
        along.push(links.iter().position(straight));
        before = junction;
    }
    along
}

/// Gaps with a link are as wide as the page allows, the others small.
fn junction_places(along: &[Option<usize>]) -> Vec<i32> {
    let page = RIGHT - LEFT - 40;
    let wide = along.iter().flatten().count() as i32;
    let others = along.len() as i32 - wide;
    let most = if wide == 0 { 140 } else { 64 };
    let narrow = most.min(page / others.max(1));
    let wide = (page - others * narrow) / wide.max(1);
    let mut place = LEFT;
    let mut places = Vec::new();
    for link in along {
        place += if link.is_some() {
            wide.min(440)
        } else {
            narrow
        };
        places.push(place);
    }
    places
}

/// Do the labels of all links along the line fit between their junctions?
fn labels_fit(labels: &[Label], along: &[Option<usize>], places: &[i32]) -> bool {
    straight_links(along, places).iter().all(|straight| {
        let width = labels[straight.link].width();
        width <= straight.to - straight.from - 4
    })
}

fn straight_links(along: &[Option<usize>], places: &[i32]) -> Vec<Straight> {
    let mut straight = Vec::new();
    let mut from = LEFT;
    for (link, place) in along.iter().zip(places) {
        if let &Some(link) = link {
            let to = place - RADIUS;
            straight.push(Straight { link, from, to });
        }
        from = place + RADIUS;
    }
    straight
}
