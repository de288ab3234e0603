//! Lanes: links that do not run along the line of junctions.

use super::layout::Label;
use super::style::{LEFT, RIGHT};
use crate::certificate::Link;

/// Most lanes on one side while the other has room.
const MOST_ON_A_SIDE: usize = 4;
/// Between lanes that meet the same junction.
const PORT: i32 = 9;

/// A link that leaves its junction upwards or downwards, runs level, and comes down or up to the next.
#[derive(Clone, Debug, PartialEq, Eq)]
pub struct Lane {
    pub link: usize,
    pub above: bool,
    /// Counted from the line of junctions.
    pub row: usize,
    /// Place where it leaves its junction; none if it comes from outside.
    pub tail: Option<i32>,
    /// Place where it reaches its junction.
    pub head: i32,
    /// Middle of its label.
    pub label: i32,
    half_label: i32,
}

impl Lane {
    /// Its level part.
    fn level(&self) -> (i32, i32) {
        let tail = self.tail.unwrap_or(LEFT);
        (tail.min(self.head), tail.max(self.head))
    }

    /// Is it too short to have part of its label between its ends?
    pub fn is_short(&self) -> bool {
        let (left, right) = self.level();
        right - left < 2 * self.half_label + 8
    }

    /// All that it takes of its row: the level part and the label.
    fn extent(&self) -> (i32, i32) {
        let (left, right) = self.level();
        (
            left.min(self.label - self.half_label),
            right.max(self.label + self.half_label),
        )
    }

    /// The label goes to this place, or as near to it as the page allows.
    fn put_label(&mut self, place: i32) {
        self.label = place.clamp(LEFT + self.half_label, RIGHT - self.half_label);
    }

    fn put_label_in_the_middle(&mut self) {
        let (left, right) = self.level();
        self.put_label((left + right) / 2);
    }
}

/// The lanes of all links but those taken; their labels are wide.
pub fn lanes(
    links: &[Link],
    labels: &[Label],
    order: &[u8],
    places: &[i32],
    taken: &[usize],
) -> Vec<Lane> {
    let place_of = |junction: u8| order.iter().position(|&j| j == junction).map(|i| places[i]);
    let mut lanes: Vec<Lane> = Vec::new();
    for (number, link) in links.iter().enumerate() {
        if taken.contains(&number) {
            continue;
        }
        let mut lane = Lane {
            link: number,
            above: true,
            row: 0,
            tail: place_of(link.tail),
            head: place_of(link.head).unwrap_or(LEFT),
            label: 0,
            half_label: labels[number].width() / 2 + 4,
        };
        lane.above = goes_above(&lane, &lanes);
        lane.put_label_in_the_middle();
        lanes.push(lane);
    }
    put_in_rows(&mut lanes);
    spread_ports(&mut lanes, places);
    place_labels(&mut lanes);
    lanes
}

/// Links to the right go above and those to the left below, until that side is full.
fn goes_above(lane: &Lane, others: &[Lane]) -> bool {
    let to_the_right = lane.tail.is_none_or(|tail| tail < lane.head);
    let on_its_side = others.iter().filter(|other| other.above == to_the_right);
    if on_its_side.count() < MOST_ON_A_SIDE {
        to_the_right
    } else {
        !to_the_right
    }
}

/// Short lanes next to the junctions; each in the first row where it meets no other.
fn put_in_rows(lanes: &mut [Lane]) {
    let mut by_length: Vec<usize> = (0..lanes.len()).collect();
    by_length.sort_by_key(|&i| {
        let (left, right) = lanes[i].level();
        right - left
    });
    let mut placed: Vec<usize> = Vec::new();
    for i in by_length {
        let (left, right) = lanes[i].extent();
        let meets = |j: &usize| {
            let (other_left, other_right) = lanes[*j].extent();
            lanes[*j].above == lanes[i].above && left < other_right && other_left < right
        };
        let rows: Vec<usize> = placed
            .iter()
            .filter(|j| meets(j))
            .map(|&j| lanes[j].row)
            .collect();
        lanes[i].row = rows.iter().max().map_or(0, |row| row + 1);
        placed.push(i);
    }
}

/// Lanes that meet the same side of a junction stand apart, and those of low rows outside.
fn spread_ports(lanes: &mut [Lane], places: &[i32]) {
    for &place in places {
        for above in [true, false] {
            let mut ports: Vec<(bool, i32, usize)> = Vec::new();
            for (i, lane) in lanes.iter().enumerate() {
                if lane.above != above || (lane.tail != Some(place) && lane.head != place) {
                    continue;
                }
                let (left, _) = lane.level();
                let goes_right = left == place;
                let row = lane.row as i32;
                ports.push((goes_right, if goes_right { -row } else { row }, i));
            }
            ports.sort();
            let last = ports.len() as i32 - 1;
            for (at, (_, _, i)) in ports.iter().enumerate() {
                let moved = place + (2 * at as i32 - last) * PORT / 2;
                let lane = &mut lanes[*i];
                if lane.head == place {
                    lane.head = moved;
                } else {
                    lane.tail = Some(moved);
                }
            }
        }
    }
}

/// Labels go to the middle of their lanes, or aside where another lane would cross them.
fn place_labels(lanes: &mut [Lane]) {
    for i in 0..lanes.len() {
        lanes[i].put_label_in_the_middle();
        let (left, right) = lanes[i].level();
        let (middle, half) = (lanes[i].label, lanes[i].half_label);
        let room = ((right - left) / 2 - half).max(0);
        let crossed = |place: i32| {
            let others = lanes
                .iter()
                .filter(|other| other.above == lanes[i].above && other.row > lanes[i].row);
            let mut uprights = others.flat_map(|other| other.tail.into_iter().chain([other.head]));
            uprights.any(|upright| (upright - place).abs() < half)
        };
        let asides = (0..=room / 6).flat_map(|step| [6 * step, -6 * step]);
        let free = asides
            .map(|aside| middle + aside)
            .find(|&place| !crossed(place));
        lanes[i].put_label(free.unwrap_or(middle));
    }
}
