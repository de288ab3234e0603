//! The entry and the successor that a refusal names, and the arrow between them.

use super::panels::Panels;
use super::slice::Slice;
use super::svg::{Area, Heading, Svg};
use crate::certificate::Certificate;
use crate::report::Report;

/// A cell in a mode.
#[derive(Clone, Copy, Debug, PartialEq, Eq)]
pub struct Place {
    pub cell: usize,
    pub mode: usize,
}

/// The place of the entry that a refusal of 12 to 15 names.
pub fn refused_entry(certificate: &Certificate, report: Report) -> Option<Place> {
    let entry = (12..=15)
        .contains(&report.number)
        .then(|| &certificate.entries[report.a as usize])?;
    Some(Place {
        cell: entry.cell.into(),
        mode: entry.mode.into(),
    })
}

/// The place of the successor that a refusal of 14 or 15 names.
pub fn refused_successor(certificate: &Certificate, report: Report) -> Option<Place> {
    let entry = (14..=15)
        .contains(&report.number)
        .then(|| &certificate.entries[report.a as usize])?;
    Some(Place {
        cell: report.b as usize,
        mode: entry.next.into(),
    })
}

/// Outlines both where they are drawn, with an arrow where both are.
pub fn step(
    svg: &mut Svg,
    certificate: &Certificate,
    slice: &Slice,
    panels: &Panels,
    report: Report,
) {
    let drawn = |place: Place| {
        let at = slice.place(place.cell)?;
        Some((place.mode, panels.cell(place.mode, at)))
    };
    let entry = refused_entry(certificate, report).and_then(drawn);
    let successor = refused_successor(certificate, report).and_then(drawn);
    if let Some((_, area)) = entry {
        svg.rect("entry", area);
    }
    if let Some((_, area)) = successor {
        svg.rect(
            "successor",
            area.inset(if entry == successor { -4 } else { 1 }),
        );
    }
    if let (Some(from), Some(to)) = (entry, successor) {
        let (points, heading) = way(panels, from, to);
        arrow(svg, &points, heading);
    }
}

/// An arrow with a dot at its start.
pub fn arrow(svg: &mut Svg, points: &[(i32, i32)], heading: Heading) {
    svg.polyline("halo", points);
    svg.polyline("step", points);
    svg.circle("tip-alarm", points[0], 4);
    svg.tip("tip-alarm", points[points.len() - 1], heading);
}

type Drawn = (usize, Area);

/// Points of the arrow, and where it points at its end. It keeps to the right and lower borders of cells,
/// where no text stands.
fn way(panels: &Panels, from: Drawn, to: Drawn) -> (Vec<(i32, i32)>, Heading) {
    let ((from_mode, entry), (to_mode, successor)) = (from, to);
    if from_mode != to_mode {
        return between_modes(panels, from, to);
    }
    let level = entry.bottom() - 6;
    let upright = successor.right() - 6;
    if entry == successor {
        let points = vec![
            (entry.x + 9, level),
            (upright, level),
            (upright, entry.y + 8),
        ];
        return (points, Heading::Up);
    }
    if entry.y == successor.y {
        return if successor.x < entry.x {
            let points = vec![(entry.x + 14, level), (successor.right() - 14, level)];
            (points, Heading::Left)
        } else {
            let points = vec![(entry.right() - 14, level), (successor.x + 14, level)];
            (points, Heading::Right)
        };
    }
    let start = if entry.x == successor.x {
        (upright, entry.middle().1)
    } else {
        (entry.middle().0, level)
    };
    let (end, heading) = if successor.y < entry.y {
        (successor.bottom() - 14, Heading::Up)
    } else {
        (successor.y + 14, Heading::Down)
    };
    let bend = (upright, if entry.x == successor.x { end } else { level });
    (vec![start, bend, (upright, end)], heading)
}

/// From one mode's grid to another's: behind the one, below it if need be, and in again from behind the other.
fn between_modes(panels: &Panels, from: Drawn, to: Drawn) -> (Vec<(i32, i32)>, Heading) {
    let ((from_mode, entry), (to_mode, successor)) = (from, to);
    let (out, back) = (panels.gutter(from_mode), panels.gutter(to_mode));
    let (level, end) = (entry.bottom() - 6, successor.bottom() - 6);
    let mut points = vec![(entry.right() - 14, level), (out, level)];
    if out != back {
        let upwards = to_mode < from_mode && !panels.same_row(from_mode, to_mode);
        let alley = if upwards {
            panels.alley(from_mode - panels.beside())
        } else {
            panels.alley(from_mode)
        };
        points.extend([(out, alley), (back, alley)]);
    }
    points.extend([(back, end), (successor.right() - 12, end)]);
    (points, Heading::Left)
}
