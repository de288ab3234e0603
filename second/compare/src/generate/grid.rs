//! Random grids and limits.

use super::Size;
use crate::numbers::Numbers;
use second::certificate::{Certificate, Link};

/// Adds cuts, then safe and goal by them.
pub fn add_grid(certificate: &mut Certificate, numbers: &mut Numbers, size: Size) {
    let links = certificate.links.len();
    let most = match (size, numbers.below(10)) {
        (Size::Large, _) => numbers.between(400, 4_096),
        (_, 0..=5) => numbers.between(2, 40),
        (_, 6..=8) => numbers.between(40, 120),
        _ if links > 5 => 64,
        _ => numbers.between(120, 400),
    };
    let counts = interval_counts(certificate, numbers, most as usize);
    let even = numbers.chance(40);
    let all_goal = numbers.chance(10);
    for (link, count) in certificate.links.iter_mut().zip(counts) {
        let cuts = if even {
            even_cuts(link.cap, count)
        } else {
            any_cuts(numbers, link.cap, count)
        };
        if !all_goal {
            set_limits(numbers, link, &cuts);
        }
        certificate.cuts.push(cuts);
    }
}

/// How many intervals each link gets; the product is at most `most`.
fn interval_counts(certificate: &Certificate, numbers: &mut Numbers, most: usize) -> Vec<u16> {
    let mut counts = vec![1u16; certificate.links.len()];
    for _ in 0..60 {
        let link = numbers.below(counts.len());
        let count = counts[link];
        let cells: usize = counts.iter().map(|&count| usize::from(count)).product();
        let more = cells / usize::from(count) * usize::from(count + 1);
        if more <= most && count < certificate.links[link].cap.min(15) {
            counts[link] += 1;
        }
    }
    counts
}

fn even_cuts(cap: u16, count: u16) -> Vec<u16> {
    let cut = |number: u16| u32::from(cap) * u32::from(number) / u32::from(count);
    (1..count).map(|number| cut(number) as u16).collect()
}

fn any_cuts(numbers: &mut Numbers, cap: u16, count: u16) -> Vec<u16> {
    let mut cuts = Vec::new();
    while cuts.len() + 1 < usize::from(count) {
        let cut = numbers.wide(1, cap - 1);
        if !cuts.contains(&cut) {
            cuts.push(cut);
        }
    }
    cuts.sort();
    cuts
}

/// Goal and safe: mostly upper edges of intervals.
fn set_limits(numbers: &mut Numbers, link: &mut Link, cuts: &[u16]) {
    let mut upper = cuts.to_vec();
    upper.push(link.cap);
    let first = numbers.below(upper.len());
    link.goal = match numbers.below(4) {
        0 => numbers.wide(upper[first], link.cap),
        1 => link.cap,
        _ => upper[first],
    };
    link.safe = match numbers.below(5) {
        0 => numbers.pick(&upper).max(link.goal),
        1 => numbers.wide(link.goal, link.cap),
        _ => link.cap,
    };
}
