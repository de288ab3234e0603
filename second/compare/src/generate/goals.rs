//! What H3 certificates have more: goals of modes that are to be met in turn.

use crate::numbers::Numbers;
use second::certificate::{is_green, Certificate, Goal, Kind, Link};

/// Gives so many modes a goal and a signal each. Every number has a mode at least; modes of one number mostly remember
/// signals that differ, so that a policy has a choice.
pub fn add_goals(certificate: &mut Certificate, modes: usize, numbers: &mut Numbers) {
    let drawn = 1 + numbers.weighed(&[12, 38, 25, 8, 5, 4, 3, 5]);
    let count = drawn.min(modes);
    let amounts: Vec<Vec<u16>> = (0..count)
        .map(|_| goal_amounts(certificate, numbers))
        .collect();
    let mut order: Vec<usize> = (0..modes).map(|mode| mode % count).collect();
    if numbers.chance(70) {
        shuffle(&mut order, numbers);
    }
    let signals = certificate.signals.len();
    let serving = |amounts: &Vec<u16>| match numbers.chance(75) {
        true => serving_signal(certificate, amounts),
        false => numbers.below(signals),
    };
    let mut next: Vec<usize> = amounts.iter().map(serving).collect();
    certificate.memory.clear();
    certificate.goals.clear();
    for number in order {
        certificate.memory.push(next[number] as u8);
        next[number] = match numbers.chance(85) {
            true => (next[number] + 1) % signals,
            false => numbers.below(signals),
        };
        certificate.goals.push(Goal {
            number: number as u8,
            amounts: amounts[number].clone(),
        });
    }
    change_link_goals(certificate, numbers);
}

/// The signal under which the most links are green whose queues are to be shorter than is safe.
fn serving_signal(certificate: &Certificate, amounts: &[u16]) -> usize {
    let is_asked = |link: usize| amounts[link] < certificate.links[link].safe;
    let served = |signal: &usize| {
        let green = certificate.signals[*signal];
        let links = 0..amounts.len();
        links
            .filter(|&link| is_green(green, link) && is_asked(link))
            .count()
    };
    let signals = 0..certificate.signals.len();
    signals.max_by_key(served).unwrap_or(0)
}

fn shuffle(order: &mut [usize], numbers: &mut Numbers) {
    for last in (1..order.len()).rev() {
        order.swap(last, numbers.below(last + 1));
    }
}

/// One amount a link: on some links an upper edge of the grid or near one, else all that is safe.
fn goal_amounts(certificate: &Certificate, numbers: &mut Numbers) -> Vec<u16> {
    let asked = numbers.pick(&[0, 20, 35, 50, 100]);
    let links = certificate.links.iter().zip(&certificate.cuts);
    links
        .map(|(link, cuts)| match numbers.chance(asked) {
            true => goal_amount(link, cuts, numbers),
            false => link.safe,
        })
        .collect()
}

fn goal_amount(link: &Link, cuts: &[u16], numbers: &mut Numbers) -> u16 {
    let edges = cuts.iter().filter(|&&cut| cut <= link.safe);
    let edges: Vec<u16> = edges.copied().chain([link.safe]).collect();
    match numbers.below(8) {
        0 => numbers.wide(edges[0], link.safe),
        1..=3 => edges[0],
        _ => numbers.pick(&edges),
    }
}

/// The goals of the links, which are not used: often 0 or all that is safe, else as they were.
fn change_link_goals(certificate: &mut Certificate, numbers: &mut Numbers) {
    let style = numbers.below(4);
    for link in &mut certificate.links {
        link.goal = match style {
            0 => 0,
            1 => link.safe,
            2 => numbers.wide(0, link.safe),
            _ => link.goal,
        };
    }
}

/// Turns an H2 certificate into an H3 certificate with a single goal, that of the links, which then have other ones.
pub fn to_h3(certificate: &mut Certificate, numbers: &mut Numbers) {
    certificate.kind = Kind::H3;
    let goal = Goal {
        number: 0,
        amounts: certificate.links.iter().map(|link| link.goal).collect(),
    };
    certificate.goals = vec![goal; certificate.memory.len()];
    change_link_goals(certificate, numbers);
}

/// Turns an H3 certificate into an H2 certificate with the goals of the links as they are.
pub fn without_goals(certificate: &mut Certificate) {
    certificate.kind = Kind::H2;
    certificate.goals.clear();
}

/// The greatest goal number.
pub fn greatest(certificate: &Certificate) -> u8 {
    let numbers = certificate.goals.iter().map(|goal| goal.number);
    numbers.max().unwrap_or(0)
}
