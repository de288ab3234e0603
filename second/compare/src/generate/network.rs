//! Random networks: links, turns and signals. Conditions 10 and 11 hold but for links too short for any pull.

use super::Size;
use crate::numbers::Numbers;
use second::certificate::{Certificate, Kind, Link, Turn};

/// An HD certificate with links, turns and signals; grid, arrivals and entries are still to come.
pub fn network(numbers: &mut Numbers, size: Size) -> Certificate {
    let count = match size {
        Size::Small => 1 + numbers.weighed(&[8, 16, 20, 18, 14, 10, 7, 7]),
        Size::Large => 1 + numbers.weighed(&[10, 40, 40, 10]),
    };
    let mut links = links(numbers, count);
    let mut turns = turns(numbers, &links);
    ease(&mut links, &mut turns);
    add_pull(numbers, &links, &mut turns);
    let signals = signals(numbers, &links);
    Certificate {
        kind: Kind::Hd,
        links,
        turns,
        signals,
        modes: 1,
        memory: Vec::new(),
        goals: Vec::new(),
        cuts: Vec::new(),
        arrivals: Vec::new(),
        entries: Vec::new(),
    }
}

/// Tail and head of each link.
fn ends(numbers: &mut Numbers, count: usize) -> Vec<(u8, u8)> {
    let start = numbers.between(1, 250) as u8;
    if count == 1 {
        return vec![(numbers.pick(&[0, start + 1]), start)];
    }
    let entering = numbers.pick(&[10, 30, 60]);
    let style = numbers.below(8);
    (0..count)
        .map(|link| match style {
            0 => both_ways(start, link < count.div_ceil(2)),
            _ if link == 0 || numbers.chance(entering) => (0, start + numbers.below(3) as u8),
            1 | 2 => any_way(numbers, start),
            _ => onward(numbers, start),
        })
        .collect()
}

/// Between two junctions: the most turns.
fn both_ways(start: u8, there: bool) -> (u8, u8) {
    match there {
        true => (start, start + 1),
        false => (start + 1, start),
    }
}

/// Between any two of four junctions: there may be rings.
fn any_way(numbers: &mut Numbers, start: u8) -> (u8, u8) {
    let tail = numbers.below(4) as u8;
    let head = (tail + numbers.between(1, 3) as u8) % 4;
    (start + tail, start + head)
}

/// To a later one of four junctions: no ring.
fn onward(numbers: &mut Numbers, start: u8) -> (u8, u8) {
    let tail = numbers.between(0, 2) as u8;
    let head = tail + numbers.between(1, 3 - u64::from(tail)) as u8;
    (start + tail, start + head)
}

fn links(numbers: &mut Numbers, count: usize) -> Vec<Link> {
    let (least, most) = numbers.pick(&[(2, 12), (6, 40), (6, 40), (20, 200), (500, 10_000)]);
    let ends = ends(numbers, count);
    let is_fed = |tail: u8| ends.iter().any(|&(_, head)| head == tail);
    let mut links = Vec::new();
    for &(tail, head) in &ends {
        let cap = numbers.wide(least, most);
        let greatest = if is_fed(tail) { cap / 2 } else { cap };
        let flow = numbers.wide((cap / 5).max(1), greatest.max(1));
        links.push(Link {
            tail,
            head,
            cap,
            flow,
            safe: cap,
            goal: cap,
            start: None,
        });
    }
    links
}

fn turns(numbers: &mut Numbers, links: &[Link]) -> Vec<Turn> {
    let taken = numbers.pick(&[50, 100, 100]);
    let mut turns = Vec::new();
    for from in 0..links.len() {
        let joined: Vec<usize> = (0..links.len())
            .filter(|&to| links[to].tail == links[from].head && numbers.chance(taken))
            .collect();
        let most = 100 / joined.len().max(1) as u64;
        for to in joined {
            let share = match numbers.below(3) {
                0 => most,
                1 => numbers.pick(&[10, 20, 25, 50]).min(most),
                _ => numbers.between(1, most),
            } as u8;
            let pull = 0;
            turns.push(Turn {
                from,
                to,
                share,
                pull,
            });
        }
    }
    turns.truncate(32);
    turns
}

/// The least pull with which condition 11 holds; above every pull if there is none.
fn need(links: &[Link], turn: &Turn) -> u64 {
    let space = u64::from(links[turn.to].cap - links[turn.to].flow);
    let flow = 100 * u64::from(links[turn.from].flow);
    match space {
        0 => 20_000,
        space => flow.div_ceil(space),
    }
}

fn weight(links: &[Link], turn: &Turn) -> u64 {
    u64::from(turn.share) * need(links, turn)
}

/// Lowers flows and shares, and drops turns, until least pulls pass condition 10 with all links green.
fn ease(links: &mut [Link], turns: &mut Vec<Turn>) {
    loop {
        turns.retain(|turn| need(links, turn) <= 10_000);
        let sum = |to: usize| -> u64 {
            let into = turns.iter().filter(|turn| turn.to == to);
            into.map(|turn| weight(links, turn)).sum()
        };
        let Some(to) = (0..links.len()).find(|&to| sum(to) > 10_000) else {
            return;
        };
        let into = (0..turns.len()).filter(|&turn| turns[turn].to == to);
        let Some(heaviest) = into.max_by_key(|&turn| weight(links, &turns[turn])) else {
            return;
        };
        let from = turns[heaviest].from;
        if links[from].flow > 1 {
            links[from].flow /= 2;
        } else if turns[heaviest].share > 1 {
            turns[heaviest].share /= 2;
        } else {
            turns.remove(heaviest);
        }
    }
}

/// Gives each turn its least pull, or more as far as condition 10 allows.
fn add_pull(numbers: &mut Numbers, links: &[Link], turns: &mut [Turn]) {
    let generous = numbers.chance(50);
    for turn in turns.iter_mut() {
        turn.pull = need(links, turn) as u16;
    }
    for place in 0..turns.len() {
        let turn = turns[place].clone();
        let into = turns.iter().filter(|other| other.to == turn.to);
        let sum: u64 = into
            .map(|other| u64::from(other.share) * u64::from(other.pull))
            .sum();
        let most = (10_000 - sum) / u64::from(turn.share);
        let most = most.min(10_000 - u64::from(turn.pull));
        if generous {
            let more = match numbers.below(3) {
                0 => most,
                _ => numbers.between(0, most),
            };
            turns[place].pull += more as u16;
        }
    }
}

fn signals(numbers: &mut Numbers, links: &[Link]) -> Vec<u8> {
    let all = (0xFF_u16 >> (8 - links.len())) as u8;
    let count = match numbers.below(20) {
        0 => numbers.between(6, 16),
        _ => numbers.between(1, 5),
    };
    let mut signals = Vec::new();
    for _ in 0..count {
        let of_head = |head: u8| {
            let greens = (0..links.len()).filter(|&link| links[link].head == head);
            greens.fold(0, |green, link| green | 1 << link)
        };
        signals.push(match numbers.below(4) {
            0 => all,
            1 => of_head(numbers.pick(links).head),
            _ => numbers.any() as u8 & all,
        });
    }
    signals
}
