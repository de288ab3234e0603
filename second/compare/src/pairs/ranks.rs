//! Other ranks for an accepted certificate that leave it accepted. A rank of 0 stays and none becomes 0, since 0 stands
//! exactly in the goal.

use crate::fast::judge;
use crate::generate::bytes::bytes_of;
use crate::numbers::Numbers;
use second::Certificate;
use std::collections::BTreeMap;

/// Entries that are tried for a change of one rank.
const TRIES: usize = 12;

/// The certificate with other ranks, now and then with the same.
pub fn reranked(certificate: &Certificate, numbers: &mut Numbers) -> Certificate {
    let mut copy = certificate.clone();
    match numbers.weighed(&[4, 46, 20, 12, 12, 6]) {
        0 => (),
        1 => spread(&mut copy, numbers),
        2 => {
            let first = numbers.pick(&[1, 1, 250, 30_000]);
            let gap = numbers.pick(&[1, 3, 200, 3_000]);
            apart(&mut copy, first, gap, numbers);
        }
        3 => apart(&mut copy, u16::MAX, 1, numbers),
        4 => change_one(&mut copy, numbers),
        _ => {
            spread(&mut copy, numbers);
            (0..5).for_each(|_| change_one(&mut copy, numbers));
        }
    }
    copy
}

/// Twice the certificate with other ranks that are about as high: mostly lower here in some entries and there in others.
pub fn crossed(certificate: &Certificate, numbers: &mut Numbers) -> [Certificate; 2] {
    let mut copies = [certificate.clone(), certificate.clone()];
    let most = most_times(certificate);
    let times = numbers.pick(&[2, 3, 10, 300]).min(most);
    for copy in &mut copies {
        match times < 2 {
            true => change_one(copy, numbers),
            false => spread_by(copy, times, numbers),
        }
    }
    copies
}

/// So many times the greatest rank, and any less than once more, is still a rank.
fn most_times(certificate: &Certificate) -> u64 {
    let greatest = certificate.entries.iter().map(|entry| entry.rank).max();
    (1 << 16) / (u64::from(greatest.unwrap_or(0)) + 1)
}

/// Each rank above 0 times some number, plus any number below that one.
fn spread(copy: &mut Certificate, numbers: &mut Numbers) {
    let most = most_times(copy);
    if most < 2 {
        return apart(copy, 1, 1, numbers);
    }
    let any = numbers.between(2, most);
    let times = numbers.pick(&[2, 3, 10, 256, 300, most, any]).min(most);
    spread_by(copy, times, numbers);
}

/// Each rank above 0 times this number, plus any number below it. The greatest has room for that.
fn spread_by(copy: &mut Certificate, times: u64, numbers: &mut Numbers) {
    for entry in copy.entries.iter_mut().filter(|entry| entry.rank > 0) {
        let rank = times * u64::from(entry.rank) + numbers.between(0, times - 1);
        entry.rank = rank as u16;
    }
}

/// The ranks that differ get ranges of up to `gap` numbers, one above the other; each entry gets any number of its own
/// range. The lowest starts at `first`, or as far below it as the others need.
fn apart(copy: &mut Certificate, first: u16, gap: u16, numbers: &mut Numbers) {
    let ranks = copy.entries.iter().map(|entry| entry.rank);
    let above_0 = ranks.filter(|&rank| rank > 0);
    let mut ranges: BTreeMap<u16, (u16, u16)> = above_0.map(|rank| (rank, (0, 0))).collect();
    let mut left = ranges.len() as u16;
    let mut low = first.min(u16::MAX - left.saturating_sub(1));
    for range in ranges.values_mut() {
        left -= 1;
        let room = u16::MAX - left - low;
        let high = low + numbers.wide(0, room.min(gap - 1));
        *range = (low, high);
        low = high.saturating_add(1);
    }
    for entry in &mut copy.entries {
        if let Some(&(low, high)) = ranges.get(&entry.rank) {
            entry.rank = numbers.wide(low, high);
        }
    }
}

/// The rank of one entry alone, if some try stays accepted.
fn change_one(copy: &mut Certificate, numbers: &mut Numbers) {
    let places = 0..copy.entries.len();
    let ranked: Vec<usize> = places.filter(|&at| copy.entries[at].rank > 0).collect();
    if ranked.is_empty() {
        return;
    }
    for _ in 0..TRIES {
        let at = numbers.pick(&ranked);
        let old = copy.entries[at].rank;
        let any = numbers.wide(1, u16::MAX);
        let near = [old.saturating_add(1), old.saturating_sub(1).max(1)];
        let new = numbers.pick(&[near[0], near[1], u16::MAX, any]);
        copy.entries[at].rank = new;
        if new != old && judge(&bytes_of(copy)).is_accepted() {
            return;
        }
        copy.entries[at].rank = old;
    }
}
