//! What generated H3 certificates are like, by the second checker alone: most are accepted, with few and many goals, and
//! damaged copies are refused in every way.

use compare::generate::bytes::{bytes_of, modes_place};
use compare::generate::{certificate, damaged, Size};
use compare::numbers::Numbers;
use compare::tally::{LOAD_REFUSALS, NUMBERS};
use second::certificate::{Certificate, Kind};
use second::{judge, Report};

/// How many of the accepted certificates are of a sort.
type Sort = fn(&Certificate) -> bool;

/// The numbers that modes have, in the order of the modes.
fn numbers_of(certificate: &Certificate) -> Vec<u8> {
    certificate.goals.iter().map(|goal| goal.number).collect()
}

fn greatest(certificate: &Certificate) -> u8 {
    numbers_of(certificate).into_iter().max().unwrap_or(0)
}

fn has_ranks(certificate: &Certificate) -> bool {
    certificate.entries.iter().any(|entry| entry.rank > 0)
}

/// Is the goal of some mode another one than that of the links?
fn has_other_goals(certificate: &Certificate) -> bool {
    let links = certificate.links.iter().map(|link| link.goal);
    let links: Vec<u16> = links.collect();
    certificate.goals.iter().any(|goal| goal.amounts != links)
}

const SORTS: [(&str, usize, Sort); 12] = [
    ("ranks above 0", 300, has_ranks),
    ("one number", 100, |c| greatest(c) == 0),
    ("two numbers", 250, |c| greatest(c) == 1),
    ("three numbers", 100, |c| greatest(c) == 2),
    ("more numbers", 60, |c| greatest(c) > 2),
    ("eight numbers", 3, |c| greatest(c) == 7),
    ("ranks above 0 and several numbers", 200, |c| {
        has_ranks(c) && greatest(c) > 0
    }),
    ("fewer numbers than modes", 300, |c| {
        greatest(c) > 0 && greatest(c) + 1 < c.modes
    }),
    ("numbers that do not ascend", 200, |c| {
        numbers_of(c).windows(2).any(|pair| pair[0] > pair[1])
    }),
    ("other goals than the links", 500, has_other_goals),
    ("link goals of 0", 100, |c| {
        c.links.iter().all(|link| link.goal == 0)
    }),
    ("start flows below flows", 500, |c| {
        c.links.iter().any(|link| link.limit(false) < link.flow)
    }),
];

#[test]
fn generated_certificates_are_of_every_sort() {
    let mut found = [0; SORTS.len()];
    let mut accepted = 0;
    for part in 0..1_000 {
        let drawn = certificate(&mut Numbers::of(16, part), Size::Small, Kind::H3);
        if judge(&bytes_of(&drawn)).is_accepted() {
            accepted += 1;
            for (found, (_, _, is_of)) in found.iter_mut().zip(SORTS) {
                *found += usize::from(is_of(&drawn));
            }
        }
    }
    println!("{accepted} accepted");
    assert!(accepted > 900, "{accepted}");
    for (found, (name, _, _)) in found.iter().zip(SORTS) {
        println!("{name}: {found}");
    }
    for (found, (name, due, _)) in found.iter().zip(SORTS) {
        assert!(*found >= due, "{name}: {found}");
    }
}

/// Damaged copies are refused at MD records in every way, and at entries that leave the turn.
#[test]
fn damage_reaches_modes_and_turns() {
    let (mut modes, mut all) = ([0; NUMBERS], [0; NUMBERS]);
    for part in 0..600 {
        let mut numbers = Numbers::of(17, part);
        let drawn = certificate(&mut numbers, Size::Small, Kind::H3);
        for _ in 0..3 {
            let bytes = damaged(&drawn, &mut numbers);
            let Report { number, a, .. } = judge(&bytes).report;
            let at = number as usize;
            all[at] += 1;
            modes[at] += u64::from(number < 9 && modes_place(&drawn).contains(&(a as usize)));
        }
    }
    println!("{modes:?} {all:?}");
    assert!([1, 2, 6].iter().all(|&at| modes[at] >= 20), "{modes:?}");
    let share = 100 * modes.iter().sum::<u64>() / all.iter().sum::<u64>();
    assert!(
        (15..=30).contains(&share),
        "{share} of a hundred: {modes:?}"
    );
    assert!(LOAD_REFUSALS.iter().all(|&at| all[at] > 0), "{all:?}");
    assert!(
        [13, 14, 22, 23, 24].iter().all(|&at| all[at] >= 20),
        "{all:?}"
    );
}
