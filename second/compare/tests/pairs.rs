//! A fixed part of the comparison of pairs, and what drawn pairs are like.

use compare::differential::Kinds;
use compare::generate::bytes::bytes_of;
use compare::numbers::Numbers;
use compare::pairs::draw::Changed;
use compare::pairs::{compare, pairs, shown, Differs, Found, Pair, Plan, Tally};
use second::certificate::{Certificate, Kind};
use second::judge;
use second::text::decode;

/// The tally of a plan without differences.
fn done(plan: &Plan) -> Tally {
    let tally = pairs(plan).unwrap_or_else(|found| panic!("{}", shown(plan.seed, &found)));
    println!("{tally}");
    assert_eq!(tally.pairs(), plan.pairs);
    tally
}

/// At least so many of a hundred.
fn share(tally: &Tally, part: u64, of: u64, least: u64) {
    assert!(part * 100 >= of * least, "{part} of {of}\n{tally}");
}

#[test]
fn pairs_are_answered_alike() {
    let tally = done(&Plan {
        seed: 1,
        pairs: 450,
        calls: 8,
        kinds: Kinds::All,
    });
    let all = tally.pairs();
    for kind in tally.kinds {
        share(&tally, kind, all, 25);
    }
    share(&tally, tally.differ, all, 80);
    share(&tally, tally.high, all, 40);
    share(&tally, tally.above, all, 50);
    share(&tally, tally.near, all, 10);
    share(&tally, tally.single, all, 3);
    assert!(tally.differ < all && tally.entries > 10 * all, "{tally}");
    assert!(tally.silent > 5, "{tally}");
    for number in [0, 16, 19] {
        assert!(tally.queries.of(number) > 60, "few {number}\n{tally}");
    }
    for number in [0, 16, 19, 20, 21] {
        assert!(tally.polls.of(number) > 60, "few {number}\n{tally}");
    }
    for calls in [&tally.queries, &tally.polls] {
        let known = [0, 16, 19, 20, 21].map(|number| calls.of(number));
        assert_eq!(known.iter().sum::<u64>(), calls.all(), "{tally}");
        share(&tally, calls.of(0), calls.all(), 40);
    }
    let answered = tally.queries.of(0) + tally.polls.of(0);
    share(&tally, tally.moved, answered, 25);
}

#[test]
fn one_kind_alone() {
    for (place, kind) in Kind::ALL.into_iter().enumerate() {
        let tally = done(&Plan {
            seed: 2,
            pairs: 60,
            calls: 4,
            kinds: Kinds::Only(kind),
        });
        assert_eq!(tally.kinds[place], 60);
        share(&tally, tally.differ, 60, 70);
    }
    let both = done(&Plan {
        seed: 3,
        pairs: 40,
        calls: 0,
        kinds: Kinds::Both,
    });
    assert_eq!((both.kinds[2], both.silent), (0, 40));
    assert_eq!(both.queries.all() + both.polls.all(), 0);
}

/// Both certificates are accepted by the second checker, and the entries say what the bytes do.
#[test]
fn what_pairs_are_like() {
    let (mut alone, mut crossed) = (0, 0);
    for part in 0..300 {
        let mut numbers = Numbers::of(4, part);
        let pair = Pair::draw(Kind::ALL[part as usize % 3], &mut numbers);
        let [one, other] = pair.bytes.each_ref().map(|bytes| {
            assert!(judge(bytes).is_accepted());
            second::reading::read(bytes).expect("an accepted certificate")
        });
        assert_eq!(one, pair.certificate);
        let ranks = one.entries.iter().zip(&other.entries);
        let changed: Vec<_> = ranks.filter(|(one, other)| one != other).collect();
        assert_eq!(changed.len(), pair.changed.entries);
        for (one, other) in &changed {
            assert!(one.rank > 0 && other.rank > 0);
        }
        alone += usize::from(changed.len() == 1);
        crossed += usize::from(is_crossed(&one, &other));
        assert_eq!(without_ranks(one), without_ranks(other));
    }
    assert!(alone > 5 && crossed > 5, "{alone} {crossed}");
}

/// Has an entry a lower rank than another one here, and a higher one there?
fn is_crossed(one: &Certificate, other: &Certificate) -> bool {
    let pairs = one.entries.iter().zip(&other.entries);
    let mut ranks: Vec<(u16, u16)> = pairs.map(|(one, other)| (one.rank, other.rank)).collect();
    ranks.sort();
    let mut above = 0;
    let mut highest = 0;
    ranks.chunk_by(|one, other| one.0 == other.0).any(|equal| {
        above = highest;
        highest = equal.iter().fold(highest, |most, rank| most.max(rank.1));
        equal.iter().any(|rank| rank.1 < above)
    })
}

fn without_ranks(mut certificate: Certificate) -> Certificate {
    for entry in &mut certificate.entries {
        entry.rank = 0;
    }
    certificate
}

/// Every byte counts, and only those of ranks may differ.
#[test]
fn bytes_that_are_no_ranks() {
    for part in 0..30 {
        let mut numbers = Numbers::of(5, part);
        let pair = Pair::draw(Kind::ALL[part as usize % 3], &mut numbers);
        let bytes = &pair.bytes[0];
        let entries = pair.certificate.entries.len();
        let first = bytes.len() - 2 - 9 * entries;
        for at in 0..bytes.len() {
            let mut other = bytes.clone();
            other[at] ^= 1 << numbers.below(8);
            let place = at.checked_sub(first).filter(|_| at < bytes.len() - 2);
            let due = match place.map(|place| place % 9) {
                Some(7) => Some((1, 1)),
                Some(8) => Some((1, 0)),
                _ => None,
            };
            let changed = Changed::of(bytes, &other);
            assert_eq!(changed.map(|changed| (changed.entries, changed.high)), due);
        }
        assert_eq!(Changed::of(bytes, &bytes[..bytes.len() - 1]), None);
        assert_eq!(Changed::of(bytes, bytes), Some(Changed::default()));
    }
}

/// The first certificate with one signal more of the same green byte, which entries have in place of signal 0.
fn with_other_signal(certificate: &Certificate) -> Certificate {
    let mut other = certificate.clone();
    let new = other.signals.len() as u8;
    other.signals.push(other.signals[0]);
    let entries = other.entries.iter_mut();
    for entry in entries.filter(|entry| entry.signal == 0) {
        entry.signal = new;
    }
    other
}

/// A difference is told with its place, both answers and both certificates.
fn is_shown(pair: Pair, call: usize, differs: Differs) {
    let texts = pair
        .bytes
        .each_ref()
        .map(|bytes| decode(bytes).expect("text"));
    let found = Found {
        pair: 3,
        call,
        differs,
        bytes: pair.bytes,
    };
    let text = shown(6, &found);
    let opening = format!("difference at call {call} of pair 3 of seed 6\n");
    assert!(text.starts_with(&opening), "{text}");
    let certificates = format!(
        "the first certificate:\n{}the other certificate:\n{}",
        texts[0], texts[1]
    );
    assert!(text.ends_with(&certificates), "{text}");
    for line in ["\n  first certificate: ", "\n  other certificate: "] {
        assert!(text.contains(line), "{text}");
    }
}

/// The comparison finds certificates that differ in more than ranks.
#[test]
fn other_signals_are_found() {
    let (mut tried, mut found) = (0, 0);
    for part in 0..120 {
        let mut numbers = Numbers::of(6, part);
        let pair = Pair::draw(Kind::Hd, &mut numbers);
        let other = bytes_of(&with_other_signal(&pair.certificate));
        if !judge(&other).is_accepted() {
            continue;
        }
        let [one, _] = pair.bytes;
        assert_eq!(Changed::of(&one, &other), None);
        let bytes = [one, other];
        let pair = Pair { bytes, ..pair };
        tried += 1;
        if let Err((call, differs)) = compare(&pair, 8, &mut numbers, &mut Tally::default()) {
            assert!(call > 0, "{differs:?}");
            found += 1;
            is_shown(pair, call, *differs);
        }
    }
    println!("{found} of {tried}");
    assert!(tried > 60 && found * 3 > tried, "{found} of {tried}");
}
